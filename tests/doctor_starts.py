"""Rows of tests/doctor on how a start would end: `holdem_table node MATCH I --look`, and what `tools/doctor` makes of it."""
import os
import re
import shutil
import socket
import subprocess

import measuring
from doctor_machine import PROGRAM, ask, changed, machine, rows, running, test, wants_look
from measuring import want

CAN_BE_STARTED = "match m, node 1: can be started (its ports were not tried)"


def said(at, *words):
    """The status, and the last two lines of standard error, of which the first tells where the fault was found."""
    done = measuring.run([PROGRAM, "node", "match.toml", "1", *words], cwd=at, stdout=subprocess.PIPE, stderr=subprocess.PIPE, text=True)
    want(done.stdout == "", f"{words}: {done.stdout}")
    return done.returncode, done.stderr.splitlines()[-2:]


def files(at):
    """All that is in a folder: what each file has, and when it and each folder was changed."""
    return {it: (it.stat().st_mtime_ns, it.read_bytes() if it.is_file() else None) for it in [at, *at.rglob("*")]}


def written(path, text):
    return lambda at: (at / path).write_text(text)


def replaced(old, new, name="match.toml"):
    return lambda at: changed(at, old, new, name)


def key_replaced(key, value):
    """The match file with another value of a key above its tables."""

    def change(at):
        text = re.sub(rf"(?ms)^{key} = (\[.*?\]|[^\n]*)\n", "", (at / "match.toml").read_text())
        (at / "match.toml").write_text(f"{key} = {value}\n{text}")

    return change


def made_folder(path):
    return lambda at: (at / path).mkdir()


def kept_log(at):
    """A kept log of this node's store that can't be read, being a folder."""
    life = re.search(r"life .*\n", (at / "stores/node1.kept").read_text())[0]
    (at / "logs/node1.logs.kept").write_text(f"{life}first 1\n")
    (at / "logs/node1.log.1").mkdir()


# What is changed, by which a start is refused, and how it ends. Nothing of it is what `tools/doctor` finds by itself.
UNSEEN = [
    (key_replaced("patience", '"soon"'), "101 BadEntry patience"), (key_replaced("away", '"sometimes"'), "101 BadEntry away"), (key_replaced("start", "-1"), "101 BadEntry start"),
    (key_replaced("hands", "10001"), "101 BadEntry hands"), (key_replaced("tokens", '["00", "11"]'), "101 BadEntry tokens"), (replaced("names = [", "names = ['carol', "), "101 BadEntry names"),
    (made_folder("logs/node1.log"), "106 LogFailed"), (kept_log, "106 LogFailed"),
]  # fmt: skip
# What it finds too.
SEEN = [
    (written("n2.game", "GAMEDEF\nEND GAMEDEF\n"), "102 Game"), (replaced('game = "n2.game"', 'game = "n3.game"'), "104 Unreadable"), (lambda at: (at / "key").chmod(0o640), "101 BadEntry key"),
    (replaced("hands 20", "hands 21", "stores/match.kept"), "109 OtherMatch hands"), (written("stores/node1.kept", "life\n"), "109 OtherMatch match.kept"),
    (written("stores/node1.peer2.kept", ""), "109 OtherMatch match.kept"), (written("logs/node1.logs.kept", ""), "109 OtherMatch match.kept"),
    (lambda at: (at / "stores/node1.kept").unlink(), "104 Unreadable"), (lambda at: (at / "stores/node1.journal").unlink(), "104 Unreadable"),
    (written("stores/node1.journal", ""), "91 Store 60 NoStore"), (written("stores/node1.journal", "HDJ2\1\5\0\0\0"), "91 Store 61 BadHeader"),
    (written("stores/node1.journal", "HDJ2\1\3\0\0\1\0\1\7\0"), "91 Store 62 BadRecord"), (lambda at: (at / "logs").rmdir(), "106 LogFailed"),
]  # fmt: skip


@test
def a_look_ends_as_the_start(room):
    """With the same status, last line and note before it, of whatever is found first; and nothing is made or written by it."""
    cases = [*UNSEEN, *SEEN]
    cases += [(lambda at, one=one, other=other: (other(at), one(at)), None) for (one, _), (other, _) in zip(cases, cases[1:]) if other is not cases[-1][0]]
    at, _ = machine(room)
    whole = room / "whole"
    shutil.copytree(at, whole)
    for number, (change, end) in enumerate(cases):
        shutil.rmtree(at)
        shutil.copytree(whole, at)
        change(at)
        before = files(at)
        looked = said(at, "--look")
        want(files(at) == before, f"{number}, {end}: a look changed something")
        want(looked == said(at), f"{number}, {end}: a look says {looked}, a start {said(at)}")
        want(looked[0] != 0 and (end is None or looked[1][-1].startswith(end)), f"{number}: {looked}, not {end}")


@test
def a_look_where_nothing_is_wrong(room):
    """It says so, whoever has the ports, and leaves all as it is; so it is behind a start, whose files it reads."""
    at, port = machine(room)
    before = files(at)
    with socket.create_server(("127.0.0.1", port + 100)):
        want(said(at, "--look") == (0, said(at, "--look")[1]) and said(at, "--look")[1][-1] == CAN_BE_STARTED, f"{said(at, '--look')}")
    want(files(at) == before, "a look changed something")
    for _ in range(2):
        with running(at, 1):
            pass
        before = files(at)
        want(said(at, "--look")[0] == 0 and said(at, "--look")[1][-1] == CAN_BE_STARTED, f"{said(at, '--look')}")
        want(files(at) == before, "a look changed something behind a start")


@test
def a_look_while_the_node_runs(room):
    """It says that, reads no record, and the node runs on; doctor doesn't ask, and where it can't see the process 108 is ok."""
    at, _ = machine(room)
    with running(at, 1) as node:
        want(said(at, "--look") == (2, ["stores/node1.journal: in use", "108 StoreInUse"]), f"{said(at, '--look')}")
        want(rows(ask(at))["start"] == [("ok", "not asked, since a process runs as this node")], f"{rows(ask(at))['start']}")
        want(node.poll() is None, "the node ended")


@test
def doctor_knows_what_the_start_knows(room):
    for number, (change, end) in enumerate(UNSEEN):
        wants_look(room / str(number), "start", f"it would end with {end}", lambda at, port, change=change: change(at))


@test
def doctor_says_what_the_start_would(room):
    at, _ = machine(room)
    want(rows(ask(at))["start"] == [("ok", CAN_BE_STARTED)], f"{rows(ask(at))['start']}")
    (at / "logs/node1.log").mkdir()
    done = ask(at, 1)
    want("AT-NIGHT: A log lost" in done.stdout and "after 'logs/node1.log: " in rows(done)["start"][0][1], done.stdout)
    # An earlier program has no such option, and says so; one that can't be asked is told.
    old = room / "old"
    for text, verdict, told in (("#!/bin/sh\necho \"error: unexpected argument '--look' found\" >&2\nexit 2\n", "ok", "is of an earlier version"), ("no program\n", "look", "can't be asked")):
        old.write_text(text)
        old.chmod(0o755)
        found = rows(ask(at, env={**os.environ, "HOLDEM_TABLE": str(old)}))["start"]
        want(len(found) == 1 and found[0][0] == verdict and told in found[0][1], f"{found}, not {told}")
    found = rows(ask(at, env={**os.environ, "HOLDEM_TABLE": str(room / "nowhere")}))["start"]
    want(found[0][0] == "ok" and found[0][1].startswith("not asked: "), f"{found}")


@test
def a_start_by_the_wrong_number(room):
    """The match file of machine 1 has the seed of node 1 alone: the note asks before anything is made, and doctor asks too."""
    at, _ = machine(room)
    asked = "seed 0 of node 2: is this the machine of node 2?"
    done = measuring.run([PROGRAM, "node", "match.toml", "2", "--look"], cwd=at, stdout=subprocess.PIPE, stderr=subprocess.PIPE, text=True)
    want(done.stderr.splitlines()[0] == asked and done.stderr.splitlines()[-1] == "104 Unreadable", done.stderr)
    want(rows(ask(at, 1, ("match.toml", "2")))["seed"][0][1].startswith(asked), "doctor says otherwise")
