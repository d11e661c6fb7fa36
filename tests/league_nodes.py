"""Tests of matches that nodes keep, here and at other hosts, of which some are lost."""
import contextlib
import json
import os
import shutil
import signal
import stat
import subprocess
import sys
import tempfile
import threading
import time
from collections import Counter
from pathlib import Path
from typing import NamedTuple

sys.dont_write_bytecode = True

from dealer_runs import are_ended, fields_of
from league_runs import OPTIONS, WAIT, Bots, League, awaited, command, descendants, test
from measuring import NotMeasured, communicate
from processes_ways import Hosts, NoHosts
from serving import FAST, TOP, want

# How often it is looked whether a bot waits, and how far behind its going on a node is killed: so long or up to four times as long. In
# seconds.
LOOK, BEHIND = 0.01, 0.01
# What stands for ssh: it runs the command in the network of that address, and answers as ssh does where the host is lost.
STAND_IN = """#!/bin/sh
while [ "$1" != -- ]; do shift; done
host=${2##*@}
echo "$@" >> %(folder)s/calls
[ -e %(folder)s/lost.$host ] && exit 255
ip netns exec %(prefix)s.$((${host##*.} - 1)) sh -c "$3"
status=$?
[ -e %(folder)s/lost.$host ] && exit 255
exit $status
"""


def words_of(process):
    """A process's command line, by words; none where it has ended."""
    try:
        return Path(f"/proc/{process}/cmdline").read_bytes().decode(errors="replace").split("\0")
    except OSError:
        return []


class Killer(threading.Thread):
    """Kills a node of a match whenever a bot of it waits for that, until the run ends: so no match ends before, however fast the machine
    is. In each second wait of a match the bot goes on some milliseconds before the kill."""

    def __init__(self, run, folder):
        super().__init__(daemon=True)
        # How many nodes of each match were killed, by its name.
        self.run_of, self.folder, self.killed = run, folder, Counter()
        folder.mkdir()
        self.start()

    def run(self):
        while self.run_of.poll() is None:
            time.sleep(LOOK)
            for bot in self.folder.iterdir():
                nodes = nodes_beside(int(bot.name))
                if nodes:
                    self.kill_one(bot, nodes)

    def kill_one(self, bot, nodes):
        """Kills a node of a match, another one each time, and lets a bot of it go on."""
        match = nodes[0].match
        turn = self.killed[match]
        is_behind = turn % 2 == 1
        if is_behind:
            bot.unlink()
            time.sleep(turn % 5 * BEHIND)
        chosen = min(nodes, key=lambda node: (node.number - turn) % 3)
        if end_by_nine(chosen.process):
            self.killed[match] += 1
            bot.unlink(missing_ok=True)


class KilledNode(NamedTuple):
    """A node's process: the name of its match, its number there, and the number of the process."""

    match: str
    number: int
    process: int


def nodes_beside(bot):
    """The nodes of the match that started a bot; none where the bot has ended."""
    fields = fields_of(bot)
    commands = [(process, words_of(process)) for process, _ in descendants(int(fields[1]))] if fields else []
    return [KilledNode(words[2].removesuffix(".toml"), int(words[3]), process) for process, words in commands if words[1:2] == ["node"]]


def end_by_nine(number):
    try:
        os.kill(number, signal.SIGKILL)
    except ProcessLookupError:
        return False
    return True


def folder_of_waits():
    """A folder that isn't there yet, in which bots tell a test that they wait for it."""
    League.folders.append(Path(tempfile.mkdtemp(prefix="league.", dir=FAST)))
    return League.folders[-1] / "waits"


def alike(*leagues):
    """Gives leagues the same cards."""
    for league in leagues:
        league.kept.mkdir()
        (league.kept / "secret").write_bytes(bytes(32))


def are_alike(one, other, count):
    want(len(one.logs()) == count and one.logs() == other.logs(), "the logs differ")
    want(one.table() == other.table(), f"the tables differ:\n{one.table()}\n{other.table()}")


@test
def a_league_with_nodes_is_that_without():
    """Bots that act by their lines alone. Of each match nodes are killed, once or more in the fourth hand and in the eighth: the
    table is the same letter by letter, and each log. 6 matches, or as --matches says."""
    meetings, folder = -(-int(OPTIONS["--matches"]) // 6), folder_of_waits()
    players = {name: f"{command('varies')} {folder}" for name in "abc"}
    plain, kept = (League(players, hands=10, meetings=meetings, nodes=nodes, start_timeout=1000 * WAIT) for nodes in (0, 3))
    alike(plain, kept)
    plain.does("run", "--jobs", "2")
    run = kept.start("run", "--jobs", "2")
    killer = Killer(run, folder)
    said = communicate(run, 5 * WAIT)[1]
    want(run.returncode == 0, f"status {run.returncode}, {dict(killer.killed)} nodes were killed: {said}")
    are_alike(plain, kept, 6 * meetings)
    want(killer.killed.keys() == kept.logs().keys(), f"nodes were killed of {dict(killer.killed)} alone")
    found = {kept.result(name)["nodes"] for name in kept.logs()} | {plain.result(name)["nodes"] - 3 for name in plain.logs()}
    want(found == {3, -3}, f"results tell of {found} nodes")
    return f"{sum(killer.killed.values())} nodes were killed"


@test
def who_fails_with_nodes_fails_as_without():
    """One crashes whenever it loses, one never comes, and one raises at once: restarts, default actions and mended ones are the
    same. With blinds of 100 and 50 who crashes loses 250 of three hands that he begins twice, and 200 of those once."""
    players = {"quits": command("quits"), "raises": command("raises"), "none": "false {port}", "wrong": command("wrong")}
    plain, kept = (League(players, hands=3, nodes=nodes, restarts=1) for nodes in (0, 3))
    alike(plain, kept)
    plain.does("run", "--jobs", "2")
    kept.does("run", "--jobs", "2")
    are_alike(plain, kept, 12)
    for name in kept.logs():
        for key in ("restarts", "defaults", "mended", "passed"):
            want(kept.result(name)[key] == plain.result(name)[key], f"{key} of {name}: {kept.result(name)[key]}")
    want(sum(sum(kept.result(name)["defaults"]) for name in kept.logs()) > 0, "nobody has a default action")


@test
def a_match_goes_on_with_the_nodes_that_it_began_with():
    """A run is interrupted; the file says 0 nodes then. The matches that had begun go on from their nodes' stores, the other ones
    have none. Where the stores are gone, a match goes on by its transaction file."""
    players = {name: f"sh -c 'sleep 0.2; exec {Bots.command(seed)}' {{port}}" for seed, name in enumerate("ab")}
    calm, league = (League(players, hands=40, meetings=2, nodes=nodes) for nodes in (0, 3))
    alike(calm, league)
    calm.does("run", "--jobs", "2")
    stopped(league)
    begun = {path.parent.name for path in league.kept.glob("running/*/nodes.json")}
    league.entries["nodes"] = 0
    league.write()
    league.does("run", "--jobs", "2")
    want(league.logs() == calm.logs(), "the logs differ")
    found = {name: league.result(name)["nodes"] for name in league.logs()}
    want(0 < len(begun) < 4 and found == {name: 3 if name in begun else 0 for name in found}, f"{found}, of which {begun} had begun")
    notes = "".join((league.kept / "matches" / name / "notes").read_text() for name in league.logs())
    want("goes on without nodes" not in notes and not list(league.kept.glob("matches/*/nodes.json")), f"the notes are {notes}")


@test
def a_match_whose_stores_are_gone_goes_on_without_nodes():
    players = {name: Bots.command(seed) for seed, name in enumerate("ab")}
    calm, league = (League(players, hands=60, nodes=nodes) for nodes in (0, 3))
    alike(calm, league)
    calm.does("match", "1")
    stopped(league, "match", "1")
    notes = [line for path in league.kept.glob("running/*/notes") for line in path.read_text().splitlines()]
    folders = {Path(line.rpartition(" ")[2]) for line in notes if "stores are kept" in line}
    want(len(folders) == 1, f"stores are kept in {folders}")
    for folder in folders:
        shutil.rmtree(folder)
    league.does("match", "1")
    want(league.logs() == calm.logs(), "the logs differ")
    notes = (league.kept / "matches/a.b.1.0/notes").read_text()
    want("the stores of its 3 nodes are gone: it goes on without nodes by a.b.1.0.tlog" in notes, f"the notes are {notes}")
    want(league.result("a.b.1.0")["nodes"] == 0, "the result tells of nodes")


@test
def a_log_that_is_ahead_of_all_else_is_written_anew():
    """A machine that restarts may leave a log with a hand where the stores are gone and no action was noted: the match begins anew."""
    players = {name: Bots.command(seed) for seed, name in enumerate("ab")}
    calm, league = (League(players, hands=3, nodes=nodes) for nodes in (0, 3))
    alike(calm, league)
    calm.does("match", "1")
    league.does("plan")
    folder = league.kept / "running/a.b.1.0"
    folder.mkdir()
    (folder / "nodes.json").write_text('{"nodes": 3, "hosts": []}')
    (folder / "a.b.1.0.tlog").touch()
    (folder / "a.b.1.0.log").write_text("".join(calm.log("a.b.1.0").splitlines(keepends=True)[:2]))
    league.does("match", "1")
    want(league.logs() == calm.logs(), f"the log is {league.log('a.b.1.0')!r}")


def stopped(league, *words):
    """Interrupts a run of a league once some actions of a match are written."""
    run = league.start(*(words or ("run", "--jobs", "2")))
    awaited(lambda: any(size_of(path) > 400 for path in league.kept.glob("running/*/*.tlog")), "some actions")
    run.send_signal(signal.SIGINT)
    said = communicate(run, WAIT)[1]
    want(run.returncode == 1 and "interrupted" in said, f"status {run.returncode}: {said}")


def size_of(path):
    try:
        return path.stat().st_size
    except FileNotFoundError:
        return 0


class OtherHosts:
    """Three networks as other hosts, which are reached by what stands for ssh."""

    def __init__(self, folder):
        self.folder, self.hosts = folder, Hosts(3)
        self.names = [f"op@{self.hosts.address(node)}" for node in range(3)]
        stand_in = folder / "ssh"
        stand_in.write_text(STAND_IN % {"folder": folder, "prefix": f"holdem{os.getpid()}"})
        stand_in.chmod(stat.S_IRWXU)

    def lose(self, node):
        """Ends a host for good: all that runs there is killed, and it is reached no more."""
        (self.folder / f"lost.{self.hosts.address(node)}").touch()
        self.hosts.cut_off(node)
        listed = os.popen(f"ip netns pids {self.hosts.nodes[node]}").read().split()
        for number in listed:
            end_by_nine(int(number))
        return len(listed)

    def calls(self):
        return (self.folder / "calls").read_text().splitlines()


@test
def three_hosts_of_which_one_is_lost():
    """Nodes run at three hosts, one of them is ended in the midst for good; so begins each match again whose bots ran there, at the
    second host of the player, with the same cards. All matches are finished, and the table is that of a league without nodes."""
    meetings, folder = -(-int(OPTIONS["--matches"]) // 6), folder_of_waits()
    players = {**{name: Bots.command(seed) for seed, name in enumerate("ab")}, "c": f"{command('varies')} {folder}"}
    plain = League(players, hands=30, meetings=meetings, start_timeout=1000 * WAIT)
    league = League(players, hands=30, meetings=meetings, nodes=3, start_timeout=1000 * WAIT)
    try:
        hosts = OtherHosts(league.folder)
    except NoHosts as why:
        raise NotMeasured(str(why)) from why
    try:
        league.entries["hosts"] = hosts.names
        league.players["c"]["at"] = [hosts.names[2], hosts.names[0]]
        league.write()
        alike(plain, league)
        plain.does("run", "--jobs", "2")
        folder.mkdir()
        run = league.start("run", "--jobs", "2", path=league.folder)
        awaited(lambda: run.poll() is not None or any(folder.iterdir()), "c, who waits in the midst of a match")
        want(hosts.lose(2), "nothing ran at the host")
        # (at once, since other bots may come to wait there meanwhile)
        folder.rename(folder.with_name("waited"))
        said = communicate(run, 5 * WAIT)[1]
        want(run.returncode == 0, f"status {run.returncode}: {said}")
        are_alike(plain, league, 6 * meetings)
        replaced = [*(league.kept / "replaced").iterdir()]
        want(replaced and all(size_of(path / f"{path.name.rpartition('.')[0]}.tlog") for path in replaced), f"what was replaced is {replaced}")
        again = [name for name in league.logs() if "the match begins again" in (league.kept / "matches" / name / "notes").read_text()]
        want(all("c" in name.split(".") for name in again), f"matches began again that nobody had begun: {again}")
        want({words.split()[-1] for words in hosts.calls()} <= {"node", "relay", "bot", "sweep", "drop"}, f"ssh was told {hosts.calls()[-3:]}")
        found = [league.result(name) for name in league.logs()]
        want(all(len(set(it["hosts"])) == 3 == it["nodes"] for it in found), f"nodes ran at {[it['hosts'] for it in found]}")
        want({it["at"].get("c") for it in found} - {None} >= {hosts.names[0]}, "no match was played at the second host")
    finally:
        hosts.hosts.remove()


class AtHost:
    """A process of at_host.py, as ssh starts it, with a stand-in for the program that only waits."""

    def __init__(self, room, what, **asked):
        self.notes = open(room / "notes", "ab+")
        self.begun = self.notes.tell()
        self.process = subprocess.Popen(
            [sys.executable, TOP / "tools/match_engine/at_host.py", what], bufsize=0, stdin=subprocess.PIPE, stdout=subprocess.DEVNULL, stderr=self.notes
        )
        self.is_closed = threading.Event()
        asked = {"program": str(room / "waits"), "match": "m", "node": 0, "files": {}, **asked}
        self.say(json.dumps(asked))
        threading.Thread(target=self.beat, daemon=True).start()

    def say(self, line):
        self.process.stdin.write(line.encode() + b"\n")

    def beat(self):
        """Says each second that it is there, as who starts such a process does: one that hears nothing for ten seconds ends."""
        with contextlib.suppress(OSError, ValueError):
            while not self.is_closed.wait(1):
                self.say("")

    def said(self):
        self.notes.seek(self.begun)
        return self.notes.read().decode()

    def ends(self):
        """Its status, once nothing more comes to it."""
        self.is_closed.set()
        self.process.stdin.close()
        return self.process.wait(WAIT)


@test
def what_was_left_at_a_host_is_ended_and_removed():
    """A node whose store was made there goes on once it is told to, and ends with its connection; so does the one that has the folder when
    another one is to have it, and a number that is another process's now gets no signal. A store that is gone isn't made anew. What is
    left of a match that doesn't go on is removed."""
    league = League({"a": "true {port}", "b": "true {port}"})
    place, waits = f"{os.getpid():016x}.0123456789abcdef", league.folder / "waits"
    waits.write_text("#!/bin/sh\nexec sleep 600\n")
    waits.chmod(stat.S_IRWXU)
    folder = Path(f"/dev/shm/holdem_table.{os.getuid()}/{place}.n0")
    store = {"stores/node0.journal": "c3RvcmU="}
    first = AtHost(league.folder, "node", folder=folder.name, store=store)
    awaited(lambda: "the store is made here\n" in first.said(), "the store")
    want(not descendants(first.process.pid) and (folder / "stores/node0.journal").read_text() == "store", "the node began before it was told to")
    first.say("go")
    awaited(lambda: descendants(first.process.pid), "the node")
    second = AtHost(league.folder, "node", folder=folder.name)
    want(first.process.wait(WAIT) == -signal.SIGKILL, "the first one still has the folder")
    below = awaited(lambda: descendants(second.process.pid), "the second node")
    second.ends()
    awaited(lambda: are_ended(below), "the end of the second node")
    other = subprocess.Popen(["sleep", "600"])
    (folder / "holder").write_text(f"{other.pid} 1\n")
    want(AtHost(league.folder, "sweep", league=place[:16], kept=[place], played=[]).ends() == 0 and folder.exists(), "a match that goes on is removed")
    want(AtHost(league.folder, "sweep", league=place[:16], kept=[], played=[]).ends() == 0 and not folder.exists(), "the folder is left")
    want(other.poll() is None, "another process was ended")
    other.kill()
    other.wait()
    third = AtHost(league.folder, "node", folder=folder.name)
    want(third.ends() == 2 and "is gone: it stays out" in third.said() and not folder.exists(), f"a lost store: {third.said()}")
