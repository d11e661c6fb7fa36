"""The folder of one machine of a match of three nodes on this machine, for tests/doctor, as tools/new-match and `init` make it."""
import atexit
import contextlib
import functools
import re
import shutil
import subprocess
import tempfile
from pathlib import Path

import measuring
from measuring import want
from serving import TOP, free_ports, waited

TOOL, PROGRAM = TOP / "tools/doctor", TOP / "crates/holdem_table/out/holdem_table"
TESTS = []
# The first port of the match that all tests copy.
FIRST = 7100


def test(function):
    TESTS.append(function)
    return function


@functools.lru_cache(maxsize=None)
def made():
    """A match as tools/new-match makes it, with the store of machine 1: each test has a copy at other ports."""
    room = Path(tempfile.mkdtemp(prefix="doctor."))
    atexit.register(shutil.rmtree, room, ignore_errors=True)
    words = [TOP / "tools/new-match", room / "m", "--game", TOP / "examples/n2.game", "--hands", 20, "--players", "alice,bob", "--port", FIRST]
    words += ["--hosts", "127.0.0.1,127.0.0.1,127.0.0.1"]
    subprocess.run([str(word) for word in words], stdout=subprocess.DEVNULL, check=True)
    subprocess.run([PROGRAM, "init", "match.toml", "1"], cwd=room / "m/machine1", stderr=subprocess.DEVNULL, check=True)
    return room / "m"


def machine(room):
    """Machine 1, with its store made, and the first port of all."""
    port = free_ports(230)
    shutil.copytree(made(), room / "m")
    for path in (room / "m").glob("machine*/match.toml"):
        path.write_text(re.sub(r"(?<=127\.0\.0\.1:)\d+", lambda found: str(int(found[0]) - FIRST + port), path.read_text()))
    return room / "m/machine1", port


def ask(at, status=None, words=("match.toml", "1"), **more):
    done = measuring.run([str(TOOL), *words], cwd=at, stdout=subprocess.PIPE, stderr=subprocess.PIPE, text=True, **more)
    want(status is None or done.returncode == status, f"status {done.returncode}: {done.stdout}{done.stderr}")
    return done


def rows(done):
    """What was found, by what was looked at, without the entries of docs/AT-NIGHT.md."""
    found = {}
    for line in done.stdout.splitlines():
        verdict, what, text = re.fullmatch(r"(ok|look) +(\w+) +(.*?)(?: \(AT-NIGHT: .*\))?", line).groups()
        found.setdefault(what, []).append((verdict, text))
    return found


def entries(done):
    """The entries that are told, by what was looked at."""
    found = {}
    for what, entry in re.findall(r"^look +(\w+) .* \(AT-NIGHT: (.*)\)$", done.stdout, re.M):
        found.setdefault(what, []).append(entry)
    return found


@contextlib.contextmanager
def running(at, number):
    """The process of a node, once it has its ports; with its notes where `run` puts them."""
    with (at / "notes").open("a") as notes, subprocess.Popen([PROGRAM, "node", "--times", "match.toml", str(number)], cwd=at, stdout=subprocess.DEVNULL, stderr=notes) as node:
        try:
            # (of its ports it has one after another)
            runs = lambda: all("this node runs" in text for _, text in rows(ask(at, None, ("match.toml", str(number))))["address"])
            waited(runs, f"the ports of node {number}")
            yield node
        finally:
            node.kill()


def changed(at, old, new, name="match.toml"):
    text = (at / name).read_text()
    want(old in text, f"no {old} in {text}")
    (at / name).write_text(text.replace(old, new, 1))


def wants_look(room, what, said, change):
    """After the change the row tells of it; before, it was ok."""
    at, port = machine(room)
    want(all(verdict == "ok" for verdict, _ in rows(ask(at))[what]), f"{what} isn't ok at first: {rows(ask(at))[what]}")
    change(at, port)
    found = rows(ask(at, 1))[what]
    want(any(verdict == "look" and said in text for verdict, text in found), f"{what}: {found}, not {said!r}")
