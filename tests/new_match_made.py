"""Matches that tools/new-match makes, for tests/new_match: their folders, their `run`, and stand-ins for other machines."""
import contextlib
import os
import re
import stat
import subprocess
from pathlib import Path

import measuring
from measuring import want
from serving import TOP, free_ports

TOOL, PROGRAM = TOP / "tools/new-match", TOP / "crates/holdem_table/out/holdem_table"
GAME = TOP / "examples/n2.game"
TESTS = []
# A command in place of ssh, scp and sudo: it writes down how it was called, and does here what would be done there.
STAND_IN = """#!/bin/sh
printf '%s\\n' "$0" "$@" | sed 's,.*/bin/,,' | tr '\\n' '|' >> "$CALLS"; echo >> "$CALLS"
case "$0" in *ssh | *scp) while case $1 in -o) shift ;; -t | -pr) ;; *) false ;; esac do shift; done ;; esac
target=$1
BEFORE
case "$0" in *ssh) sh -c "$2" ;; *scp) for it; do shift; set -- "$@" "${it#*:}"; done; cp -pR "$@" ;; esac
"""


def test(function):
    TESTS.append(function)
    return function


def run(words, status=0, **more):
    done = measuring.run([str(word) for word in words], stdout=subprocess.PIPE, stderr=subprocess.PIPE, text=True, **more)
    want(done.returncode == status, f"{words}: status {done.returncode}, not {status}: {done.stdout}{done.stderr}")
    return done


def new(folder, *more, hosts="10.0.0.1,10.0.0.2,10.0.0.3", game=GAME, hands=20, players="alice,bob", status=0):
    words = [TOOL, folder, "--game", game, "--hands", hands, "--players", players, "--hosts", hosts, *more]
    return run(words, status)


def mode(path):
    return stat.S_IMODE(path.stat().st_mode)


def seeds(machine):
    return [int(seed) for seed in re.findall(r"^seed = (\d+)$", (machine / "match.toml").read_text(), re.M)]


def started(room, *more, hosts="127.0.0.1,127.0.0.1,127.0.0.1"):
    """A match of this machine whose processes run, and what there is of each: its folder and its process."""
    new(room / "m", "--port", free_ports(230), "--place", room / "srv", *more, hosts=hosts)
    for word in ("copy", "init", "start"):
        run([room / "m/run", word])
    return [room / f"srv/machine{i}" for i in range(3)], pids_of(room)


def pids_of(room):
    return [int((room / f"srv/machine{i}/pid").read_text()) for i in range(3)]


def is_there(pid):
    return Path(f"/proc/{pid}/exe").exists()


@contextlib.contextmanager
def at_last(room):
    """Whatever happens, no process is left."""
    try:
        yield
    finally:
        measuring.run([room / "m/run", "stop"], stdout=subprocess.DEVNULL, stderr=subprocess.DEVNULL)


class Machines:
    """Three other machines with one address, whose folders are here; ssh, scp and sudo are stood for."""

    def __init__(self, room, *more, hosts="op@10.0.0.1,10.0.0.1,10.0.0.1"):
        self.room, self.bin = room, room / "bin"
        self.bin.mkdir()
        for name in ("ssh", "scp", "sudo"):
            self.stand_in(name)
        self.env = {**os.environ, "PATH": f"{self.bin}:{os.environ['PATH']}", "CALLS": str(room / "calls")}
        self.new = new(room / "m", "--place", room / "srv", *more, hosts=hosts)

    def stand_in(self, name, before=""):
        """The command does this first from now on."""
        (self.bin / name).write_text(STAND_IN.replace("BEFORE", before))
        (self.bin / name).chmod(0o755)

    def run(self, *words, status=0):
        return run([self.room / "m/run", *words], status, env=self.env)

    def calls(self):
        return (self.room / "calls").read_text().splitlines()

    def store(self, number):
        return self.room / f"srv/machine{number}/stores/node{number}.journal"
