#!/usr/bin/env python3
"""Counts what `node` and `serve` clear, copy and ask of the system for one command: bench/moved.py [OPTIONS].

Two players in C call through matches of limit hold'em over TCP: at three `node` processes without a key and at three with
one, where they sit at the one that leads, and at one `serve` with three nodes. The library bench/moved.c, loaded before the
program, counts its calls of memset, memcpy and memmove by the place of the call, and its system calls by name. Every match
stands idle for a while before the players come. What a process moves in that time, by the second, is subtracted from what it
moves until the first log has the score. The rest is divided by the commands of the match.

For the leaders, the followers and `serve` it prints two tables: bytes a command by function, and system calls a command by
name. Figures are medians, with the least and the most of all runs in brackets; a follower counts as a run of its own.

  cleared, copied   bytes of calls of memset, and of memcpy and memmove, of 256 bytes and more
  calls             how many such calls, and how many bytes one of them has
  function          the function that has the call, after inlining; if it ends with the call, the function that called it
  would wait        system calls that answered that nothing is there, or that there is no room (EAGAIN)
  system call       the C library's name of it: Linux itself has sendto for send, and recvfrom for recv

Not counted: what the compiler clears or copies without a call (it does so with short and known lengths, below some 128
bytes), what the C library moves within realloc, what the kernel copies, the system calls that the C library makes by
itself (memory: brk, mmap, munmap), and clock_gettime, which Linux answers without one. Calls below 256 bytes have a row of
their own. If the program calls a function of the C library that bench/moved.c doesn't count, a line says which.

Functions are those of this build: another compiler or level inlines otherwise, so compare sums, of builds of one kind. A
program without symbols has places in place of names. Counting costs time: measure no times with this library. On a busy
machine a process finds more at each wait, and makes fewer calls a command.

Exit status: 0 if all is counted; 1 if a match failed; 2 if the command line is wrong, or the program or `cc` is missing.
"""
import argparse
import array
import bisect
import collections
import os
import shutil
import statistics
import struct
import subprocess
import sys
import tempfile
import time
from pathlib import Path
from typing import NamedTuple

sys.dont_write_bytecode = True
TOP = Path(__file__).resolve().parent.parent
sys.path.insert(0, str(TOP / "tests"))

from processes import Processes
from serve import OF_A_HAND, PLAYERS, built, spread
from serving import FAST, Match, Wrong, waited

NODES = 3
LIBRARY = Path(__file__).resolve().parent / "moved.c"
FLAGS = ["-fno-builtin", "-U_FORTIFY_SOURCE", "-shared", "-fPIC", "-ldl"]
# The head of a file of counts: its mark, where the program was loaded, lost calls, rows, and names up to the first row.
MARK, HEAD, SIZE, ROW = 0x3130444556304D, struct.Struct("4Q"), 4096, 4
KINDS = ["cleared", "copied", "cleared little", "copied little"]
# What a program may call of the C library that is no system call, or one that nobody waits for: memory and the clock.
NO_SYSTEM_CALLS = {"malloc", "calloc", "realloc", "free", "memcpy", "memmove", "memset", "memcmp", "strlen", "getenv", "clock_gettime", "sigaction"}
# How long processes that are together stand still before anything is counted, how often a log is looked at, and how long a
# match may take, in seconds.
SETTLE, LOOK, LONGEST = 0.5, 0.002, 600
# How often a match is played again in which the leader changed.
AGAIN = 10


class Failed(Exception):
    """Why a match has no figures."""


class Program:
    """The names of a program's functions, by the symbols in its file."""

    def __init__(self, path):
        self.bytes = path.read_bytes()
        if self.bytes[:5] != b"\x7fELF\x02":
            raise Failed(f"{path} isn't a program of 64 bits")
        self.functions = sorted((value, value + size, name) for name, kind, value, size in self.symbols(2) if kind == 2 and value)
        self.starts, self.end = [start for start, _, _ in self.functions], max(self.segments())
        self.asked = {name for name, _, value, _ in self.symbols(11) if not value and not name.startswith("_")}

    def segments(self):
        """Where what is loaded ends, part by part."""
        at, size, count = *struct.unpack_from("<Q", self.bytes, 0x20), *struct.unpack_from("<HH", self.bytes, 0x36)
        for number in range(count):
            kind, _, _, start, _, _, length, _ = struct.unpack_from("<IIQQQQQQ", self.bytes, at + size * number)
            if kind == 1:
                yield start + length

    def symbols(self, wanted):
        """The symbols of the tables of a kind: name, kind, address and size."""
        at, size, count = *struct.unpack_from("<Q", self.bytes, 0x28), *struct.unpack_from("<HH", self.bytes, 0x3A)
        sections = [struct.unpack_from("<IIQQQQIIQQ", self.bytes, at + size * number) for number in range(count)]
        for _, kind, _, _, start, length, names, *_ in sections:
            for place in range(start, start + length if kind == wanted else start, 24):
                name, info, _, _, value, extent = struct.unpack_from("<IBBHQQ", self.bytes, place)
                yield self.text(sections[names][4] + name), info & 15, value, extent

    def text(self, at):
        return self.bytes[at : self.bytes.index(0, at)].decode(errors="replace")

    def function(self, place):
        """The function that has the place behind a call, without the mark of its types."""
        at = bisect.bisect_right(self.starts, place - 1) - 1
        if at >= 0 and place - 1 < self.functions[at][1]:
            return self.functions[at][2].split("::<#")[0]
        return f"(no name, at {place:#x})" if place <= self.end else "(outside of the program)"


class Counts(collections.Counter):
    """Sums by their names: (kind, function) with what is counted of it, calls, bytes or would_wait."""

    @classmethod
    def read(cls, path, program):
        """What a file of counts says now."""
        data = path.read_bytes() if path.exists() else b""
        if len(data) < SIZE or HEAD.unpack_from(data)[0] != MARK:
            raise Failed("the library isn't loaded: is the program linked with the system's C library?")
        _, _, lost, rows = HEAD.unpack_from(data)
        if lost:
            raise Failed(f"{lost} calls found no row: make ROWS of bench/moved.c greater")
        names, words, found = data[HEAD.size : SIZE].split(b"\0"), array.array("Q", data[SIZE : SIZE + rows * ROW * 8]), cls()
        for key, calls, moved, would_wait in zip(*(words[column::ROW] for column in range(ROW))):
            if key:
                kind = names[(key & 255) - 1].decode()
                function = program.function(key >> 8) if kind in KINDS else None
                found.update({(kind, function, "calls"): calls, (kind, function, "bytes"): moved, (kind, function, "would wait"): would_wait})
        return found

    def __sub__(self, other):
        """By how much the counts grew."""
        return Counts({key: count - other[key] for key, count in self.items()})

    def times(self, factor):
        return Counts({key: count * factor for key, count in self.items()})


class Moved:
    """What one process moved in a match, by the command, and what it moves by the second while it is idle."""

    def __init__(self, idle, idle_seconds, match, match_seconds, commands):
        self.idle = idle.times(1 / idle_seconds)
        self.each = (match - self.idle.times(match_seconds)).times(1 / commands)

    @staticmethod
    def long(counts, what="bytes"):
        """The sum of what long calls cleared and copied."""
        return sum(count for (kind, _, counted), count in counts.items() if kind in KINDS[:2] and counted == what)


class Watched(NamedTuple):
    """A process of a match, with the files of its counts and of its log."""

    process: subprocess.Popen
    counts: Path
    log: Path

    def has_score(self):
        """Whether the last line of the log is there, which has the score."""
        if self.process.poll() not in (None, 0):
            raise Failed(f"a process ended with {self.process.returncode}")
        if not self.log.exists():
            return False
        with open(self.log, "rb") as file:
            file.seek(max(0, os.fstat(file.fileno()).st_size - 200))
            return b"\nSCORE" in file.read()


def watch(watched, tools, words, play, progress):
    """What some processes moved: they are idle for a while, then `play` begins the match, which is over when the first log has
    the score."""

    def now():
        return [(time.monotonic(), Counts.read(it.counts, tools["program"])) for it in watched]

    time.sleep(SETTLE)
    progress("idle")
    first = now()
    time.sleep(words.idle)
    second = now()
    progress("playing")
    play()
    while not any([it.has_score() for it in watched]):
        if time.monotonic() > second[0][0] + LONGEST:
            raise Failed(f"a match took longer than {LONGEST} seconds")
        time.sleep(LOOK)
    return [
        Moved(until[1] - begun[1], until[0] - begun[0], end[1] - until[1], end[0] - until[0], OF_A_HAND * words.hands - 1)
        for begun, until, end in zip(first, second, now())
    ]


class Counted(Processes):
    """The processes of a match, each with the library."""

    def __init__(self, library, *words):
        super().__init__(*words)
        self.library = library

    def starter(self, node):
        return preloaded(self.library, self.counts(node))

    def counts(self, node):
        return self.folder / f"counts{node}"

    def notes(self, node):
        return (self.folder / f"notes{node}").read_text().splitlines()

    def are_together(self):
        """Each process is connected to each other one, and one of them leads."""
        others = [{f"peer {other}: connected" for other in range(self.nodes) if other != node} for node in range(self.nodes)]
        return all(row <= set(self.notes(node)) for node, row in enumerate(others)) and self.leaders()

    def leaders(self):
        """The nodes that campaigned so far."""
        return [node for node in range(self.nodes) if any(it.startswith("campaigns") for it in self.notes(node))]


def preloaded(library, counts):
    """The words before a program that is to be counted."""
    return ["/usr/bin/env", f"LD_PRELOAD={library}", f"MOVED_COUNTS={counts}"]


def of_node(tools, words, progress, has_key=False):
    """What the leader and each follower of a match moved; none if more than one node campaigned."""
    match = Counted(tools["library"], NODES, words.hands, words.folder, has_key)
    try:
        for node in range(NODES):
            match.begin(node)
        waited(match.are_together, "the processes are connected to each other")
        first = match.leaders()[0]
        players = Players(tools, [ports[first:] + ports[:first] for ports in match.ports])
        watched = [Watched(match.running[node], match.counts(node), match.folder / f"logs/node{node}.log") for node in range(NODES)]
        found = watch(watched, tools, words, players.begin, progress)
        players.end()
        match.ended()
        leaders = match.leaders()
        which = " with a key" if has_key else ""
        return {f"leader{which}": [found.pop(leaders[0])], f"follower{which}": found} if len(leaders) == 1 else None
    finally:
        match.remove()


def of_key(tools, words, progress):
    """The same with a key."""
    return of_node(tools, words, progress, has_key=True)


def of_serve(tools, words, progress):
    """What one process with all nodes moved."""
    match = Match("l2.game", words.hands, [f"{{seed = {seed}}}" for seed in range(NODES)], place=words.folder).init()
    try:
        match.starter = preloaded(tools["library"], match.folder / "counts")
        match.start()
        waited(lambda: any("not connected: expected" in note for note in match.notes()), "serve awaits a seat", match.last_notes)
        players = Players(tools, [match.seat(seat) for seat in (0, 1)])
        watched = Watched(match.process, match.folder / "counts", match.folder / "logs/node0.log")
        found = watch([watched], tools, words, players.begin, progress)
        players.end()
        if match.process.wait() != 0:
            raise Failed(f"serve ended with {match.process.returncode}: {match.last_notes()}")
        return {"serve": found}
    finally:
        match.remove()


class Players:
    """The players of a match, who dial the nodes of their seats in turn until each refuses."""

    def __init__(self, tools, ports):
        self.words, self.process = [tools["players"], str(NODES), *[str(port) for seat in ports for port in seat]], None

    def begin(self):
        self.process = subprocess.Popen(self.words, stdout=subprocess.DEVNULL)

    def end(self):
        self.process.wait()


def middle(runs, figure, form="{:,.0f}"):
    """The median of a figure over runs."""
    return form.format(statistics.median(map(figure, runs)) + 0.0)


def rows_of(runs):
    """All functions that move something, with the sums of their long calls: the greatest median first."""
    names = {function for run in runs for kind, function, _ in run.each if kind in KINDS[:2]}

    def both(run, name):
        return sum(run.each[kind, name, "bytes"] for kind in KINDS[:2])

    return sorted(((statistics.median(both(run, name) for run in runs), name, [both(run, name) for run in runs]) for name in names), reverse=True)


def function_table(runs, most):
    """Bytes a command by function."""
    yield "bytes a command", "cleared", "copied", "calls", "bytes a call", "function"
    rows = rows_of(runs)
    for total, name, sums in [it for it in rows if it[0] >= 0.5][:most]:
        calls = statistics.median(sum(run.each[kind, name, "calls"] for kind in KINDS[:2]) for run in runs)
        cleared, copied = (middle(runs, lambda run: run.each[kind, name, "bytes"]) for kind in KINDS[:2])
        yield spread(sums), cleared, copied, f"{calls:.2f}", f"{total / max(calls, 1e-9):,.0f}", name
    others = [sum(sums[at] for _, _, sums in rows[most:]) for at in range(len(runs))]
    if len(rows) > most:
        yield spread(others), "", "", "", "", f"{len(rows) - most} further functions"
    little = [sum(count for (kind, _, what), count in run.each.items() if kind in KINDS[2:] and what == "bytes") for run in runs]
    calls = [sum(count for (kind, _, what), count in run.each.items() if kind in KINDS[2:] and what == "calls") for run in runs]
    yield spread(little), "", "", f"{statistics.median(calls):.2f}", "", "calls below 256 bytes, of all functions"


def call_table(runs):
    """System calls a command by name."""
    yield "calls a command", "would wait", "bytes a call", "system call"
    names = {kind for run in runs for kind, function, _ in run.each if function is None}
    calls = {name: [run.each[name, None, "calls"] for run in runs] for name in names}
    for name in sorted(names, key=lambda it: -statistics.median(calls[it])):
        if statistics.median(calls[name]) >= 0.005:
            size = statistics.median(run.each[name, None, "bytes"] for run in runs) / statistics.median(calls[name])
            yield spread(calls[name], 2), middle(runs, lambda run: run.each[name, None, "would wait"], "{:.2f}"), f"{size:,.0f}" if size else "", name
    yield spread([sum(calls[name][at] for name in names) for at in range(len(runs))], 2), "", "", "all"


def columns(rows):
    """Rows as lines with columns, of which all but the last stand to the right."""
    rows = [*rows]
    widths = [max(map(len, column)) for column in zip(*rows)]
    for row in rows:
        yield "  " + "  ".join([cell.rjust(width) for cell, width in zip(row[:-1], widths)] + [row[-1]])


def report(runs, words):
    """The tables of each kind of process."""
    for who, found in runs.items():
        total, idle = spread([Moved.long(run.each) for run in found]), middle(found, lambda run: Moved.long(run.idle))
        yield f"\n{who}: {total} bytes a command cleared and copied, in {middle(found, lambda run: Moved.long(run.each, 'calls'), '{:.1f}')} calls"
        yield f"(an idle one moves {idle} bytes a second, which are subtracted)\n"
        yield from columns(function_table(found, words.rows))
        yield ""
        yield from columns(call_table(found))


def tell(text):
    """Shows how far it is: over the last line on a terminal, else as a line of its own."""
    if sys.stderr.isatty():
        print(f"\r{text:60}", end="" if text else "\r", file=sys.stderr, flush=True)
    elif text and not text.endswith("idle"):
        print(f"moved: {text}", file=sys.stderr, flush=True)


def counted(name, tools, words):
    """The matches of a command: what each kind of process moved in each of them."""
    (count_one, who, what), runs, passed_over = MATCHES[name], collections.defaultdict(list), 0
    while len(runs[who]) < words.runs:
        number = len(runs[who]) + 1
        found = count_one(tools, words, lambda text: tell(f"match {number} of {words.runs} of {what}: {text}"))
        if found is None:
            passed_over += 1
            if passed_over > AGAIN:
                raise Failed(f"the leader changed in {passed_over} matches: is the machine too busy?")
            continue
        for who, moved in found.items():
            runs[who] += moved
    if passed_over:
        print(f"{what}: {passed_over} more matches aren't counted, since the leader changed in them")
    return runs


# The matches that are counted: what counts one, which process of it has one row a match, and how it is called.
MATCHES = {
    "node": (of_node, "leader", "node"),
    "key": (of_key, "leader with a key", "node with a key"),
    "serve": (of_serve, "serve", "serve"),
}


def from_one(word):
    if not word.isdecimal() or int(word) < 1:
        raise argparse.ArgumentTypeError(f"a number from 1 on, not {word!r}")
    return int(word)


def seconds(word):
    if not 0.1 <= float(word) <= 3600:
        raise argparse.ArgumentTypeError(f"seconds from 0.1 to 3600, not {word!r}")
    return float(word)


def arguments(words):
    parser = argparse.ArgumentParser(description=__doc__, formatter_class=argparse.RawDescriptionHelpFormatter)
    parser.add_argument("--program", type=Path, default=Processes.program, help="the program; by default the one that is built here")
    parser.add_argument("--only", choices=MATCHES, help="counts matches of one kind alone: of node, of node with a key, or of serve")
    parser.add_argument("--runs", type=from_one, default=5, help="how many matches of each (5)")
    parser.add_argument("--hands", type=from_one, default=500, help="hands of a match, each of nine commands (500)")
    parser.add_argument("--idle", type=seconds, default=4.0, metavar="S", help="seconds in which a match stands idle (4)")
    parser.add_argument("--rows", type=from_one, default=20, help="functions of a table (20)")
    parser.add_argument("--folder", type=Path, default=Path(FAST or "."), help="where stores and logs are; in memory by default")
    return parser.parse_args(words)


def main(words):
    words = arguments(words)
    if not words.program.is_file():
        print(f"bench/moved.py: no program {words.program}; ./check or tools/build builds it", file=sys.stderr)
        return 2
    if shutil.which("cc") is None:
        print("bench/moved.py: the C compiler cc is not on the PATH", file=sys.stderr)
        return 2
    Processes.program = Match.program = words.program.resolve()
    load, names = os.getloadavg()[0], [words.only] if words.only else [*MATCHES]
    try:
        with tempfile.TemporaryDirectory() as folder:
            tools = {"players": built("players", PLAYERS, folder), "library": built("moved.so", LIBRARY.read_text(), folder, *FLAGS)}
            tools["program"] = Program(Processes.program)
            print(f"{os.cpu_count()} processors, load {load:.1f} at the beginning; matches of {OF_A_HAND * words.hands - 1:,} commands", end=" ")
            print(f"with {NODES} nodes, {words.runs} of each kind, stores in {words.folder}", flush=True)
            not_counted = uncounted(tools["program"])
            if not_counted:
                print(f"bench/moved.c doesn't count {', '.join(not_counted)}, which the program calls too")
            for name in names:
                runs = counted(name, tools, words)
                tell("")
                print("\n".join(report(runs, words)), flush=True)
            print(f"\nload {os.getloadavg()[0]:.1f} at the end")
        return 0
    except (Failed, Wrong, OSError, subprocess.CalledProcessError) as why:
        tell("")
        print(f"bench/moved.py: {why}", file=sys.stderr)
        return 1


def uncounted(program):
    """What the program calls of the C library, beyond memory and the clock, that the library doesn't count."""
    hooked = set(LIBRARY.read_text().replace(")", "(").split("("))
    return sorted(program.asked - hooked - NO_SYSTEM_CALLS)


if __name__ == "__main__":
    sys.exit(main(sys.argv[1:]))
