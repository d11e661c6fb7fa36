"""Runs of scripts of tests/simulation by the program, and what the checker says of their traces."""
import contextlib
import gc
import hashlib
import itertools
import os
import subprocess
import threading

from simulation_rules import Checker
from simulation_scripts import drawn
from simulation_trace import TOP, Wrong

# A second match behind a script, with no hands: once its line is printed, the script's run is over, and the program waits for more.
AGAIN = "match 0 0 0 - - {} end"

# So many bytes of a trace are read at once.
PIECE = 1 << 20

# Of the gate's seeds so many are of the sources; they begin above so many.
OF_SOURCES, ABOVE = 100, 1_000_000


def ran(program, script, environment=None):
    return subprocess.run([program, "simulate"], input="\n".join(script) + "\n", stdout=subprocess.PIPE, stderr=subprocess.PIPE, cwd=TOP, encoding="latin-1", timeout=600, env=environment)


def traced(program, script, environment=None):
    run = ran(program, script, environment)
    if run.returncode != 0:
        raise Wrong("program", 0, f"status {run.returncode}: {run.stderr[-300:]}")
    return run.stdout.partition("\n")[2] if run.stdout.startswith("match ") else run.stdout


def peak_of(process):
    """The most bytes of memory that a process has had at once, as the system tells it."""
    with open(f"/proc/{process.pid}/status") as status:
        return next(int(line.split()[1]) for line in status if line.startswith("VmHWM:")) * 1024


def read_up_to(stream, end):
    """What a process writes before these bytes, by which it waits for more, with the first of them; none where it ends before."""
    pieces, last = [], b""
    while not last.endswith(end):
        piece = stream.read1(PIECE)
        if not piece:
            return None
        pieces.append(piece)
        last = last[-len(end) :] + piece
    return b"".join(pieces)[: 1 - len(end)]


def watched(program, script):
    """The trace of a script, and the most memory that its run took."""
    last = AGAIN.format(script[0].split(" ")[6])
    end = (last + "\n").encode()
    with subprocess.Popen([program, "simulate"], stdin=subprocess.PIPE, stdout=subprocess.PIPE, stderr=subprocess.PIPE, cwd=TOP) as process:
        guard = threading.Timer(600, process.kill)
        guard.start()
        try:
            with contextlib.suppress(BrokenPipeError):
                process.stdin.write(("\n".join([*script, last]) + "\n").encode())
                process.stdin.flush()
            text = read_up_to(process.stdout, b"\n" + end)
            peak = peak_of(process) if text is not None else None
            with contextlib.suppress(BrokenPipeError):
                process.stdin.close()
            status = process.wait()
        finally:
            guard.cancel()
        if status != 0 or peak is None:
            raise Wrong("program", 0, f"status {status}: {process.stderr.read()[-300:]}")
    return text.partition(b"\n")[2].decode("latin-1"), peak


class Judged:
    """A run that was judged: what is wrong, if anything is, what came, and of the run what is told of all runs."""

    def __init__(self, name, wrong, counts, spent, checker=None):
        self.name, self.rule, self.words, self.counts, self.spent = name, wrong and wrong.rule, wrong and str(wrong), counts, spent
        self.commands, self.end, self.gap, self.memory = (checker.front, checker.end, checker.gap, checker.peak / checker.most_memory()) if checker else (0, 0, 0.0, 0.0)


def judged(job):
    """Runs a script of a name and judges its trace. What it took is told in seconds of a processor: to run and to judge."""
    program, name, script = job
    if script is None:
        script, name = drawn(*name), f"seed {name[0]}"
    begun = os.times()
    # What a checker makes is let go of with it: nothing is to be collected meanwhile.
    gc.disable()
    try:
        checker = Checker(script, *watched(program, script)).run()
    except Wrong as wrong:
        return Judged(name, wrong, {}, (0.0, 0.0))
    finally:
        gc.enable()
    ended = os.times()
    spent = ended.children_user + ended.children_system - begun.children_user - begun.children_system
    return Judged(name, None, checker.counts, (spent, ended.user + ended.system - begun.user - begun.system), checker)


def kept_scripts():
    """The scripts of tests/simulation.d, each of which once showed something, with their names."""
    return [(path.name, path.read_text().splitlines()) for path in sorted((TOP / "tests/simulation.d").iterdir()) if path.name.islower()]


def sources_sum():
    """A sum over the sources of `workload` and of all crates below it: the same in each checkout, and another one once the code is."""
    lines = [line.split("#")[0].partition(":") for line in (TOP / "crates.txt").read_text().splitlines()]
    below = {name.strip().split(" ")[0]: rest.split() for name, colon, rest in lines if colon}
    names, left = set(), ["workload"]
    while left:
        name = left.pop()
        if name in below and name not in names:
            names.add(name)
            left += below[name]
    found = hashlib.sha256()
    for name in sorted(names):
        for path in sorted((TOP / "crates" / name / "src").rglob("*.rt")):
            found.update(f"{path.relative_to(TOP)}\n".encode() + path.read_bytes())
    return found.hexdigest()[:16]


def gate_seeds(count):
    """The seeds of the gate: so many in all, of which the last hundred follow the sources. They are printed."""
    total = sources_sum()
    first = ABOVE + int(total, 16) % 10**9
    of_sources = min(OF_SOURCES, count // 4)
    print(f"sources {total}: seeds 1 to {count - of_sources}, and {first} to {first + of_sources - 1}", flush=True)
    return itertools.chain(range(1, count - of_sources + 1), range(first, first + of_sources))
