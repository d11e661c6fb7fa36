"""What ./check --quick does: it makes unproved programs, runs the crates of tests by `rt try --test`, and the scripts in a copy of the tree.

The programs are optimised, as proved ones are: scripts that run matches take half as long by them. The copy has them where `rt ci`
leaves proved ones, so that no script runs an unproved program unasked in the tree itself.
"""
import contextlib
import os
import re
import shutil
import tempfile
from concurrent.futures import ThreadPoolExecutor, as_completed
from pathlib import Path

import repository
import running
import unproved
from check_steps import Ended, Kind
from which_program import MARK, UNPROVED

TOP = repository.TOP
# The programs that scripts run, the greatest first, and the crates of tests whose built tests some scripts run.
PROGRAMS = ["holdem_table", "workload", "clockwork_lines"]
BUILT = {"match_tests": ["tests/step_growths", "tests/serve_growths", "tests/run_growths"], "relay_tests": ["tests/relay_growths"]}
# What a program with AddressSanitizer has in it, and the scripts that refuse allocations of a program, which its allocator doesn't ask for.
SANITIZED = b"AddressSanitizer"
REFUSING = ["tests/memory", "tests/step_growths"]
# How many scripts with clocks run side by side where there are four processors, beside them at the lowest priority others, and crates of tests.
LANES = (2, 2, 2)
RESULT = re.compile(r"^test result: \w+\. (\d+) passed; (\d+) failed", re.M)


def lanes():
    """How many run side by side of scripts with clocks, of others, and of crates of tests: with fewer than four processors one of each."""
    return LANES if len(os.sched_getaffinity(0)) >= 4 else (1, 1, 1)


def crates_of_tests():
    """The crates that have tests, those first whose built tests scripts wait for."""
    found = [name for name in repository.crates() if any(b"#[test]" in file.read_bytes() for file in (TOP / "crates" / name / "src").rglob("*.rt"))]
    return sorted(found, key=lambda name: name not in BUILT)


def place_of(name):
    """Where an optimised program is kept, or that of a crate's tests."""
    return UNPROVED.parent / "optimised" / name


def copied(folder):
    """A copy of the tree without what was built of it."""
    shutil.copytree(TOP, folder, symlinks=True, ignore=lambda place, names: [name for name in names if name in ("out", ".git", "__pycache__")])
    return folder


def put_in(copy, crate, program):
    """Puts an unproved program into the copy, where a proved one would be, without its mark: the scripts know what they run."""
    data = program.read_bytes()
    place = copy / "crates" / crate / "out" / program.name
    place.parent.mkdir(exist_ok=True)
    place.write_bytes(data[: -len(MARK)] if data.endswith(MARK) else data)
    place.chmod(0o755)


def program(name):
    """Makes the program of a crate, and says what came of it: a status, and a line of counts behind what was said."""
    before = running.TOOK.seconds
    try:
        unproved.kept(name, place_of(name), is_marked=name == UNPROVED.name, is_optimised=True)
        status, said = 0, "1 passed, 0 failed\n"
    except unproved.NoProgram as why:
        status, said = 1, f"{why}\n0 passed, 1 failed\n"
    return Ended(f"the program {name}", status, said, running.TOOK.seconds - before)


def tested(name):
    """Runs the tests of a crate; the program of its tests is made too where a script runs it."""
    to, before = place_of(f"{name}_tests") if name in BUILT else None, running.TOOK.seconds
    if to is not None:
        to.parent.mkdir(parents=True, exist_ok=True)
        to.unlink(missing_ok=True)
    try:
        status, said = unproved.tested(name, to)
    except unproved.NoProgram as why:
        status, said = 1, f"{why}\n"
    counts = RESULT.findall(said)
    passed, failed = map(int, counts[-1]) if counts else (0, 1)
    return Ended(f"the tests of {name}", status, f"{said}\n{passed} passed, {failed} failed\n", running.TOOK.seconds - before)


def left_out(name, why):
    """A script that isn't run: one that isn't measured."""
    return Ended(name, 0, f"not measured: all of it: {why}\n0 passed, 0 failed, 1 skipped\n", 0.0)


def measured(name, copy, step):
    """Runs a script, unless it can't be measured over the programs that the kit gave."""
    is_sanitized = any(SANITIZED in place_of(it).read_bytes() for it in PROGRAMS if place_of(it).is_file())
    if is_sanitized and name in REFUSING:
        return left_out(name, "the kit gives programs with AddressSanitizer, which has an allocator of its own")
    return step(name, copy)


@contextlib.contextmanager
def tree():
    """The copy of the tree, while it is needed."""
    with tempfile.TemporaryDirectory(prefix="check-quick-") as temporary:
        yield copied(Path(temporary) / "tree")


def run(steps, step):
    """Does all, given the scripts and what runs one in a tree. What came of each, as they end. Scripts with clocks leave processors free, which
    the others take that compute. What reads texts alone doesn't wait for programs."""
    names, reading = [it.name for it in steps], [it for it in steps if it.kind is Kind.READING]
    waiting = {name for scripts in BUILT.values() for name in scripts}
    clocks, others, crates = map(ThreadPoolExecutor, lanes())
    with tree() as copy, ThreadPoolExecutor(len(PROGRAMS)) as makers, crates, others, clocks:
        made = [makers.submit(program, name) for name in PROGRAMS]
        begun = {crates.submit(tested, name): name for name in crates_of_tests()}
        begun.update({others.submit(step, it.name, copy): None for it in reading})
        for ended in as_completed(made):
            yield ended.result()
        for name in filter(lambda name: place_of(name).is_file(), PROGRAMS):
            put_in(copy, name, place_of(name))
        for it in steps:
            if it not in reading and it.name not in waiting:
                begun[(clocks if it.kind and it.kind.has_clock else others).submit(measured, it.name, copy, step)] = None
        for ended in as_completed(begun):
            yield ended.result()
            if begun[ended] in BUILT:
                yield from growths(begun[ended], [name for name in BUILT[begun[ended]] if name in names], copy, step)


def growths(crate, names, copy, step):
    """Runs scripts that run the built tests of a crate; they aren't measured where the kit gave no program of them."""
    made = place_of(f"{crate}_tests")
    if not made.is_file():
        yield from (left_out(name, f"the kit gives no program of the tests of {crate} without a sanitizer") for name in names)
        return
    put_in(copy, crate, made)
    for name in names:
        yield measured(name, copy, step)
