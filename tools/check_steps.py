"""The scripts that ./check runs, and what runs beside what.

These are the scripts of tests/, and tools/pages twice. Each says in a line of its own, below its first, what it does: it goes
by the clock, computes, or reads texts. Scripts with clocks have no neighbour that takes their processors: they run one after
another, and beside them, at the lowest priority, those that compute. Once these are through, two with clocks run side by side.
"""
import re
from collections import deque
from concurrent.futures import FIRST_COMPLETED, ThreadPoolExecutor, wait
from enum import Enum
from pathlib import Path
from typing import NamedTuple, Optional

TOP = Path(__file__).resolve().parent.parent
LINE = re.compile(r"^# \./check: (.+)$", re.M)
# So many lines of a script may stand above that line, and it itself.
HEAD = 3
PAGES = ["tools/pages", "tools/pages --style"]


class Kind(Enum):
    """What a script does, by the words of its line. Those that take minutes begin before the others of their kind."""

    LONG_CLOCK = "goes by the clock for minutes"
    CLOCK = "goes by the clock"
    LONG_COMPUTING = "computes for minutes"
    COMPUTING = "computes"
    READING = "reads texts"
    # Runs only where ./check is asked for it, behind all others.
    ASKED = "runs with --long alone"

    @property
    def has_clock(self):
        return self in (Kind.LONG_CLOCK, Kind.CLOCK, Kind.ASKED)

    @property
    def is_computing(self):
        return self in (Kind.LONG_COMPUTING, Kind.COMPUTING)


class Ended(NamedTuple):
    """A step that has ended: its name, its status, what it said, and the seconds of a processor that it took, where these are known."""

    name: str
    status: Optional[int]
    said: str
    seconds: Optional[float] = None


class Step(NamedTuple):
    """A script with its words, and what it does; no kind where it doesn't say so."""

    name: str
    kind: Optional[Kind]


def kind_of(script):
    """What a script says that it does; None where it says nothing, or what nobody knows."""
    head = "\n".join(script.read_text(encoding="utf-8").splitlines()[:HEAD])
    said = LINE.search(head)
    return next((kind for kind in Kind if said and kind.value == said[1]), None)


def scripts(top=TOP):
    """The scripts of tests/: files that can be run, under a name without a suffix. What has one is for scripts."""
    return sorted(file for file in (top / "tests").iterdir() if file.is_file() and not file.suffix and file.stat().st_mode & 0o100)


def steps(is_long=False, top=TOP):
    """All steps, each kind in its turn."""
    found = [Step(f"tests/{file.name}", kind_of(file)) for file in scripts(top)]
    found += [Step(name, kind_of(top / name.split()[0])) for name in PAGES if (top / name.split()[0]).is_file()]
    found, order = [it for it in found if is_long or it.kind is not Kind.ASKED], [*Kind]
    return sorted(found, key=lambda it: order.index(it.kind) if it.kind else -1)


def next_of(clocks, others, running):
    """The next to begin beside those that run: one without a clock beside one that has one, as long as there are some."""
    has_clock = any(it.kind and it.kind.has_clock for it in running)
    queue = others if others and (has_clock or not clocks) else clocks
    return queue.popleft()


def side_by_side(found, run):
    """Runs the steps by their names, two at once. What came of each, as they end."""
    clocks = deque(it for it in found if it.kind and it.kind.has_clock)
    others, begun = deque(it for it in found if it not in clocks), {}
    with ThreadPoolExecutor(2) as pool:
        while clocks or others or begun:
            while len(begun) < 2 and (clocks or others):
                step = next_of(clocks, others, begun.values())
                begun[pool.submit(run, step.name)] = step
            for ended in wait(begun, return_when=FIRST_COMPLETED).done:
                del begun[ended]
                yield ended.result()
