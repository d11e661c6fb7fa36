"""Long runs of tests/simulation: `--night HOURS` runs seeds on all processors, from the one on at which the last night ended."""
import collections
import itertools
import time

from simulation_runs import judged, sources_sum
from simulation_scripts import drawn
from simulation_shrink import shrunk
from simulation_trace import TOP

# Each night's line: the sum of the sources, `slow` where one node of each match has a slow disk, the first seed and the last, minutes, and
# by which rules which seeds failed.
NIGHTS = TOP / "tests/simulation.d/NIGHTS"
HEAD = "# sources, kind of the seeds, from and to, minutes, findings\n"
# A night's line is written again after so many seeds. Nights begin above the seeds of the gate. So many seeds are given to processes before
# the first of them is judged.
EVERY, FIRST, AHEAD = 50, 10_001, 64
DRAWN, SLOW = "drawn", "slow"


def first_seed(kind):
    """The first seed of a kind that no night has run yet."""
    lines = [line.split(" ") for line in NIGHTS.read_text().splitlines() if line[:1] not in ("#", "")] if NIGHTS.exists() else []
    return max([FIRST, *(int(words[3]) + 1 for words in lines if words[1] == kind)])


def keep(program, name, rule):
    """Keeps the script of a seed that failed, shrunk, under the name of its rule."""
    seed, _, is_slow = name
    path = TOP / "tests/simulation.d" / f"{rule.replace('-', '_')}_by_{'slow_' if is_slow else ''}seed_{seed}"
    path.write_text("\n".join(shrunk(program, drawn(*name))) + "\n")


def results(program, pool, names, ends):
    """What the checker says of each seed's run, in their order, as long as it isn't so late."""
    waiting = collections.deque()
    while True:
        while len(waiting) < AHEAD and time.monotonic() < ends:
            name = next(names)
            waiting.append((name, pool.apply_async(judged, [(program, name, None)])))
        if not waiting:
            return
        name, result = waiting.popleft()
        yield name, result.get()


def night(program, hours, pool, first=None, is_slow=False):
    """Runs seeds for so many hours, and keeps what fails; how many passed and failed."""
    kind = SLOW if is_slow else DRAWN
    first = first or first_seed(kind)
    earlier = NIGHTS.read_text() if NIGHTS.exists() else HEAD
    begun, last, found, total = time.monotonic(), first - 1, [], sources_sum()

    def write():
        minutes = (time.monotonic() - begun) / 60
        NIGHTS.write_text(f"{earlier}{total} {kind} {first} {last} {minutes:.0f} {', '.join(found) or 'none'}\n")
        print(f"{last + 1 - first} seeds in {minutes:.0f} minutes, {len(found)} failed", flush=True)

    for name, result in results(program, pool, ((seed, False, is_slow) for seed in itertools.count(first)), begun + 3600 * hours):
        last = name[0]
        if result.rule:
            found.append(f"{result.rule} {last}")
            print(f"seed {last}: {result.words}", flush=True)
            keep(program, name, result.rule)
        if (last + 1 - first) % EVERY == 0:
            write()
    if last >= first:
        write()
    return last + 1 - first - len(found), len(found)
