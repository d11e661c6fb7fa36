#!/usr/bin/env python3
"""Times the layers through the program `workload` and prints figures: bench/layers.py [RUNS].

Build it first (./check, or `rt run` in crates/workload). Each task runs RUNS times (5 by default) and the
fastest run counts; what it prints is checked to be the same each time.

At last nodes that all began anew, one of which knows nothing and leads, catch up with what two of them accepted: how many
ticks, deliveries and bytes of frames that takes. More than five deliveries for each 64 commands are a failure.
"""
import re
import subprocess
import sys
import time
from pathlib import Path

PROGRAM = Path(__file__).resolve().parent.parent / "crates/workload/out/workload"

# The task, what one piece of its work is called, how many pieces a run has, and the task whose time is taken off.
TASKS = [
    ("five-card-hands", "values of five cards", 2_598_960, None),
    ("draws", "deals drawn", 20_000, None),
    ("best-of-seven", "best fives of seven", 200_000, "draws"),
    ("sevens-by-counts", "sevens ranked by counts", 2_118_760, None),
    ("sevens-by-fives", "sevens ranked by all fives", 2_118_760, None),
    ("short-hands", "actions of hands of 8", 20_000_000, None),
    ("long-hands", "actions of hands of 256", 20_000_000, None),
    ("encode", "frames written", 1_000_000, None),
    ("decode", "frames read", 1_000_000, None),
    ("promises", "promises counted by a proposer", 1_000_000, None),
    ("answers", "answers counted by a learner", 5_000_000, None),
    ("refusals", "proposals refused by an acceptor", 5_000_000, None),
    ("nodes", "whole commands on three nodes in memory", 90_000, None),
    ("nodes-five", "whole commands on five nodes in memory", 90_000, None),
    ("nodes-seven", "whole commands on seven nodes in memory", 90_000, None),
]
# How many commands nodes catch up with: as many as one frame has, one more, and many. They are deals and folds in turn; behind
# a deal, or 64 commands, the leader has no command of its own to propose.
ACCEPTED = (64, 65, 1_003, 10_001)
TO_CATCH_UP = re.compile(r"(\d+) commands: (\d+) ticks, (\d+) deliveries, (\d+) bytes")


def fastest(task, runs):
    outputs, times = set(), []
    for _ in range(runs):
        started = time.perf_counter()
        ran = subprocess.run([PROGRAM, *task.split()], capture_output=True, check=True, stdin=subprocess.DEVNULL)
        times.append(time.perf_counter() - started)
        outputs.add(ran.stdout)
    if len(outputs) != 1:
        sys.exit(f"{task}: its output differs from run to run")
    output = outputs.pop().decode().strip()
    if output.startswith("unknown: "):
        sys.exit(f"{task}: the program has no such task; build it anew")
    return min(times), output


def catch_up(count):
    """Tells what nodes take that catch up with so many commands."""
    _, output = fastest(f"catching-up {count}", 1)
    found, most = TO_CATCH_UP.search(output), 5 * (count // 64 + 1)
    print(f"catching-up: {output}")
    if not found or int(found[1]) != count:
        sys.exit(f"catching up with {count} commands: the program printed something else")
    if int(found[3]) > most:
        sys.exit(f"catching up with {count} commands takes {found[3]} deliveries, and {most} are the most")


def main(words):
    if len(words) > 1 or not all(word.isdigit() for word in words):
        print(__doc__.strip())
        return 0 if words in (["-h"], ["--help"]) else 2
    runs = int(words[0]) if words else 5
    times, outputs = {}, {}
    for task, piece, count, without in TASKS:
        seconds, output = fastest(task, runs)
        times[task], outputs[task] = seconds, output
        seconds = max(seconds - times.get(without, 0), 1e-9)
        print(f"{task}: {count / seconds:,.0f} {piece} a second ({seconds:.3f} s for {count:,})")
        print(f"  {output}")
    if outputs["sevens-by-counts"] != outputs["sevens-by-fives"]:
        sys.exit("the two bodies rank sevens differently")
    ratio = times["sevens-by-fives"] / times["sevens-by-counts"]
    print(f"by counts a seven takes {ratio:.0f} times less than by all fives")
    ratio = times["long-hands"] / times["short-hands"]
    print(f"an action of a long hand takes {ratio:.2f} times as long as one of a short hand")
    for count in ACCEPTED:
        catch_up(count)


if __name__ == "__main__":
    sys.exit(main(sys.argv[1:]))
