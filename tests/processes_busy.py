"""Nodes that hardly get a processor, since a machine's other programs want all of them: a test of tests/processes, which runs with
--long alone."""
import os
import re
import subprocess
import sys
import time

from measuring import want

from processes_match import Match, test

# How low the nodes' priority is, how many loops want each processor, and for how long that goes on, in seconds.
LOWEST, LOOPS, LASTS = 19, 2, 120
# So long a command may take meanwhile, in seconds, and so many ballots there may be in a minute.
LONGEST, BALLOTS = 15, 20
BALLOT = re.compile(r"campaigns in ballot \((\d+), \d+\)")
LOOP = [sys.executable, "-c", "while True: pass"]


def newest_ballot(match):
    """The greatest round of a ballot that a node told of."""
    return max((int(found[1]) for node in range(match.count) for note in match.notes(node) if (found := BALLOT.match(note))), default=0)


def gaps_in(times, begun, ended):
    """The times between commands from a moment to another one."""
    moments = [begun, *(at for at in times if begun < at < ended), ended]
    return [later - earlier for earlier, later in zip(moments, moments[1:])]


@test(seeds=0, long_seeds=1)
def starved_nodes(seed, is_long):
    """All nodes have the lowest priority, and two busy loops want each processor, for two minutes: commands go on, and ballots don't rise
    without end."""
    match = Match(hands=10_000)
    for node in range(match.count):
        match.init(node)
    match.start(*range(match.count), before=lambda: os.nice(LOWEST))
    match.let_bots_come()
    match.goes_on(20)
    count = LOOPS * len(os.sched_getaffinity(0))
    loops = [subprocess.Popen(LOOP, cwd=match.folder) for _ in range(count)]
    match.others += loops
    begun, before = time.monotonic(), newest_ballot(match)
    time.sleep(LASTS)
    ended = time.monotonic()
    for loop in loops:
        loop.kill()
        loop.wait()
    gaps, ballots = gaps_in(match.times, begun, ended), newest_ballot(match) - before
    figures = f"{count} loops for {ended - begun:.0f} s: {len(gaps) - 1} commands, none for {max(gaps):.1f} s at most, {ballots} ballots"
    want(match.is_alive() and max(gaps) <= LONGEST, f"{figures}: {match.last_notes()}")
    want(ballots <= BALLOTS * LASTS / 60, f"{figures}: {match.last_notes()}")
    match.goes_on(20)
    return figures
