"""Tests of tests/processes on slow disks: a library that is loaded into a process lengthens each sync. It needs a C compiler.
And of stores where standard streams are closed."""
import os
import shutil
import subprocess
import time

from measuring import in_time, measured, want
from processes_keys import League
from processes_match import PACE, Match, test
from serving import patience, waited

# Each sync takes as many microseconds longer as the file says that SLOW_SYNC names, while there is one.
SLOWER = r"""
#define _GNU_SOURCE
#include <stdio.h>
#include <stdlib.h>
#include <sys/syscall.h>
#include <time.h>
#include <unistd.h>

/* It sleeps once, until a moment: each further sleep would be longer than it should on a busy machine. */
static void wait_longer(void) {
    const char *name = getenv("SLOW_SYNC");
    FILE *file = name ? fopen(name, "r") : NULL;
    long microseconds = 0;
    struct timespec until;
    if (!file) return;
    clock_gettime(CLOCK_MONOTONIC, &until);
    if (fscanf(file, "%ld", &microseconds) == 1) {
        until.tv_nsec += microseconds % 1000000 * 1000;
        until.tv_sec += microseconds / 1000000 + until.tv_nsec / 1000000000;
        until.tv_nsec %= 1000000000;
        while (clock_nanosleep(CLOCK_MONOTONIC, TIMER_ABSTIME, &until, NULL) != 0) {}
    }
    fclose(file);
}

int fsync(int file) { wait_longer(); return (int)syscall(SYS_fsync, file); }
int fdatasync(int file) { wait_longer(); return (int)syscall(SYS_fdatasync, file); }
"""
# How long a sync takes, in seconds. With two such disks of three a command takes two syncs, in the fastest possible round.
SYNC = 2.1
ROUND = 2 * SYNC
# So long the first command may take, since each node first keeps what it meets; and three more once all disks are quick again.
FIRST, SOON = 75, ROUND + 10
# In rounds: the gap between commands in the median, and each. Ballots, and connections that open behind the first command.
MEDIAN, LONGEST, BALLOTS, JOINED = 1.5, 8, 10, 4

# One slow disk of three: how long a sync takes; so many commands are played before a quick node is lost, or for so many seconds before it is
# lost for good; and so soon the next one comes.
ONE_SYNC, PLAYED, PLAYED_FOR, CALLS, BESIDE = 0.3, 1000, 10, 5, 5
# How long a slow node takes at most until it has kept whom it met, and so long is played behind that; and so soon all processes have ended behind
# the last command: in calls, and seconds beside.
MET, BEHIND_START, END_CALLS, END_BESIDE = 5, 6, 2, 10
# A test waits so long for commands that may not come at all.
PATIENT = 60


def slower_in(folder):
    """The library, made in a folder."""
    source, library = folder / "slower.c", folder / "slower.so"
    source.write_text(SLOWER)
    subprocess.run([os.environ.get("CC", "cc"), "-O2", "-shared", "-fPIC", "-o", library, source], check=True)
    return library


class SlowMatch(Match):
    """A match in which the disks of some nodes are slow while a file is there: a sync takes so many seconds longer."""

    def __init__(self, slow=(0, 1), sync=SYNC, **options):
        super().__init__(**options)
        self.slow, self.sync = slow, sync

    def set_up(self, *nodes):
        self.library, self.file = slower_in(self.folder), self.folder / "slow"
        self.file.write_text(str(int(self.sync * 1_000_000)))
        super().set_up(*nodes)

    def start(self, *nodes, before=None):
        for node in nodes:
            super().start(node, before=self.load if node in self.slow else before)

    def load(self):
        """In a process that is to become the program."""
        os.environ.update(LD_PRELOAD=str(self.library), SLOW_SYNC=str(self.file))

    def comes_to(self, commands, seconds):
        """Waits until so many commands were seen, for so long at most in which nobody waits for a processor."""
        waited(lambda: self.is_alive() and len(self.seen) >= commands, f"{commands} commands", self.last_notes, most=seconds)


class SlowLeague(SlowMatch, League):
    """One whose nodes can be asked, too."""


def told(match, text):
    """How often notes have told this."""
    return sum(text in note for node in range(match.count) for note in match.notes(node))


@test()
def two_slow_disks(seed, is_long):
    """Each sync takes 2.1 s at two of three nodes: the match goes on by rounds of two syncs, by few ballots, and behind the
    first command hardly a connection is closed. Once all disks are quick it goes on at once."""
    match, goal = SlowMatch(hands=60).begin(), 20 if is_long else 6
    begun = time.monotonic()
    match.comes_to(1, FIRST)
    first, joined = time.monotonic() - begun, told(match, ": connected")
    match.comes_to(goal, LONGEST * ROUND * goal)
    times = match.times[:goal]
    rounds = sorted((after - before) / ROUND for before, after in zip(times, times[1:]))
    median, longest = rounds[len(rounds) // 2], rounds[-1]
    ballots, joined = told(match, "campaigns"), told(match, ": connected") - joined
    in_time(median <= MEDIAN and longest <= LONGEST, f"{median:.2f} rounds to the next command in the median, {longest:.2f} at most")
    in_time(ballots <= BALLOTS, f"{ballots} ballots")
    in_time(joined <= JOINED, f"connections opened {joined} times behind the first command")
    match.file.unlink()
    match.comes_to(len(match.seen) + 3, SOON)
    match.ends()
    return f"F {ROUND:g} s, first command after {first:.0f} s, median {median:.2f} F, longest {longest:.2f} F, {ballots} ballots"


@test()
def one_slow_disk(seed, is_long):
    """Each sync of node 2 takes 0.3 s longer. The other two play a thousand commands; then node 0 is killed, and node 2 takes its place:
    the next commands come within five calls of two syncs, and five seconds. Once its disk is quick all go on to the end."""
    call = 2 * ONE_SYNC
    match = SlowMatch(slow=(2,), sync=ONE_SYNC, hands=200).begin()
    match.comes_to(PLAYED, PATIENT)
    match.kill(0)
    lost, before = time.monotonic(), len(match.seen)
    # The first may have been chosen before.
    match.comes_to(before + 2, PATIENT)
    passed = time.monotonic() - lost
    in_time(passed <= CALLS * call + BESIDE, f"{passed:.1f} s to the next command")
    match.file.unlink()
    match.start(0)
    match.ends()
    return f"the next command {passed:.1f} s behind the loss of a quick node"


@test()
def lost_beside_a_slow_disk(seed, is_long):
    """The same where a quick node is lost for good behind ten seconds of play: as soon the next command comes, and more behind it."""
    match = SlowMatch(slow=(2,), sync=ONE_SYNC, hands=10_000).begin()
    match.goes_on()
    time.sleep(PLAYED_FOR)
    match.kill(0)
    before = len(match.seen)
    with measured():
        lost = time.monotonic()
        match.comes_to(before + 2, PATIENT)
        passed = time.monotonic() - lost
    in_time(passed <= CALLS * 2 * ONE_SYNC + BESIDE, f"{passed:.1f} s to the next command")
    match.comes_to(before + 12, PATIENT)
    return f"{before} commands in {PLAYED_FOR} s, and the next one {passed:.1f} s behind the loss of a quick node"


def quick_leaders(match):
    """The quick nodes that lead, and hear a majority."""
    asked = {node: match.asked(node) for node in range(match.count) if node not in match.slow}
    return [node for node, told in asked.items() if told.get("leads") == told.get("quorum") == "yes"]


@test(seeds=2, long_seeds=10)
def started_with_a_slow_disk(seed, is_long):
    """Each sync of a node takes 0.3 s longer, from its start on, and a quick node leads before it has its store. So it never campaigns, also not
    while it keeps the stores that it meets, for 2.4 s of syncs; and a quick node leads."""
    slow = (2, 0, 1)[seed % 3 - 1]
    match = SlowLeague(slow=(slow,), sync=ONE_SYNC, hands=10_000).begin()
    waited(lambda: quick_leaders(match), "a quick node that leads", match.last_notes)
    campaigns = lambda: sum("campaigns" in note for note in match.notes(slow))
    match.await_meeting()
    time.sleep(MET)
    before = campaigns()
    time.sleep(BEHIND_START)
    match.goes_on(20)
    more = campaigns() - before
    in_time(before + more == 0, f"node {slow} campaigned {before} times and {more} times more: {match.notes(slow)}")
    leader, *_ = waited(lambda: quick_leaders(match), "a quick node that leads at the end", match.last_notes)
    return f"node {leader} led in the end, and node {slow}, which is slow, never campaigned"


@test()
def ended_with_a_slow_disk(seed, is_long):
    """Each sync of node 4 of five takes 0.3 s longer: all processes have ended within ten seconds and two of its calls behind the last
    command."""
    match = SlowMatch(count=5, slow=(4,), sync=ONE_SYNC, hands=100).begin()
    waited(lambda: match.hand >= match.hands - 2, "the last hands", match.last_notes, seen=match.played)
    with measured():
        match.ends()
        passed = time.monotonic() - match.times[-1]
    in_time(passed <= END_CALLS * 2 * ONE_SYNC + END_BESIDE, f"{passed:.1f} s from the last command to the end of all")
    return f"all ended {passed:.1f} s behind the last command"


@test(seeds=3)
def closed_streams(seed, is_long):
    """Standard streams are closed when `init` and processes begin: error alone, error and output, or all three. Nothing that
    they print gets into a store, and a process that is killed starts again."""
    close, match = lambda: [os.close(it) for it in range(3 - seed, 3)], Match(hands=60, pace=PACE / 4)
    for node in range(match.count):
        if node > 0:
            shutil.copy(match.home(0) / "stores/match.kept", match.home(node) / "stores/match.kept")
        ran = subprocess.run([match.program, "init", "m.toml", str(node)], cwd=match.home(node), preexec_fn=close, timeout=patience())
        journal = (match.home(node) / f"stores/node{node}.journal").read_bytes()
        want(ran.returncode == 0 and journal.startswith(b"HDJ2"), f"init of node {node} ended with {ran.returncode} and made {journal[:60]}")
    match.start(*range(match.count), before=close)
    match.let_bots_come()
    match.goes_on(20)
    for node in range(match.count):
        match.kill(node)
        match.start(node, before=close if node == 1 else None)
        match.goes_on(20)
    match.ends()
