"""Plays all matches of a league, some at a time, each by a process of its own: `match K`."""
import ctypes
import os
import signal
import subprocess
import sys
import time
from collections import Counter

from . import nodes
from .bots import INTERRUPTS
from .faults import Interrupted, Unfinished
from .one_match import is_locked, lock
from .plan import is_finished
from .progress import Progress
from .words import in_words, of_all

# How often the matches are looked at, and those that other processes play, in seconds.
LOOK, LOOK_AT_OTHERS = 0.02, 0.5
# How often a match is tried in one run where the machine fails.
ATTEMPTS = 2
LIBRARY, PR_SET_PDEATHSIG = ctypes.CDLL(None), 1


def default_jobs(league):
    """How many matches at a time: a processor for each player and the dealer."""
    return max(1, len(os.sched_getaffinity(0)) // (league.seats + 1))


def end_with(parent, blocked):
    """Has a match end in order where `run` ends, however that one does. Only the signals that were blocked before are blocked."""
    os.setpgid(0, 0)
    signal.pthread_sigmask(signal.SIG_SETMASK, blocked)
    LIBRARY.prctl(PR_SET_PDEATHSIG, signal.SIGTERM)
    if os.getppid() != parent:
        os._exit(1)


class Run:
    """A run of a league's matches. Interrupts come while it pauses, and only then: an exception in the midst of a look at a process
    could leave that locked, and its end would be waited for without end."""

    def __init__(self, league, plan, jobs, command):
        """`command` gives the words that play a match of the plan."""
        self.blocked = signal.pthread_sigmask(signal.SIG_BLOCK, INTERRUPTS)
        self.league, self.jobs, self.command = league, jobs, command
        self.waiting = [it for it in plan if not is_finished(league, it)]
        self.whole, self.begun = len(plan), time.monotonic()
        self.finished = self.before = len(plan) - len(self.waiting)
        self.running, self.others, self.attempts, self.failed = {}, [], Counter(), []
        self.progress, self.looked = Progress(is_long=True), 0.0

    def play(self):
        """Plays all that can be played; whether all matches are finished now."""
        try:
            while self.waiting or self.running or self.others:
                self.start()
                self.reap()
                self.look_at_others()
                self.progress.tell(self.text)
                self.pause()
        finally:
            self.end()
            self.progress.note(self.text())
        return not self.failed

    def pause(self):
        """Interrupted where a signal asks for it. Those behind the first one change nothing."""
        if signal.sigtimedwait(INTERRUPTS, LOOK) is not None:
            raise Interrupted()

    def text(self):
        """How far the run is."""
        seconds, new = time.monotonic() - self.begun, self.finished - self.before
        text = f"{of_all(self.finished, self.whole, 'match', 'matches')} finished, {len(self.running)} running"
        text += f", {len(self.others)} played by others" if self.others else ""
        if new:
            text += f", {3600 * new / seconds:.0f} an hour, {in_words(seconds / new * (self.whole - self.finished))} left"
        return text

    def seated(self):
        """How many matches each player plays."""
        return Counter(name for match in self.running.values() for name in match.players)

    def may_start(self, match, seated):
        bounds = ((seated[name], self.league.players[name].at_once) for name in match.players)
        return all(bound is None or count < bound for count, bound in bounds)

    def start(self):
        """Starts the next matches, in the plan's order, as far as there is room for them and their players."""
        seated, at = self.seated(), 0
        while len(self.running) < self.jobs and at < len(self.waiting):
            match = self.waiting[at]
            if not self.may_start(match, seated):
                at += 1
                continue
            del self.waiting[at]
            self.begin(match)
            seated.update(match.players)

    def begin(self, match):
        parent = os.getpid()
        try:
            process = subprocess.Popen(
                self.command(match), stdin=subprocess.DEVNULL, stdout=subprocess.DEVNULL, stderr=subprocess.PIPE,
                preexec_fn=lambda: end_with(parent, self.blocked),
            )
        except OSError as why:
            raise Unfinished(f"{match.name} can't be started: {why.strerror}") from why
        self.running[process] = match

    def reap(self):
        """Takes note of the matches that have ended."""
        for process, match in [*self.running.items()]:
            if process.poll() is None:
                continue
            del self.running[process]
            with process.stderr:
                said = process.stderr.read().decode(errors="replace").strip()
            self.take(match, process.returncode, said)

    def take(self, match, status, said):
        """What becomes of a match whose process has ended."""
        if status == 0:
            self.finished += 1
        elif status == 4:
            self.others.append(match)
        else:
            self.attempts[match] += 1
            self.progress.note(said.removeprefix("league: ") or f"{match.name} ended with status {status}")
            (self.waiting if self.attempts[match] < ATTEMPTS else self.failed).append(match)

    def look_at_others(self):
        """Takes matches back that other processes played and left, or finished."""
        if time.monotonic() < self.looked + LOOK_AT_OTHERS:
            return
        self.looked = time.monotonic()
        for match in [*self.others]:
            if is_finished(self.league, match):
                self.others.remove(match)
                self.finished += 1
            elif not is_locked(self.league, match.name):
                self.others.remove(match)
                self.waiting.insert(0, match)

    def end(self):
        """Ends the matches that still run, also those that stand still; each ends its players."""
        for process in self.running:
            process.terminate()
            process.send_signal(signal.SIGCONT)
        for process in self.running:
            process.wait()
            process.stderr.close()
        self.running = {}


def run(league, plan, jobs, command):
    """Plays a league; the exit status."""
    held = lock(league, "run")
    playing = Run(league, plan, jobs or default_jobs(league), command)
    try:
        waiting = [match.name for match in playing.waiting]
        nodes.sweep(league, waiting, [name for name in waiting if is_locked(league, name)], playing.progress.note)
        is_whole = playing.play()
    except Interrupted:
        print("league: interrupted; the same command resumes it", file=sys.stderr)
        return 1
    finally:
        os.close(held)
    for match in playing.failed:
        print(f"league: {match.name} isn't finished; the same command resumes it", file=sys.stderr)
    return 0 if is_whole else 1
