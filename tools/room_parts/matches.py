"""A room's match as the room sees it: it waits for its players, or a process of its own plays it."""
import array
import json
import os
import signal
import socket
import subprocess
import time

from league_parts.one_match import is_locked
from league_parts.running import end_with

from . import asking
from .links import MESSAGE

# How long a match that failed isn't started again, by the number of failures, and at most, in seconds.
PAUSE, LONGEST_PAUSE = 2.0, 60.0
# The status of a match that another process plays, which may be about to end.
BUSY = 4


class OnWay:
    """A match that isn't finished. `callers` are those that wait to go on with it, `here` the names whose connections it has, and
    `gone` those whose seats are given up."""

    def __init__(self, begun, until):
        """Its players are awaited until a moment, and then it is played without who isn't there."""
        self.begun, self.until, self.process, self.control = begun, until, None, None
        self.callers, self.here, self.gone = {}, set(), begun.given_up()
        # Whether its last hand is over: it is about to end, and awaits nobody any more.
        self.is_over = False
        self.failures, self.not_before = 0, 0.0

    @property
    def name(self):
        return self.begun.name

    @property
    def awaited(self):
        """The names of the players who may come."""
        return set(self.begun.dialled) - self.gone

    def lacking(self):
        """The names of the players who may come, and aren't there."""
        return sorted(self.awaited - set(self.callers) - self.here)

    def is_ready(self):
        """Whether it may be started: its players are there, or were awaited for long enough, and no earlier process has it."""
        now = time.monotonic()
        if self.process is not None or now < self.not_before or (self.lacking() and now < self.until):
            return False
        return not is_locked(self.begun.league, self.name)

    def start(self, words, message):
        """Starts its process, and hands over the connections of who is there; the names of those who aren't, and are given up."""
        lacking, callers = self.lacking(), self.callers
        ours, theirs = socket.socketpair(socket.AF_UNIX, socket.SOCK_SEQPACKET)
        parent = os.getpid()
        with theirs:
            self.process = subprocess.Popen(
                words, stdin=theirs, stdout=subprocess.DEVNULL, stderr=subprocess.PIPE, preexec_fn=lambda: end_with(parent, set()),
            )
        ours.setblocking(False)
        self.control = ours
        absent = [seat for seat, name in enumerate(self.begun.planned.seats) if name in self.gone or name in lacking]
        ours.send(json.dumps({**message, "absent": absent}).encode())
        self.callers = {}
        for name, caller in callers.items():
            self.hand_over(name, caller)
        return lacking

    def put_off(self):
        """Has it wait for a while before it is started again."""
        self.not_before = time.monotonic() + min(PAUSE * max(self.failures, 1), LONGEST_PAUSE)

    def hand_over(self, name, caller):
        """Gives a connection to the match, which has it alone from then on."""
        seat = self.begun.planned.seats.index(name)
        caller.say(asking.MATCH, f"{self.name} seat {seat} names {'|'.join(self.begun.planned.seats)} hands {self.begun.league.hands}")
        message = json.dumps({"seat": seat, "rest": caller.data.decode("latin-1")}).encode()
        descriptors = array.array("i", [caller.fileno()])
        try:
            self.control.sendmsg([message], [(socket.SOL_SOCKET, socket.SCM_RIGHTS, descriptors)])
            self.here.add(name)
        except OSError:
            # The match is about to end; its player dials again.
            pass
        caller.close()

    def read(self):
        """Takes what the match says of its seats, and notes it; the names that were given up."""
        gone = set()
        while True:
            try:
                message = self.control.recv(MESSAGE)
            except OSError:
                message = b""
            if not message:
                self.gone |= gone
                return gone
            for what, seat in json.loads(message).items():
                names = {self.begun.planned.seats[seat]} if what != "over" else set(self.begun.dialled)
                self.is_over = self.is_over or what == "over"
                self.here -= names
                if what != "lost":
                    gone |= names

    def is_ended(self):
        return self.process is not None and self.process.poll() is not None

    def take_end(self, resume):
        """Takes the end of its process: its status, and what it said last. If the match isn't finished, its players are awaited again."""
        status = self.process.returncode
        with self.process.stderr:
            said = self.process.stderr.read().decode(errors="replace").strip()
        self.control.close()
        self.process, self.control, self.here = None, None, set()
        self.gone |= self.begun.given_up()
        self.failures += 0 if status == BUSY else 1
        self.until = time.monotonic() + resume
        self.put_off()
        return status, said.splitlines()[-1] if said else f"ended with status {status}"

    def end(self):
        """Has its process end."""
        if self.process is not None:
            self.process.terminate()
            self.process.send_signal(signal.SIGCONT)

    def await_end(self):
        if self.process is not None:
            self.process.communicate()
            self.control.close()
