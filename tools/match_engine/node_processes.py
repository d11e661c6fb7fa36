"""The nodes of a match, each in a process of its own, which is started again where it ends."""
import os
import signal
import socket
import subprocess
import time

from .faults import MatchFault
from .program import end_with, kill

# How long after its end a node is started again, in seconds, and how long where the match was over for it.
AGAIN_AFTER, OVER_AFTER = 0.2, 1.0
# A node that ends by status 1 so often, each time within ten seconds of its start, stays out: a busy machine takes a while for it.
FAILURES, SHORT = 25, 10.0
# How long a node may take to say how it is, in seconds.
STATUS = 3.0
# The statuses behind which a node stays out: what is wrong has to be mended first.
OUT = (2, 3)


def start(program, words, folder, **streams):
    """Starts the program in a folder; it ends with this process, however that one ends."""
    parent = os.getpid()
    try:
        return subprocess.Popen(
            [program, *map(str, words)], cwd=folder, stdin=subprocess.DEVNULL, preexec_fn=lambda: end_with(parent), **streams
        )
    except OSError as why:
        raise MatchFault(f"the program {program} can't be started: {why.strerror}") from why


def last_line(text):
    """The last line of notes that isn't empty."""
    lines = text.decode(errors="replace").split("\n")
    return next((line for line in reversed(lines) if line), "it said nothing")


def ending(status):
    """How a process ended, in words."""
    if status >= 0:
        return f"ended with status {status}"
    try:
        return f"was ended by {signal.Signals(-status).name}"
    except ValueError:
        return f"was ended by signal {-status}"


class Node:
    """A node, whose process runs, is to be started, or stays out."""

    def __init__(self, program, folder, number):
        self.program, self.folder, self.number = program, folder, number
        self.process, self.due, self.failures, self.begun, self.is_out, self.is_over = None, 0, 0, 0, False, False

    def initialize(self):
        """Makes its store."""
        words = ["init", self.folder.match, self.number]
        ran = start(self.program, words, self.folder.path, stdout=subprocess.DEVNULL, stderr=subprocess.PIPE)
        said = ran.communicate()[1]
        if ran.returncode:
            raise MatchFault(f"node {self.number} {ending(ran.returncode)}: {last_line(said)}")

    def start(self):
        """Starts its process. What an earlier one left of the log isn't needed: each start writes it anew."""
        try:
            for log in (self.folder.path / "logs").glob(f"node{self.number}.log*"):
                log.unlink()
            notes = open(self.folder.notes(self.number), "ab")
        except OSError as why:
            raise MatchFault(f"{self.folder.path}: {why.strerror}") from why
        with notes:
            words = ["node", self.folder.match, self.number]
            self.process = start(self.program, words, self.folder.path, stdout=subprocess.DEVNULL, stderr=notes)
        self.begun, self.is_over = time.monotonic(), False

    def note(self):
        """Its last note."""
        try:
            with open(self.folder.notes(self.number), "rb") as notes:
                notes.seek(max(0, notes.seek(0, os.SEEK_END) - 4096))
                return last_line(notes.read())
        except OSError:
            return "it said nothing"

    def tend(self):
        """Looks whether its process has ended, and starts it where it is time to. What is to be warned of, if anything is."""
        if self.is_out:
            return None
        if self.process is None:
            if time.monotonic() >= self.due:
                self.start()
            return None
        status = self.process.poll()
        if status is None:
            return None
        self.process = None
        return self.take_end(status)

    def take_end(self, status):
        """Decides what becomes of it."""
        now = time.monotonic()
        self.is_over = status == 0
        self.failures = self.failures + 1 if status == 1 and now < self.begun + SHORT else 0
        self.is_out = status in OUT or self.failures >= FAILURES
        self.due = now + (OVER_AFTER if self.is_over else AGAIN_AFTER)
        if self.is_over:
            return None
        goes_on = "stays out" if self.is_out else "is started again"
        said = f": {self.note()}" if status > 0 else ""
        return f"node {self.number} {ending(status)}, and {goes_on}{said}"

    def is_heard(self):
        """Whether more may come of its log."""
        return self.process is not None

    def forget(self):
        """Its store isn't wanted any more. Here the folder is removed with all of them."""

    def let_go(self):
        """Has its process end."""
        if self.process is not None:
            self.process.kill()

    def close(self):
        if self.process is not None:
            kill(self.process)
            self.process = None


class Nodes:
    """All nodes of a match. `warn` is told when one ends."""

    def __init__(self, slot, nodes, warn):
        self.slot, self.all, self.warn = slot, nodes, warn

    def initialize(self):
        """Makes the stores, that of node 0 first."""
        for node in self.all:
            node.initialize()

    def tend(self):
        """Starts nodes, at first and again. Where more than half of them stay out the match is at its end."""
        for node in self.all:
            warning = node.tend()
            if warning:
                self.warn(warning)
        out = [node for node in self.all if node.is_out]
        if 2 * len(out) > len(self.all):
            raise MatchFault(f"{len(out)} of {len(self.all)} nodes are out; the last note of node {out[-1].number}: {out[-1].note()}")

    def know_the_end(self):
        """Whether the match was over for a node, which has all of it in its log."""
        return any(node.is_over for node in self.all)

    def status(self, node):
        """What a node says of itself, by its words; nothing where it says nothing."""
        try:
            with socket.create_connection(self.slot.status(node), timeout=STATUS) as asked:
                words = asked.makefile("rb").readline().decode("ascii").split()
        except (OSError, UnicodeDecodeError):
            return {}
        return dict(zip(words[::2], words[1::2]))

    def front(self, is_majority_enough):
        """How many commands all nodes that don't stay out know to be chosen, where they agree, have a quorum and don't replay; else
        none. Where more than half of all are enough, those that say nothing don't matter: others have a vote for all that was chosen."""
        asked = [self.status(node.number) for node in self.all if not node.is_out]
        told = [said for said in asked if said]
        are_enough = told == asked or (is_majority_enough and 2 * len(told) > len(self.all))
        fronts = {said.get("front") for said in told}
        are_ready = all((said.get("replaying"), said.get("quorum")) == ("no", "yes") for said in told)
        return fronts.pop() if are_enough and are_ready and len(fronts) == 1 else None

    def close(self):
        for node in self.all:
            node.let_go()
        for node in self.all:
            node.close()

    def forget(self):
        """Has the stores removed, since the match is over."""
        for node in self.all:
            node.forget()
