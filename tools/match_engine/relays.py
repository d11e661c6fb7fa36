"""The relay of a seat: a process between its player, who dials once, and the nodes."""
import os
import re
import signal
import subprocess

from .faults import Failed, MatchFault
from .node_processes import ending, last_line, start
from .program import kill
from .seats import SHOWN, VERSION, no_port, printable

# A relay waits for nodes as long as it can, eleven days: it is for the dealer to say when there is nothing to wait for.
GIVE_UP = 1_000_000
TRACED = re.compile(rb"(\d+)\.(\d{6}) (TO|FROM) (.*)", re.A | re.S)
# The relay's last notes that are the player's fault, its last note once the match is over, and how the first note begins.
LEFT, WRONG_VERSION = "the bot ended its connection", "the bot's first line isn't VERSION:2.0.0"
OVER, CAME = "the match is over", b"bot: connected"
# What stands in its notes where its trace lacks lines.
GAPS = b"left out of the trace"
# The most bytes of notes that are kept.
NOTES = 4096


class Relay:
    """A relay. `port` is where the player is awaited; `version` is his first line, once it came."""

    def __init__(self, program, folder, slot, seat, listen, port):
        host = f"[{listen}]" if ":" in listen else listen
        words = ["relay", "--newest", "--port", port, "--listen", host, "--mend", "game", "--trace", "-", "--token-file", f"token{seat}"]
        words += ["--give-up", GIVE_UP, *(slot.seat(node, seat) for node in range(slot.nodes))]
        self.seat, self.version, self.status = seat, None, None
        self.process = self.begin(program, folder, [str(word) for word in words])
        self.traced, self.said, self.has_come = b"", b"", False
        self.port = self.first_line(listen, port)
        for pipe in self.pipes():
            os.set_blocking(pipe.fileno(), False)

    def begin(self, program, folder, words):
        return start(program, words, folder.path, **self.streams())

    @staticmethod
    def streams():
        return {"stdout": subprocess.PIPE, "stderr": subprocess.PIPE}

    def pipes(self):
        return self.process.stdout, self.process.stderr

    def hold(self, is_held):
        """Has it stand still, or go on."""
        self.process.send_signal(signal.SIGSTOP if is_held else signal.SIGCONT)

    def no_port(self, listen, port, said):
        """The MatchFault of a relay that has ended before it told its port."""
        return no_port(listen, port, said)

    def first_line(self, listen, port):
        """The number of its port."""
        line = b""
        while not line.endswith(b"\n"):
            piece = os.read(self.process.stdout.fileno(), 1)
            if not piece:
                fault = self.no_port(listen, port, last_line(self.process.stderr.read()))
                self.close()
                raise fault
            line += piece
        return int(line)

    def read(self):
        """Reads what it tells. The lines to and from the player since, each with its time in microseconds and its way; of what he
        said first, the version isn't told."""
        while True:
            self.take_notes()
            piece = self.piece(self.process.stdout)
            if not piece:
                break
            self.traced += piece
        lines = self.traced.split(b"\n")
        self.traced = lines.pop()
        return [told for told in map(self.told, lines) if told is not None]

    def piece(self, pipe):
        """What is there to be read of a pipe. Where it is at its end the process has ended, or is about to."""
        try:
            piece = os.read(pipe.fileno(), 65536)
        except BlockingIOError:
            return b""
        if not piece and self.status is None and pipe is self.process.stdout:
            self.status = self.process.wait()
            self.take_notes()
        return piece

    def take_notes(self):
        """Keeps the last of its notes."""
        piece = self.piece(self.process.stderr)
        while piece:
            self.said = self.said[-NOTES:] + piece
            self.has_come = self.has_come or CAME in self.said
            piece = self.piece(self.process.stderr)

    def told(self, line):
        """What a line of the trace tells; nothing where it is the player's version, or a comment before it."""
        found = TRACED.fullmatch(line)
        if found is None:
            raise MatchFault(f"the relay of seat {self.seat + 1} traces what is no line: {printable(line)[:SHOWN]!r}")
        at, way, text = int(found[1]) * 1_000_000 + int(found[2]), found[3].decode(), printable(found[4])
        if self.version is None:
            self.version = None if text[:1] in ("#", ";") else text
            return None
        return at, way, text

    def has_version(self):
        """Whether the player has named his version, and a right one."""
        return self.version is not None and VERSION.fullmatch(self.version) is not None

    def has_left(self):
        """Whether it has ended since the player ended the connection."""
        return self.status is not None and last_line(self.said) == LEFT

    def has_gaps(self):
        """Whether it has ended, and its trace lacks lines, which nobody took in time."""
        return self.status is not None and GAPS in self.said

    def is_over(self):
        """Whether it has ended since the match is over."""
        return self.status is not None and last_line(self.said) == OVER

    def fail(self):
        """Says why it has ended: Failed where that is the player's fault."""
        note = last_line(self.said)
        if note == LEFT:
            raise Failed("the player ended the connection")
        if note == WRONG_VERSION:
            raise Failed(f"the first line isn't VERSION:2.0.0 but {(self.version or '')[:SHOWN]!r}")
        raise MatchFault(f"the relay of seat {self.seat + 1} {ending(self.status)}: {note}")

    def close(self):
        """Ends it, and so the player's connection."""
        kill(self.process)
        for pipe in self.pipes():
            pipe.close()
