"""A seat's way to its player: a port, and the one connection that it takes."""
import errno
import os
import re
import socket
import time

from .faults import Failed, MatchFault

# (blanks may stand behind it: the original reads three numbers, and no further)
VERSION = re.compile(r"VERSION:2\.0\.[0-9]{1,9} *")
# The most bytes of a player's line before its LF, and how many of a longer one are kept to be shown.
LINE, SHOWN = 4096, 100
# How long a line may take to be taken, and how often it is asked whether a player is coming, in seconds.
SENDING, LOOK = 5, 0.1
# How long players are waited for at the match's end until they have read the last lines, in seconds, all together.
PARTING = 0.5


def left(until):
    """Seconds until a moment of the monotonic clock, none where there is no end; a socket takes no 0."""
    return None if until is None else max(0.001, until - time.monotonic())


def is_past(until):
    """Whether a moment of the monotonic clock has passed. It is asked before what came is looked at: what comes while this process
    stands still behind that look isn't late."""
    return until is not None and time.monotonic() >= until


def printable(data):
    """A player's bytes as text that does nothing to a terminal."""
    return "".join(chr(byte) if 32 <= byte < 127 else f"\\x{byte:02x}" for byte in data)


def no_port(address, port, why):
    """The MatchFault of a port that can't be had, and what to do where another program has it."""
    advice = "; give another one, or see by ss -ltnp who has it" if why == os.strerror(errno.EADDRINUSE) else ""
    return MatchFault(f"port {port} at {address} can't be had: {why}{advice}")


def bound(address, port):
    """A socket that has a port of an address, 0 being any free one. Nobody can come to it before it listens."""
    try:
        found = socket.socket(socket.AF_INET6 if ":" in address else socket.AF_INET, socket.SOCK_STREAM)
        found.setsockopt(socket.SOL_SOCKET, socket.SO_REUSEADDR, 1)
        found.bind((address, port))
    except (OSError, OverflowError) as why:
        raise no_port(address, port, getattr(why, "strerror", None) or why) from why
    return found


class Seat:
    """A port, and the player who has come to it."""

    def __init__(self, address, port):
        """Listens at a port of an address; 0 is any free one."""
        self.connection, self.buffer, self.listener = None, b"", bound(address, port)
        try:
            self.listener.listen(8)
        except OSError as why:
            raise no_port(address, port, why.strerror) from why
        self.port = self.listener.getsockname()[1]

    def admit(self, until, is_last, is_coming):
        """Waits for the player's connection and version. Where it is the last, nobody can come to the port any more. Who
        isn't coming, as is asked now and then, isn't waited for. Who has come and named his version before this seat was
        looked at isn't late, whatever the time: other seats were waited for first."""
        self.connection = None
        while self.connection is None:
            is_late, may_come = is_past(until), is_coming()
            try:
                self.listener.settimeout(LOOK if until is None else min(LOOK, left(until)))
                self.connection, _ = self.listener.accept()
            except socket.timeout as why:
                if is_late:
                    raise Failed("the player didn't connect in time") from why
                if not may_come:
                    raise Failed("the player's program ended") from why
            except OSError as why:
                raise MatchFault(f"port {self.port}: {why.strerror}") from why
        self.connection.setsockopt(socket.IPPROTO_TCP, socket.TCP_NODELAY, 1)
        self.buffer = b""
        if is_last:
            self.listener.close()
        late = "the player named no version in time"
        line = self.line(until, late)
        while line[:1] in ("#", ";"):
            if b"\n" not in self.buffer and is_past(until):
                raise Failed(late)
            line = self.line(until, late)
        if not VERSION.fullmatch(line):
            raise Failed(f"the first line isn't VERSION:2.0.0 but {line[:SHOWN]!r}")

    def send(self, line):
        """Sends a line. A connection that takes none for some seconds has hundreds of lines that its player hasn't read."""
        try:
            self.connection.settimeout(SENDING)
            self.connection.sendall(line.encode("ascii") + b"\r\n")
        except OSError as why:
            raise Failed(f"the player takes no line any more ({why.strerror or why})") from why

    def piece(self, until):
        """What the player has sent, which may have been there before; nothing where nothing comes until then."""
        self.connection.settimeout(left(until))
        try:
            piece = self.connection.recv(65536)
        except socket.timeout:
            return b""
        except OSError as why:
            raise Failed(f"the connection failed ({why.strerror or why})") from why
        if not piece:
            raise Failed("the player ended the connection")
        return piece

    def line(self, until, late):
        """The player's next line without its end, as printable text. Of one that is too long the beginning is told, behind
        words that no line begins with. `late` says what it is where none comes in time."""
        while b"\n" not in self.buffer:
            is_late = is_past(until)
            self.buffer = self.buffer[: LINE + 1] + self.piece(until)
            if b"\n" not in self.buffer and is_late:
                raise Failed(late)
        line, _, self.buffer = self.buffer.partition(b"\n")
        if len(line) > LINE:
            return f"(a line of more than {LINE} bytes) {printable(line[:SHOWN])}"
        return printable(line[:-1] if line.endswith(b"\r") else line)

    def drop(self):
        """Ends the connection, and those that wait at the port."""
        if self.connection is not None:
            self.connection.close()
            self.connection = None
        self.listener.settimeout(0)
        try:
            while True:
                self.listener.accept()[0].close()
        except OSError:
            pass

    def close(self):
        self.listener.close()
        if self.connection is not None:
            self.connection.close()


def take_leave(seats):
    """Says to players that nothing more comes, and waits a moment until they have read what came: who closes a connection
    in which something unread stands takes back what the other hasn't read."""
    connections = [seat.connection for seat in seats if seat.connection is not None]
    until = time.monotonic() + PARTING
    for connection in connections:
        try:
            connection.shutdown(socket.SHUT_WR)
        except OSError:
            pass
    for connection in connections:
        try:
            while True:
                connection.settimeout(left(until))
                if not connection.recv(65536) or time.monotonic() > until:
                    break
        except OSError:
            pass
