"""A dialled player's way to his seat: what comes over his connection goes to the seat's port, and what the seat is sent to him."""
import json
import signal
import socket
import threading
import time
from typing import NamedTuple

from league_parts.bots import INTERRUPTS

from . import asking

# What the engine is told first, in the player's name.
VERSION = b"VERSION:2.0.0\r\n"
# How long a player has to read the last lines, in seconds, and the most bytes that are copied at once.
PARTING, PIECE = 1.0, 65536
# What is said to who comes when his seat isn't kept any more.
TOO_LATE = asking.told(asking.LATER, "your seat was given up; dial again for another match")
# The most bytes of a message between the room and a match.
MESSAGE = 65536


class Arrived(NamedTuple):
    """A connection that was handed over, and what came over it before."""

    connection: socket.socket
    rest: bytes


def say_to(connection, line):
    """Sends a line of the room's, if the player takes it now."""
    try:
        connection.send(line, socket.MSG_DONTWAIT)
    except OSError:
        pass


class Awaited:
    """Where a seat's next connection is awaited."""

    def __init__(self):
        self.condition, self.arrived, self.is_closed = threading.Condition(), None, False

    def give(self, arrived):
        """Takes a connection in; whether the seat is still kept for it."""
        with self.condition:
            if self.is_closed:
                return False
            self.arrived = arrived
            self.condition.notify_all()
        return True

    def take(self, until):
        """The next connection; none where none comes until a moment, or the seat isn't kept any more."""
        with self.condition:
            self.condition.wait_for(lambda: self.arrived is not None or self.is_closed, max(0.0, until - time.monotonic()))
            arrived, self.arrived = self.arrived, None
        return arrived

    def close(self):
        """Keeps the seat no longer; the connection that nobody took, if there is one."""
        with self.condition:
            self.is_closed = True
            arrived, self.arrived = self.arrived, None
            self.condition.notify_all()
        return arrived


class Control(threading.Thread):
    """The match's way to its room: connections come over it, each for a seat, and it says what becomes of seats."""

    def __init__(self, descriptor):
        super().__init__(daemon=True)
        self.socket, self.awaited = socket.socket(fileno=descriptor), []
        self.socket.set_inheritable(False)

    def first(self):
        """The room's first message; nothing where the room has ended."""
        message = self.socket.recv(MESSAGE)
        return json.loads(message) if message else None

    def begin(self, seats):
        """Takes connections for so many seats from now on."""
        self.awaited = [Awaited() for _ in range(seats)]
        self.start()

    def run(self):
        signal.pthread_sigmask(signal.SIG_BLOCK, INTERRUPTS)
        try:
            while True:
                message, descriptors, _, _ = socket.recv_fds(self.socket, MESSAGE, 1)
                if not message:
                    return
                self.take(json.loads(message), descriptors)
        except OSError:
            return

    def take(self, said, descriptors):
        connection = socket.socket(fileno=descriptors[0])
        connection.set_inheritable(False)
        connection.setblocking(True)
        if not self.awaited[said["seat"]].give(Arrived(connection, said["rest"].encode("latin-1"))):
            say_to(connection, TOO_LATE)
            connection.close()

    def say(self, **words):
        try:
            self.socket.send(json.dumps(words).encode())
        except OSError:
            # The room has ended, and this process is about to.
            pass


class Link:
    """A dialled player at his seat: he is awaited for so many seconds, and then what comes from either side goes to the other."""

    def __init__(self, awaited, place, seconds, lost):
        """`place` is host and port of the seat; `lost` is called once his connection has ended."""
        self.awaited, self.place, self.lost, self.until = awaited, place, lost, time.monotonic() + seconds
        self.arrived, self.upstream, self.is_over, self.is_told = None, None, False, False
        self.up, self.down = threading.Thread(target=self.run, daemon=True), threading.Thread(target=self.copy_down, daemon=True)
        self.up.start()

    @property
    def has_come(self):
        return self.arrived is not None

    def is_running(self):
        """Whether he is there, or may come."""
        return not self.is_over

    def run(self):
        signal.pthread_sigmask(signal.SIG_BLOCK, INTERRUPTS)
        self.arrived = self.awaited.take(self.until)
        if self.arrived is not None:
            try:
                self.upstream = socket.create_connection(self.place)
                self.upstream.sendall(VERSION + self.arrived.rest)
                self.down.start()
                copy(self.arrived.connection, self.upstream)
            except OSError:
                # The seat's connection has ended, or the player's was reset.
                pass
            self.end_upstream(socket.SHUT_WR)
        self.is_over = True
        self.tell_lost()

    def end_upstream(self, how):
        """Ends the seat's connection, one way or both, so that the engine learns of it."""
        if self.upstream is not None:
            end(self.upstream, how)

    def tell_lost(self):
        """Says that his connection has ended, once, if there was one."""
        if self.has_come and not self.is_told:
            self.is_told = True
            self.lost()

    def copy_down(self):
        """The player's connection stays when the seat's has ended: he is told why."""
        signal.pthread_sigmask(signal.SIG_BLOCK, INTERRUPTS)
        try:
            copy(self.upstream, self.arrived.connection)
        except OSError:
            pass

    def stop(self):
        """Ends the seat's connection, and says that the player's ends too."""
        self.end_upstream(socket.SHUT_RDWR)
        self.tell_lost()

    def leave(self, line):
        """Has the player get what came for him, and then a line of the room's; his connection ends."""
        if not self.has_come:
            return
        if self.down.is_alive():
            self.down.join(PARTING)
        self.stop()
        say_to(self.arrived.connection, line)
        end(self.arrived.connection, socket.SHUT_WR)

    def close(self):
        """Ends the player's connection, once he has ended it too, or had time to."""
        if self.has_come:
            self.up.join(PARTING)
            end(self.arrived.connection, socket.SHUT_RDWR)
            self.arrived.connection.close()


def copy(source, target):
    """Copies what comes from one connection to another one, until nothing more comes."""
    for piece in iter(lambda: source.recv(PIECE), b""):
        target.sendall(piece)


def end(connection, how):
    """Ends a connection one way or both, so that who reads from it or writes to it goes on."""
    try:
        connection.shutdown(how)
    except OSError:
        pass
