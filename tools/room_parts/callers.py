"""Who is connected to a room and doesn't play: he hasn't said who he is, or waits, or is about to leave."""
import contextlib
import hashlib
import hmac
import re
import socket
import time
from enum import Enum

from match_engine.seats import VERSION, printable

from . import asking

# How long a connection may take to say who it is, and to read why it ends, in seconds.
GREETING, PARTING = 10.0, 1.0
# The most bytes that are taken of who doesn't play.
MOST = 4096


class State(Enum):
    """What a connection waits for: what it says, others to play, a seat that may be lost, the others of a match that goes on, its end."""

    GREETING, WAITING, HELD, GOING_ON, LEAVING = range(5)


class Refused(Exception):
    """Why a connection is closed; `what` is the room's word for it."""

    def __init__(self, what, text):
        super().__init__(text)
        self.what = what


def is_token(room, name, token):
    """Whether somebody shows the token of a player. It takes as long whoever he says he is."""
    wanted = room.tokens.get(name, "")
    return hmac.compare_digest(hashlib.sha256(token.encode()).hexdigest(), wanted or "0" * 64) and bool(wanted)


class Caller:
    """A connection that doesn't play."""

    def __init__(self, connection, address):
        self.connection, self.address, self.since, self.data = connection, address, time.monotonic(), b""
        self.state, self.until, self.has_version, self.asked = State.GREETING, self.since + GREETING, False, None
        connection.setblocking(False)
        # (an end that came meanwhile is read as any other)
        with contextlib.suppress(OSError):
            asking.watch(connection)

    def fileno(self):
        return self.connection.fileno()

    @property
    def name(self):
        return self.asked.name

    @property
    def text(self):
        """Who it is, for notes."""
        return f"{self.asked.name if self.asked else 'a connection'} ({self.address})"

    def take(self):
        """Takes what has come; False where nothing more comes."""
        try:
            piece = self.connection.recv(MOST)
        except BlockingIOError:
            return True
        except OSError:
            return False
        if self.state != State.LEAVING:
            self.data += piece
        return bool(piece)

    def greet(self, room):
        """Reads what it has said as far as whole lines are there; whether that is all that it has to say."""
        self.refuse_more()
        while b"\n" in self.data and self.asked is None:
            line, _, self.data = self.data.partition(b"\n")
            self.read(room, printable(line.removesuffix(b"\r")))
        return self.asked is not None

    def refuse_more(self):
        """Refuses somebody who says more than a bot has to say before a match."""
        if len(self.data) >= MOST:
            raise Refused(asking.REFUSED, f"more than {MOST} bytes came before a match")

    def read(self, room, line):
        if not self.has_version:
            self.has_version = VERSION.fullmatch(line) is not None
            if not self.has_version and line[:1] not in ("#", ";"):
                raise Refused(asking.REFUSED, "the first line isn't VERSION:2.0.0")
        elif re.match(f"{asking.ROOM}( |$)", line):
            self.asked = asked_of(room, line)
        elif line[:1] not in ("#", ";"):
            raise Refused(asking.REFUSED, asking.FORM)

    def say(self, what, text):
        """Sends a line, if it can be sent now."""
        try:
            self.connection.send(asking.told(what, text))
        except OSError:
            # Its end comes by what it is read for.
            pass

    def leave(self, what, text):
        """Says why its connection ends, and begins to end it: it goes once the other end has read that, or had time to."""
        self.say(what, text)
        self.state, self.until = State.LEAVING, time.monotonic() + PARTING
        try:
            self.connection.shutdown(socket.SHUT_WR)
        except OSError:
            pass

    def close(self):
        self.connection.close()


def asked_of(room, line):
    """What a line asks for, if its name has shown its token and there is such a match."""
    try:
        asked = asking.read(line)
    except asking.Malformed as why:
        raise Refused(asking.REFUSED, str(why)) from why
    if not is_token(room, asked.name, asked.token):
        raise Refused(asking.REFUSED, "no player of this name and token")
    names = {*room.tokens, *room.houses, *(["house"] if room.houses else [])} - {asked.name}
    if asked.against is not None and asked.against not in names:
        raise Refused(asking.REFUSED, f"against {asked.against}: nobody else is called so here")
    if asked.hands is not None and asked.hands not in room.hands:
        raise Refused(asking.REFUSED, f"hands {asked.hands}: here a match has {' or '.join(map(str, room.hands))}")
    return asked
