"""What a bot says to a room before it plays, and what a room says to it: comment lines, which every other dealer passes over.

The bot says VERSION:2.0.0 and `#ROOM NAME TOKEN [against NAME|house] [hands N]`. The room's words behind #ROOM are those below.
"""
import re
import socket
from typing import NamedTuple, Optional

ROOM = "#ROOM"
# The bot waits; it plays; the match is over.
WAITING, MATCH, OVER = "waiting", "match", "over"
# Its connection ends: it may dial again with what it said; it may not; its seat is kept for a while; its seat isn't kept any more.
LATER, REFUSED, AGAIN, DROPPED = "later", "refused", "again", "dropped"
FORM = f"say {ROOM} NAME TOKEN [against NAME|house] [hands N] behind VERSION:2.0.0"
# A token: what is hard to guess is longer than this.
TOKEN = re.compile(r"[!-~]{16,128}")
NUMBER = re.compile(r"[1-9][0-9]{0,5}", re.A)
# How either end notices a machine that was lost: within about six seconds.
WATCHED = (("TCP_KEEPIDLE", 2), ("TCP_KEEPINTVL", 1), ("TCP_KEEPCNT", 3), ("TCP_USER_TIMEOUT", 6000))


def watch(connection):
    """Has the system end a connection whose other machine was lost, as far as it can, and send each line at once."""
    connection.setsockopt(socket.IPPROTO_TCP, socket.TCP_NODELAY, 1)
    connection.setsockopt(socket.SOL_SOCKET, socket.SO_KEEPALIVE, 1)
    for option, value in WATCHED:
        if hasattr(socket, option):
            connection.setsockopt(socket.IPPROTO_TCP, getattr(socket, option), value)


class Malformed(Exception):
    """Why a line isn't one of the form."""


class Asked(NamedTuple):
    """Who a bot is, whom he wants to play, if anybody, and how many hands, if he says it."""

    name: str
    token: str
    against: Optional[str] = None
    hands: Optional[int] = None

    def line(self):
        more = [("against", self.against), ("hands", self.hands)]
        return " ".join([ROOM, self.name, self.token, *(f"{key} {value}" for key, value in more if value is not None)])


def read(line):
    """What a bot's line asks for."""
    word, *words = line.split(" ")
    if word != ROOM or len(words) % 2 or len(words) < 2:
        raise Malformed(FORM)
    name, token, *more = words
    wishes = dict(zip(more[::2], more[1::2]))
    if set(wishes) - {"against", "hands"} or len(wishes) < len(more) // 2:
        raise Malformed(FORM)
    if "hands" in wishes and not NUMBER.fullmatch(wishes["hands"]):
        raise Malformed(f"hands is a number: {FORM}")
    return Asked(name, token, wishes.get("against"), int(wishes["hands"]) if "hands" in wishes else None)


def told(what, text):
    """A line of the room, as it is sent."""
    return f"{ROOM} {what}: {text}\r\n".encode()


def heard(line):
    """What a room said and the text behind it; nothing where a line isn't the room's."""
    if not line.startswith(ROOM + " "):
        return None
    what, _, text = line[len(ROOM) + 1 :].partition(": ")
    return what, text
