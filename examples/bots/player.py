"""A bot's way to the dealer, whatever it plays. docs/BOTS.md says why it goes so.

`play` does all of it. Given ports, it plays at `serve`: it is connected to one node at a time, and goes on to the next node
when that connection ends. Given HOST:PORT, it plays at `node`: it is connected to all nodes at once, and loses nothing with
one of them. Either way it reads all that has come, and answers the newest line only.
"""
import argparse
import os
import queue
import re
import select
import socket
import sys
import threading
import time
from pathlib import Path
from typing import NamedTuple

# How long a bot pauses before it dials again, and how long a node of `node` may take to be reached, in seconds.
PAUSE, REACHED = 0.2, 2.0
# For how long all nodes of `serve` turn a bot away before it gives up, in seconds, if nothing else is said; and how long a
# connection stands at most over which it is turned away.
GIVE_UP, TURNED_AWAY = 10.0, 1.0
# How long a node of `node` has for the line that follows an answer, before another node gets the answer too, in seconds:
# the first node, the second and so on.
WAITS = [0.5, 1.0, 2.0, 4.0]
# For how long no newer line comes until a bot takes the newest one for that, after a node has begun with news, in seconds.
SETTLED = 0.2
# How often a bot looks what is due, in seconds.
LOOK = 0.05
# The most bytes of a dealer's line, and its form.
LONGEST = 4096
LINE = re.compile(rb"MATCHSTATE:[0-9]{1,9}:[0-9]{1,9}:[!-9;-~]*:[!-9;-~]*")
# What a node of `node` says behind the last line of a match, if it has another match than the bot, and if it has no quorum.
OVER, OTHER, NO_QUORUM = "#OVER", "#OTHER", "#WAIT"
# For how long all nodes that are reached say that they have another match until a bot gives up, in seconds; and how long it
# then pauses before it dials.
OTHER_TIME, OTHER_PAUSE = 10.0, 1.0
# How long a bot pauses before it dials a node that has no quorum, in seconds.
NO_QUORUM_PAUSE = 0.5


class Address(NamedTuple):
    """Where a node that runs in a process of its own takes the bot's seat."""

    host: str
    port: int


class Record:
    """What a bot got and sent, each line as SECONDS.MICROS TO LINE or SECONDS.MICROS FROM LINE. It shows who was wrong."""

    def __init__(self, file=None):
        self.file = file

    def keep(self, way, line):
        """Writes a line behind the others. A full disk ends the record, and not the match."""
        try:
            if self.file is not None:
                self.file.write(f"{time.time():.6f} {way} {line}\n".encode())
        except OSError as why:
            self.file = None
            print(f"the record ends: {why.strerror}", file=sys.stderr)


def ignore(line):
    """Does nothing with a line."""


def play(places, choose, see=ignore, token=None, give_up=None, record=Record(), first=0):
    """Plays a match at the seat that has these places, one at each node. Returns whether any line came.

    `see` gets each line. `choose` returns an action for the newest line, or none if the bot isn't to act there. A node of `node`
    says when the match is over. Else it is over, or the nodes are lost, when all of them have turned the bot away for `give_up`
    seconds: 10 for ports, while an `Address` is dialled without end. `first` is the node of `serve` at which the bot begins."""
    if isinstance(places[0], Address):
        return play_at_all(places, choose, see, token, give_up, record)
    return play_at_one(places, choose, see, GIVE_UP if give_up is None else give_up, record, first)


# At one node after the other, of `serve`.


def play_at_one(ports, choose, see, give_up, record, node):
    """Plays where the seat is expected at one node at a time: the next one, when a connection has ended."""
    came, turned_away, since = False, 0, time.monotonic()
    while turned_away < len(ports) or time.monotonic() - since < give_up:
        if turned_away and turned_away % len(ports) == 0:
            time.sleep(PAUSE)
        begun = time.monotonic()
        heard = sit(ports[node], choose, see, record)
        came = came or heard
        if heard or time.monotonic() - begun > TURNED_AWAY:
            turned_away, since = 0, time.monotonic()
        else:
            turned_away += 1
        node = (node + 1) % len(ports)
    return came


def sit(port, choose, see, record):
    """Answers the lines of a node until the connection ends. Returns whether any came: if none did, the bot was turned away."""
    connection = dial(("127.0.0.1", port))
    if connection is None:
        return False
    came = False
    with connection:
        send(connection, "VERSION:2.0.0")
        for lines in batches(connection):
            came = True
            for line in lines:
                record.keep("TO", line)
                see(line)
            action = choose(lines[-1])
            if action is not None:
                answer = f"{lines[-1]}:{action}"
                record.keep("FROM", answer)
                send(connection, answer)
    return came


# At all nodes at once, of `node`.


def play_at_all(addresses, choose, see, token, give_up, record):
    """Plays where each node takes the seat and sends it every line."""
    came, seat = queue.Queue(), Seat(see, record)
    nodes = [Node(address, token, came, seat) for address in addresses]
    while not (all(node.turns_away(give_up) for node in nodes) or have_another_match(nodes)):
        newest = seat.line
        seat.take(came, 0.0 if seat.is_due() else LOOK)
        if seat.line != newest:
            # While it chooses further lines may come: they are read before the answer is sent.
            action = choose(seat.line)
            seat.answer = None if action is None else f"{seat.line}:{action}"
        elif seat.line is not None and any(node.last == seat.line for node in nodes):
            return True
        elif seat.is_due():
            seat.send_answer()
    return seat.line is not None


def have_another_match(nodes):
    """Whether each node that is reached has said for a while that it has another match than the bot, and some node has."""
    others = [node.has_another_match() for node in nodes]
    if not any(others) or not all(other or node.turns_away(OTHER_TIME) for other, node in zip(others, nodes)):
        return False
    print("the nodes have another match than the bot", file=sys.stderr)
    return True


class Node(threading.Thread):
    """Stays connected to a node: dials it, hands on what comes, and dials it again when the connection has ended."""

    def __init__(self, address, token, came, seat):
        super().__init__(daemon=True)
        self.address, self.token, self.came, self.seat = address, token, came, seat
        # Since when the node turns the bot away; none while the bot is connected to it.
        self.since = time.monotonic()
        # The last line of the match, if the node has said so; and since when it says that it has another match.
        self.last, self.other_since = None, None
        self.start()

    def run(self):
        while True:
            pause, connection = PAUSE, dial(self.address, REACHED)
            if connection is None:
                self.other_since = None
            else:
                with connection:
                    pause = self.hand_on(connection)
            time.sleep(pause)

    def hand_on(self, connection):
        """Hands on the lines of a connection, with whether they are its first ones, and at last that it has ended. Returns how
        long the bot pauses before it dials again.

        The node is asked for the bot's newest line and all behind it. If the bot has none, it is asked for the newest one. A node
        that has no quorum says nothing of its match, and doesn't turn the bot away."""
        since, self.since, newest, has_quorum = self.since, None, None, True
        asked = "NEWEST" if self.seat.line is None else self.seat.line
        send(connection, *([f"#TOKEN {self.token}"] if self.token else []), f"#RESUME {asked}", "VERSION:2.0.0")
        for words in batches(connection, (OVER, OTHER, NO_QUORUM)):
            lines = [word for word in words if word not in (OVER, OTHER, NO_QUORUM)]
            if lines:
                self.came.put((connection, lines, newest is None))
                since, self.other_since, newest = None, None, lines[-1]
            if OVER in words and newest is not None:
                self.last = newest
            if OTHER in words and self.other_since is None:
                self.other_since = time.monotonic()
            if NO_QUORUM in words:
                since, self.other_since, has_quorum = None, None, False
        self.came.put((connection, [], False))
        self.since = time.monotonic() if since is None else since
        if not has_quorum:
            return NO_QUORUM_PAUSE
        return PAUSE if self.other_since is None else OTHER_PAUSE

    def turns_away(self, seconds):
        """Whether the node has turned the bot away for so long, by refusing it or closing its connections before any line."""
        since = self.since
        return seconds is not None and since is not None and time.monotonic() - since >= seconds

    def has_another_match(self):
        """Whether it has said so for a while, and has told no line since."""
        since = self.other_since
        return since is not None and self.since is not None and time.monotonic() - since >= OTHER_TIME


class Seat:
    """A seat at several nodes. Each line counts once, in order, whichever node sends it first."""

    def __init__(self, see, record):
        self.see, self.record = see, record
        # The newest line, and the bot's answer to it.
        self.line, self.answer = None, None
        # The connections over which that line came and the answer didn't go yet, and those over which it went.
        self.ready, self.told = [], []
        # When the answer goes to another node.
        self.due = 0.0

    def take(self, came, wait):
        """Takes all that has come, and waits so many seconds if nothing has.

        A node begins with the newest line that it knows. If that is news, lines before it may be on their way from other
        nodes. Lines behind it may follow too, from a node that was just started. So both are awaited."""
        pieces = drained(came, wait)
        if any(is_first and self.is_news(lines[-1]) for _, lines, is_first in pieces):
            pieces += settled(came, newest_place(pieces))
        told = [(line, connection) for connection, lines, _ in pieces for line in lines]
        for line, connection in sorted(told, key=lambda pair: place_of(pair[0])):
            self.take_line(line, connection)
        for connection, lines, _ in pieces:
            if not lines:
                self.lose(connection)

    def is_news(self, line):
        """Whether a line is behind the newest one in the match."""
        return self.line is None or place_of(line) > place_of(self.line)

    def take_line(self, line, connection):
        if self.is_news(line):
            self.record.keep("TO", line)
            self.see(line)
            self.line, self.answer, self.ready, self.told, self.due = line, None, [], [], 0.0
        if line == self.line and connection not in self.ready + self.told:
            self.ready.append(connection)

    def lose(self, connection):
        """A connection has ended: if the answer went there last, another node gets it now."""
        if connection in self.ready:
            self.ready.remove(connection)
        if self.told and self.told[-1] is connection:
            self.due = 0.0

    def is_due(self):
        """Whether the answer is to go to a node now."""
        return self.answer is not None and self.ready != [] and time.monotonic() >= self.due

    def send_answer(self):
        """Sends the answer to the next node that sent the line. Over each connection it goes once."""
        wait = WAITS[min(len(self.told), len(WAITS) - 1)]
        self.told.append(self.ready.pop(0))
        self.record.keep("FROM", self.answer)
        send(self.told[-1], self.answer)
        self.due = time.monotonic() + wait


def place_of(line):
    """Where a line stands in the match: its hand, and how long its betting is, which grows with each action."""
    _, _, hand, betting, _ = line.split(":")
    return int(hand), len(betting)


def newest_place(pieces):
    """Where the newest line of all these stands."""
    return max((place_of(lines[-1]) for _, lines, _ in pieces if lines), default=(0, -1))


def drained(came, wait):
    """All that has come; if nothing has, what comes first within so many seconds, and all behind it."""
    pieces = []
    try:
        while True:
            pieces.append(came.get(timeout=0.0 if pieces else wait))
    except queue.Empty:
        return pieces


def settled(came, newest):
    """All that comes until for a while no line came that is behind the newest one."""
    pieces, until = [], time.monotonic() + SETTLED
    while time.monotonic() < until:
        more = drained(came, max(0.0, until - time.monotonic()))
        if newest_place(more) > newest:
            newest, until = newest_place(more), time.monotonic() + SETTLED
        pieces += more
    return pieces


# Connections.


def dial(address, seconds=None):
    """Returns a connection that was made, within so many seconds; none if it is refused."""
    try:
        connection = socket.create_connection(address, timeout=seconds)
    except OSError:
        return None
    if is_with_itself(connection):
        connection.close()
        return None
    connection.settimeout(None)
    connection.setsockopt(socket.IPPROTO_TCP, socket.TCP_NODELAY, 1)
    watch(connection)
    return connection


def is_with_itself(connection):
    """Whether the system connected a socket to itself, as it may if nobody listens; so counts one that ended at once."""
    try:
        return connection.getsockname() == connection.getpeername()
    except OSError:
        return True


def watch(connection):
    """Lets the system end the connection five seconds after the other machine was lost, though nothing is said."""
    connection.setsockopt(socket.SOL_SOCKET, socket.SO_KEEPALIVE, 1)
    for option, value in (("TCP_KEEPIDLE", 2), ("TCP_KEEPINTVL", 1), ("TCP_KEEPCNT", 3), ("TCP_USER_TIMEOUT", 5000)):
        if hasattr(socket, option):
            connection.setsockopt(socket.IPPROTO_TCP, getattr(socket, option), value)


def send(connection, *lines):
    """Sends lines. If they can't be sent, what came before may still be there to be read, so that is no end yet."""
    try:
        connection.sendall("".join(line + "\r\n" for line in lines).encode())
    except OSError:
        pass


def batches(connection, words=()):
    """Yields the lines that have come, all of them at a time and without their ends, until the connection ends. These words
    count as lines."""
    rest, lines = b"", []
    while True:
        try:
            piece = connection.recv(65536)
        except OSError:
            piece = b""
        *whole, rest = (rest + piece).split(b"\n")
        found = [line.strip() for line in whole]
        lines += [line.decode() for line in found if LINE.fullmatch(line) or line in [word.encode() for word in words]]
        has_ended = not piece or len(rest) > LONGEST
        if lines and (has_ended or lines[-1] in words or not (rest or select.select([connection], [], [], 0)[0])):
            yield lines
            lines = []
        if has_ended:
            return


# The command line.


def place(word):
    """The node that a word of the command line names."""
    if word.isdecimal():
        return int(word)
    found = re.fullmatch(r"(?:\[(.+)\]|([^:]+)):([0-9]+)", word)
    if found is None:
        raise argparse.ArgumentTypeError(f"{word!r} is neither PORT nor HOST:PORT")
    return Address(found[1] or found[2], int(found[3]))


def secret(word):
    """The token that a word of the command line says."""
    if re.fullmatch("[0-9a-f]{64}", word) is None:
        raise argparse.ArgumentTypeError("a token is 64 hexadecimal digits, small ones")
    return word


def secret_in(word):
    """The token in the first line of a file."""
    return secret(opened(word, "r").readline().strip())


def game_file(word):
    """The path of a game file that can be read. The dealer looks whether it is right."""
    with opened(word, "rb") as file:
        if b"gamedef" not in file.read().lower():
            raise argparse.ArgumentTypeError(f"{word}: not a game file")
    return Path(word)


def record(word):
    """A record that goes on at the end of a file."""
    return Record(opened(word, "ab", buffering=0))


def opened(word, *how, **more):
    try:
        return open(word, *how, **more)
    except OSError as why:
        raise argparse.ArgumentTypeError(f"{word}: {why.strerror}")


def arguments(about, *more):
    """The words of the command line: the game, what more the bot takes, and where its seat is, by node."""
    words = argparse.ArgumentParser(description=about)
    words.add_argument("game", type=game_file, metavar="GAME", help="the game file of the match")
    for name, about_it in more:
        words.add_argument(name, type=int, metavar=name.upper(), help=about_it)
    words.add_argument(
        "places", type=place, nargs="+", metavar="PLACE",
        help="where the bot's seat is at each node, node 0 first: PORT for `serve` on this machine, HOST:PORT for `node`",
    )
    words.add_argument("--token-file", type=secret_in, metavar="FILE", help="a file whose first line is the token of the bot's seat, for HOST:PORT")
    words.add_argument(
        "--token", type=secret, metavar="HEX", default=os.environ.get("HOLDEM_TOKEN") or None,
        help="the token itself, which others on this machine can see; without both it is what HOLDEM_TOKEN says",
    )
    words.add_argument("--record", type=record, default=Record(), metavar="FILE", help="adds each line that the bot gets or sends to this file")
    words.add_argument(
        "--give-up", type=float, metavar="S",
        help="ends when all nodes have turned the bot away for so many seconds: 10 for PORT; HOST:PORT is dialled without end",
    )
    words.add_argument(
        "--room", metavar="NAME", help="HOST:PORT is that of a room, to which the bot says this name and its token; more words may follow: 'alice against house'",
    )
    found = words.parse_args(sys.argv[1:])
    if found.room and (len(found.places) > 1 or not isinstance(found.places[0], Address) or not (found.token_file or found.token)):
        words.error("--room goes with one HOST:PORT, and with a token")
    if len({isinstance(one, Address) for one in found.places}) > 1:
        words.error("PORT is for `serve` and HOST:PORT for `node`: give the one or the other")
    return found


def run(words, choose, see=ignore):
    """Plays a match by the words of the command line. Exits with status 1 if no line came at all."""
    if words.room:
        from room import play_in_room

        token = words.token_file or words.token
        if not play_in_room(words.places[0], words.room, token, choose, see, words.give_up, words.record):
            sys.exit("the room sent no line")
        return
    if not play(words.places, choose, see, words.token_file or words.token, words.give_up, words.record):
        sys.exit("no node sent a line: see whether the nodes run, and whether places and token are right")
