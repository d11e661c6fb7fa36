"""tools/room --join: plays matches of a room by a bot that dials once and knows nothing of rooms.

The bot is started for each match and keeps its connection while that to the room is lost and made again. It gets each of the
dealer's lines once, and what the room says by #ROOM is told here.
"""
import argparse
import os
import re
import select
import signal
import socket
import subprocess
import sys
import time
from pathlib import Path

from . import asking

# The address at which a bot is awaited, how long it may take to come, and to end, in seconds.
HERE, COMING, GRACE = "127.0.0.1", 600.0, 2.0
# How long is paused before the room is dialled again, how long a dial may take, and how often a bot is looked at, in seconds.
PAUSE, REACHED, LOOK = 1.0, 10.0, 0.5
# How often a bot is started again in one match.
RESTARTS = 3
USAGE = "tools/room --join HOST:PORT NAME --token-file FILE [OPTIONS] -- COMMAND"
PIECE = 65536
ENDS = (signal.SIGINT, signal.SIGTERM, signal.SIGHUP)
PLACE = re.compile(r"(?:\[(.+)\]|([^:]+)):([0-9]+)", re.A)
# How a connection to the room came to its end: the match is over for this player, the bot ended, or it is to be dialled again.
OVER, BOT_ENDED, AGAIN = "over", "bot ended", "again"


class Failed(Exception):
    """Why no more matches are played."""


def say(text):
    """Tells something on standard error. What others say does nothing to a terminal."""
    text = "".join(letter if letter.isprintable() else f"\\x{ord(letter):02x}" for letter in text)
    print(f"room: {text}", file=sys.stderr, flush=True)


def lines_of(data):
    """The whole lines of what came, with their ends, and what is behind them."""
    *whole, rest = data.split(b"\n")
    return [line + b"\n" for line in whole], rest


class Bot:
    """A bot that was started for a match, and its connection."""

    def __init__(self, command):
        """Starts it, and waits until it has come and said its version."""
        with socket.create_server((HERE, 0)) as listener:
            port = str(listener.getsockname()[1])
            words = [word.replace("{host}", HERE).replace("{port}", port) for word in command]
            try:
                self.process = subprocess.Popen(words, stdin=subprocess.DEVNULL, stdout=2, start_new_session=True)
            except OSError as why:
                raise Failed(f"the bot {words[0]} can't be started: {why.strerror}") from why
            try:
                self.connection = self.awaited(listener)
                self.data = b""
                while b"\n" not in self.data:
                    self.connection.settimeout(COMING)
                    self.data += self.received()
            except BaseException:
                self.end()
                raise
        self.version, _, self.data = self.data.partition(b"\n")
        # The newest line that it got, and what it answered.
        self.line, self.answer = None, None

    def awaited(self, listener):
        until = time.monotonic() + COMING
        listener.settimeout(LOOK)
        while time.monotonic() < until:
            try:
                found, _ = listener.accept()
                found.setsockopt(socket.IPPROTO_TCP, socket.TCP_NODELAY, 1)
                return found
            except socket.timeout:
                if self.process.poll() is not None:
                    raise Failed(f"the bot ended with status {self.process.returncode} before it dialled") from None
        raise Failed(f"the bot didn't dial within {COMING:.0f} s")

    def received(self):
        try:
            piece = self.connection.recv(PIECE)
        except OSError:
            piece = b""
        if not piece:
            raise Failed("the bot ended before it said its version")
        return piece

    def take(self):
        """The whole lines that it has said since; nothing where its connection has ended."""
        try:
            piece = self.connection.recv(PIECE)
        except OSError:
            piece = b""
        lines, self.data = lines_of(self.data + piece)
        for line in lines:
            if self.line is not None and line.startswith(self.line + b":"):
                self.answer = line
        return lines if piece else None

    def show(self, line):
        """Gives it a line of the dealer's. What it has answered already is said again; nothing where it isn't new and isn't answered."""
        text = line.rstrip(b"\r\n")
        if text == self.line:
            return self.answer
        self.line, self.answer = text, None
        try:
            self.connection.sendall(line)
        except OSError:
            # Its end comes by what is read of it.
            pass
        return None

    def end(self):
        """Ends its connection, and then its processes, which are asked to end first."""
        if hasattr(self, "connection"):
            self.connection.close()
        for number in (None, signal.SIGTERM, signal.SIGKILL):
            try:
                if number is not None:
                    os.killpg(self.process.pid, number)
                self.process.wait(GRACE)
                return
            except ProcessLookupError:
                return
            except subprocess.TimeoutExpired:
                continue


class Player:
    """A player of a room, with a bot of his."""

    def __init__(self, words):
        self.words, self.bot, self.match, self.restarts, self.is_playing = words, None, None, 0, False
        self.asked = asking.Asked(words.name, words.token, words.against, words.hands)
        # Since when no seat is had in the room.
        self.since = time.monotonic()

    def play(self):
        """Plays one match."""
        self.match, self.restarts, self.since = None, 0, time.monotonic()
        self.bot = Bot(self.words.command)
        try:
            while True:
                how = self.dial()
                if how == OVER:
                    return
                if how == BOT_ENDED:
                    self.restart("the bot ended its connection")
                else:
                    self.pause()
        finally:
            self.bot.end()

    def restart(self, why):
        self.restarts += 1
        if self.restarts > RESTARTS:
            raise Failed(f"{why} {self.restarts} times in one match")
        say(f"{why}: it is started again")
        self.bot.end()
        self.bot = Bot(self.words.command)

    def pause(self):
        """Waits before the room is dialled again, unless it wasn't reached for too long."""
        if time.monotonic() > self.since + self.words.give_up:
            raise Failed(f"no seat was had in the room for {self.words.give_up:.0f} s")
        time.sleep(PAUSE)

    def dial(self):
        """Plays over one connection to the room; how that came to its end."""
        try:
            room = socket.create_connection(self.words.place, REACHED)
        except OSError as why:
            say(f"{self.words.place[0]}:{self.words.place[1]}: {why.strerror or why}")
            return AGAIN
        with room:
            room.settimeout(None)
            asking.watch(room)
            self.is_playing = False
            try:
                room.sendall(b"VERSION:2.0.0\r\n" + self.asked.line().encode() + b"\r\n")
                return self.pass_on(room)
            except OSError as why:
                say(f"the connection to the room failed: {why.strerror or why}")
                return AGAIN

    def pass_on(self, room):
        """Passes lines on between room and bot."""
        data = b""
        while True:
            ready, _, _ = select.select([room, self.bot.connection] if self.is_playing else [room], [], [], LOOK)
            if not self.is_playing and self.bot.process.poll() is not None:
                return BOT_ENDED
            if self.bot.connection in ready:
                lines = self.bot.take()
                if lines is None:
                    return BOT_ENDED
                room.sendall(b"".join(lines))
            if room in ready:
                piece = room.recv(PIECE)
                if not piece:
                    say("the room ended the connection")
                    return AGAIN
                lines, data = lines_of(data + piece)
                for line in lines:
                    how = self.take_line(room, line)
                    if how is not None:
                        return how

    def take_line(self, room, line):
        """Takes a line of the room's; how the connection has come to its end, if it has."""
        found = asking.heard(line.decode("latin-1").rstrip("\r\n"))
        if found is not None:
            return self.take_word(*found)
        answer = self.bot.show(line)
        if answer is not None:
            room.sendall(answer)
        return None

    def take_word(self, what, text):
        """Takes what the room says of the match."""
        if what == asking.OVER:
            print(text, flush=True)
            return OVER
        say(f"{what}: {text}")
        if what == asking.REFUSED:
            raise Failed("the room takes no such player or match")
        if what == asking.DROPPED:
            return OVER
        if what == asking.WAITING and self.match is not None and text.split(" ")[0] != self.match:
            say(f"{self.match} is played to its end without this player, whose seat was given up")
            return OVER
        if what == asking.MATCH:
            self.sit_down(text.split(" ")[0])
        if what in (asking.MATCH, asking.WAITING):
            self.since = time.monotonic()
        return AGAIN if what in (asking.LATER, asking.AGAIN) else None

    def sit_down(self, match):
        """Begins a match, or goes on with it. The bot has its connection for one match alone."""
        if self.match is not None and match != self.match:
            say(f"{self.match} is over")
            self.bot.end()
            self.bot = Bot(self.words.command)
        self.match, self.is_playing = match, True


# The command line.


def place(word):
    found = PLACE.fullmatch(word)
    if found is None:
        raise argparse.ArgumentTypeError(f"{word!r} isn't HOST:PORT")
    return found[1] or found[2], int(found[3])


def count(word):
    """A number from 0 on."""
    if not word.isdecimal():
        raise argparse.ArgumentTypeError(f"a number from 0 on, not {word!r}")
    return int(word)


def token(word):
    """The token in the first line of a file."""
    try:
        found = Path(word).read_text().split("\n")[0].strip()
    except (OSError, UnicodeDecodeError) as why:
        raise argparse.ArgumentTypeError(f"{word}: {getattr(why, 'strerror', why)}") from why
    if not asking.TOKEN.fullmatch(found):
        raise argparse.ArgumentTypeError(f"{word}: its first line isn't a token of 16 to 128 printable characters without blanks")
    return found


def arguments(words):
    at = words.index("--") if "--" in words else len(words)
    parser = argparse.ArgumentParser(prog="tools/room --join", usage=USAGE, add_help=False)
    parser.add_argument("place", type=place)
    parser.add_argument("name")
    parser.add_argument("--token-file", type=token, required=True, dest="token")
    parser.add_argument("--against")
    parser.add_argument("--hands", type=int)
    parser.add_argument("--matches", type=count, default=1)
    parser.add_argument("--give-up", type=float, default=600.0)
    found = parser.parse_args(words[:at])
    found.command = words[at + 1 :]
    if not any("{port}" in word for word in found.command):
        parser.error("a COMMAND with {port} in it is wanted behind --")
    return found


def interrupted(number, frame):
    for it in ENDS:
        signal.signal(it, signal.SIG_IGN)
    raise KeyboardInterrupt


def main(words):
    """Plays as many matches as are wanted; the status."""
    found, played = arguments(words), 0
    for number in ENDS:
        signal.signal(number, interrupted)
    try:
        while played < found.matches or found.matches == 0:
            Player(found).play()
            played += 1
    except Failed as why:
        say(str(why))
        return 1
    except KeyboardInterrupt:
        say("interrupted; a seat that was taken is kept for a while")
        return 1
    return 0
