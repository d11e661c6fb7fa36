"""What tests/relay stands on: relays, stock bots behind them, matches of these, and clients in place of nodes and bots."""
import os
import random
import re
import shutil
import signal
import socket
import subprocess
import sys
import tempfile
import threading
import time
from pathlib import Path

sys.dont_write_bytecode = True
sys.path.insert(0, str(Path(__file__).resolve().parent))

import processes_match
from log_lines import lines_of
from measuring import in_time, pause, want
from processes_match import Match
from serving import FAST, TOP, free_ports, patience, received_by_now, waited

GAME = "n2.game"
VERSION = b"VERSION:2.0.0\r\n"
# What a relay says first over each connection: the token's line, if there is one, what it asks for, and the version's line.
FIRST_LINES = re.compile(rb"(#TOKEN [^\n]*\n)?(?:#RESUME ([^\r\n]*)\r\n)(.*)", re.DOTALL)
# For how long each node that is reached says that it has another match until a relay ends, in seconds.
OTHER_TIME = 10
TESTS = {}
# Whether a line that comes late is a failure.
IS_TIMED = [False]


def test(seeds=1, long_seeds=None):
    """A test by its name, and by how many seeds it goes: a function of a folder of its own, a seed, and whether this is the
    long form."""

    def taken(function):
        TESTS[function.__name__] = (seeds, long_seeds or seeds, function)
        return function

    return taken


class Relay:
    """A process of `relay`, with its notes in a file."""

    made = []

    def __init__(self, folder, name, *words, options=(), starter=(), **how):
        self.folder, self.name, self.output = Path(folder), name, b""
        self.notes_file = self.folder / f"{name}.notes"
        with open(self.notes_file, "wb") as notes:
            words = [*starter, Match.program, "relay", *map(str, options), *map(str, words)]
            self.process = subprocess.Popen(words, stdin=subprocess.DEVNULL, stdout=subprocess.PIPE, stderr=notes, **how)
        self.made.append(self)
        first = self.process.stdout.readline()
        want(first.strip().isdigit(), f"the first line of standard output is {first!r}: {self.notes()}")
        self.port = int(first)

    def notes(self):
        return self.notes_file.read_text(errors="replace").splitlines()

    def await_note(self, text):
        """Waits for a note that has this text in it."""
        waited(lambda: any(text in note for note in self.notes()), f"a note of {self.name} with {text!r}", lambda: str(self.notes()[-5:]))

    def ends(self, status, last=None):
        """It ends with this status, and this last note."""
        waited(lambda: self.process.poll() is not None, f"the end of {self.name}", lambda: str(self.notes()[-5:]))
        self.output = self.process.stdout.read()
        want(self.process.returncode == status, f"status {self.process.returncode}, not {status}: {self.notes()[-3:]}")
        want(last is None or self.notes()[-1] == last, f"the last note isn't {last!r}: {self.notes()[-3:]}")

    def shares(self):
        """How many lines each node told first, by its note at the end."""
        found = [note for note in self.notes() if note.startswith("lines first told by each node:")]
        want(len(found) == 1, f"no note of how many lines each node told: {self.notes()[-3:]}")
        return [int(word) for word in found[0].split(";")[0].split(":")[1].split()]

    def remove(self):
        self.process.kill()
        self.process.wait()
        self.process.stdout.close()


class StockBot:
    """A process of a stock bot, in C or in Python, with its record in a file."""

    made = []
    # Where the one in C is, once it was compiled.
    compiled = None

    def __init__(self, folder, seat, port, seed, pause=0.0, is_in_c=True, host="127.0.0.1", starter=()):
        self.record_file, self.faults = Path(folder) / f"bot{seat}.record", Path(folder) / f"bot{seat}.faults"
        player = [self.compiled] if is_in_c else [sys.executable, TOP / "tests/relay_bot.py", TOP / "examples" / GAME]
        words = [*starter, *player, str(seed), host, str(port), self.record_file, str(int(pause * 1_000_000))]
        with open(self.faults, "wb") as faults:
            self.process = subprocess.Popen(words, stdin=subprocess.DEVNULL, stdout=faults, stderr=faults)
        self.made.append(self)

    @classmethod
    def compile(cls, folder):
        cls.compiled = Path(folder) / "relay_bot"
        words = [os.environ.get("CC", "cc"), "-O1", "-Wall", "-Werror", "-o", cls.compiled, TOP / "tests/relay_bot.c"]
        subprocess.run(words, check=True)

    def record(self):
        """The lines that it got."""
        return self.record_file.read_bytes() if self.record_file.exists() else b""

    def hand(self):
        """The hand of its newest line; -1 before the first."""
        whole = self.record()[:-1].rpartition(b"\n")[2]
        return int(whole.split(b":")[2]) if whole.count(b":") == 4 else -1

    def ends(self):
        """It ends by itself, with 0."""
        waited(lambda: self.process.poll() is not None, "the end of a stock bot")
        want(self.process.returncode == 0, f"a bot ended with {self.process.returncode}: {self.faults.read_text(errors='replace')[-500:]}")

    def remove(self):
        self.process.kill()
        self.process.wait()


class RelayMatch(Match):
    """A match of nodes in processes, with a relay and a stock bot for each seat: the first in C, the second in Python."""

    def __init__(self, hands, seed, count=3, pace=0.0, options=(), **more):
        super().__init__(count, hands, GAME, pace=pace, **more)
        self.seed, self.dice, self.options = seed, random.Random(seed), options
        self.relays, self.stock, self.kills = [], [], []

    def places(self, seat):
        """Where a seat is at each node."""
        return [f"{self.address(node)}:{self.seats[node] + seat}" for node in range(self.count)]

    def begin(self):
        """The relays and bots come first, and then the nodes."""
        for seat in range(2):
            trace = self.folder / f"trace{seat}"
            self.relays.append(Relay(self.folder, f"relay{seat}", *self.places(seat), options=[*self.options, "--trace", trace]))
        for seat, relay in enumerate(self.relays):
            self.stock.append(StockBot(self.folder, seat, relay.port, 10 * self.seed + seat, self.pace, is_in_c=seat == 0))
        self.set_up()
        return self

    def newest_hand(self):
        return max(bot.hand() for bot in self.stock)

    def await_hand(self, hand):
        """Waits until a bot has a line of this hand."""
        waited(lambda: self.is_alive() and self.newest_hand() >= hand, f"hand {hand}", self.last_notes, seen=self.newest_hand)

    def is_alive(self):
        """No process has ended that the test didn't kill, nor a relay, nor a bot."""
        ended = [f"relay{seat}" for seat, relay in enumerate(self.relays) if relay.process.poll() is not None]
        ended += [f"bot{seat}" for seat, bot in enumerate(self.stock) if bot.process.poll() is not None]
        want(not ended, f"{ended} ended: {[relay.notes()[-3:] for relay in self.relays]} {self.last_notes()}")
        return super().is_alive()

    def last_notes(self):
        relays = " / ".join(str(relay.notes()[-4:]) for relay in self.relays)
        return f"hand {self.newest_hand() if self.stock else None}, relays {relays}, {super().last_notes()}"

    def kill(self, *nodes):
        self.kills.append(time.time())
        super().kill(*nodes)

    def ends(self):
        """The nodes end, and with them relays and bots."""
        super().ends()
        for relay in self.relays:
            relay.ends(0, "the match is over")
        for bot in self.stock:
            bot.ends()

    def longest_log(self):
        """What is the longest log of all nodes."""
        return max((self.log(node) for node in range(self.count) if (self.home(node) / f"logs/node{node}.log").exists()), key=len, default="")

    def init_again(self):
        """Another match's stores in the place of these: other cards come."""
        for node in range(self.count):
            for name in ("stores", "logs"):
                shutil.rmtree(self.home(node) / name)
                (self.home(node) / name).mkdir()
            self.write(node, seeds={other: 1000 + other for other in range(self.count)})
        for node in range(self.count):
            self.init(node)

    def lines(self, seat):
        """The lines that one sequential dealer has for a seat over the whole log, as bytes."""
        return [line.encode() + b"\r\n" for line in lines_of(self, self.log(0), seat)]

    def missing(self, seat):
        """How many of these a bot's record lacks. None comes twice, and none is another."""
        got, lines = self.stock[seat].record().splitlines(keepends=True), self.lines(seat)
        places = {line: place for place, line in enumerate(lines)}
        want(len(places) == len(lines), "the dealer tells a line twice")
        others = [line for line in got if line not in places]
        want(not others, f"bot {seat} got {others[:3]}, which no dealer tells it")
        order = [places[line] for line in got]
        want(all(one < next for one, next in zip(order, order[1:])), f"bot {seat} got lines twice, or of before")
        return len(lines) - len(got)

    def are_whole(self):
        """Each bot's record is the dealer's lines for its seat, byte for byte, from the first deal on."""
        for seat, bot in enumerate(self.stock):
            missing, got, lines = self.missing(seat), bot.record(), self.lines(seat)
            want(got == b"".join(lines), f"bot {seat} got {got.count(10)} lines of {len(lines)}; {missing} are missing: {self.losses(seat, lines)}")

    def losses(self, seat, lines):
        """The first lines that a bot's record lacks; when it got the next one, and when nodes were killed before that."""
        told = {}
        for line in (self.folder / f"trace{seat}").read_bytes().splitlines():
            moment, way, text = line.split(b" ", 2)
            if way == b"TO":
                told[text + b"\r\n"] = float(moment)
        found = []
        for place, line in enumerate(lines):
            if line not in told and len(found) < 3:
                after = next((told[later] for later in lines[place:] if later in told), time.time())
                kills = [f"{after - kill:.3f}" for kill in self.kills if after - 2 < kill < after]
                found.append(f"{line.decode().strip()}, {kills} s behind kills")
        return "; ".join(found)

    def are_shared(self):
        """Lines came from at least two nodes."""
        for relay in self.relays:
            want(sum(count > 0 for count in relay.shares()) > 1, f"lines came from one node alone: {relay.shares()}")

    def gaps(self):
        """How long after each kill the next line went to a bot, in seconds, by the traces of the relays."""
        times = []
        for seat in range(2):
            for line in (self.folder / f"trace{seat}").read_bytes().splitlines():
                moment, way = line.split(b" ", 2)[:2]
                if way == b"TO":
                    times.append(float(moment))
        times.sort()
        following = [min((at for at in times if at > kill), default=None) for kill in self.kills]
        return [at - kill for at, kill in zip(following, self.kills) if at is not None]


def in_words(gaps, median, worst):
    """The median and the greatest of times, in milliseconds. With --timed they have to be below these, in seconds."""
    gaps = sorted(gaps)
    if not gaps:
        in_time(False, "no line came after anything")
        return "none"
    middle, most = gaps[len(gaps) // 2], gaps[-1]
    told = f"median {middle * 1000:.1f} ms, worst {most * 1000:.1f} ms of {len(gaps)}"
    want(not IS_TIMED[0] or (middle < median and most < worst), f"lines come late: {told}")
    return told


class Node(threading.Thread):
    """A listener in place of a node: over each connection it says these bytes, and keeps what it was asked for and what else it
    got."""

    made = []

    def __init__(self, said=b"", stays=True, port=0):
        super().__init__(daemon=True)
        # (one of those that the system gives to connections might be another's before this node is there again)
        self.listener = socket.create_server(("127.0.0.1", port or free_ports(1)))
        # (one that nobody dials for long is dialled later)
        self.listener.settimeout(None)
        self.address = f"127.0.0.1:{self.listener.getsockname()[1]}"
        self.said, self.stays, self.got, self.asked, self.connections = said, stays, [], [], []
        self.made.append(self)
        self.start()

    def run(self):
        while True:
            try:
                connection, _ = self.listener.accept()
            except OSError:
                return
            self.got.append(b"")
            self.asked.append(None)
            self.connections.append(connection)
            threading.Thread(target=self.speak, args=(connection, len(self.got) - 1), daemon=True).start()

    def speak(self, connection, place):
        raw = b""
        try:
            connection.settimeout(None)
            connection.sendall(self.said)
            if not self.stays:
                connection.close()
            while self.stays:
                piece = connection.recv(4096)
                if not piece:
                    return
                raw += piece
                found = FIRST_LINES.fullmatch(raw)
                if found:
                    self.asked[place], self.got[place] = found[2], (found[1] or b"") + found[3]
                elif not raw.startswith(b"#"):
                    self.got[place] = raw
        except OSError:
            return

    def say(self, text):
        """Says more over the newest connection."""
        self.connections[-1].sendall(text)

    def hang_up(self):
        """Ends the newest connection."""
        self.connections[-1].shutdown(socket.SHUT_RDWR)

    def answers(self, place=-1):
        """What it got behind the version over a connection."""
        return self.got[place][len(VERSION) :] if len(self.got) >= 1 else b""

    def remove(self):
        # An accept that waits ends by a shutdown alone.
        try:
            self.listener.shutdown(socket.SHUT_RDWR)
        except OSError:
            pass
        self.listener.close()
        for connection in self.connections:
            try:
                connection.shutdown(socket.SHUT_RDWR)
            except OSError:
                pass
            connection.close()


class Dialler:
    """A client in place of a bot, that has named its version."""

    def __init__(self, relay, said=VERSION, room=None):
        self.connection, self.rest = socket.socket(), b""
        if room is not None:
            self.connection.setsockopt(socket.SOL_SOCKET, socket.SO_RCVBUF, room)
        self.connection.connect(("127.0.0.1", relay.port))
        self.connection.settimeout(patience())
        self.say(said)

    def say(self, text):
        self.connection.sendall(text)

    def line(self):
        """The next line with its end; nothing where the connection has ended."""
        while b"\n" not in self.rest:
            try:
                piece = self.connection.recv(65536)
            except ConnectionResetError:
                return b""
            if not piece:
                return b""
            self.rest += piece
        line, _, self.rest = self.rest.partition(b"\n")
        return line + b"\n"

    def gets_nothing(self, seconds=0.3):
        """Nothing comes for so long."""
        pause(seconds)
        got = received_by_now(self.connection)
        want(got is None, f"a bot got {got!r}, where nothing was to come")

    def close(self):
        self.connection.close()


def remove_all():
    """Ends all that tests made."""
    for made in (Relay.made, StockBot.made, Node.made, Match.made):
        while made:
            made.pop().remove()
