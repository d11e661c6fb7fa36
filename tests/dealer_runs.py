"""What tests/dealer_tool stands on: runs of tools/dealer in folders of their own, and bots that are threads here."""
import hashlib
import os
import re
import shutil
import signal
import socket
import subprocess
import sys
import tempfile
import threading
import time
from pathlib import Path

sys.dont_write_bytecode = True

from measuring import communicate, run
from serving import FAST, NAMES, TOP, Game, Wrong, turn_of, want

sys.path.insert(0, str(TOP / "tools"))

PROGRAM = TOP / "crates/holdem_table/out/holdem_table"
LIMIT_2P, NOLIMIT_2P = "holdem.limit.2p.reverse_blinds.game", "holdem.nolimit.2p.reverse_blinds.game"
LIMIT_3P, NOLIMIT_3P, NOLIMIT_6P = "holdem.limit.3p.game", "holdem.nolimit.3p.game", "holdem.nolimit.6p.game"
# The longest wait for anything that has to happen, and for what needs no bot, in seconds.
WAIT, SOON = 120, 60
HEAD = ["#--t_response 600000", "#--t_hand 600000", "#--t_per_hand 7000"]
TIME = r"([0-9]+\.[0-9]{6})"
# All tests by their titles, and what the command line asks for.
TESTS = []
OPTIONS = {"--kills": 20, "--title": "", "--lanes": 8}
IS_LONG = "--long" in sys.argv
NODES, MEMORY = ("--nodes", "3"), Path(f"/dev/shm/holdem_table.{os.getuid()}")


def test(function):
    TESTS.append((function.__name__.replace("_", " "), function))
    return function


def rows(title, table):
    """A test for each row: its title, and what is called."""
    def add(function):
        for row in table:
            TESTS.append((f"{title}: {row[0]}", lambda row=row: function(*row[1:])))
        return function

    return add


def rows_with_nodes(title, table):
    """The same twice, without nodes and with three: the options for that come behind what is in the row."""
    def add(function):
        rows(title, [(*row, ()) for row in table])(function)
        rows(f"with nodes, {title}", [(*row, NODES) for row in table])(function)
        return function

    return add


def memory_of(run):
    """Where the match of a run has its stores in memory: under the digest of its path."""
    return MEMORY / hashlib.sha256(bytes(run.folder.resolve() / run.name)).hexdigest()[:32]


def here():
    return "--listen", "127.0.0.1"


def game_of(word):
    return Game((TOP / "examples" / word).read_text())


class Run:
    """A run of the tool, in a folder that several runs of one match may share."""

    folders, made = [], []

    def __init__(self, *options, game=NOLIMIT_2P, hands=3, seed=7, names=None, folder=None, name="m", command=None, words=None):
        if folder is None:
            folder = Path(tempfile.mkdtemp(prefix="dealer.", dir=FAST))
            self.folders.append(folder)
            shutil.copy(TOP / "examples" / game, folder)
        self.folder, self.name, self.word, self.game, self.hands = folder, name, game, game_of(game), hands
        self.players = self.game.players
        names = NAMES[: self.players] if names is None else names
        words = [name, game, str(hands), str(seed), *names, *options] if words is None else words
        self.notes = open(folder / f"{name}.notes", "wb")
        self.process = subprocess.Popen(
            [command or TOP / "tools/dealer", *words], cwd=folder, stdin=subprocess.DEVNULL, stdout=subprocess.PIPE, stderr=self.notes,
        )
        self.first, self.printed = None, None
        self.made.append(self)

    @property
    def ports(self):
        """The ports that it prints in its first line, once it has."""
        if self.first is None:
            late = threading.Timer(WAIT, self.process.kill)
            late.start()
            self.first = self.process.stdout.readline().decode()
            late.cancel()
            want(re.fullmatch(rf"[0-9]+( [0-9]+){{{self.players - 1}}}\n", self.first), f"no line of ports: {self.first!r}, {self.said()}")
        return [int(word) for word in self.first.split()]

    def said(self):
        """The lines of standard error so far."""
        return (self.folder / f"{self.name}.notes").read_text().splitlines()

    def play(self, *acts, address="127.0.0.1"):
        """Bots that do so, seat by seat; those that are missing call."""
        acts = [*acts, *[calls(self.game)] * self.players]
        return [Bot(port, act, address) for port, act in zip(self.ports, acts)]

    def ends(self, status, seconds=WAIT):
        """It ends with a status; the rest of what it printed behind the ports."""
        try:
            rest = communicate(self.process, seconds)[0].decode()
        except subprocess.TimeoutExpired:
            raise Wrong(f"it goes on: {self.said()[-3:]}") from None
        want(self.process.returncode == status, f"status {self.process.returncode}: {self.said()[-3:]}")
        self.printed = rest
        want((re.fullmatch(r"SCORE:[-0-9|]+:[\w.|-]+\n", rest) is not None) == (status == 0), f"printed {rest!r}")
        return rest

    def fails(self, text):
        """It ends with status 1, no score, and this behind ERROR: as its last line."""
        self.ends(1)
        last = self.said()[-1]
        want(re.fullmatch(f"ERROR: {text}", last), f"the last line is {last!r}, not {text!r}")

    def refuses(self, text):
        """It ends at once with status 1 and a line that begins so behind ERROR: as its last; it prints nothing."""
        self.ends(1, SOON)
        want(self.first is None and self.printed == "", "it prints something")
        want(self.said()[-1].startswith(f"ERROR: {text}"), f"it says {self.said()}")

    def warnings(self):
        return [line[len("WARNING: ") :] for line in self.said() if line.startswith("WARNING: ")]

    def log(self):
        return (self.folder / f"{self.name}.log").read_text()

    def transactions(self):
        return (self.folder / f"{self.name}.tlog").read_text()

    def is_right(self):
        """`check` accepts the log, and the score is its last line; the log."""
        words = [PROGRAM, "check", self.word, f"{self.name}.log"]
        ran = run(words, cwd=self.folder, capture_output=True)
        want(ran.stdout == b"yes\n", f"check says {ran.stdout!r}")
        want(self.log().endswith("\n" + self.printed), "the score isn't the log's last line")
        return self.log()

    def betting(self, hand=0):
        """The betting of a finished hand."""
        return self.log().splitlines()[hand + 1].split(":")[2]

    def kill(self):
        self.process.kill()
        self.process.wait()

    @classmethod
    def remove_all(cls):
        """Ends what a test that failed has left, and removes the folders, also those of stores."""
        for run in cls.made:
            run.kill()
            shutil.rmtree(memory_of(run), ignore_errors=True)
        for folder in cls.folders:
            shutil.rmtree(folder, ignore_errors=True)


class Gone(Exception):
    """A bot goes home."""


class Bot(threading.Thread):
    """A bot that dials once. `act` is given each line that comes and says what is sent: an action, bytes, or nothing."""

    def __init__(self, port, act, address="127.0.0.1", version=b"VERSION:2.0.0\r\n"):
        super().__init__(daemon=True)
        self.lines, self.said, self.act, self.version, self.is_closed, self.was_reset = [], [], act, version, False, False
        self.connection = socket.create_connection((address, port), timeout=WAIT)
        self.start()

    def run(self):
        try:
            self.connection.sendall(self.version)
            for line in self.connection.makefile("rb"):
                line = line.decode("ascii").rstrip("\r\n")
                self.lines.append(line)
                said = self.act(line)
                if said is not None:
                    data = said if isinstance(said, bytes) else f"{line}:{said}\r\n".encode()
                    self.said += data.decode("latin-1").splitlines()
                    self.connection.sendall(data)
            self.is_closed = True
        except ConnectionError:
            self.was_reset = True
        except (Gone, OSError):
            pass
        finally:
            self.connection.close()

    def ends(self, may_be_reset=False):
        """It is told nothing more: its connection was closed in order, or, where something that it said wasn't read and that may
        be, by a reset. What it got."""
        self.join(WAIT)
        want(self.is_closed or (may_be_reset and self.was_reset), "a bot's connection didn't end in order")
        return self.lines


def calls(game):
    """A bot that calls."""
    return lambda line: "c" if turn_of(game, line) else None


def at_turn(game, number, does, otherwise="c"):
    """A bot that does something at its turn of this number, from 0 on, and calls at the others. What it does is an action or
    bytes, or is called with the line."""
    turns = iter(range(1 << 30))

    def act(line):
        if turn_of(game, line) is None:
            return None
        if next(turns) != number:
            return otherwise
        return does(line) if callable(does) else does

    return act


def goes(line):
    raise Gone


def hangs(line):
    time.sleep(WAIT)
    raise Gone


def waits(seconds, action="c"):
    """What a bot does that takes its time."""
    def does(line):
        time.sleep(seconds)
        return action

    return does


def slow(game, seconds):
    """A bot that calls, and takes its time for each response."""
    act = calls(game)

    def does(line):
        action = act(line)
        if action:
            time.sleep(seconds)
        return action

    return does


def compiled(folder):
    """The bot in C as a program."""
    path = folder / "dealer_bot"
    words = [os.environ.get("CC", "cc"), "-O1", "-Wall", "-Werror", "-o", path, TOP / "tests/dealer_bot.c"]
    run(words, check=True)
    return path


def children(process):
    """The processes that a process has started, by number and start."""
    found = []
    for number in filter(str.isdigit, os.listdir("/proc")):
        fields = fields_of(number)
        if fields and int(fields[1]) == process:
            found.append((number, fields[19]))
    return found


def fields_of(number):
    """What /proc tells of a process behind its name; nothing where it has ended."""
    try:
        fields = Path(f"/proc/{number}/stat").read_text().rpartition(")")[2].split()
    except OSError:
        return None
    return None if fields[0] in "ZX" else fields


def are_ended(processes):
    return all((fields_of(number) or [""] * 20)[19] != start for number, start in processes)


def are_killed(processes):
    """Whether processes have ended, or end as soon as the machine has time for it: they are sent signal 9."""
    return all(are_ended([process]) or is_sent_kill(process[0]) for process in processes)


def is_sent_kill(number):
    """Whether signal 9 waits for a process, or it has ended meanwhile."""
    try:
        status = Path(f"/proc/{number}/status").read_text()
    except OSError:
        return True
    return any(int(word, 16) >> signal.SIGKILL - 1 & 1 for word in re.findall(r"(?:Sig|Shd)Pnd:\s*([0-9a-f]+)", status))
