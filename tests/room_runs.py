"""What tests/room stands on: rooms in folders of their own, guests that are threads of the test, and stock bots behind --join."""
import hashlib
import json
import os
import shutil
import signal
import socket
import subprocess
import sys
import tempfile
import threading
from pathlib import Path

sys.dont_write_bytecode = True

import measuring
from dealer_runs import NOLIMIT_2P, PROGRAM, children
from measuring import Tally, result  # noqa: F401, for those who have all from here
from serving import FAST, TOP, Game, Wrong, turn_of, waited, want

TOOL, LEAGUE = TOP / "tools/room", TOP / "tools/league"
# The longest wait for anything that has to happen, in seconds: on a busy machine even a bot's start takes long.
WAIT = 300
# All tests by their titles, and what the command line asks for.
TESTS = []
OPTIONS = {"--title": "", "--lanes": 4}
CALLER = f"{sys.executable} {TOP / 'examples/bots/caller'} {TOP / 'examples' / NOLIMIT_2P} {{port}}"


def test(function):
    TESTS.append((function.__name__.replace("_", " "), function))
    return function


def token(name):
    """The token of a player of the tests."""
    return hashlib.sha256(name.encode()).hexdigest()


def digest(name):
    """What a room's file has of it."""
    return hashlib.sha256(token(name).encode()).hexdigest()


class Bots:
    """The bot in C, built once."""

    path = None

    @classmethod
    def command(cls, seed):
        return [str(cls.path), str(seed), "{host}", "{port}"]


class Room:
    """A room in a folder of its own."""

    rooms = []

    def __init__(self, names="alice bob", houses=(), game=NOLIMIT_2P, hands=10, **entries):
        """`houses` are house bots by their names and commands; other entries of the file by their keys."""
        self.folder, self.process, self.port, self.opened = Path(tempfile.mkdtemp(prefix="room.", dir=FAST)), None, None, 0
        self.rooms.append(self)
        self.file, self.kept = self.folder / "r.toml", self.folder / "kept"
        self.names, self.houses, self.game = names.split(), dict(houses), Game((TOP / "examples" / game).read_text())
        self.entries = {"name": "r", "folder": "kept", "game": str(TOP / "examples" / game), "hands": hands, **entries}
        self.write()

    def write(self, text=None):
        lines = [f"{key} = {json.dumps(value)}" for key, value in self.entries.items()]
        for name in self.names:
            lines += ["[[player]]", f'name = "{name}"', f'token = "{digest(name)}"']
        for name, command in self.houses.items():
            lines += ["[[house]]", f'name = "{name}"', f"command = {json.dumps(command)}", f"folder = {json.dumps(str(self.folder))}"]
        self.file.write_text("\n".join(lines) + "\n" if text is None else text)

    @property
    def notes_file(self):
        return self.folder / f"notes.{self.opened}"

    def open(self, *words):
        """Opens the room, and waits for its port."""
        self.opened += 1
        with open(self.notes_file, "wb") as notes:
            self.process = subprocess.Popen(
                [TOOL, self.file, *words], stdin=subprocess.DEVNULL, stdout=subprocess.PIPE, stderr=notes, text=True, start_new_session=True,
            )
        line = self.process.stdout.readline()
        want(line.strip().isdigit(), f"the room prints {line!r}: {self.notes()}")
        self.port = int(line)
        return self

    def refuses(self, status, text, *words):
        """The room isn't opened, and says why in a line."""
        ran = measuring.run([TOOL, self.file, *words], stdin=subprocess.DEVNULL, capture_output=True, text=True, timeout=WAIT)
        said = [line for line in ran.stderr.splitlines() if "is unproved" not in line]
        want(ran.returncode == status and len(said) == 1 and text in said[0], f"status {ran.returncode}: {ran.stderr}")

    def notes(self):
        return self.notes_file.read_text(errors="replace")

    def noted(self, text, count=1):
        """Waits until the notes have a text so often."""
        waited(lambda: self.notes().count(text) >= count, f"{text!r} in the notes", self.notes, most=WAIT)

    def close(self):
        """Asks the room to end."""
        self.process.terminate()
        want(self.process.wait(WAIT) == 0, f"the room ended with {self.process.returncode}: {self.notes()}")

    def kill(self):
        """Kills the room alone; its matches are asked to end by the system."""
        self.process.kill()
        self.process.wait(WAIT)

    def matches(self):
        """The processes of matches that are played, by number and start."""
        return children(self.process.pid)

    def remove(self):
        if self.process is not None and self.process.poll() is None:
            self.process.terminate()
            try:
                self.process.wait(10)
            except subprocess.TimeoutExpired:
                self.process.kill()
        if self.process is not None:
            self.process.stdout.close()
        shutil.rmtree(self.folder, ignore_errors=True)

    def dial(self, name, more="", shows=None, **how):
        """A guest who says who he is; `shows` is another token than his own."""
        guest = self.connect(**how)
        guest.send("VERSION:2.0.0", f"#ROOM {name} {shows or token(name)}{more and ' ' + more}")
        return guest

    def connect(self, **how):
        return Guest(self.port, self.game, self.notes, **how)

    def join(self, name, command, *more, port=None):
        """A stock bot behind --join."""
        path = self.folder / f"{name}.token"
        path.write_text(token(name) + "\n")
        words = [TOOL, "--join", f"127.0.0.1:{port or self.port}", name, "--token-file", path, *more, "--", *command]
        return subprocess.Popen(words, stdin=subprocess.DEVNULL, stdout=subprocess.PIPE, stderr=subprocess.PIPE, text=True)

    # What is on the disk

    def league(self, hands=None):
        """The folder of the league for so many hands."""
        return self.kept / f"hands{hands or self.entries['hands']}"

    def over(self, name, hands=None):
        """Waits until a match is over, and sees that its log is right; the result and the log."""
        folder = self.league(hands) / "matches" / name
        waited(lambda: (folder / "result.json").exists(), f"the result of {name}", lambda: self.told(name, hands), most=WAIT)
        ran = measuring.run([PROGRAM, "check", self.entries["game"], folder / f"{name}.log"], capture_output=True, timeout=WAIT)
        want(ran.stdout == b"yes\n", f"check says {ran.stdout!r} of {name}")
        self.noted(f"{name}: over, SCORE:")
        return json.loads((folder / "result.json").read_text()), (folder / f"{name}.log").read_text()

    def told(self, name, hands=None):
        """The notes of the room and of a match."""
        found = [*self.league(hands).glob(f"*/{name}/notes")]
        return self.notes() + "".join(path.read_text() for path in found)

    def running_log(self, name, count):
        """The log of a match that runs, once it has so many hands: with nodes it comes a moment later than lines do."""
        path = self.league() / "running" / name / f"{name}.log"
        waited(lambda: path.read_text().count("STATE:") == count, f"{count} hands in the log", self.notes)
        return path.read_text()

    def does(self, *words, hands=None, status=0):
        """What a command of tools/league prints of a room's league."""
        file = self.kept / f"hands{hands or self.entries['hands']}.toml"
        ran = measuring.run([LEAGUE, file, *words], stdin=subprocess.DEVNULL, capture_output=True, text=True, timeout=WAIT)
        want(ran.returncode == status, f"{words}: status {ran.returncode}: {ran.stdout[-500:]}{ran.stderr[-500:]}")
        return ran.stdout + ran.stderr


class Guest:
    """A connection to a room, over which a test says what it likes. As a thread it plays."""

    def __init__(self, port, game, notes, host="127.0.0.1"):
        """`host` is the address from which it dials."""
        self.game, self.notes, self.data, self.said, self.lines = game, notes, b"", [], []
        self.connection = socket.create_connection(("127.0.0.1", port), timeout=WAIT, source_address=(host, 0))
        self.connection.setsockopt(socket.IPPROTO_TCP, socket.TCP_NODELAY, 1)
        self.thread, self.stopped, self.failed = None, None, None

    def send(self, *lines):
        self.connection.sendall("".join(line + "\r\n" for line in lines).encode())

    def line(self):
        """The next line without its end; nothing where the connection has ended."""
        while b"\n" not in self.data:
            try:
                piece = self.connection.recv(65536)
            except ConnectionError:
                piece = b""
            except socket.timeout as why:
                raise Wrong(f"nothing came: {self.said[-3:]} {self.lines[-3:]} {self.notes()}") from why
            if not piece:
                return None
            self.data += piece
        line, _, self.data = self.data.partition(b"\n")
        line = line.decode().rstrip("\r")
        (self.said if line.startswith("#ROOM") else self.lines).append(line)
        return line

    def hears(self, what):
        """Waits for a word of the room; what is behind it."""
        for line in iter(self.line, None):
            if line.startswith(f"#ROOM {what}: "):
                return line.partition(": ")[2]
        raise Wrong(f"it didn't hear {what}: {self.said[-3:]} {self.notes()}")

    def is_closed(self, what, text):
        """The room says a word, and ends the connection."""
        found = self.hears(what)
        want(text in found and self.line() is None, f"it heard {found!r}: {self.said}")
        self.close()

    def play(self, choose=lambda betting, line: "c", stop=lambda hand: False):
        """Answers lines until the connection ends, or it is to act in a hand at which it stops; that line, or nothing."""
        for line in iter(self.line, None):
            if line.startswith("#ROOM"):
                continue
            betting = turn_of(self.game, line)
            if betting is None:
                continue
            if stop(int(line.split(":")[2])):
                return line
            self.send(f"{line}:{choose(betting, line)}")
        return None

    def plays(self, *words, **more):
        """Begins to play, as a thread."""
        def run():
            try:
                self.stopped = self.play(*words, **more)
            except (OSError, Wrong) as why:
                self.failed = why

        self.thread = threading.Thread(target=run, daemon=True)
        self.thread.start()
        return self

    def ends(self):
        """Waits until it doesn't play any more; the line at which it stopped, if it did."""
        self.thread.join(WAIT)
        want(not self.thread.is_alive() and self.failed is None, f"it still plays, or failed by {self.failed}: {self.said[-3:]} {self.notes()}")
        return self.stopped

    def is_over(self):
        """It has played to the end; the room's last word."""
        want(self.ends() is None and self.said[-1].startswith("#ROOM over: "), f"it ended with {self.said[-3:]}: {self.notes()}")
        self.close()
        return self.said[-1].partition(": ")[2]

    def close(self):
        self.connection.close()


def calls(betting, line):
    return "c"


def folds(betting, line):
    """Folds where it faces a bet."""
    return "f" if betting.may_fold() else "c"


def at_hand(number):
    """Stops in a hand, or behind it."""
    return lambda hand: hand >= number


def kill(number, how=signal.SIGKILL):
    try:
        os.kill(int(number), how)
    except ProcessLookupError:
        pass


def words_of(process):
    """The command line of a process."""
    try:
        return Path(f"/proc/{process}/cmdline").read_bytes().decode(errors="replace").split("\0")
    except OSError:
        return []
