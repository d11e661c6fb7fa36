"""What tests/league stands on: leagues in folders of their own, played by bots of the tests or invented."""
import json
import os
import shutil
import signal
import subprocess
import sys
import tempfile
from pathlib import Path

sys.dont_write_bytecode = True

from dealer_runs import NOLIMIT_2P, PROGRAM, fields_of
from measuring import communicate, run
from serving import FAST, TOP, waited, want

TOOL = TOP / "tools/league"
# The longest wait for anything that has to happen, in seconds: on a busy machine even a bot's start takes long.
WAIT = 300
BOT = [sys.executable, str(TOP / "tests/league_bot.py")]
# All tests by their titles, and what the command line asks for.
TESTS = []
OPTIONS = {"--kills": 6, "--hands": 20, "--meetings": 2, "--matches": 6, "--lanes": 4, "--title": ""}


def test(function):
    TESTS.append((function.__name__.replace("_", " "), function))
    return function


def command(how, game=NOLIMIT_2P):
    """The command of a bot of tests/league_bot.py."""
    return " ".join([*BOT, how, str(TOP / "examples" / game), "{host}", "{port}"])


class Bots:
    """The bot in C, built once."""

    path = None

    @classmethod
    def command(cls, seed):
        return f"{cls.path} {seed} {{host}} {{port}}"


class League:
    """A league in a folder of its own."""

    folders = []

    def __init__(self, players, game=NOLIMIT_2P, hands=10, **entries):
        """`players` are commands by names; other entries of the file by their keys."""
        self.folder = Path(tempfile.mkdtemp(prefix="league.", dir=FAST))
        self.folders.append(self.folder)
        self.file = self.folder / "l.toml"
        self.players = {}
        self.entries = {"name": "l", "folder": "kept", "game": str(TOP / "examples" / game), "hands": hands, "meetings": 1, **entries}
        for name, words in players.items():
            self.add(name, words)

    @property
    def kept(self):
        """The folder in which the league is kept."""
        return self.folder / "kept"

    def add(self, name, words, **more):
        (self.folder / f"of_{name}").mkdir()
        self.players[name] = {"name": name, "command": words, "folder": f"of_{name}", **more}
        self.write()

    def write(self, text=None):
        """Writes the league's file."""
        lines = [f"{key} = {json.dumps(value)}" for key, value in self.entries.items()]
        for player in self.players.values():
            lines += ["[[player]]", *[f"{key} = {json.dumps(value)}" for key, value in player.items()]]
        self.file.write_text("\n".join(lines) + "\n" if text is None else text)

    def start(self, *words, path=None):
        """Gives a command; programs of a folder `path` come before others of their names."""
        environment = os.environ if path is None else {**os.environ, "PATH": f"{path}:{os.environ['PATH']}"}
        return subprocess.Popen(
            [TOOL, self.file, *words], stdin=subprocess.DEVNULL, stdout=subprocess.PIPE, stderr=subprocess.PIPE, text=True,
            cwd=self.folder, start_new_session=True, env=environment,
        )

    def does(self, *words, status=0, most=WAIT):
        """Gives a command that is to end with a status, within so many seconds; what it printed, and what it said of errors."""
        ran = self.start(*words)
        printed, said = communicate(ran, most)
        want(ran.returncode == status, f"{' '.join(words)} ended with {ran.returncode}, not {status}: {printed[-300:]}{said[-600:]}")
        return printed, said

    def table(self, *words, status=0):
        return self.does("table", *words, status=status)[0]

    def figures(self, *words, status=0):
        return json.loads(self.table("--json", *words, status=status))

    def plan(self):
        """The lines of the plan."""
        return (self.kept / "plan").read_text().splitlines()

    def result(self, name):
        return json.loads((self.kept / "matches" / name / "result.json").read_text())

    def log(self, name):
        return (self.kept / "matches" / name / f"{name}.log").read_text()

    def logs(self):
        """The logs of all finished matches by their names."""
        return {path.name: self.log(path.name) for path in sorted((self.kept / "matches").iterdir())}

    def is_right(self, name):
        """`check` accepts a match's log; the log."""
        path = self.kept / "matches" / name / f"{name}.log"
        ran = run([PROGRAM, "check", self.entries["game"], path], capture_output=True)
        want(ran.stdout == b"yes\n", f"check says {ran.stdout!r} of {name}")
        return self.log(name)

    def invent(self, chips):
        """Puts matches into the league that nobody played: by a match's name the chips by hand of who sits first; with more
        than two players lists of chips by seat, for each hand."""
        self.does("plan")
        for number, line in enumerate(self.plan(), start=1):
            name, _, *people = line.split(" ")
            seats = people[len(people) // 2 :]
            if name in chips:
                hands = [it if isinstance(it, list) else [it, -it] for it in chips[name]]
                self.put(number, name, seats, hands)

    def put(self, number, name, seats, hands):
        folder = self.kept / "matches" / name
        folder.mkdir()
        lines = [f"STATE:{at}:f:x:{'|'.join(map(str, it))}:{'|'.join(seats)}" for at, it in enumerate(hands)]
        (folder / f"{name}.log").write_text("\n".join(["# head", *lines, "SCORE:"]) + "\n")
        (folder / "notes").write_text("")
        columns = list(zip(*hands))
        nothing = [0] * len(seats)
        result = {
            "match": name, "number": number, "seats": seats, "hands": len(hands), "score": "", "chips": [sum(it) for it in columns],
            "squares": [sum(chips * chips for chips in it) for it in columns], "began": 0.0, "ended": 1.0,
            "files": {seat: {"sha256": None} for seat in seats},
            **{key: nothing for key in ("used", "worst", "restarts", "defaults", "mended")},
        }
        (folder / "result.json").write_text(json.dumps(result))

    @classmethod
    def remove_all(cls):
        for folder in cls.folders:
            shutil.rmtree(folder, ignore_errors=True)


def descendants(process):
    """The processes below one, by number and start, those that it started itself first."""
    parents = {}
    for number in filter(str.isdigit, os.listdir("/proc")):
        fields = fields_of(number)
        if fields:
            parents.setdefault(int(fields[1]), []).append((int(number), fields[19]))
    found, row = [], [process]
    while row:
        row = [it for parent in row for it in parents.get(parent, [])]
        found += row
        row = [number for number, _ in row]
    return found


def kill(processes):
    for number, _ in processes:
        try:
            os.kill(number, signal.SIGKILL)
        except ProcessLookupError:
            pass


def awaited(happened, text):
    """Waits until something has happened; its value."""
    return waited(happened, text, most=WAIT)
