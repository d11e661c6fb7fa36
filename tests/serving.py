"""What tests/serve and tests/waits stand on: a match with its files in a folder of its own, its players, and clients
that aren't any."""
import os
import random
import resource
import shutil
import signal
import socket
import subprocess
import sys
import tempfile
import threading
import time
from pathlib import Path

sys.dont_write_bytecode = True
TOP = Path(__file__).resolve().parent.parent
sys.path.insert(0, str(TOP / "examples/bots"))

import player
from measuring import Tally, Wrong, clock, in_time, pause, result, want  # noqa: F401, for those who have all from here
from player import play
from table import Game, turn_of

# The longest wait for anything that has to happen, and how long is waited for what must not, in seconds.
WAIT, QUIET = 40, 0.4
# How many times as long the wall's clock may take, which goes on while programs wait for a processor.
BY_THE_WALL = 3
# How long a player goes on dialling who never got a line, and how long one dial may take, in seconds.
FIRST_LINE, REACHED = 10, 2
# Below those that a system gives to connections; and in how many parts processes of scripts that run side by side take them.
PORTS, PARTS = (10000, 32000), 20
# How long a whole script may take, in seconds. When all tests have to be done: nothing that has to happen is waited for beyond it.
HOUR, END = 3600, [None]
# Where nothing waits for a disk, if there is such a place.
FAST = "/dev/shm" if os.access("/dev/shm", os.W_OK) else None
NAMES = ["alice", "bob", "carol", "dave", "erin", "frank", "grace", "heidi", "ivan", "judy"]
# Match files and stores that others can read are told: the files of tests can't be.
os.umask(0o077)
# The players of tests go home soon after a match; those of examples/bots, run by their commands, take their time.
player.PAUSE, player.GIVE_UP = 0.01, 0.1


def patience():
    """How long a connection, a thread or a program may still take that the clock on the wall is watched for, in seconds."""
    return BY_THE_WALL * WAIT if END[0] is None else max(0.1, min(BY_THE_WALL * WAIT, END[0] - time.monotonic()))


def is_over():
    """Whether all tests have to be done."""
    return END[0] is not None and time.monotonic() >= END[0]


def waited(happened, text, notes=lambda: "", seen=lambda: None, most=None):
    """Waits until something has happened, and fails where that takes too long, telling the notes. Its value. Time in which the
    programs, or the test itself, wait for a processor doesn't count. Whenever what `seen` says has changed the wait begins anew,
    until all tests have to be done: what goes on slowly, on a busy machine, isn't stuck."""
    most = most or WAIT
    steps, until = seen(), clock() + most
    while True:
        # (a test that didn't run itself for long looks once more)
        is_late, value = is_over() or clock() >= until, happened()
        if value:
            return value
        if seen() != steps and not is_over():
            steps, until = seen(), clock() + most
        elif is_late:
            raise Wrong(f"waited in vain: {text}; {notes()}")
        time.sleep(0.005)


def reached(address, notes=lambda: ""):
    """A connection to an address at which a program was started a moment before: it is dialled until it is there."""
    return waited(lambda: player.dial(address, REACHED), f"a connection to {address[0]}:{address[1]}", notes)


def size_of(file):
    """How many bytes a file has; one that a start has just renamed has none."""
    try:
        return file.stat().st_size
    except FileNotFoundError:
        return 0


def is_free(port):
    """Whether a program may listen at a port. As with the programs, connections that ended a moment before don't hold it."""
    with socket.socket() as tried:
        tried.setsockopt(socket.SOL_SOCKET, socket.SO_REUSEADDR, 1)
        try:
            tried.bind(("127.0.0.1", port))
        except OSError:
            return False
    return True


def dial(port):
    """A connection to a port of this machine, over which nothing is waited for too long; none where it is refused."""
    connection = player.dial(("127.0.0.1", port))
    if connection is not None:
        connection.settimeout(WAIT)
    return connection


class Ports:
    """A part of the ports, which no process of another script takes meanwhile: this one holds a name for it as long as it runs. Where
    no part is left it has all of them."""

    own, lock = None, threading.Lock()

    def __init__(self):
        self.process, self.name = os.getpid(), socket.socket(socket.AF_UNIX)
        (self.first, self.end), width = PORTS, (PORTS[1] - PORTS[0]) // PARTS
        part = next((part for part in random.sample(range(PARTS), PARTS) if self.holds(part)), None)
        if part is not None:
            self.first += part * width
            self.end = self.first + width
        self.next = random.randrange(self.first, self.end)

    def holds(self, part):
        """Whether the system lets this process, and no other, have the name of a part."""
        try:
            self.name.bind(f"\0holdem_table.tests.ports.{part}")
        except OSError:
            return False
        return True

    def take(self, count):
        """The first of the next so many ports in a row that nobody uses now, or nothing. Behind the last ones come the first ones
        again."""
        for begin in (self.next, self.first):
            while begin + count <= self.end:
                used = [port for port in range(begin, begin + count) if not is_free(port)]
                if not used:
                    self.next = begin + count
                    return begin
                begin = used[-1] + 1
        return None


def claim_ports():
    """The ports of this process, which has others than the one that started it."""
    if Ports.own is None or Ports.own.process != os.getpid():
        Ports.own = Ports()
    return Ports.own


def free_ports(count):
    """The first of so many ports in a row that nobody uses now. While this process has a part of its own no other script takes them."""
    with Ports.lock:
        port = claim_ports().take(count)
    if port is None:
        raise Wrong("no free ports were found")
    return port


class Match:
    """A match's files in a folder, and the program that serves it."""

    program = TOP / "crates/holdem_table/out/holdem_table"
    made = []

    def __init__(self, game, hands, sources, outages=(), place=FAST, away=None):
        self.folder = Path(tempfile.mkdtemp(prefix="serve.", dir=place))
        self.made.append(self)
        self.starter = []
        self.game = (TOP / "examples" / game).read_text() if game.endswith(".game") else game
        self.word = game if game.endswith(".game") else "test.game"
        self.players = Game(self.game).players
        self.nodes, self.process = len(sources), None
        self.port = free_ports(self.nodes * (self.players + 1))
        (self.folder / self.word).write_text(self.game)
        (self.folder / "stores").mkdir()
        (self.folder / "logs").mkdir()
        entries = [
            'name = "m1"', f'game = "{self.word}"', f"hands = {hands}", f"names = {NAMES[:self.players]}".replace("'", '"'),
            'stores = "stores"', 'logs = "logs"', f"port = {self.port}", f"node = [{', '.join(sources)}]",
        ]
        entries += [f'away = "{away}"'] if away is not None else []
        entries += [f"[[outage]]\n{outage}" for outage in outages]
        (self.folder / "m.toml").write_text("\n".join(entries) + "\n")

    def run(self, *words):
        return subprocess.run([self.program, *words], cwd=self.folder, capture_output=True, timeout=patience(), stdin=subprocess.DEVNULL)

    def init(self):
        ran = self.run("init", "m.toml")
        want(ran.returncode == 0, f"init ended with {ran.returncode}: {ran.stderr.decode()}")
        return self

    def start(self, file_size=None, stderr=None):
        """Starts `serve`; with a size, no file may grow beyond it; its notes may go elsewhere than into their file."""
        def limit():
            signal.signal(signal.SIGXFSZ, signal.SIG_IGN)
            resource.setrlimit(resource.RLIMIT_FSIZE, (file_size, file_size))

        with open(self.folder / "notes", "wb") as notes, open(self.folder / "printed", "wb") as printed:
            self.process = subprocess.Popen(
                [*self.starter, self.program, "serve", "m.toml"], cwd=self.folder, stdin=subprocess.DEVNULL, stdout=printed,
                stderr=stderr or notes, preexec_fn=limit if file_size is not None else None,
            )
        return self

    def has_port(self, port):
        """Whether a seat is at this port."""
        return self.port <= port < self.port + self.nodes * self.players

    def seat(self, seat):
        """The ports of a seat, by node."""
        return [self.port + node * self.players + seat for node in range(self.nodes)]

    def notes(self):
        return (self.folder / "notes").read_text(errors="replace").splitlines()

    def last_notes(self):
        return f"the last notes are {self.notes()[-5:]}"

    def await_note(self, text):
        waited(lambda: text in self.notes() or self.process.poll() is not None, f"the note {text!r}", self.last_notes)
        want(text in self.notes(), f"no note {text!r}; {self.last_notes()}")

    def await_seat(self, seat, node):
        self.await_note(f"seat {seat} ({NAMES[seat]}) not connected: expected at node {node}, port {self.seat(seat)[node]}")

    def fault(self, seat, node, text):
        """The note of a fault of a seat's session."""
        return f"seat {seat} ({NAMES[seat]}) at node {node}: {text}"

    def await_status(self):
        waited(lambda: self.process.poll() is not None, "the end of serve", self.last_notes)
        return self.process.returncode

    def goes_on(self):
        """Nothing ends within a while."""
        pause(QUIET)
        want(self.process.poll() is None, f"serve ended with {self.process.poll()}: {self.notes()}")

    def ends(self, status=0, last=None):
        """`serve` ends with this status, this last note, and nothing on standard output."""
        got = self.await_status()
        want(got == status, f"status {got}, not {status}: {self.notes()[-5:]}")
        want(last is None or self.notes()[-1:] == [last], f"the last note isn't {last!r}: {self.notes()[-5:]}")
        printed = (self.folder / "printed").read_bytes()
        want(printed == b"", f"standard output has {printed!r}")

    def kill(self):
        if self.process is not None:
            self.process.kill()
            self.process.wait()

    def remove(self):
        self.kill()
        shutil.rmtree(self.folder)

    def log(self, node):
        return (self.folder / f"logs/node{node}.log").read_text()

    def is_right(self, *nodes):
        """The logs of these nodes, or of all, are the same, and `check` accepts them."""
        nodes = nodes or range(self.nodes)
        logs = {self.log(node) for node in nodes}
        want(len(logs) == 1, f"the logs of nodes {list(nodes)} differ")
        for node in nodes:
            ran = self.run("check", self.word, f"logs/node{node}.log")
            want((ran.returncode, ran.stdout) == (0, b"yes\n"), f"check says {ran.stdout!r} of node {node}'s log")
        return logs.pop()


class Player(threading.Thread):
    """A player who keeps the lines that he gets, and may do something when he has got so many. He goes home once he is turned away
    and the `serve` that ran when he came has ended."""

    def __init__(self, ports, answer, node=0, after=None, then=None):
        super().__init__(daemon=True)
        self.ports, self.answer, self.node, self.after, self.then = ports, answer, node, after, then
        self.lines, self.served_by = [], next((match.process for match in Match.made if match.has_port(ports[0])), None)
        self.start()

    def run(self):
        until = time.monotonic() + FIRST_LINE
        while self.is_served() if self.lines else time.monotonic() < until:
            play(self.ports, self.answer, self.see, first=self.node)

    def is_served(self):
        return self.served_by is not None and self.served_by.poll() is None

    def see(self, line):
        self.lines.append(line)
        if len(self.lines) == self.after:
            self.then()

    def ends(self):
        """All lines that he got, where he has gone home."""
        self.join(patience())
        want(not self.is_alive(), "a player is still there")
        return self.lines


def received_by_now(connection):
    """What a connection has received that wasn't read; nothing where its other end is gone, None where there is nothing."""
    connection.settimeout(0)
    try:
        return connection.recv(65536)
    except BlockingIOError:
        return None
    except OSError:
        return b""
    finally:
        connection.settimeout(patience())


class Client:
    """A client that does what it is told to."""

    def __init__(self, port, version="VERSION:2.0.0\r\n", room=None):
        self.rest, self.connection = b"", waited(lambda: self.dialled(port, room), f"a connection to port {port}")
        self.send(version)

    def dialled(self, port, room):
        if room is None:
            return dial(port)
        connection = socket.socket()
        connection.setsockopt(socket.SOL_SOCKET, socket.SO_RCVBUF, room)
        try:
            connection.connect(("127.0.0.1", port))
        except OSError:
            return None
        connection.settimeout(patience())
        return connection

    def send(self, text):
        try:
            self.connection.sendall(text.encode() if isinstance(text, str) else text)
        except OSError:
            pass

    def line(self):
        """The next line, without its end; none where the connection has ended."""
        while b"\r\n" not in self.rest:
            got = self.received()
            if not got:
                return None
            self.rest += got
        line, self.rest = self.rest.split(b"\r\n", 1)
        return line.decode("ascii")

    def received(self):
        try:
            return self.connection.recv(4096)
        except socket.timeout:
            raise Wrong("a client waited in vain for a line")
        except OSError:
            return b""

    def gets_nothing(self):
        pause(QUIET)
        got = received_by_now(self.connection)
        want(got is None, f"a client got {got!r}, where nothing was to come")

    def is_closed(self):
        """The dealer ends the connection, whatever came before."""
        while self.received():
            pass

    def close(self):
        self.connection.close()


def calls(match):
    """The answers of a player who calls."""
    game = Game(match.game)
    return lambda line: "c" if turn_of(game, line) else None


def folds(match):
    """The answers of a player who folds where he can, and else calls."""
    game = Game(match.game)

    def answer(line):
        betting = turn_of(game, line)
        return None if betting is None else "f" if betting.may_fold() else "c"

    return answer


def follow(client, answer):
    """Answers what a client gets until its connection ends."""
    line = client.line()
    while line is not None:
        if answer(line):
            client.send(f"{line}:{answer(line)}\r\n")
        line = client.line()


def tried(function):
    """Runs a test. Its matches' programs are killed, and their folders go."""
    try:
        want(not is_over(), "the tests took too long")
        return function()
    finally:
        while Match.made:
            Match.made.pop().remove()


def run_all(name, about, tests, words):
    """Runs the tests of a script, and tells what they found. Its words may name another program than the built one."""
    if words[:1] in (["-h"], ["--help"]):
        print(about.strip())
        return 0
    if words:
        Match.program = Path(words[0]).resolve()
    END[0], tally = time.monotonic() + HOUR, Tally(name)
    for function in tests:
        begun = time.monotonic()
        found = result(lambda: tried(function))
        tally.add(function.__name__.replace("_", " "), found, time.monotonic() - begun)
    return tally.end()


socket.setdefaulttimeout(WAIT)
