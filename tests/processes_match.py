"""A match of tests/processes: its files, its processes and its bots."""
import contextlib
import random
import shutil
import signal
import subprocess
import sys
import tempfile
import threading
import time
from pathlib import Path

sys.dont_write_bytecode = True
sys.path.insert(0, str(Path(__file__).resolve().parent))

from measuring import in_time, pause, want
from serving import FAST, NAMES, TOP, free_ports, patience, reached, size_of, waited

import raising
from log_lines import lines_of
from player import batches, dial, send
from processes_ways import Hosts, Ways
from table import Game, turn_of

# How long a bot thinks where a test needs time to do something to its match, in seconds.
PACE = 0.02
# How long a bot waits until a process is reached, and then for the line that follows what it said, in seconds.
PATIENT = 2.0
TESTS = {}


# The tests that are run only where they are named: what they look for isn't there yet.
BY_NAME = set()


def test(seeds=1, long_seeds=None, by_name=False):
    """A test by its name, and by how many seeds it goes; a function of a seed, and whether this is the long form."""

    def taken(function):
        TESTS[function.__name__] = (seeds, long_seeds or seeds, function)
        BY_NAME.update({function.__name__} if by_name else {})
        return function

    return taken


def make_noise(connection, noise):
    """Sends what isn't an answer, if there is something. Where the other end is gone or takes too long, what follows is late."""
    try:
        connection.sendall(noise)
    except OSError:
        pass


class Bot(threading.Thread):
    """A player who goes from process to process until the match has ended, and keeps what he gets at each sitting."""

    def __init__(self, match, seat, choice):
        super().__init__(daemon=True)
        self.match, self.seat, self.choice, self.sittings = match, seat, choice, []
        self.start()

    def run(self):
        node = 0
        while not self.match.has_ended.is_set():
            self.sittings.append([])
            if not self.sit((self.match.address(node), self.match.seats[node] + self.seat)):
                time.sleep(0.01)
            node = (node + 1) % self.match.count

    def sit(self, address):
        """Answers each line of a process, until the connection ends or what follows is too late. Whether more came than the
        newest line."""
        connection, token, count = dial(address, PATIENT), self.match.token(self.seat), 0
        if connection is None:
            return False
        with connection:
            send(connection, *([f"#TOKEN {token}"] if token else []), "VERSION:2.0.0")
            connection.settimeout(PATIENT)
            for lines in batches(connection):
                for line in lines:
                    count += 1
                    action = self.take(line)
                    if action is not None:
                        make_noise(connection, self.match.noise(self.seat, line))
                        send(connection, f"{line}:{action}")
                    connection.settimeout(None if action is None else PATIENT)
        return count > 1

    def take(self, line):
        self.sittings[-1].append(line)
        self.match.see(line)
        action = self.choice(line)
        if action is not None:
            time.sleep(self.match.pace)
            self.match.may_act.wait()
            if int(line.split(":")[2]) == self.match.hands - 1:
                self.match.may_end.wait()
        return action


class Match:
    """A match whose nodes run in processes of their own, each in a folder of its own, and its bots."""

    program = TOP / "crates/holdem_table/out/holdem_table"
    made = []

    def __init__(self, count=3, hands=120, game="l2.game", proxied=False, on_hosts=False, pace=0.0, place=FAST, hosts=None):
        self.hosts = Hosts(count) if on_hosts else hosts
        self.folder = Path(tempfile.mkdtemp(prefix="processes.", dir=place))
        self.made.append(self)
        self.count, self.hands, self.word, self.game = count, hands, game, (TOP / "examples" / game).read_text()
        rules = Game(self.game)
        # What bots choose, by their seat and a line; they call if nothing else is said.
        self.players, self.choice = rules.players, lambda seat, line: "c" if turn_of(rules, line) else None
        self.processes, self.bots, self.others, self.has_ended = [None] * count, [], [], threading.Event()
        # Bots think for so long, and act while they may; in the last hand only when all else was done.
        self.pace, self.may_act, self.may_end = pace, threading.Event(), threading.Event()
        # The commands that lines told, when each was told first, the last hand among them, and at how many the bots stop.
        self.seen, self.times, self.hand, self.stop_at, self.looking = set(), [], 0, None, threading.Lock()
        self.may_act.set()
        self.take_ports()
        self.ways = Ways(self.ports) if proxied else self.hosts.ways_to(self.ports) if self.hosts else None
        self.homes = [self.folder / f"machine{node}" for node in range(count)]
        for node in range(count):
            self.furnish(node)

    def take_ports(self):
        """Ports in a row: those of the nodes, behind them those where they are asked, and those of the seats, by node."""
        first = free_ports(self.count * (2 + self.players))
        self.ports = [first + node for node in range(self.count)]
        self.statuses = [first + self.count + node for node in range(self.count)]
        self.seats = [first + 2 * self.count + node * self.players for node in range(self.count)]

    def address(self, node):
        return self.hosts.address(node) if self.hosts else "127.0.0.1"

    def peer_address(self, node):
        """Where the other nodes dial a node, which may be at another address than its seats."""
        return self.hosts.peer_address(node) if self.hosts else self.address(node)

    def token(self, seat):
        """What the bot of a seat shows first."""
        return None

    def noise(self, seat, line):
        """What a bot sends before its answer to a line."""
        return b""

    def entries(self):
        """What more the match file says of the match."""
        return []

    def node_entries(self, node):
        """What more it says of a node."""
        return []

    def home(self, node):
        """The folder of a node's machine."""
        return self.homes[node]

    def furnish(self, node):
        """The folder of a node, with all that its machine has before `init`."""
        for name in ("stores", "logs"):
            (self.home(node) / name).mkdir(parents=True)
        (self.home(node) / self.word).write_text(self.game)
        self.write(node)

    def write(self, node, name="m1", seeds={}):
        """The match file of a node: others are found at the ports of proxies, where there are any."""
        names = ", ".join(f'"{one}"' for one in NAMES[: self.players])
        rows = [f'name = "{name}"', f'game = "{self.word}"', f"hands = {self.hands}", f"names = [{names}]"]
        rows += ['stores = "stores"', 'logs = "logs"', *self.entries()]
        for other in range(self.count):
            peers = self.ways.doors[node, other] if self.ways and other != node else self.ports[other]
            rows += ["[[node]]", f"seed = {seeds.get(other, other)}", f'peers = "{self.peer_address(other)}:{peers}"']
            rows += [f'seats = "{self.address(other)}:{self.seats[other]}"', *self.node_entries(other)]
        (self.home(node) / "m.toml").write_text("\n".join(rows) + "\n")

    def run(self, node, *words):
        """Runs the program on a node's machine to its end."""
        how = {"cwd": self.home(node), "stdin": subprocess.DEVNULL, "capture_output": True, "text": True}
        return subprocess.run([self.program, *words], timeout=patience(), **how)

    def init(self, node):
        """Makes a node's store; the first node's makes the match, and what it keeps of it is copied to the others."""
        if node > 0 and not (self.home(node) / "stores/match.kept").exists():
            shutil.copy(self.home(0) / "stores/match.kept", self.home(node) / "stores/match.kept")
        ran = self.run(node, "init", "m.toml", str(node))
        want(ran.returncode == 0, f"init of node {node} ended with {ran.returncode}: {ran.stderr}")

    def begin(self, *nodes, choice=None, have_met=False):
        """Makes all stores, starts these nodes, or all, and lets the bots come, where that is asked for once all these have met. The bots
        call, or choose by a function of seat and line."""
        self.set_up(*nodes)
        if have_met:
            self.await_meeting(*nodes)
        self.choice = choice or self.choice
        self.let_bots_come()
        return self

    def let_bots_come(self, seats=None):
        """Bots of these seats, or of all, go from node to node from now on."""
        self.has_ended.clear()
        self.may_act.set()
        seats = range(self.players) if seats is None else seats
        self.bots += [Bot(self, seat, lambda line, seat=seat: self.choice(seat, line)) for seat in seats]

    def send_bots_away(self):
        """All bots end, once no process runs; what was told to them before they go by without a thought."""
        self.pace = 0.0
        self.has_ended.set()
        self.may_act.set()
        for bot in self.bots:
            bot.join(patience())

    def set_up(self, *nodes):
        """Makes all stores, and starts these nodes, or all."""
        for node in range(self.count):
            self.init(node)
        self.start(*(nodes or range(self.count)))

    def start(self, *nodes, before=None):
        """Starts processes; each calls a function before it becomes the program."""
        for node in nodes:
            with open(self.home(node) / "notes", "ab") as notes, open(self.home(node) / "printed", "ab") as printed:
                how = {"cwd": self.home(node), "stdin": subprocess.DEVNULL, "stdout": printed, "stderr": notes, "preexec_fn": before}
                words = [*(self.hosts.starter(node) if self.hosts else []), self.program, "node", "m.toml", str(node)]
                self.processes[node] = subprocess.Popen(words, **how)

    def kill(self, *nodes):
        for node in nodes:
            self.processes[node].kill()
        for node in nodes:
            self.processes[node].wait()

    def remove(self):
        self.has_ended.set()
        self.may_act.set()
        self.may_end.set()
        if self.ways:
            self.ways.ended.set()
        for process in [*filter(None, self.processes), *self.others]:
            process.kill()
            process.wait()
        if self.hosts:
            self.hosts.remove()
        shutil.rmtree(self.folder, ignore_errors=True)

    def notes(self, node):
        file = self.home(node) / "notes"
        return file.read_text(errors="replace").splitlines() if file.exists() else []

    def last_notes(self):
        states = [process and process.poll() for process in self.processes]
        notes = " / ".join(str(self.notes(node)[-4:]) for node in range(self.count))
        return f"statuses {states}, commands seen {len(self.seen)}, notes {notes}"

    def await_note(self, node, text):
        """Waits for a note of a node that has this text in it."""
        waited(lambda: any(text in note for note in self.notes(node)), f"a note of node {node} with {text!r}", self.last_notes)

    def see(self, line):
        """Takes note of the command that a line tells, whoever gets it first."""
        _, _, hand, betting, _ = line.split(":")
        # (one bot at a time: between a command and the look at their number another bot's could come)
        with self.looking:
            if (hand, betting) not in self.seen:
                self.seen.add((hand, betting))
                self.times.append(time.monotonic())
                self.hand = max(self.hand, int(hand))
                if len(self.seen) == self.stop_at:
                    self.may_act.clear()

    def calmly(self, is_so, text):
        """What has to be so where nothing is lost. A node without a quorum, which a busy machine takes from it, disconnects its
        bots: then it is late."""
        lost = any("quorum lost" in note for node in range(self.count) for note in self.notes(node))
        (in_time if lost else want)(is_so, text)

    def is_alive(self):
        """No process has ended that the test didn't kill, but with a match that came to its end by itself."""
        ended = [node for node, process in enumerate(self.processes) if process and process.poll() not in (None, -signal.SIGKILL)]
        ended = [node for node in ended if not self.is_played_out(node)]
        want(not ended, f"processes of nodes {ended} have ended: {self.last_notes()}")
        return True

    def goes_on(self, more=5):
        """Waits until so many more commands were seen. On a busy machine the match may have come to its last hand before, where bots wait for
        the test, or to its end, where bots are played for: then that is late."""
        goal = len(self.seen) + more
        has_gone_on = lambda: len(self.seen) >= goal
        waited(lambda: self.is_alive() and (has_gone_on() or self.awaits_test()), f"{more} more commands", self.last_notes, seen=lambda: len(self.seen))
        in_time(has_gone_on(), f"the match came to its last hand, or its end, before {more} more commands")

    def awaits_test(self):
        """Whether the last hand has begun, and its bots wait until all else was done; or the match came to its end by itself."""
        return self.hand == self.hands - 1 and not self.may_end.is_set() or any(map(self.is_played_out, range(self.count)))

    def is_played_out(self, node):
        """Whether a node's process has ended with its match, whose last acts bots don't wait with: none where each act is a bot's."""
        return False

    def stands(self, seconds):
        """No command comes for so long, once each bot has read what it had been told before: it has left each node once, also the one at
        which it sits down now, and which may know a command that it hasn't seen."""
        sittings = [len(bot.sittings) for bot in self.bots]
        has_read = lambda: all(len(bot.sittings) > before + self.count for bot, before in zip(self.bots, sittings))
        waited(has_read, "each bot to leave each node", self.last_notes)
        count = len(self.seen)
        pause(seconds)
        want(len(self.seen) == count, f"{len(self.seen) - count} commands came where none can be chosen")

    def await_meeting(self, *nodes):
        """Waits until each of these nodes, or of all, has kept whose stores the others have. A majority plays before that."""
        nodes = nodes or range(self.count)
        pairs = [(node, peer) for node in nodes for peer in nodes if peer != node]
        are_kept = lambda: all((self.home(node) / f"stores/node{node}.peer{peer}.kept").exists() for node, peer in pairs)
        waited(are_kept, f"nodes {list(nodes)} to meet", self.last_notes)

    def await_start(self, node, before=0):
        """Waits until a process of a node has its store and goes on, where its notes so far told of so many starts."""
        waited(lambda: self.starts(node) > before, f"the start of node {node}", self.last_notes)

    def starts(self, node):
        """How many processes of a node have come so far, by its notes."""
        return sum(": started, first unchosen slot" in note for note in self.notes(node))

    def ends(self, *nodes):
        """The processes of these nodes, or of all, end with status 0, and printed nothing. While hands are played they may go on."""
        self.pace = 0.0
        self.may_end.set()
        nodes = nodes or range(self.count)
        has_ended = lambda: all(self.processes[node].poll() is not None for node in nodes)
        waited(has_ended, f"the end of the processes of nodes {list(nodes)}", self.last_notes, seen=self.played)
        self.has_ended.set()
        want(all(self.processes[node].returncode == 0 for node in nodes), f"statuses aren't 0: {self.last_notes()}")
        printed = [node for node in nodes if (self.home(node) / "printed").read_bytes()]
        want(not printed, f"nodes {printed} wrote to standard output")
        self.is_right(*nodes)

    def log(self, node):
        return (self.home(node) / f"logs/node{node}.log").read_text()

    def played(self):
        """How far the match is: how many commands were seen, and how long all logs are."""
        return len(self.seen), [size_of(self.home(node) / f"logs/node{node}.log") for node in range(self.count)]

    def await_hands(self, node, hands):
        """Waits until a node has logged so many hands."""
        def logged():
            try:
                return self.log(node).count("\n")
            except FileNotFoundError:
                return 0

        waited(lambda: logged() > hands, f"{hands} hands of node {node}", self.last_notes, seen=logged)

    def is_right(self, *nodes):
        """The logs of these nodes are one, `check` accepts it, and what was kept and told before is of it."""
        logs = {self.log(node) for node in nodes}
        want(len(logs) == 1, f"the logs of nodes {list(nodes)} differ")
        log = logs.pop()
        for node in nodes:
            ran = self.run(node, "check", self.word, f"logs/node{node}.log")
            want((ran.returncode, ran.stdout) == (0, "yes\n"), f"check says {ran.stdout!r} of node {node}'s log")
        for pattern in ("node*.log", "node*.log.*"):
            for file in self.folder.glob(f"machine*/logs/{pattern}"):
                is_beginning_of(log, file)
        for bot in self.bots:
            self.are_of(log, bot)

    def is_one(self):
        """What the nodes have logged so far are beginnings of one log, but for last lines that are still written."""
        logs = []
        for file in self.folder.glob("machine*/logs/node*.log"):
            # (a start may keep it under another name just now)
            with contextlib.suppress(FileNotFoundError):
                text = file.read_text()
                logs.append(text[: text.rfind("\n") + 1])
        longest = max(logs, key=len, default="")
        want(all(longest.startswith(log) for log in logs), "the logs of the nodes are no beginnings of one")

    def are_of(self, log, bot):
        """What a bot got are lines of the log's match, in order at each sitting."""
        bot.join(patience())
        want(not bot.is_alive(), f"the bot of seat {bot.seat} is still there")
        places = {line: place for place, line in enumerate(lines_of(self, log, bot.seat))}
        for lines in bot.sittings:
            others = [line for line in lines if line not in places]
            want(not others, f"{NAMES[bot.seat]} got {others[:3]}, which no seat gets in the match of the log")
            order = [places[line] for line in lines]
            want(order == sorted(order), f"{NAMES[bot.seat]} got lines that go back in one sitting")


def are_one():
    """The logs of each match that a test made are one so far: it may have ended before its matches did."""
    for match in Match.made:
        match.is_one()


def is_beginning_of(log, file):
    """What a node logged in an earlier process, or before it was lost, is a beginning of the log, but for a last line that
    was cut off."""
    text = file.read_text()
    want(log.startswith(text[: text.rfind("\n") + 1]), f"{file} is no beginning of the log")


def at_random(match, seed):
    """What bots choose who act at random: it depends on the seat, the seed and the line."""
    game = Game(match.game)
    return lambda seat, line: raising.choice(game, seed * 10 + seat, line)


def meanwhile(match, seconds):
    """For so long something is wrong, and on a busy machine for longer: until the match has gone on meanwhile."""
    until = time.monotonic() + seconds
    match.goes_on(3)
    time.sleep(max(0.0, until - time.monotonic()))


def refused(match, node, status, last):
    """A process of a node ends with this status and this last line."""
    ran = match.run(node, "node", "m.toml", str(node))
    got = (ran.returncode, ran.stderr.splitlines()[-1:])
    want(got == (status, [last]), f"node {node} ended with {got}, not {status} {last!r}: {ran.stderr!r}")
    want(ran.stdout == "", f"standard output has {ran.stdout!r}")


def said(port, *pieces, seconds=0.05):
    """Says this at a port, and goes away as soon as something came, or so much later; what it got."""
    got = b""
    try:
        with reached(("127.0.0.1", port)) as stranger:
            for piece in pieces:
                stranger.settimeout(1)
                stranger.sendall(piece)
            stranger.settimeout(seconds)
            got = stranger.recv(1 << 16)
    except OSError:
        pass
    return got


def random_bytes(seed, count):
    return random.Random(seed).getrandbits(8 * count).to_bytes(count, "big")
