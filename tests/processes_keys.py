"""What tests/processes tries of matches with a key, tokens, patience and statuses."""
import hashlib
import random
import re
import shutil
import socket
import subprocess
import sys
import threading
import time

from measuring import Watch, in_time, pause, want
from serving import NAMES, TOP, patience, reached, waited

from processes_match import PACE, Bot, Match, at_random, test
from table import Game, turn_of

sys.path.insert(0, str(TOP / "tools"))
import status_table as status

# A fault of a connection to another node in a note.
FAULT = re.compile(r": 12[0-8] [A-Z]")


class League(Match):
    """A match whose machines have a key, and its seats tokens; each node can be asked."""

    def __init__(self, *words, wait=None, start=None, **more):
        # For so many seconds an act is waited for, and seats that haven't come yet, if that has an end.
        self.wait, self.begins, self.tokens = wait, start, [f"{seat:x}" * 64 for seat in range(len(NAMES))]
        super().__init__(*words, **more)

    def token(self, seat):
        return self.tokens[seat]

    def entries(self):
        digests = [hashlib.sha256(token.encode()).hexdigest() for token in self.tokens[: self.players]]
        rows = ['key = "match.key"', "tokens = [" + ", ".join(f'"{digest}"' for digest in digests) + "]"]
        times = {"patience": self.wait, "start": self.begins}
        return rows + [f"{key} = {seconds}" for key, seconds in times.items() if seconds is not None]

    def node_entries(self, node):
        return [f'status = "{self.address(node)}:{self.statuses[node]}"']

    def init(self, node):
        """Makes the key too, on the first machine; it is copied to the others."""
        key = self.home(node) / "match.key"
        if node == 0:
            ran = self.run(0, "init", "m.toml", "--key", "match.key")
            want(ran.returncode == 0, f"init of the key ended with {ran.returncode}: {ran.stderr}")
            want(key.stat().st_mode & 0o777 == 0o600, f"the key's mode is {key.stat().st_mode:o}")
        elif not key.exists():
            shutil.copy(self.home(0) / "match.key", key)
        super().init(node)

    def asked(self, node):
        """What a node tells of itself, by the names of its words; nothing where it can't be asked."""
        try:
            words = status.answer_at(f"{self.address(node)}:{self.statuses[node]}").split()
        except OSError:
            return {}
        # (one that ends meanwhile says nothing)
        want(words[::2] == status.COLUMNS or not words, f"node {node} tells {words}")
        return dict(zip(words[::2], words[1::2]))

    def await_told(self, node, word, *parts):
        """Waits until a node tells all this by one of its words; all that it tells then."""
        has = lambda told: all(part in told.get(word, "").split(",") for part in parts)
        return waited(lambda: (lambda told: told if has(told) else None)(self.asked(node)), f"{word} {parts} of node {node}", self.last_notes)

    def is_played_out(self, node):
        """Whether a node's process has ended with its match; seats are played for whose bots a busy machine gives no processor."""
        process = self.processes[node]
        return self.wait is not None and process is not None and process.poll() == 0 and self.notes(node)[-1:] == ["the match is over"]

    def faults(self):
        """The notes of connections that were closed by a fault: its number and its name. (A peer may be 120 commands behind.)"""
        return [note for node in range(self.count) for note in self.notes(node) if FAULT.search(note)]


@test(long_seeds=20)
def keyed(seed, is_long):
    """Random processes are killed, and come back; with a key and tokens nothing is told as wrong."""
    dice, match = random.Random(seed), League((3, 5)[seed % 2], hands=80, pace=PACE / 10)
    match.begin(choice=at_random(match, seed))
    for _ in range(6):
        match.goes_on(dice.randint(10, 40))
        node = dice.randrange(match.count)
        match.kill(node)
        time.sleep(dice.random() * 0.05)
        match.start(node)
    match.ends()
    odd = [note for note in match.faults() if "128 AlreadyHere" not in note]
    want(not odd, f"faults are told: {odd[:4]}")


@test()
def another_key(seed, is_long):
    """One machine has another key: both sides tell it, not often, the others go on, and with the right key it joins them."""
    match = League(pace=PACE / 2, hands=240).begin(0, 1)
    match.goes_on(10)
    key = match.home(2) / "match.key"
    right = key.read_text()
    key.write_text("ab" * 32 + "\n")
    match.start(2)
    match.await_note(2, "124 WrongProof")
    match.await_note(0, "124 WrongProof")
    counts = lambda: [sum("124 WrongProof" in note for note in match.notes(node)) for node in (0, 2)]
    # (nobody acts meanwhile: on a busy machine the match would be over behind it)
    match.may_act.clear()
    begun, before = time.monotonic(), counts()
    pause(4)
    more = [count - old for count, old in zip(counts(), before)]
    # (on a busy machine more time has passed)
    most = 1 + time.monotonic() - begun
    want(max(more) <= most, f"nodes 0 and 2 told {more} times in {most - 1:.1f} s that a key is another")
    match.may_act.set()
    match.goes_on(10)
    match.kill(2)
    key.write_text(right)
    match.start(2)
    match.await_note(2, "peer 0: connected")
    match.goes_on(10)
    match.ends()


def came(port, words, seconds, most=1 << 20):
    """Comes to a seat's port and says this; what it got within so long, or until it got so many bytes, and how long after the dial
    the connection ended, if it did."""
    begun = time.monotonic()
    with reached(("127.0.0.1", port)) as bot:
        got = b""
        bot.sendall(words)
        while time.monotonic() - begun < seconds and len(got) < most:
            bot.settimeout(max(0.001, seconds - (time.monotonic() - begun)))
            try:
                piece = bot.recv(4096)
            except ConnectionResetError:
                piece = b""
            except socket.timeout:
                break
            if not piece:
                return got, time.monotonic() - begun
            got += piece
    return got, None


def told_times(notes, text):
    """How often this is told: a note of it stands for one, or for as many as it says."""
    found = [re.fullmatch(re.escape(text) + r"(?: \(from [^)]*\))?(?: \((\d+) times\))?", note) for note in notes]
    return sum(int(it[1] or 1) for it in found if it)


@test()
def wrong_tokens(seed, is_long):
    """Who shows no token, a wrong one or another seat's gets no line; who shows the right one takes the seat over."""
    match = League(pace=PACE / 2, hands=60).begin()
    match.goes_on(20)
    match.may_act.clear()
    time.sleep(0.2)
    version, right = b"VERSION:2.0.0\r\n", match.token(0).encode()
    for words in (b"#TOKEN " + b"f" * 64 + b"\r\n", b"#TOKEN " + match.token(1).encode() + b"\n", b"#token " + right + b"\r\n", b"#TOKEN " + right + b" \r\n", version, b"#" * 5000):
        got, ended = came(match.seats[0], words + version, patience())
        want(got == b"" and ended is not None, f"who says {words[:80]!r} gets {got[:80]!r}, and it ends after {ended}")
        in_time(ended < 2.5, f"the connection of who says {words[:80]!r} ends after {ended:.1f} s")
    got, ended = came(match.seats[0], b"#TOKEN ", patience())
    want(got == b"" and ended is not None and ended >= 1.5, f"who says nothing more gets {got[:80]!r}, and it ends after {ended}")
    waited(lambda: told_times(match.notes(0), "seat 0 (alice) at node 0: wrong token") == 7, "a count of all who were refused", match.last_notes)
    for end in (b"\n", b"\r\n"):
        got, _ = came(match.seats[0], b"#TOKEN " + right + end + version, patience(), most=len(b"MATCHSTATE:"))
        match.calmly(got.startswith(b"MATCHSTATE:"), f"with the right token and {end!r} comes {got[:80]!r}: {match.last_notes()}")
    match.may_act.set()
    match.goes_on(20)
    match.ends()


# Within so long a command follows the answer that it is, in fair seconds.
HEARD = 0.5


class HeardLeague(League):
    """A match that keeps when a seat's bot answered each line, and when each command was told, in fair seconds."""

    def __init__(self, **more):
        self.answered, self.told = {}, {}
        super().__init__(**more)

    def see(self, line):
        super().see(line)
        self.told.setdefault(place_of(line), Watch.here().now())

    def answers(self, line):
        self.answered[place_of(line)] = Watch.here().now()

    def longest(self):
        """How long it took at most from an answer to the next command of its hand, which has to be what was answered; none where it wasn't
        asked in time."""
        after = lambda hand, betting: min((at for (other, text), at in self.told.items() if other == hand and text.startswith(betting) and text != betting), default=None)
        times = [told - at for place, at in self.answered.items() if (told := after(*place)) is not None]
        return max(times, default=0.0)


def place_of(line):
    """The hand of a line, and its betting."""
    return tuple(line.split(":")[2:4])


@test()
def hung_bot(seed, is_long):
    """A bot that hangs is played for, and another that takes its time isn't; then one that is nowhere is."""
    wait = 3
    match = HeardLeague(hands=6, wait=wait)
    game, has_hung = Game(match.game), []
    orders = lambda who: [note for node in range(3) for note in match.notes(node) if who in note and "default action ordered" in note]

    def choice(seat, line):
        if turn_of(game, line) is None:
            return None
        if seat == 1 and not has_hung:
            has_hung.append(line)
            # (a node that has no quorum for a moment, on a busy machine, begins its patience anew)
            while len(orders("(bob)")) < 2 and not match.has_ended.is_set():
                time.sleep(0.05)
        elif len(match.seen) % 10 == 3:
            time.sleep(0.5)
        if seat == 0:
            match.answers(line)
        return "c"

    match.begin(choice=choice)
    waited(lambda: len(orders("(bob)")) >= 2, "two orders", match.last_notes)
    match.goes_on(5)
    match.ends()
    # (who gets no processor for long takes more than his time; but then his answer comes to an old line)
    in_time(not orders("(alice)"), f"who only takes his time is played for: {orders('')}")
    refused = sum("83 NotCurrent" in note and "(alice)" in note for node in range(3) for note in match.notes(node))
    is_heard = match.longest() < HEARD or len(orders("(alice)")) <= refused
    match.calmly(is_heard, f"what alice answered is told {match.longest():.1f} s later: {len(orders('(alice)'))} times she is played for, and {refused} answers came late")
    log = match.log(0).splitlines()[-1]
    pause(2.5)
    want(match.log(0).splitlines()[-1] == log, "the log grows behind its end")


@test()
def absent_bot(seed, is_long):
    """Nobody ever comes to seat 1: the match waits for it, and comes to its end all the same."""
    match = League(hands=2, wait=1, start=3)
    match.set_up()
    game = Game(match.game)
    match.bots.append(Bot(match, 0, lambda line: "c" if turn_of(game, line) else None))
    match.ends()


@test()
def told_statuses(seed, is_long):
    """Nodes are asked, while one is lost, while one is cut off, and by many who don't read; tools/status prints a table."""
    match = League(proxied=True, pace=PACE / 2, hands=240).begin()
    match.goes_on(20)
    tool = lambda: subprocess.run([TOP / "tools/status", "m.toml"], cwd=match.home(0), capture_output=True, text=True, timeout=patience())
    for node in range(3):
        told = match.await_told(node, "quorum", "yes")
        want((told["node"], told["over"]) == (str(node), "no") and len(told["seats"].split(",")) == 2, f"node {node} tells {told}")
    # (on a busy machine a node may take longer than the tool waits)
    ran = waited(lambda: (lambda ran: ran if ran.returncode == 0 else None)(tool()), "all rows of tools/status", match.last_notes)
    # (on a busy machine a node may be far behind, which stands behind the table)
    table = [line for line in ran.stdout.splitlines() if not line.endswith(" commands behind")]
    want(len(table) == 4, f"tools/status says {ran.stdout!r} {ran.stderr!r}")
    match.kill(2)
    match.await_told(0, "peers", "2:gone")
    fronts = []
    for _ in range(2):
        fronts.append(int(match.await_told(0, "node", "0")["front"]))
        match.goes_on(5)
    want(fronts[0] < fronts[1], f"the front stays: {fronts}")
    ran = tool()
    want((ran.returncode, ran.stdout.splitlines()[3]) == (1, "2     not reached"), f"tools/status says {ran.returncode} {ran.stdout!r}")
    match.start(2)
    match.await_told(2, "quorum", "yes")
    match.ways.silent = {(0, 2), (2, 0), (1, 2), (2, 1)}
    told = match.await_told(2, "peers", "0:gone", "1:gone")
    want(told["quorum"] == "no", "a node that is cut off tells that it has a quorum")
    match.goes_on(5)
    match.ways.silent = set()
    match.await_told(2, "quorum", "yes")
    idle = [socket.create_connection((match.address(0), match.statuses[0]), timeout=2) for _ in range(20)]
    match.goes_on(10)
    match.await_told(0, "node", "0")
    for one in idle:
        one.close()
    match.ends()
    want(tool().returncode == 1, "processes that have ended are reached")


@test()
def table_of_statuses(seed, is_long):
    """tools/status where one node hangs, one can't be asked, and something else answers."""
    told = [["1", "37", "4", "no", "yes", "4.0", "no", "yes", "0:37:campaigns,2:gone", "alice:seated,bob:away", "no", "0,812", "412/s"], "not reached"]
    rows = status.printed(told)
    want([*rows] == [
        "node  front  hand  over  replaying  promised  leads  quorum  peers                  seats                  pending  backlog  commands",
        "1     37     4     no    yes        4.0       no     yes     0:37:campaigns,2:gone  alice:seated,bob:away  no       0,812    412/s",
        "1     not reached",
    ], f"the table is {rows}")
    leads = ["0", "1064", "4", "no", "no", "4.0", "yes", "yes", "1:1000:campaigns,2:999,3:gone,4:1064", "alice:away", "no", "0", "412/s"]
    want([*status.far_behind([leads, *told])] == ["node 2 is 65 commands behind"], "who is far behind")
    want([*status.far_behind([[*leads[:6], "no", *leads[7:]]])] == [], "a node that doesn't lead says who is far behind")
    words = [word for pair in zip(status.COLUMNS, ["1", *["x"] * (len(status.COLUMNS) - 1)]) for word in pair]
    for text, said in (("x", words[1::2]), ("\x1b]0;x\x07", "something else answers there"), ("x\b\b", "something else answers there")):
        with socket.create_server(("127.0.0.1", 0)) as server:
            asked = threading.Thread(target=lambda line: server.accept()[0].sendall(line), args=(" ".join([*words[:-1], text]).encode() + b"\n",))
            asked.start()
            found = status.row(1, f"127.0.0.1:{server.getsockname()[1]}")
            asked.join()
        in_time(found != "not reached", "a line that was said at once isn't heard within a second")
        want(found in (said, "not reached"), f"of {text!r} the row is {found}")
    want(status.row(1, "127.0.0.1:99999") == "not reached", "a port that there isn't")
    helped = subprocess.run([TOP / "tools/status", "--help"], capture_output=True, text=True, timeout=patience())
    want(helped.returncode == 0 and "tools/status MATCH" in helped.stdout and not helped.stderr, f"{helped}")
