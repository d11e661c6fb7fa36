"""Those of tests/processes who dial a match and aren't of it, who flood it with a seat's token, and who change what its nodes
say to each other."""
import contextlib
import hashlib
import random
import shutil
import socket
import subprocess
import tempfile
import threading
import time
from pathlib import Path

from measuring import NotMeasured, in_time, measured, want
from serving import FAST, patience, reached, waited

from processes_disks import SlowMatch
from processes_keys import League
from processes_match import PACE, Match, meanwhile, random_bytes, said, test
from processes_nets import Besieged, Loopback, Sink, SlowLoopback, asking, dialling, dialling_seats, flooding, showing, slow_hosts


def record(kind, body):
    """What one process says to another."""
    return (1 + len(body)).to_bytes(4, "big") + bytes([kind]) + body


def hello(match, speaker, listener, mark=b"HDN1", digest=None, life=b"a stranger's own", link=0, count=None):
    """The record by which a node begins; over a connection with codes it has a nonce."""
    digest = digest or hashlib.sha256((match.home(0) / "stores/match.kept").read_bytes()).digest()
    return record(0, mark + bytes([link, speaker, listener, count or match.count]) + digest + life + bytes(16 + 5 + 32 * link))


# What strangers say at a node's port, by the note that comes of it: by the match and the node.
SAID = {
    "120 BadLength": lambda match, node: (4134).to_bytes(4, "big") + bytes(4134),
    "121 BadKind": lambda match, node: record(9, bytes(20)),
    "122 BadHello": lambda match, node: hello(match, 2, node, mark=b"HDN3"),
    "123 OtherMatch digest": lambda match, node: hello(match, 2 if node < 2 else 1, node, digest=bytes(32)),
    "123 OtherMatch nodes 5, not 3": lambda match, node: hello(match, 2 if node < 2 else 1, node, count=5),
    "123 OtherMatch number": lambda match, node: hello(match, 2, 1 - node) if node < 2 else hello(match, 1, node),
    "126 UnexpectedRecord": lambda match, node: record(2, bytes(20)),
}


def is_told(match, node, note, words):
    """Says this at a node's port; whether a note tells it soon."""
    said(match.ports[node], words)
    until, has_note = time.monotonic() + 2, False
    while not has_note and time.monotonic() < until:
        has_note = any(note in line for line in match.notes(node))
        time.sleep(0.01)
    return has_note


@test()
def strangers(seed, is_long):
    """Ten million random bytes at each port, half records, and what isn't the speaker's to say."""
    match = Match(pace=PACE / 2, hands=400).begin()
    match.goes_on(20)
    for node in range(3):
        match.await_note(node, f"peer {(node + 1) % 3}: connected")
    noise = random_bytes(seed, 10_000_000)
    for port in match.ports + [port + seat for port in match.seats for seat in range(2)]:
        said(port, noise)
    match.goes_on()
    for node, port in enumerate(match.ports):
        for length in (1, 4, 5, 50, 81):
            said(port, hello(match, 2, node)[:length])
    for note, words in SAID.items():
        for node, port in enumerate(match.ports):
            said(port, words(match, node))
        for node in range(3):
            match.await_note(node, f"inbound connection refused: {note}")
    for node, numbers in enumerate(("1 called, not 0", "0 called, not 1", "1, not above 2")):
        match.await_note(node, f"inbound connection refused: 123 OtherMatch number {numbers}")
    for node in (0, 1):
        # (on a busy machine node 2 may be gone for a moment, and its Hello is taken)
        waited(lambda: is_told(match, node, "128 AlreadyHere", hello(match, 2, node)), f"128 at node {node}", match.last_notes)
    match.goes_on(20)
    match.ends()


@test()
def half_records(seed, is_long):
    """A process ends within a record: another speaks as the node that was killed, and says half a frame, and what is none."""
    match = Match(pace=PACE / 2).begin()
    match.goes_on(20)
    match.kill(2)
    kept = dict(line.split(" ", 1) for line in (match.home(2) / "stores/node2.kept").read_text().splitlines())
    frame = record(2, random_bytes(seed, 40))
    for node in (0, 1):
        begin = hello(match, 2, node, life=bytes.fromhex(kept["life"]))
        for rest in (b"", frame[:3], frame[:20], record(3, bytes(14)), frame, begin):
            got = said(match.ports[node], begin, rest, seconds=patience())
            want(got[5:9] == b"HDN1", f"node {node} doesn't greet node 2, but says {got[:20]!r}: {match.last_notes()}")
            match.goes_on(2)
    match.start(2)
    match.await_note(2, "peer 0: connected")
    match.goes_on(20)
    match.ends()


# No piece of fewer bytes is changed: less than a record, and so of no use.
LEAST = 20
# What comes of a change anywhere: of records, and of what goes before them.
ANY_CHANGE = ["125 WrongTag", "120 BadLength", "121 BadKind", "124 WrongProof", "122 BadHello", "123 OtherMatch"]


@contextlib.contextmanager
def crowd(match, node, count):
    """So many callers at a node's port at once, who prove nothing: half of them say the Hello of node 2. One that is closed
    comes again a second later. The numbers of those who came, each as often."""
    is_over, came = threading.Event(), []
    words = hello(match, 2, node, link=1)

    def stay(number):
        while not is_over.is_set():
            try:
                with socket.create_connection(("127.0.0.1", match.ports[node]), timeout=1) as caller:
                    caller.settimeout(0.2)
                    caller.sendall(words if number % 2 else words[:3])
                    came.append(number)
                    while not is_over.is_set():
                        try:
                            if not caller.recv(1 << 16):
                                break
                        except socket.timeout:
                            pass
            except OSError:
                pass
            is_over.wait(1)

    threads = [threading.Thread(target=stay, args=(number,), daemon=True) for number in range(count)]
    for thread in threads:
        thread.start()
    try:
        yield came
    finally:
        is_over.set()
        for thread in threads:
            thread.join(5)


def joined(match, node, peer):
    """How often a node told that a peer joined."""
    return match.notes(node).count(f"peer {peer}: connected")


@test()
def crowds(seed, is_long):
    """64 callers from one address, who prove nothing, while the peers of that node dial it again; and ten million random
    bytes at each port."""
    match = League(pace=PACE / 2, hands=240).begin()
    match.goes_on(20)
    with crowd(match, 0, 64) as came:
        match.goes_on(20)
        for node in (1, 2):
            count = joined(match, 0, node)
            match.kill(node)
            match.start(node)
            waited(lambda: joined(match, 0, node) > count, f"node {node} at node 0", match.last_notes)
            match.goes_on(10)
        count = joined(match, 1, 0)
        match.kill(0)
        match.start(0)
        waited(lambda: joined(match, 1, 0) > count, "node 0 at node 1", match.last_notes)
        match.goes_on(10)
    in_time(len({*came}) == 64, f"{len({*came})} callers came of 64, {len(came)} times")
    noise = random_bytes(seed, 10_000_000)
    for port in [*match.ports, *match.statuses, *(port + seat for port in match.seats for seat in range(2))]:
        said(port, noise)
    match.goes_on(20)
    match.ends()


def changed(match, ends, change, notes):
    """A piece of a way that is open is changed, and another each two seconds until the node that hears it tells one of these
    notes: a connection may end before it is heard. Then the match goes on."""
    before, due = len(match.notes(ends[1])), [0.0]

    def change_one(way, piece):
        if way.ends != ends or time.monotonic() < due[0] or len(piece) < LEAST or way is not newest(match, ends):
            return piece
        due[0] = time.monotonic() + 2
        return change(piece)

    match.ways.change = change_one
    found = lambda: any(note in line for line in match.notes(ends[1])[before:] for note in notes)
    waited(found, f"one of {notes} at node {ends[1]}", match.last_notes)
    match.ways.change = lambda way, piece: piece
    match.goes_on(10)


def newest(match, ends):
    """The connection that was begun last of a way."""
    return [way for way in match.ways.begun if way.ends == ends][-1]


def flipped(piece, place):
    return piece[:place] + bytes([piece[place] ^ 1]) + piece[place + 1 :]


@test()
def changed_bytes(seed, is_long):
    """Bytes are changed on the way, first of codes, then any."""
    dice, match = random.Random(seed), League(proxied=True, pace=PACE / 2, hands=240).begin()
    match.goes_on(20)
    for ends in ((2, 0), (0, 2), (1, 0), (0, 1)):
        changed(match, ends, lambda piece: flipped(piece, len(piece) - 1), ["125 WrongTag", "124 WrongProof"])
    for ends in ((2, 1), (1, 2)):
        changed(match, ends, lambda piece: flipped(piece, 5 + dice.randrange(len(piece) - 5)), ANY_CHANGE)
    match.ends()


@test()
def said_again(seed, is_long):
    """All that a node said over an earlier connection is said again by another, alone and within a later connection."""
    match = League(proxied=True, pace=PACE / 2, hands=240).begin()
    match.goes_on(20)
    match.await_note(2, "peer 0: connected")
    match.await_note(0, "peer 2: connected")
    first = newest(match, (2, 0))
    match.kill(2)
    match.goes_on(5)
    said(match.ports[0], bytes(first.said))
    match.await_note(0, "124 WrongProof")
    match.start(2)
    waited(lambda: newest(match, (2, 0)) is not first, "another connection", match.last_notes)
    match.goes_on(20)
    changed(match, (2, 0), lambda piece: bytes(first.said[-len(piece) :]), ANY_CHANGE)
    match.ends()


@test()
def turned_back(seed, is_long):
    """A node hears what it says itself in place of what a peer says, in the middle and from the beginning on."""
    match = League(proxied=True, pace=PACE / 2, hands=240).begin()
    match.goes_on(20)
    match.ways.turned = {(2, 0), (0, 2)}
    heard = lambda: any(f"peer {2 - node}: 125 WrongTag" in note for node in (0, 2) for note in match.notes(node))
    waited(heard, "a note of who hears himself", match.last_notes)
    meanwhile(match, 3)
    count = joined(match, 2, 0)
    match.ways.turned = set()
    waited(lambda: joined(match, 2, 0) > count, "node 0 at node 2 again", match.last_notes)
    match.goes_on(20)
    match.ends()


# How long a way between two nodes takes, in seconds, by the seed; and how many hands a match has by that, so that it lasts
# through an attack and ends soon behind it.
WAYS = [0.0, 0.025, 0.05]
HANDS = {0.0: 350, 0.025: 45, 0.05: 25}
# The commands of a hand of two who call, and how long bots think.
COMMANDS, THOUGHT = 9, 0.005
# Within so long a process has joined that is started under attack, and for so long it is waited for, in seconds.
SOON, LATE = 1.0, 8.0
# The most notes of a process a second, and their mean length.
NOTES, NOTE_BYTES = 50, 100
# The least that attackers do in a second: bytes of empty lines that a flood sends, and tokens that are shown as fast as can be.
FLOODED, SHOWN = 100_000, 20
# How many of 2,000 who ask at once come at least.
ASKERS = 1900


def besieged(seed, net=slow_hosts, **more):
    """A match with ways of so long, and that way."""
    delay = WAYS[(seed - 1) % len(WAYS)]
    words = {"hands": HANDS[delay], "pace": THOUGHT, **more}
    return Besieged(net(3), delay, **words), delay


def hands_a_second(match, seconds):
    """How fast a match goes on, for so long."""
    count = len(match.seen)
    with measured():
        time.sleep(seconds)
    match.is_alive()
    return (len(match.seen) - count) / COMMANDS / seconds


def notes_bytes(match):
    """How many bytes of notes all processes have made."""
    return sum((match.home(node) / "notes").stat().st_size for node in range(match.count))


def are_few(match, before, seconds):
    """Whether no more notes were made in so long than processes make at most."""
    return notes_bytes(match) - before <= match.count * NOTES * NOTE_BYTES * (seconds + 1)


def time_to_join(match, node):
    """Kills a process and starts it again; how long it takes until it hears all others, and does so for a second. None where
    that is too long."""
    match.kill(node)
    begun, since = time.monotonic(), None
    match.start(node)
    while time.monotonic() - begun < LATE + 1:
        told, now = match.asked(node), time.monotonic()
        is_here = told.get("quorum") == "yes" and "gone" not in told["peers"]
        since = (since or now) if is_here else None
        if since and now - since >= 1:
            return since - begun
        time.sleep(0.01)
    return None


def told(seconds):
    """How long that took, in words."""
    return f"not in {LATE:.0f} s" if seconds is None else f"in {seconds:.2f} s"


def withstands(match, delay, rate, *nodes):
    """Strangers dial nodes that often: the match goes on at a third of its speed at least, and a process that dials all
    others, and one that all others dial, join soon when they are started again."""
    calm, before = hands_a_second(match, 2), notes_bytes(match)
    begun = time.monotonic()
    with dialling(match, rate, *nodes) as them:
        during = hands_a_second(match, 4)
        joins = [time_to_join(match, node) for node in (2, 0)]
        after = hands_a_second(match, 3)
    seconds = time.monotonic() - begun
    figures = f"{1000 * delay:.0f} ms a way, {them.made} strangers in {seconds:.0f} s: {calm:.1f} hands a second before, {during:.1f} and {after:.1f} meanwhile, nodes 2 and 0 join {' and '.join(map(told, joins))}, {notes_bytes(match) - before} bytes of notes"
    want(are_few(match, before, seconds), figures)
    them.did(made=rate * seconds / 2)
    in_time(min(during, after) >= calm / 3 and all(it is not None and it <= SOON for it in joins), figures)
    match.ends()
    return figures


@test(seeds=3, long_seeds=6)
def silent_strangers(seed, is_long):
    """Strangers of 64 addresses dial two nodes a thousand times a second each, and say nothing; in the long form five
    thousand times."""
    match, delay = besieged(seed)
    match.begin().goes_on(20)
    return withstands(match, delay, 10000 if seed > 3 else 2000, 0, 1)


class OnOneMachine(Besieged):
    """Nodes that dial from an address which isn't at `peers`, and say so."""

    source = "127.0.0.1"

    def node_entries(self, node):
        return [*super().node_entries(node), f'from = ["{self.source}"]']


@test()
def strangers_on_one_machine(seed, is_long):
    """The same where the nodes are at three loopback addresses of one machine, which dials all of them from 127.0.0.1."""
    match = OnOneMachine(Loopback(3), hands=HANDS[0.0], pace=THOUGHT).begin()
    match.goes_on(20)
    return withstands(match, 0.0, 2000, 0, 1)


@test(seeds=2)
def strangers_and_a_proxy(seed, is_long):
    """The same where nodes dial each other through a proxy, which has an address of its own, and slow ways."""
    delay = WAYS[seed]
    match = OnOneMachine(SlowLoopback(3, source=lambda node: OnOneMachine.source), delay, hands=HANDS[delay], pace=THOUGHT).begin()
    match.goes_on(20)
    return withstands(match, delay, 2000, 0, 1)


def time_to_be_seated(match, seat, node):
    """Comes to a seat's port with its token; how long it takes until a line comes. None where that is too long."""
    begun = time.monotonic()
    while time.monotonic() - begun < LATE:
        try:
            with socket.create_connection((match.address(node), match.seats[node] + seat), timeout=LATE) as bot:
                bot.sendall(f"#TOKEN {match.token(seat)}\r\nVERSION:2.0.0\r\n".encode())
                if bot.recv(4096):
                    return time.monotonic() - begun
        except OSError:
            pass
    return None


@test(long_seeds=3)
def strangers_at_seats(seed, is_long):
    """Strangers dial the ports of a seat two thousand times a second, and say nothing: the match goes on, and who has the
    token gets a line soon."""
    match, delay = besieged(seed)
    match.begin().goes_on(20)
    calm, begun = hands_a_second(match, 2), time.monotonic()
    with dialling_seats(match, 2000, 0, 0, 1, 2) as them:
        during = hands_a_second(match, 3)
        times = [time_to_be_seated(match, 0, node) for node in (0, 1, 2)]
        seconds = time.monotonic() - begun
    figures = f"{1000 * delay:.0f} ms a way, {them.made} strangers: {calm:.1f} hands a second before, {during:.1f} meanwhile, a line comes {', '.join(map(told, times))}, {notes_bytes(match)} bytes of notes"
    them.did(made=2000 * seconds / 2)
    in_time(during >= calm / 3 and all(it is not None and it <= 2 * SOON for it in times), figures)
    match.ends()
    return figures


class SlowBesieged(SlowMatch, Besieged):
    """A match that strangers come to, all of whose disks are slow."""


# How long a sync takes longer; how soon somebody sits, and a node is there, in seconds; and how many hands suffice.
SYNC, WITHIN, SLOW_HANDS = 0.02, 2.0, 200


@test(seeds=4)
def strangers_of_each_kind(seed, is_long):
    """Strangers of one kind come to the ports of a seat and of peers two thousand times a second each, while each sync takes 20 ms:
    who has the token gets a line, a process that starts again is there, and nobody is played for. Nodes dial from their own
    addresses, for which places are kept, by proxies."""
    kind = ("silent", "closing", "resetting", "wrong")[seed - 1]
    match = SlowBesieged(slow=range(3), sync=SYNC, net=SlowLoopback(3), hands=SLOW_HANDS, pace=THOUGHT, wait=3)
    match.begin().goes_on(10)
    begun = time.monotonic()
    with dialling_seats(match, 2000, 0, 0, 1, 2, kind=kind) as at_seats, dialling(match, 2000, 0, 1, kind=kind) as at_peers:
        time.sleep(2)
        sits = [time_to_be_seated(match, 0, node) for node in (0, 1, 2)]
        joins = [time_to_join(match, node) for node in (2, 1)]
        sits.append(time_to_be_seated(match, 0, 1))
        seconds = time.monotonic() - begun
    orders = sum("default action ordered" in note for node in range(3) for note in match.notes(node))
    figures = f"{at_seats.made} and {at_peers.made} {kind} strangers in {seconds:.0f} s: a line comes {', '.join(map(told, sits))}, nodes 2 and 1 join {' and '.join(map(told, joins))}, {orders} default actions"
    at_seats.did(made=2000 * seconds / 2)
    at_peers.did(made=2000 * seconds / 2)
    in_time(all(it is not None and it <= WITHIN for it in (*sits, *joins)) and orders == 0, figures)
    match.file.unlink()
    match.ends()
    return figures


@test(seeds=3)
def flooding_seat(seed, is_long):
    """A seat's client with its token sends a million empty lines a second to each node, and answers rightly."""
    match, delay = besieged(seed)
    match.set_up()
    match.let_bots_come([1])
    with flooding(match, 0, 0, 0, 1, 2):
        match.goes_on(20)
        calm = hands_a_second(match, 2)
    before, begun = notes_bytes(match), time.monotonic()
    with flooding(match, 1_000_000, 0, 0, 1, 2) as flood:
        match.goes_on(1)
        with measured() as window:
            during = hands_a_second(match, 5)
        ran = window.of(match.program).ran / 5
        notes, seconds = notes_bytes(match) - before, time.monotonic() - begun
        is_quiet = are_few(match, before, seconds)
        join = time_to_join(match, 2)
    lines = flood.sent
    cost = ran / (lines / (time.monotonic() - begun))
    figures = f"{1000 * delay:.0f} ms a way, {lines // 1000} KB of empty lines: {calm:.1f} hands a second before, {during:.1f} meanwhile, node 2 joins {told(join)}, {notes} bytes of notes in {seconds:.0f} s, {1e6 * cost:.2f} us of a processor a line"
    want(is_quiet, figures)
    flood.did(sent=FLOODED * seconds)
    in_time(during >= calm / 3 and join is not None and join <= SOON, figures)
    match.let_bots_come([0])
    match.ends()
    return figures


class Room:
    """A small disk that all of a match is on, where the system lets one be mounted."""

    def __init__(self, size):
        self.folder = Path(tempfile.mkdtemp(prefix="processes.", dir=FAST))
        words = ["mount", "-t", "tmpfs", "-o", f"size={size}", "none", self.folder]
        self.is_there = shutil.which("mount") is not None and subprocess.run(words, capture_output=True).returncode == 0

    def __enter__(self):
        return self

    def free(self):
        return shutil.disk_usage(self.folder).free

    def __exit__(self, *_):
        while Match.made:
            Match.made.pop().remove()
        if self.is_there:
            subprocess.run(["umount", "-l", self.folder], capture_output=True)
        shutil.rmtree(self.folder, ignore_errors=True)


@test()
def notes_and_a_small_disk(seed, is_long):
    """Stores, logs and notes are on one disk with 20 MB free, and the flood is on: no process ends, and the match goes on
    behind it. In the long form for ten minutes."""
    with Room("20m") as room:
        if not room.is_there:
            raise NotMeasured("no disk could be mounted")
        match = Besieged(Loopback(3), hands=10_000, pace=THOUGHT, place=room.folder)
        match.set_up()
        match.let_bots_come([1])
        free, before, begun = room.free(), notes_bytes(match), time.monotonic()
        with flooding(match, 1_000_000, 0, 0, 1, 2) as flood:
            until = begun + (570 if is_long else 15)
            while time.monotonic() < until and room.free() > 0 and match.is_alive():
                time.sleep(0.1)
            seconds, left = time.monotonic() - begun, room.free()
            figures = f"{left >> 20} of {free >> 20} MB are free after {seconds:.0f} s, {notes_bytes(match) - before} bytes of notes, {len(match.seen)} commands"
            want(left > 0 and are_few(match, before, seconds) and match.is_alive(), figures)
        flood.did(sent=FLOODED * seconds)
        match.let_bots_come([0])
        match.goes_on(20)
        match.is_one()
        return figures


@test(seeds=2)
def lines_before_answers(seed, is_long):
    """A bot sends a thousand empty lines before each right answer; another answers the first line of its match 9,300 times
    before it answers the newest one: the match goes on."""
    match, begun = Besieged(Loopback(3), hands=40, pace=THOUGHT), time.monotonic()
    first, old = [], []

    def empty_lines(seat, line):
        return b"\n" * 1000 if seat == 0 else b""

    def old_lines(seat, line):
        first.extend([] if first else [line])
        old.extend([] if old or len(match.seen) < 30 else [line])
        return (first[0] + ":c\r\n").encode() * 9300 if old == [line] else b""

    match.noise = empty_lines if seed == 1 else old_lines
    match.begin().goes_on(90)
    seconds = time.monotonic() - begun
    figures = f"90 commands in {seconds:.1f} s, {notes_bytes(match)} bytes of notes"
    is_quiet = are_few(match, 0, seconds)
    want(is_quiet, figures)
    in_time(seconds <= 10, figures)
    match.ends()
    return figures


@test(seeds=3)
def shown_again(seed, is_long):
    """A seat's token is shown anew each 0.7 s, at one node after another, by somebody who never acts: no act takes longer
    than (nodes + 1) times the patience."""
    match, delay = besieged(seed, wait=1, hands=12)
    match.set_up()
    match.let_bots_come([1])
    begun = time.monotonic()
    with showing(match, 0.7, 0, 0, 1, 2) as shown:
        match.goes_on(2)
        until, times = time.monotonic() + (60 if is_long else 12), []
        while time.monotonic() < until:
            count, since = len(match.seen), time.monotonic()
            waited(lambda: len(match.seen) > count, "a command", match.last_notes)
            times.append(time.monotonic() - since)
        seconds = time.monotonic() - begun
    shown.did(made=seconds / 0.7 / 2)
    match.let_bots_come([0])
    match.ends()
    figures = f"{1000 * delay:.0f} ms a way: an act takes {max(times):.1f} s at most, {notes_bytes(match)} bytes of notes"
    in_time(max(times) <= match.count + 1 + SOON, figures)
    return figures


@test(seeds=3)
def shown_without_end(seed, is_long):
    """The same as fast as can be, while the seat's bot plays: it and the one who shows the token part each other, and the
    notes that tell of it are few."""
    match, delay = besieged(seed, wait=1)
    match.begin().goes_on(20)
    before, begun = notes_bytes(match), time.monotonic()
    with showing(match, 0.0, 0, 0, 1, 2) as shown:
        during = hands_a_second(match, 4)
        join = time_to_join(match, 2)
    seconds = time.monotonic() - begun
    figures = f"{1000 * delay:.0f} ms a way, {shown.made} tokens in {seconds:.0f} s: {during:.1f} hands a second, node 2 joins {told(join)}, {notes_bytes(match) - before} bytes of notes"
    want(are_few(match, before, seconds), figures)
    shown.did(made=SHOWN * seconds)
    in_time(during > 0 and join is not None and join <= SOON, figures)
    match.ends()
    return figures


def time_to_line(match, node):
    """How long a node takes to say how it is, in seconds."""
    begun = time.monotonic()
    with reached((match.address(node), match.statuses[node]), match.last_notes) as asker:
        asker.settimeout(60)
        want(asker.recv(4096).startswith(b"node "), "something else than a status came")
    return time.monotonic() - begun


@test(seeds=3)
def many_askers(seed, is_long):
    """2,000 ask a node how it is, at a table where nobody acts and while a match goes on; one behind them has his line
    soon."""
    match, delay = besieged(seed)
    match.begin().goes_on(20)
    calm, before = hands_a_second(match, 2), notes_bytes(match)
    begun, times = time.monotonic(), []
    for is_idle in (False, True):
        if is_idle:
            match.may_act.clear()
            time.sleep(0.5)
        with asking(match, 2000, 0) as them:
            them.program.stdout.readline()
            times.append(time_to_line(match, 0))
            during = hands_a_second(match, 2) if not is_idle else during
        them.did(made=ASKERS)
        match.may_act.set()
    figures = f"{1000 * delay:.0f} ms a way: a line comes after {times[0]:.2f} s, at an idle table after {times[1]:.2f} s; {calm:.1f} hands a second before, {during:.1f} meanwhile"
    is_quiet = are_few(match, before, time.monotonic() - begun)
    want(is_quiet, figures)
    in_time(max(times) <= 1 and during >= calm / 3, figures)
    match.ends()
    return figures


@test(by_name=True)
def besieged_match(seed, is_long):
    """A match from its first hand to its last while strangers dial two nodes and a seat floods them: at no less than a third
    of its speed where the same programs have others to attack. In the long form it has 10,000 hands."""
    hands, speeds = 10_000 if is_long else 300, []
    for is_attacked in (False, True):
        match = Besieged(slow_hosts(3), hands=hands if is_attacked else 300)
        match.set_up()
        sink = Sink(match)
        attacked = match if is_attacked else sink
        with sink, dialling(attacked, 2000, 0, 1) as them, flooding(attacked, 333_000, 0, 0, 1, 2) as flood:
            begun = time.monotonic()
            match.let_bots_come([1] if is_attacked else [0, 1])
            until = begun + (480 if is_long else 40)
            while time.monotonic() < until and match.hand < match.hands - 1 and match.is_alive():
                time.sleep(0.01)
            seconds = time.monotonic() - begun
            speeds.append((match.hand + 1) / seconds)
        them.did(made=2000 * seconds / 2)
        flood.did(sent=FLOODED * seconds)
        in_time(match.hand == match.hands - 1 and speeds[-1] >= speeds[0] / 3, f"{match.hand} of {match.hands} hands: {speeds} a second")
        match.let_bots_come([0])
        match.ends()
        Match.made.pop().remove()
    return f"{hands} hands: {speeds[0]:.1f} a second beside others who are attacked, {speeds[1]:.1f} under attack"
