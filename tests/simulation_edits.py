"""Traces of tests/simulation as text that can be edited: what wrong traces are made of, and the list of them."""
from simulation_trace import KINDS, Records, Store, bytes_of, number, put, split

FRAME = 2

GAME, LIMIT = "examples/n2.game", "examples/l2.game"
STARTS = ["0 start 0", "0 start 1", "0 start 2", "0 sync 0 300", "0 sync 1 300", "0 sync 2 300"]
NEVER = (1 << 64) - 1
# What a bot does: it calls, or does all. How it is: it stays at its node, asks for all lines, or for the newest.
CALLS, DOES_ALL, STAYS, ALL, NEWEST = 0, 2, 1, 4, 8

SCRIPTS = {
    # Two bots that ask for all lines, and a stranger who asks for the status.
    "plain": [f"match 3 4 7 - - {GAME} alice|bob", *STARTS, f"1000 bot 0 0 900 {DOES_ALL} 5 {ALL}", f"2000 bot 1 1 700 {DOES_ALL} 9 {ALL}", "1300000 stranger 0 255 0 1", "20000000 think 0 900", "30000000 end"],
    # With a key; the bots ask for nothing and for the newest line.
    "key": [f"match 3 4 7 - key {GAME} alice|bob", *STARTS, f"1000 bot 0 0 900 {DOES_ALL} 5 0", f"2000 bot 1 1 700 {DOES_ALL} 9 {NEWEST}", "30000000 end"],
    # Bots that think for so long that one is played for each time, and then both act.
    "silent": [f"match 3 2 7 400000 - {LIMIT} alice|bob - 5000000 waits", *STARTS, f"1000 bot 0 0 900 {CALLS} 5 0", f"2000 bot 1 1 90000000 {CALLS} 9 0", "30000000 end"],
    # One bot that comes late, so that it is played for behind the start; then it is given up.
    "late": [f"match 3 2 7 2000000 - {LIMIT} alice|bob - 3000000", *STARTS, f"1000 bot 0 0 900 {CALLS} 5 0", "60000000 end"],
    # Processes that are killed and come back, bots that dial again, a second bot at a seat, a disk that fails, and is told that it never does.
    "killed": [
        f"match 3 8 7 - - {GAME} alice|bob", *STARTS, f"1000 bot 0 0 9000 {DOES_ALL} 5 {ALL}", f"2000 bot 1 1 7000 {DOES_ALL} 9 {NEWEST}",
        "300000 kill 0 1", "500000 start 0", "700000 leave 1 100000", "900000 kill 2 0", "1100000 start 2", "1200000 fail 1 3", f"1800000 bot 0 2 9000 {DOES_ALL} 3 {ALL + STAYS}",
        f"2000000 fail 0 {NEVER}", f"2000000 fail 1 {NEVER}", f"2000000 fail 2 {NEVER}", "60000000 end",
    ],
    # A node that hears nothing lags, and the one that hears it campaigns for it in vain.
    "deaf": [
        f"match 3 4 7 - - {GAME} alice|bob", *STARTS, f"1000 bot 0 0 9000 {DOES_ALL} 5 0", f"2000 bot 1 0 7000 {DOES_ALL} 9 0",
        "200000 cut 0 2", "200000 cut 1 2", "200000 cut 2 1", "300000 think 0 8000000", "7000000 heal 0 2", "7000000 heal 1 2", "7000000 heal 2 1", "7000000 think 0 9000", "60000000 end",
    ],
    # Seats with tokens, and a stranger with a wrong one. What the first leader proposes comes to one of five nodes alone before it and another one die:
    # the next leader is told of that vote.
    "split": [
        f"match 5 2 7 - - {GAME} alice|bob tokens", *(f"0 {word}" for node in range(5) for word in (f"start {node}", f"sync {node} 300")), f"1000 bot 0 1 9000 {DOES_ALL} 5 0",
        f"2000 bot 1 2 7000 {DOES_ALL} 9 0", "8000 cut 0 1", "8000 cut 0 2", "8000 cut 0 3", "20000 stranger 3 0 9999 1", "250000 kill 3 0", "300000 kill 0 0", "4900000 heal 0 1", "4900000 heal 0 2",
        "4900000 heal 0 3", "4900000 start 0", "4900000 start 3", "60000000 end",
    ],
}

BOTS_OF_ALL = [f"1000 bot 0 0 {{}} {DOES_ALL} 5 {ALL}", f"2000 bot 1 1 {{}} {DOES_ALL} 9 {ALL}"]
SCRIPTS |= {
    # A node that hears nobody for a while loses its quorum: its bot is told to wait.
    "apart": [
        f"match 3 3 7 - - {GAME} alice|bob", *STARTS, *(bot.format(9_000) for bot in BOTS_OF_ALL), *(f"100000 cut {one} {two}" for one, two in ((0, 1), (1, 0), (0, 2), (2, 0))),
        *(f"6000000 heal {one} {two}" for one, two in ((0, 1), (1, 0), (0, 2), (2, 0))), "60000000 end",
    ],
    # Seats with tokens, of which one doesn't come: it is played for behind the start.
    "tokens": [f"match 3 2 7 2000000 - {LIMIT} alice|bob tokens 3000000", *STARTS, f"1000 bot 0 0 900 {CALLS} 5 0", "60000000 end"],
    # A node's store is lost, and a new one is in its place.
    "lost": [
        f"match 3 4 7 - - {GAME} alice|bob", *STARTS, *(bot.format(300_000) for bot in BOTS_OF_ALL), "2500000 halt 2 0", "2600000 store 2 0", "2700000 start 2", "8000000 think 0 900",
        "8000000 think 1 900", "30000000 end",
    ],
    # The length of the first record of a node's store is wrong for a while.
    "damaged": [
        f"match 3 4 7 - - {GAME} alice|bob", *STARTS, *(bot.format(300_000) for bot in BOTS_OF_ALL), "2500000 kill 2 0", "2600000 store 2 3 0", "2700000 start 2", "3500000 store 2 3 0",
        "4000000 think 0 900", "4000000 think 1 900", "60000000 end",
    ],
}

# The wrong traces: the rule that is to refuse each, the script whose trace it is made of, and the edit.
WRONG = []


def wrong(rule, script="plain"):
    """Puts a wrong trace into the list."""

    def put(edit):
        WRONG.append((rule, script, edit))
        return edit

    return put


class NoPlace(Exception):
    """A trace has nothing of what an edit changes."""


class Edited:
    """The rows of a trace, as lists of words, and the script of its run; each edit changes them in place."""

    def __init__(self, script, text):
        self.script, self.peak = list(script), None
        self.rows = [line.split(" ") for line in text.splitlines()]
        self.rows.sort(key=lambda row: int(row[0]))

    @property
    def text(self):
        return "".join(" ".join(row) + "\n" for row in self.rows)

    def places(self, is_it, behind=-1):
        """Where the rows are that are so, behind a place."""
        return [place for place in range(behind + 1, len(self.rows)) if is_it(self.rows[place])]

    def first(self, is_it, behind=-1):
        for place in range(behind + 1, len(self.rows)):
            if is_it(self.rows[place]):
                return place
        raise NoPlace

    def last(self, is_it):
        for place in range(len(self.rows) - 1, -1, -1):
            if is_it(self.rows[place]):
                return place
        raise NoPlace

    def insert(self, place, *words):
        """Puts a row behind that of a place, of its moment."""
        self.rows.insert(place + 1, [self.rows[place][0], *map(str, words)])

    def move(self, first, time):
        """All from a place on happens so much later, or earlier."""
        for row in self.rows[first:]:
            row[0] = str(int(row[0]) + time)
            if row[2] == "sync" and row[1] != "-":
                row[3] = str(int(row[3]) + time)

    def replace(self, old, new, first=0, last=None):
        """Replaces bytes in all rows from a place on."""
        old, new = old.hex(), new.hex()
        count = 0
        for row in self.rows[first:last]:
            if old in row[-1]:
                row[-1], count = row[-1].replace(old, new), count + 1
        if not count:
            raise NoPlace

    # Connections.

    def seats(self):
        """The seats of the connections of bots, by numbers."""
        return {row[3]: int(row[5]) for row in self.rows if row[2] == "dial" and row[1].startswith("b")}

    def between(self):
        """Who dialled and who listens, of the connections of nodes, by numbers."""
        return {row[3]: (row[1], row[4]) for row in self.rows if row[2] == "dial" and row[1].isdigit()}

    def lines(self, seat=None, word="say"):
        """Where nodes tell a seat something, or read it."""
        seats = self.seats()
        return self.places(lambda row: row[2] == word and row[1].isdigit() and seats.get(row[3], -1) in ((seat,) if seat is not None else range(10)))

    # Frames, where there is no key.

    def frames(self, kind):
        """Where frames of a kind are said: the place of the row, and where the frame's body begins and ends in its bytes."""
        ends, readers = self.between(), {}
        for place, row in enumerate(self.rows):
            if row[2] != "say" or row[3] not in ends:
                continue
            data, at = bytes_of(row[4]), 0
            reader = readers.setdefault((row[1], row[3]), Records())
            if reader.data:
                list(reader.read(data))
                continue
            for record, body in reader.read(data):
                size = 5 + len(body)
                if record == FRAME and KINDS[body[5]] == kind:
                    yield place, at + 11, at + size
                at += size

    def frame(self, kind, does=lambda body: True):
        """The first frame of a kind whose body is so."""
        for place, begin, end in self.frames(kind):
            if does(bytes_of(self.rows[place][4])[begin:end]):
                return place, begin, end
        raise NoPlace

    def change(self, place, at, new):
        """Puts bytes into what a row says."""
        data = bytearray(bytes_of(self.rows[place][-1]))
        data[at : at + len(new)] = new
        self.rows[place][-1] = data.hex()

    def connection_between(self, one, other, before):
        """The last connection between two nodes over which the one says a beat before a place."""
        ends = self.between()
        for row in reversed(self.rows[:before]):
            if row[1] == one and row[2] == "say" and row[4].startswith("0000001003") and other in ends.get(row[3], ()):
                return row[3]
        raise NoPlace

    def add(self, moment, *words):
        """Puts a row behind all those of before a moment and of it."""
        place = next((place for place, row in enumerate(self.rows) if int(row[0]) > moment), len(self.rows))
        self.rows.insert(place, [str(moment), *map(str, words)])

    def new_connection(self):
        """The number of a connection that nobody has."""
        return 1 + max(int(row[3]) for row in self.rows if row[2] == "dial")

    # Stores.

    def journal(self, node, before):
        """What the disk of a node keeps before a place: the file, and the store that it is."""
        file, unsynced, store = bytearray(), [], Store()
        for row in self.rows[:before]:
            if row[1] != str(node):
                continue
            if row[2] == "begin":
                file, unsynced, store = bytearray(bytes_of(row[3])), [], Store()
            elif row[2] == "write":
                unsynced.append((int(row[3]), bytes_of(row[4])))
            elif row[2] == "sync":
                for at, data in unsynced:
                    put(file, at, data)
                unsynced = []
        store.read(file)
        return store

    def append(self, place, node, payload):
        """Behind a place a node's disk keeps one record more, by two syncs."""
        at, record = self.journal(node, place + 1).at, len(payload).to_bytes(2, "big") + payload + bytes(1)
        moment = self.rows[place][0]
        for words in reversed((("write", at + 1, record.hex()), ("sync", moment), ("write", at, "01"), ("sync", moment))):
            self.insert(place, node, *words)


def promise(ballot):
    """The payload of a record of a promise."""
    return bytes([1]) + ballot[0].to_bytes(4, "big") + bytes([ballot[1]])


def prepare(ballot, front):
    """A record between nodes that has the frame by which a node begins a ballot."""
    body = bytes([2, 1]) + ballot[0].to_bytes(4, "big") + bytes([ballot[1]]) + front.to_bytes(4, "big")
    frame = bytes([FRAME]) + len(body).to_bytes(4, "big") + body
    return len(frame).to_bytes(4, "big") + frame


def vote(ballot, slot, *commands):
    """The payload of a record of votes."""
    return bytes([4]) + ballot[0].to_bytes(4, "big") + bytes([ballot[1]]) + slot.to_bytes(4, "big") + bytes([len(commands)]) + b"".join(commands)


def votes_of(row):
    """Of a write what is voted for: the ballot, the slot and the commands; none where it is no record of votes."""
    data = bytes_of(row[4])
    if len(data) < 13 or data[2] != 4:
        return None
    return (number(data[3:7]), data[7]), number(data[8:12]), split(data[13:-1])
