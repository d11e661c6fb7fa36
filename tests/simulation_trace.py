"""A trace of simulated processes, read: what tests/simulation checks. It has readers of its own for stores and connections, and
the dealer of second_nodes.py and second_dealer.py, which were written from the pages."""
import functools
import math
import operator
import re
import struct
from pathlib import Path

import second_dealer as dealer

TOP = Path(__file__).resolve().parent.parent


# The dealer's own values of hands, over all fives of the cards.
VALUE_BY_FIVES = dealer.best


@functools.lru_cache(maxsize=64)
def value_of(cards):
    """The same value by counts alone. The dealer asks for it once for each pot and once more for who wins it; `tests/simulation --wrong`
    compares it with that over all fives."""
    ranks, suited = [0] * 13, {}
    for rank, suit in cards:
        place = dealer.RANKS.index(rank)
        ranks[place] += 1
        suited.setdefault(suit, []).append(place)
    flush = next((sorted(places, reverse=True) for places in suited.values() if len(places) >= 5), None)
    if flush is not None and (top := top_of_straight(flush)) is not None:
        return 8, [top]
    high = sorted((place for place in range(13) if ranks[place]), key=lambda place: (-ranks[place], -place))
    first, second = ranks[high[0]], ranks[high[1]] if len(high) > 1 else 0
    if first == 4:
        return 7, [high[0], max(high[1:])]
    if first == 3 and second >= 2:
        return 6, [high[0], max(place for place in high[1:] if ranks[place] >= 2)]
    if flush is not None:
        return 5, flush[:5]
    top = top_of_straight(high)
    if top is not None:
        return 4, [top]
    pairs = high[:2] if first == second == 2 else high[:1] if first > 1 else []
    rest = sorted((place for place in high if place not in pairs), reverse=True)
    return {(3, 1): 3, (2, 2): 2, (2, 1): 1}.get((first, second), 0), pairs + rest[: 5 - sum(ranks[place] for place in pairs)]


def top_of_straight(places):
    """The highest rank of a straight of these ranks; an ace may stand below a two."""
    there = set(places)
    for top in range(12, 3, -1):
        if there.issuperset(range(top - 4, top + 1)):
            return top
    return 3 if there.issuperset((12, 0, 1, 2, 3)) else None


dealer.best = lambda cards: value_of(tuple(cards))
KINDS = ["", "Prepare", "Promise", "Refuse", "Accept", "Accepted", "Chosen", "Ask", "Forward"]
HEADER = 9


def limits_of_wires():
    """How many places there are of each kind, by the names of their limits (crates/node_wires/src/limits.rt)."""
    text, found = (TOP / "crates/node_wires/src/limits.rt").read_text(), {}
    for name, words in re.findall(r"^pub const (\w+): usize = ([\w +*]+);", text, re.M):
        terms = ([found[word] if word in found else int(word) for word in term.split(" * ")] for term in words.split(" + "))
        found[name] = sum(map(math.prod, terms))
    return found


def new_store(node, count):
    """What the disk of a node of so many has of a new store."""
    return b"HDJ2" + bytes([node, count, 0, 0, 0])


# A record of a promise has so many bytes, its kind and the ballot.
PROMISE = 6
# The most bytes of a record behind its length (docs/FORMATS.md).
LONGEST_RECORD = 4_133
# How many slots a ballot has.
SLOTS = 64
# How long nothing may have come into the list or a store for what a node knows to be what it says, and what a note may be behind a line.
STILL = 1_000_000
MOMENT = operator.itemgetter(0)


class Wrong(Exception):
    """What a rule found: its name, the moment, and what is wrong."""

    def __init__(self, rule, moment, words):
        super().__init__(f"{rule} at {moment}: {words}")
        self.rule, self.moment, self.words = rule, moment, words


class Event:
    __slots__ = ("moment", "who", "word", "rest")

    def __init__(self, line):
        moment, self.who, self.word, *self.rest = line.split(" ")
        self.moment = int(moment)


def events_of(text):
    """All events, in the order of their moments; of one moment as they were told."""
    found = [Event(line) for line in text.splitlines()]
    found.sort(key=lambda event: event.moment)
    return found


def rows_of(text):
    """The same as rows of words, the first of which is the moment."""
    rows = [line.split(" ") for line in text.splitlines()]
    for row in rows:
        row[0] = int(row[0])
    rows.sort(key=MOMENT)
    return rows


def field(row, name):
    """The first word of a field of a note, which is told as `Name { field: words, .. }`; none where it has none."""
    try:
        return row[row.index(name + ":") + 1].strip(",")
    except ValueError:
        return None


def bytes_of(word):
    return b"" if word == "-" else bytes.fromhex(word)


def flipped(image, place):
    """A store with one bit behind its header that is another, if there is anything (the order `store`, WHAT 3)."""
    file, count = bytearray(image), len(image) - HEADER
    if count > 0:
        file[HEADER + place % count] ^= 1 << place // 8 % 8
    return bytes(file)


def number(part):
    return int.from_bytes(part, "big")


BALLOT = struct.Struct(">IB")


def ballot_of(part):
    return BALLOT.unpack_from(part)


def split(part):
    """Commands that stand one behind the other."""
    found = []
    while part:
        size = {1: 6 + part[5] if len(part) > 5 else 99, 2: 12, 3: 7}[part[0]]
        found.append(part[:size])
        part = part[size:]
    return found


class Backwards(Exception):
    """A record of a ballot below one that was promised before."""


# What reading a journal comes to that is no store.
NO_STORE = (ValueError, IndexError, KeyError, struct.error, Backwards)


class Store:
    """What a journal means, read record by record; more is read where bytes grow behind the last gate."""

    def __init__(self):
        self.at, self.promised, self.entries = HEADER - 1, (0, 0), {}

    def copy(self):
        other = Store()
        other.at, other.promised, other.entries = self.at, self.promised, dict(self.entries)
        return other

    def read(self, file):
        """Reads on, and answers what was accepted: ballot, slot, command."""
        at, found = self.at, []
        while at < len(file) and file[at] == 1:
            size = number(file[at + 1 : at + 3])
            payload = bytes(file[at + 3 : at + 3 + size])
            if len(payload) < size or len(file) <= at + 3 + size:
                raise ValueError("a record that ends behind the file")
            at += 3 + size
            self.at, ballot = at, BALLOT.unpack_from(payload, 1)
            if ballot < self.promised:
                raise Backwards(f"a record of ballot {ballot} behind the promise of {self.promised}")
            self.promised = ballot
            if payload[0] == 4:
                slot, commands = number(payload[6:10]), split(payload[11:])
                if len(commands) != payload[10]:
                    raise ValueError("a record with another count of commands")
                for command in commands:
                    earlier = self.entries.get(slot)
                    if earlier is None or earlier[0] <= ballot:
                        self.entries[slot] = (ballot, command)
                    found.append((ballot, slot, command))
                    slot += 1
            elif payload[0] != 1 or size != PROMISE:
                raise ValueError(f"a record of kind {payload[0]}, of {size} bytes")
        return found


def put(file, at, data):
    if len(file) < at + len(data):
        file.extend(bytes(at + len(data) - len(file)))
    file[at : at + len(data)] = data


class Disk:
    """What a disk keeps for sure, and what was written since."""

    def __init__(self, image):
        self.synced, self.unsynced, self.store = bytearray(image), [], Store()
        self.found = self.store.read(self.synced)

    def write(self, moment, at, data):
        self.unsynced.append((moment, at, data))

    def sync(self, begun):
        """What was written when the sync began is kept from now on. Answers what was accepted by it."""
        for _, at, data in self.unsynced:
            put(self.synced, at, data)
        self.unsynced = []
        return self.store.read(self.synced)

    def image(self, pick):
        file = bytearray(self.synced)
        for _, at, data in self.unsynced:
            digit, pick = pick % 3, pick // 3
            put(file, at, bytes(0))
            if len(file) < at + len(data):
                file.extend(bytes(at + len(data) - len(file)))
            if digit == 1:
                put(file, at, data)
            elif digit == 2:
                put(file, at, data[: len(data) // 2])
        return bytes(file)

    def all_written(self):
        file = bytearray(self.synced)
        for _, at, data in self.unsynced:
            put(file, at, data)
        return bytes(file)

    def backs(self, does):
        """Whether each image backs something: all that wasn't synced lost, and each write alone kept, which is read where it opens the gate."""
        if not does(self.store):
            return False
        for _, at, data in self.unsynced:
            if not at <= self.store.at < at + len(data):
                continue
            file = bytearray(self.synced)
            put(file, at, data)
            store = self.store.copy()
            try:
                store.read(file)
            except NO_STORE:
                return False
            if not does(store):
                return False
        return True


class Records:
    """What one side of a connection between nodes says, record by record."""

    def __init__(self):
        self.data = b""

    def read(self, data):
        if self.data:
            data = self.data + data
        at, end = 0, len(data)
        while end - at >= 4:
            size = int.from_bytes(data[at : at + 4], "big")
            if not 0 < size <= LONGEST_RECORD:
                raise ValueError(f"a record of {size} bytes")
            if end - at < 4 + size:
                break
            yield data[at + 4], data[at + 5 : at + 4 + size]
            at += 4 + size
        self.data = data[at:]
