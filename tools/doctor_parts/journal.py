"""A store's journal, read as a start reads it: docs/FORMATS.md, 'The journal of a store', has the bytes."""

# The bytes of a store that `init` has just made: no store has fewer. Its header has one byte less.
LEAST_STORE, HEADER = 9, 8
# Each number is below these: nodes, and those of version 1; slots, hands, actions of a hand, cards; and one above the chips.
NODES, OLD_NODES = 7, 5
SLOTS, HANDS, ACTIONS, CARDS, CHIPS = 4_000_000, 10_000, 256, 52, 2**31
# How many commands a record has at most, and how many cards a deal.
MOST_COMMANDS, MOST_CARDS = 64, 25
# The first byte of each kind of records.
PROMISED, VOTED_ONE, OPENED, VOTED = 1, 2, 3, 4
# The first byte of each kind of commands, and which actions there are.
DEAL, ACT, AWAY = 1, 2, 3
RAISE = 2


class NoRecord(Exception):
    """The bytes are none that a record has."""


class Reader:
    """Takes numbers from the front of bytes."""

    def __init__(self, text):
        self.text, self.at = text, 0

    def number(self, size, least, end):
        """A number of so many bytes, which has to be in this range."""
        taken = self.text[self.at : self.at + size]
        found = int.from_bytes(taken, "big")
        if len(taken) < size or not least <= found < end:
            raise NoRecord
        self.at += size
        return found

    def command(self):
        kind = self.number(1, DEAL, AWAY + 1)
        self.number(4, 0, HANDS)
        if kind == DEAL:
            self.deal()
            return
        self.number(2, 0, ACTIONS)
        if kind == ACT:
            action = self.number(1, 0, RAISE + 1)
            self.number(4, 0, CHIPS if action == RAISE else 1)

    def deal(self):
        """Two cards a player and five, none of them twice."""
        count = self.number(1, 9, MOST_CARDS + 1)
        cards = {self.number(1, 0, CARDS) for _ in range(count)}
        if count % 2 == 0 or len(cards) < count:
            raise NoRecord

    def record(self):
        """The kind of a record that is all of the bytes, and the node of its ballot; of one without a ballot 0."""
        kind, node = self.number(1, PROMISED, VOTED + 1), 0
        if kind != OPENED:
            self.number(4, 1, 2**32)
            node = self.number(1, 0, NODES)
        if kind in (VOTED_ONE, VOTED):
            slot = self.number(4, 0, SLOTS)
            count = self.number(1, 1, min(MOST_COMMANDS, SLOTS - slot) + 1) if kind == VOTED else 1
            for _ in range(count):
                self.command()
        if self.at < len(self.text):
            raise NoRecord
        return kind, node


def is_old_after(is_old, payload):
    """Whether version 1 goes on behind a record."""
    kind, node = Reader(payload).record()
    if not is_old and kind in (PROMISED, VOTED):
        return False
    if is_old and kind == OPENED:
        return False
    if is_old and kind in (PROMISED, VOTED_ONE) and node < OLD_NODES:
        return True
    raise NoRecord


def fault_of_records(store):
    """Where a store has bytes that are no record, or one that may not be there; none if nowhere. Each record follows a byte 1 and
    its length. What follows another byte in that place doesn't count."""
    is_old, gate = store[3:4] == b"1", HEADER
    while store[gate] == 1:
        first = gate + 3
        gate = first + int.from_bytes(store[gate + 1 : first], "big")
        try:
            if gate >= len(store):
                raise NoRecord
            is_old = is_old_after(is_old, store[first:gate])
        except NoRecord:
            return first
    return None


def fault_of_store(store, number, nodes):
    """What a start finds wrong with a store of nine bytes or more; none where it finds nothing."""
    if store[:4] not in (b"HDJ1", b"HDJ2") or store[6:HEADER] != b"\0\0":
        return "is no store"
    if [*store[4:6]] != [number, nodes]:
        return f"is the store of node {store[4]} of {store[5]}"
    place = fault_of_records(store)
    return None if place is None else f"is damaged at byte {place}"
