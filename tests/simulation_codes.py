"""The connections of nodes that share a key, opened, and the decks of seeds: ChaCha20 over many blocks at once, after docs/FORMATS.md.

chacha20.py and second_frames.py have it once more, one block after another; `tests/simulation --wrong` compares them."""
import hashlib
import struct

CONSTANTS = (0x61707865, 0x3320646E, 0x79622D32, 0x6B206574)
# So many blocks of a keystream are made at once.
BLOCKS = 32
TAG_BYTES = 32


class Lanes:
    """The block function over so many blocks at once: a row of the state, four words of each block, is one number, a word 64 bits of it, so that
    sums don't reach the next one."""

    def __init__(self, count):
        self.count, self.bits = count, 64 * count
        ones = sum(1 << 64 * lane for lane in range(4 * count))
        self.low = ones * 0xFFFFFFFF
        self.all = (1 << 4 * self.bits) - 1

    def rotated(self, row, places):
        """Each word rotated to the left."""
        return (row << places | row >> 32 - places) & self.low

    def turned(self, row, places):
        """The row with its words moved so many columns on."""
        bits = places * self.bits
        return row >> bits | row << 4 * self.bits - bits & self.all

    def row(self, *columns):
        """A row of the states: of each column the word of each block, or the one that is the same in all."""
        words = (word for column in columns for word in (column if isinstance(column, range) else [column] * self.count))
        return int.from_bytes(struct.pack(f"<{4 * self.count}Q", *words), "little")

    def blocks(self, first):
        """The blocks of so many states, by their four rows, as bytes."""
        a, b, c, d = first
        rotated, turned, low = self.rotated, self.turned, self.low
        for _ in range(10):
            for places in (1, 3):
                a = a + b & low
                d = rotated(d ^ a, 16)
                c = c + d & low
                b = rotated(b ^ c, 12)
                a = a + b & low
                d = rotated(d ^ a, 8)
                c = c + d & low
                b = rotated(b ^ c, 7)
                b, c, d = turned(b, places), turned(c, 2), turned(d, 4 - places)
        size, count, words = 32 * self.count, self.count, []
        for last, row in zip((a, b, c, d), first):
            words += struct.unpack(f"<{4 * count}Q", (last + row & low).to_bytes(size, "little"))
        return [struct.pack("<16I", *words[place::count]) for place in range(count)]


MANY = Lanes(BLOCKS)


class Keystream:
    """The keystream of a direction: what is asked for begins with a whole word."""

    def __init__(self, key):
        words = struct.unpack("<8I", key)
        self.rows, self.counter, self.ready, self.at = [MANY.row(*CONSTANTS), MANY.row(*words[:4]), MANY.row(*words[4:])], 0, b"", 0

    def take(self, count):
        at = self.at
        while len(self.ready) < at + count:
            counters = MANY.row(range(self.counter, self.counter + BLOCKS), 0, 0, 0)
            self.ready, at = self.ready[at:] + b"".join(MANY.blocks([*self.rows, counters])), 0
            self.counter += BLOCKS
        self.at = at + count + -count % 4
        return self.ready[at : at + count]


class Tagger:
    """Tags of texts by a key, HMAC-SHA-256: what each begins with is worked out once."""

    def __init__(self, key):
        block = key.ljust(64, bytes(1))
        self.inner, self.outer = (hashlib.sha256(bytes(byte ^ pad for byte in block)) for pad in (0x36, 0x5C))

    def tag(self, text):
        inner, outer = self.inner.copy(), self.outer.copy()
        inner.update(text)
        outer.update(inner.digest())
        return outer.digest()


def tag(key, text):
    return Tagger(key).tag(text)


def proof(key, role, hellos):
    """What the side of a role says to show that it has the key; role 0 is the one that dialled."""
    return tag(key, b"HDN1 proof" + bytes([role]) + hellos)


class Direction:
    """One direction of a connection with a key: what is said there, opened record by record."""

    def __init__(self, key, role, hellos):
        self.tagger, self.number = Tagger(tag(key, b"HDN1 way" + bytes([role]) + hellos)), 0
        self.stream = Keystream(self.tagger.tag(b"HDN1 seal"))

    def opened(self, kind, content):
        """The body of a record; none where its tag is wrong."""
        body = content[:-TAG_BYTES]
        if content[-TAG_BYTES:] != self.tagger.tag(struct.pack(">QB", self.number, kind) + body):
            return None
        self.number += 1
        size = len(body)
        return (int.from_bytes(body, "big") ^ int.from_bytes(self.stream.take(size), "big")).to_bytes(size, "big")


def words_of(seed, hands):
    """Of each hand of a seed's decks the first 16 words."""
    lanes = Lanes(len(hands))
    rows = [lanes.row(*CONSTANTS), lanes.row(seed & 0xFFFFFFFF, seed >> 32, 0, 0), 0, lanes.row(0, 0, hands, 0)]
    return [struct.unpack("<16I", block) for block in lanes.blocks(rows)]
