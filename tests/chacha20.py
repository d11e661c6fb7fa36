"""The keystream of ChaCha20 with a key, one block after another, after RFC 8439."""
import struct


def rotated(word, count):
    return (word << count | word >> (32 - count)) & 0xFFFFFFFF


def quarter(s, a, b, c, d):
    for x, y, z, count in ((a, b, d, 16), (c, d, b, 12), (a, b, d, 8), (c, d, b, 7)):
        s[x] = (s[x] + s[y]) & 0xFFFFFFFF
        s[z] = rotated(s[z] ^ s[x], count)


def block(key, words):
    """The 16 words of a block: of eight words of key, and four of counter and nonce."""
    start = [0x61707865, 0x3320646E, 0x79622D32, 0x6B206574, *key, *words]
    s = list(start)
    for _ in range(10):
        for at in ((0, 4, 8, 12), (1, 5, 9, 13), (2, 6, 10, 14), (3, 7, 11, 15)):
            quarter(s, *at)
        for at in ((0, 5, 10, 15), (1, 6, 11, 12), (2, 7, 8, 13), (3, 4, 9, 14)):
            quarter(s, *at)
    return [(x + y) & 0xFFFFFFFF for x, y in zip(s, start)]


class Stream:
    """The generator's bytes from a seed of 32: each call begins at a whole word of four bytes."""

    def __init__(self, seed):
        self.key = struct.unpack("<8I", seed)
        # The next block's number, and what is left of the one before it.
        self.counter, self.left = 0, b""

    def bytes(self, count):
        while len(self.left) < count:
            words = block(self.key, (self.counter & 0xFFFFFFFF, self.counter >> 32, 0, 0))
            self.left += struct.pack("<16I", *words)
            self.counter += 1
        out, self.left = self.left[:count], self.left[count + -count % 4 :]
        return out
