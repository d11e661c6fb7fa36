"""The decks, commands and frames of the second cluster of nodes (second_nodes.py), written from docs/FORMATS.md: what a seed and
a hand number deal, and the bytes of a command and of each message, in both versions."""
import re

import second_dealer as dealer

WINDOW, SLOTS, LONGEST, VERSION = 64, 4_000_000, 4096, 2
PREPARE, PROMISE, REFUSE, ACCEPT, ACCEPTED, CHOSEN, ASK, FORWARD = range(1, 9)
NONE = (0, 0)
CARD = f"[{dealer.RANKS}][{dealer.SUITS}]"


# Decks: ChaCha20 from a seed, and the shuffle of Rust's rand.


def rotated(word, places):
    return (word << places | word >> (32 - places)) & 0xFFFFFFFF


def quarter(state, a, b, c, d):
    for x, y, z, places in ((a, b, d, 16), (c, d, b, 12), (a, b, d, 8), (c, d, b, 7)):
        state[x] = (state[x] + state[y]) & 0xFFFFFFFF
        state[z] = rotated(state[z] ^ state[x], places)


def words_of(seed, stream):
    """The words of ChaCha20 with a key of the seed's eight bytes and zeros."""
    key = [seed & 0xFFFFFFFF, seed >> 32, 0, 0, 0, 0, 0, 0]
    block = 0
    while True:
        begin = [0x61707865, 0x3320646E, 0x79622D32, 0x6B206574, *key, block & 0xFFFFFFFF, block >> 32, stream, 0]
        state = list(begin)
        for _ in range(10):
            for place in range(4):
                quarter(state, place, place + 4, place + 8, place + 12)
            for place in range(4):
                quarter(state, place, 4 + (place + 1) % 4, 8 + (place + 2) % 4, 12 + (place + 3) % 4)
        yield from ((x + y) & 0xFFFFFFFF for x, y in zip(state, begin))
        block += 1


def below(words, bound):
    """A number below a bound: the product's high word, with one word more where the low one is near its end."""
    high, low = divmod(next(words) * bound, 1 << 32)
    if low > (1 << 32) - bound:
        high += low + (next(words) * bound >> 32) >= 1 << 32
    return high


def shuffled(cards, words):
    """Each card swaps with one before it or itself; as many places as fit into 32 bits come of one number."""
    cards, left, chunk = list(cards), 1, 0
    for place in range(len(cards)):
        if left == 0:
            bound, after = place + 1, place + 2
            while bound * after < 1 << 32:
                bound, after = bound * after, after + 1
            left, chunk = after - (place + 1), below(words, bound)
        left -= 1
        index, chunk = (chunk, 0) if left == 0 else (chunk % (place + 1), chunk // (place + 1))
        cards[place], cards[index] = cards[index], cards[place]
    return cards


def draw(seed, hand, players):
    return shuffled(dealer.CARDS, words_of(seed, hand))[: 2 * players + 5]


# Commands and frames.


def cards_of(text):
    return re.findall("..", re.sub(r"[|/]", "", text))


def number_of(card):
    return 4 * dealer.RANKS.index(card[0]) + dealer.SUITS.index(card[1])


def deal_bytes(hand, cards):
    return bytes([1]) + hand.to_bytes(4, "big") + bytes([len(cards)]) + bytes(map(number_of, cards))


def act_bytes(hand, index, letter, amount):
    kind = "fcr".index(letter)
    return bytes([2]) + hand.to_bytes(4, "big") + index.to_bytes(2, "big") + bytes([kind]) + amount.to_bytes(4, "big")


def ballot_bytes(ballot):
    return ballot[0].to_bytes(4, "big") + bytes([ballot[1]])


def listed(part):
    """An entry of a promise, or a command that is proposed or accepted."""
    if isinstance(part, bytes):
        return part
    slot, ballot, command = part
    return slot.to_bytes(4, "big") + ballot_bytes(ballot) + command


def frame_of(message, version=VERSION):
    """The bytes of a message: its kind, then ballots as pairs, slots as numbers, a command as bytes, and as a list, behind
    their count, a promise's entries or the commands that are proposed or accepted.

    In version 1, which nodes read and never write, one command was proposed or accepted, without a count."""
    is_counted = version == VERSION or message[0] == PROMISE
    body = b""
    for part in message[1:]:
        if isinstance(part, tuple):
            body += ballot_bytes(part)
        elif isinstance(part, int):
            body += part.to_bytes(4, "big")
        elif isinstance(part, list):
            body += (bytes([len(part)]) if is_counted else b"") + b"".join(map(listed, part))
        else:
            body += part
    return (len(body) + 2).to_bytes(4, "big") + bytes([version, message[0]]) + body
