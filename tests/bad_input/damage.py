"""Right input, made wrong."""
import re

# How many inputs of a kind are drawn.
DRAWN = 1000


def random_bytes(dice, count):
    return bytes(dice.randrange(256) for _ in range(count))


def cuts(data):
    return [data[:place] for place in range(len(data))]


def changes(dice, data):
    """The data with another byte at each place: one beside it, one that stands elsewhere, or any."""
    for place, byte in enumerate(data):
        others = [byte ^ 1, byte ^ 32, (byte + 1) % 256, dice.choice(data), dice.randrange(256)]
        yield data[:place] + bytes([dice.choice([other for other in others if other != byte])]) + data[place + 1 :]


def mutated(dice, data, words):
    """The data with one change: of a byte, a word or a line."""
    pieces, lines = re.findall(rb"[A-Za-z0-9_.-]+|[^A-Za-z0-9_.-]", data), data.splitlines(keepends=True)
    kind = dice.randrange(9)
    if kind == 0 or not pieces:
        place = dice.randrange(len(data) + 1)
        return data[:place] + bytes([dice.randrange(256)]) + data[place + 1 :]
    items = pieces if kind < 6 else lines
    place, other = dice.randrange(len(items)), dice.randrange(len(items))
    if kind in (1, 2):
        items[place] = dice.choice(words)
    elif kind == 3:
        items.insert(place, dice.choice(words))
    elif kind in (4, 6):
        del items[place]
    elif kind == 7:
        items.insert(other, items[place])
    else:
        items[place], items[other] = items[other], items[place]
    return b"".join(items)


def drawn(dice, right, words):
    """A drawn text: any bytes, words of its kind, or a right text (`right` gives one) with up to three changes."""
    kind = dice.randrange(10)
    if kind == 0:
        return random_bytes(dice, dice.choice([0, 1, 10, 200]))
    if kind == 1:
        return b"".join(dice.choice(words) + dice.choice([b"", b" ", b"\n", b":"]) for _ in range(dice.randrange(40)))
    text = right()
    for _ in range(dice.choice([0, 1, 1, 1, 2, 3])):
        text = mutated(dice, text, words)
    return text
