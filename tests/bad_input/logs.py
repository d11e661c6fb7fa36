"""Logs of matches, read by docs/RULES.md."""
import functools
import re

from .damage import DRAWN, changes, cuts, drawn
from .faults import Fault
from .models import dealer, nodes
from .running import AT_ONCE, PROGRAM, Tally, run


def verdict(game, text):
    """What `check` says of a log."""
    try:
        *lines, rest = text.decode("latin-1").split("\n")
        test_log(game, lines, rest)
    except Fault as fault:
        kind, _, line = str(fault).rpartition(" ")
        return f"no {line} {kind}"
    return "yes"


def test_log(game, lines, rest):
    """Looks for the first fault of a log: its whole lines, and what stands behind the last LF."""
    if not lines and not rest:
        raise Fault("49 WrongScore", 1)
    header = re.fullmatch(r"# name/game/hands [A-Za-z0-9_.-]{1,32} [!-~]{1,200} ([1-9][0-9]{0,4})", lines[0]) if lines else None
    if not header or int(header[1]) > 10000:
        raise Fault("45 BadHeader", 1)
    names, totals = None, [0] * game.players
    for number in range(int(header[1])):
        names = test_state(game, number, names, totals, lines, rest)
    place = int(header[1]) + 1
    if place < len(lines) and lines[place].startswith("STATE:"):
        raise Fault("47 WrongNumber", place + 1)
    if lines[place : place + 1] != [f"SCORE:{'|'.join(map(str, totals))}:{'|'.join(names)}"]:
        raise Fault("49 WrongScore", place + 1)
    if len(lines) > place + 1 or rest:
        raise Fault("49 WrongScore", place + 2)


def test_state(game, number, names, totals, lines, rest):
    """Looks at the line of a hand, and adds what it pays to the seats' totals; the names in seat order."""
    place = number + 1
    if place >= len(lines):
        raise Fault("46 BadState" if rest else "49 WrongScore", place + 1)
    if lines[place].startswith("SCORE:"):
        raise Fault("47 WrongNumber", place + 1)
    said = read_state(game, lines[place])
    if said is None:
        raise Fault("46 BadState", place + 1)
    digits, won, values, by_position = said
    # the line's own number moves the seats on, however large it is
    moved = functools.reduce(lambda rest, digit: (10 * rest + int(digit)) % game.players, digits, 0)
    seats = [by_position[(seat - moved) % game.players] for seat in range(game.players)]
    if names not in (None, seats):
        raise Fault("46 BadState", place + 1)
    if digits != str(number):
        raise Fault("47 WrongNumber", place + 1)
    if values != list(map(str, won)):
        raise Fault("48 WrongValues", place + 1)
    for position, amount in enumerate(won):
        totals[(position + number) % game.players] += amount
    return seats


def read_state(game, line):
    """The number of a hand's line, what its hand pays, the values and names that it says; none where it is no such line."""
    word, *fields = line.split(":")
    if word != "STATE" or len(fields) != 5 or not re.fullmatch("0|[1-9][0-9]*", fields[0]):
        return None
    holes, *boards = fields[2].split("/")
    shown, n = nodes.cards_of(fields[2]), game.players
    cards = shown + [card for card in dealer.CARDS if card not in shown]
    hand = nodes.walked(game, 0, cards[: 2 * n + 5], fields[1])
    form = r"\|".join([2 * nodes.CARD] * n) + "".join(["/" + 3 * nodes.CARD, "/" + nodes.CARD, "/" + nodes.CARD][: hand.round if hand else 0])
    values, names = fields[3].split("|"), fields[4].split("|")
    is_state = hand is not None and hand.over and re.fullmatch(form, fields[2]) and len(set(shown)) == len(shown)
    are_values = len(values) == n and all(re.fullmatch("0|-?[1-9][0-9]*", value) for value in values)
    are_names = len(names) == n == len(set(names)) and all(map(dealer.NAME.fullmatch, names))
    return (fields[0], hand.payoffs(), values, names) if is_state and are_values and are_names else None


LOG_WORDS = [
    *b"STATE SCORE # name/game/hands 0 1 2 3 10 00 -0 +1 -5 5 10000 10001 99999999999999999999 : | / // f c r r100 r200 cc/".split(),
    *b"Td As 2c2d alice bob carol alice|bob x".split(), b" ", b"\n", b"\r", b"\0", b"\xff", b"x" * 33, b"x" * 201,
]  # fmt: skip


def right_log(dice, hands=None):
    """A game of few players, and the log of a match of it that is over."""
    players, hands = dice.choice([2, 2, 3, 4]), hands or dice.choice([1, 1, 2, 3])
    game, script = dealer.seeded_match(players, hands, dice.randrange(1 << 30))
    printed = dealer.play(game.encode(), script.encode(), hands, "g.game").splitlines(keepends=True)
    return game.encode(), b"".join(line[2:] for line in printed if line.startswith(b"L "))


def long_logs(log):
    """A log made too long, in each line, in each field, and behind its end."""
    lines = log.splitlines(keepends=True)
    for place, line in enumerate(lines):
        fields = re.split(rb"([:| \n])", line)
        for at in range(len(fields)):
            for more in (b"0", b"c" * 70, b"|1", b":x", b"1" * 5000, b"x" * 300, b"9c" * 60):
                yield b"".join(lines[:place] + fields[: at + 1] + [more] + fields[at + 1 :] + lines[place + 1 :])
        yield b"".join(lines[: place + 1] + lines[place:])
    for more in (b"\n", b"x", b"x\n", b"\n" * 100000, b"STATE:0:f:" * 100000, b"SCORE:0|0:a|b\n" * 1000, b"\0"):
        yield log + more


def other_fields(dice, log):
    """A log with some other numbers, cards or names in place of each of its own."""
    for found in re.finditer(rb"-?\d+|[2-9TJQKA][cdhs]|[a-z]+", log):
        for word in dice.sample([b"0", b"-0", b"+1", b"01", b"-1", b"1.0", b"2c", b"td", b"alice", b"", b"1" * 20], 4):
            yield log[: found.start()] + word + log[found.end() :]


def match_logs(dice, folder, pool):
    tally = Tally("match logs")
    game, log = right_log(dice, 2)
    inputs = [(game, one) for one in [*cuts(log), *long_logs(log), *other_fields(dice, log), *changes(dice, log), log, b"\n"]]
    for _ in range(DRAWN):
        game, log = right_log(dice)
        inputs.append((game, drawn(dice, lambda: log, LOG_WORDS)))
    for data, got, wanted, fault in pool.map(functools.partial(one_log, folder), range(len(inputs)), inputs, chunksize=AT_ONCE):
        tally.take(data, got, wanted, fault)
    tally.want("45 BadHeader,46 BadState,47 WrongNumber,48 WrongValues,49 WrongScore,read".split(","))
    return tally


def one_log(folder, number, pair):
    game, data = pair
    files = [folder / f"{number}.game", folder / f"{number}.log"]
    for file, text in zip(files, pair):
        file.write_bytes(text)
    said = verdict(dealer.Game(game), data)
    got = run([PROGRAM, "check", *(file.name for file in files)], folder)
    for file in files:
        file.unlink()
    fault = [] if said == "yes" else [" ".join(said.split(" ")[2:])]
    return data, got, (1 if fault else 0, f"{said}\n".encode(), b""), fault
