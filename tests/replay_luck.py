"""Tests of what a page of tools/replay makes of luck, beside the second reader of luck."""
from fractions import Fraction

import luck_reader
from luck_hands import log_of, wild
from measuring import want
from replay_match import CHIPS, GAME, LOG
from serving import TOP

# In how many parts a chip is counted in a game of three players.
PARTS_OF_THREE = 43 * 42
READING = "After hand 3: alice +900, bob −1,150, carol +250"
GAMES = {"n2.game": 12, "n3.game": 8, "holdem.nolimit.6p.game": 6}


def drawn(name, hands):
    """A game's text, the game, and the lines of a drawn match of it."""
    text = (TOP / "examples" / name).read_text()
    game = luck_reader.Game(text)
    return text, game, log_of(game, hands, [wild] * game.players, f"replay of {name}")


def expected(game, log, line):
    """By street what part of all pots each position may expect, or none where it alone is left; behind the flop all boards count."""
    _, _, betting, cards, _, _ = line.split(":")
    holes, *streets = cards.split("/")
    holes, board = [luck_reader.cards_of(hole) for hole in holes.split("|")], luck_reader.cards_of("".join(streets))
    begun, gone = luck_reader.states(game, betting)[0], {card for hole in holes for card in hole}
    for street, (spent, folded) in enumerate(begun, start=1):
        means = luck_reader.Luck(game, log).mean(0, holes, gone, spent, folded, board[: luck_reader.BOARD_CARDS[street]])
        back = max(spent) - sorted(spent)[-2]
        called = [amount - (back if amount == max(spent) else 0) for amount in spent]
        won = [Fraction(mean, game.parts) + amount for mean, amount in zip(means, called)]
        yield [float(amount / sum(called)) for amount in won]


def equities(answers):
    """Each street's equities are those of the second reader."""
    count = 0
    for name, hands in GAMES.items():
        text, game, log = drawn(name, hands)
        lines = log.decode().splitlines()
        states = [line for line in lines if line.startswith("STATE")]
        (answer,) = answers([{"game": text, "lines": lines, "lucks": [[0] * game.players] * hands}])
        for line, found in zip(states, answer["equities"]):
            wanted = list(expected(game, log, line))
            want(len(found) == len(wanted), f"{len(found)} streets, not {len(wanted)}: {line}")
            for some, others in zip(found, wanted):
                want(max(abs(a - b) for a, b in zip(some, others)) < 1e-9, f"{line}: {some}, not {others}")
                count += 1
    want(count > 20, f"only {count} streets were dealt")
    return f"{count} streets"


def courses_less_luck(answers):
    """A course less luck is the payoffs less the lucks, summed hand by hand."""
    text, game, log = drawn("n2.game", 12)
    lines, chips = log.decode().splitlines(), {}
    lucks = []
    for _, names, paid, parts in luck_reader.Luck(game, log).hands():
        lucks.append([luck / game.parts for luck in parts])
        for name, amount, luck in zip(names, paid, lucks[-1]):
            course = chips.setdefault(name, [0])
            course.append(course[-1] + amount - luck)
    (answer,) = answers([{"game": text, "lines": lines, "lucks": lucks}])
    for name, course in chips.items():
        got = answer["courses"][name]
        want(max(abs(a - b) for a, b in zip(course, got)) < 1e-6 and len(got) == len(course), f"{name}: {got}, not {course}")


def control(screen, url, log):
    """A page in a Chromium: equities and the course less luck, where all cards are shown; in hand 4 one who folded hides his. Behind
    the turn of hand 3 two of 42 rivers are kings and two queens: aces win 38 x 450 and 40 x 1,700 of 42 x 2,150, kings 2 x 450,
    queens 2 x 450 and 2 x 1,700."""
    screen.open(url + "#4")
    want(screen.value("document.getElementById('luck').hidden") and "%" not in screen.text("story"), "luck tells of cards that are hidden")
    screen.open(screen.make("lucky.html", GAME, log, "--all") + "#3")
    turn = [text for text in screen.texts("#story h3") if "pot 2,150" in text]
    want(any("alice 94.2 % · bob 1.0 % · carol 4.8 %" in text for text in turn), f"the streets of hand 3 are {turn}")
    chips = {name: sum(amounts[:4]) for name, amounts in CHIPS.items()}
    hands = luck_reader.Luck(luck_reader.Game((TOP / GAME).read_text()), "".join(f"{line}\n" for line in LOG).encode()).hands()
    for _, names, _, lucks in [next(hands) for _ in range(4)]:
        for name, luck in zip(names, lucks):
            chips[name] -= luck / PARTS_OF_THREE
    wanted = "After hand 3: " + ", ".join(f"{name} {'+' if amount > 0 else '−'}{abs(round(amount)):,}" for name, amount in chips.items())
    for text in (wanted, READING):
        screen.click("checkbox", "Less luck")
        want(screen.text("reading") == text, f"it reads {screen.text('reading')}, not {text}")
