"""The text in which PokerStars writes hands, as a table for play money has it: amounts are chips. docs/HANDS.md names each line."""
import datetime
import hashlib
import re

from . import ranking
from .refused import Refused
from .table_order import bet_sizes, table_order

ROUNDS = ["before Flop", "on the Flop", "on the Turn", "on the River"]
TABLE_SIZES = [2, 6, 9, 10]
# Numbers of hands have 12 digits: eight of the match, the first of which isn't 0, and four of the hand.
LEAST_MATCH, MATCHES, HANDS = 10**7, 9 * 10**7, 10**4


class Writer:
    """Writes the hands of a match. `match` is its name, `seats` the players' names in seat order, `first_lines` the log's first
    two lines, from which the hands get numbers of their own, and `day` the day on which they are said to be played. `hero` is the
    player who alone is dealt cards in sight; all are where there is none."""

    def __init__(self, game, match, seats, first_lines, day, hero=None):
        self.game, self.match, self.seats, self.day, self.hero = game, match, seats, day, hero
        self.order = table_order(game)
        self.small, self.big = self.two_blinds()
        digest = int(hashlib.sha256("\n".join(first_lines).encode()).hexdigest(), 16)
        self.number = (LEAST_MATCH + digest % MATCHES) * HANDS
        self.size = next(size for size in TABLE_SIZES if size >= game.players)

    def two_blinds(self):
        """The positions of the small and of the big blind. A Refused where others post, or the amounts aren't those of a small and a
        big blind."""
        places, blinds = list(self.order.positions), list(self.order.blinds)
        if self.game.players == 2:
            places, blinds = places[::-1], blinds[::-1]
        small, big, *others = blinds
        if any(others) or not 0 < small <= big:
            shown = " ".join(map(str, blinds))
            raise Refused(f"its blinds from the small blind on are {shown}, and PokerStars' text has one small and one big blind")
        if self.game.is_limit and bet_sizes(self.game)[0] != big:
            raise Refused(f"its big blind is {big} and its small bet {bet_sizes(self.game)[0]}: PokerStars' text has one amount for both")
        return places[0], places[1]

    def stakes(self):
        return bet_sizes(self.game) if self.game.is_limit else (self.game.blinds[self.small], self.game.blinds[self.big])

    def text(self, hand):
        """A hand with the three empty lines behind it."""
        parts = [self.head(hand), self.course(hand), self.ending(hand), self.summary(hand)]
        return "".join(f"{line}\n" for part in parts for line in part) + "\n\n\n"

    def head(self, hand):
        began = datetime.datetime.combine(self.day, datetime.time()) + datetime.timedelta(seconds=hand.number)
        kind, (low, high) = "Limit" if self.game.is_limit else "No Limit", self.stakes()
        places = sorted(range(self.game.players), key=lambda p: self.seats.index(hand.names[p]))
        yield f"PokerStars Hand #{self.number + hand.number}:  Hold'em {kind} ({low}/{high}) - {began:%Y/%m/%d %H:%M:%S} ET"
        yield f"Table '{self.match}' {self.size}-max (Play Money) Seat #{self.seat(hand, self.order.button)} is the button"
        for p in places:
            yield f"Seat {self.seat(hand, p)}: {hand.names[p]} ({self.game.stacks[p]} in chips)"
        yield f"{hand.names[self.small]}: posts small blind {self.game.blinds[self.small]}"
        yield f"{hand.names[self.big]}: posts big blind {self.game.blinds[self.big]}"
        yield "*** HOLE CARDS ***"
        for p in places:
            if hand.holes[p] and self.hero in (None, hand.names[p]):
                yield f"Dealt to {hand.names[p]} [{spaced(hand.holes[p])}]"

    def seat(self, hand, position):
        """The number of a position's seat at the table, from 1 on."""
        return self.seats.index(hand.names[position]) + 1

    def course(self, hand):
        """The rounds. What nobody called goes back behind the last action."""
        last, shown = max(number for number, it in enumerate(hand.rounds) if it.acts), ""
        for number, it in enumerate(hand.rounds):
            if number > 0:
                before = f"[{spaced(shown)}] " if shown else ""
                yield f"*** {('FLOP', 'TURN', 'RIVER')[number - 1]} *** {before}[{spaced(it.cards)}]"
                shown += it.cards
            for act in it.acts:
                yield f"{hand.names[act.position]}: {action(act)}"
            if number == last and hand.uncalled.chips:
                yield f"Uncalled bet ({hand.uncalled.chips}) returned to {hand.names[hand.uncalled.position]}"

    def ending(self, hand):
        """Who shows what, and who collects which pot, the first behind the button first: side pots come first."""
        if hand.is_showdown:
            yield "*** SHOW DOWN ***"
            for p in hand.showing_order():
                yield f"{hand.names[p]}: shows [{spaced(hand.holes[p])}] ({ranking.words(*hand.value(p))})"
        for pot, name in reversed([*zip(hand.pots, pot_names(hand))]):
            for p in filter(pot.shares.__contains__, self.order.positions):
                yield f"{hand.names[p]} collected {pot.shares[p]} from {name}"
        if not hand.is_showdown:
            yield f"{hand.names[hand.unfolded[0]]}: doesn't show hand"

    def summary(self, hand):
        total, parts = sum(pot.chips for pot in hand.pots), ""
        if len(hand.pots) > 1:
            parts = "".join(f" {name.capitalize()} {pot.chips}." for pot, name in zip(hand.pots, pot_names(hand)))
        yield "*** SUMMARY ***"
        yield f"Total pot {total}{parts} | Rake 0"
        if hand.board:
            yield f"Board [{spaced(hand.board)}]"
        for p in sorted(range(self.game.players), key=lambda p: self.seat(hand, p)):
            yield f"Seat {self.seat(hand, p)}: {hand.names[p]}{self.place(p)} {self.outcome(hand, p)}"

    def place(self, position):
        """What a position is called in a summary."""
        names = [(self.order.button, "button"), (self.small, "small blind"), (self.big, "big blind")]
        return "".join(f" ({name})" for place, name in names if place == position)

    def outcome(self, hand, position):
        """What came of a player, in a summary."""
        if hand.folded[position]:
            number = next(n for n, it in enumerate(hand.rounds) if any(act.position == position and act.letter == "f" for act in it.acts))
            return f"folded {ROUNDS[number]}" + ("" if hand.spent[position] else " (didn't bet)")
        won = hand.won(position)
        if not hand.is_showdown:
            return f"collected ({won})"
        words = ranking.words(*hand.value(position))
        result = f"and won ({won})" if won else "and lost"
        return f"showed [{spaced(hand.holes[position])}] {result} with {words}"


def pot_names(hand):
    """What the pots of a hand are called, the main one first."""
    sides = len(hand.pots) - 1
    return ["main pot" if sides else "pot"] + ["side pot" if sides == 1 else f"side pot-{number + 1}" for number in range(sides)]


def action(act):
    """What a player does, in the words for it. Blinds are bets, so that who goes above them raises."""
    is_check = act.letter == "c" and act.added == 0
    words = {
        "f": "folds",
        "c": "checks" if is_check else f"calls {act.added}",
        "r": f"raises {act.total - act.before} to {act.total}" if act.before else f"bets {act.total}",
    }[act.letter]
    return words + (" and is all-in" if act.is_all_in else "")


def spaced(cards):
    return " ".join(re.findall("..", cards))
