"""A hand by docs/RULES.md, for the readers of what tools/hands writes: written from that page, without any program of this project.

Players are positions from 0 on. Amounts are whole chips that a player has put in during the whole hand.
"""
import functools
from collections import Counter
from itertools import combinations
from typing import NamedTuple, Sequence

from measuring import want

RANKS = "23456789TJQKA"
CARD = f"[{RANKS}][cdhs]"
HIGH_CARD, PAIR, TWO_PAIRS, THREE, STRAIGHT, FLUSH, FULL_HOUSE, FOUR, STRAIGHT_FLUSH = range(9)
SHAPES = {(2, 1, 1, 1): PAIR, (2, 2, 1): TWO_PAIRS, (3, 1, 1): THREE, (3, 2): FULL_HOUSE, (4, 1): FOUR}
WHEEL = (12, 3, 2, 1, 0)


class Game(NamedTuple):
    """Blinds and stacks by position; a limit game's raises by round, none in a no-limit game; who is first before the flop."""

    blinds: Sequence[int]
    stacks: Sequence[int]
    sizes: Sequence[int]
    first: int


class Pot(NamedTuple):
    chips: int
    eligible: Sequence[int]


class Read(NamedTuple):
    """What a text says of a hand: the name of its match, its game, and its line of the log."""

    match: str
    game: Game
    line: str


def value_of_five(cards):
    """A category and the ranks, in order of how often each comes, then of height; of a straight its top alone."""
    counts = Counter(RANKS.index(card[0]) for card in cards)
    ranks = tuple(sorted(counts, key=lambda rank: (counts[rank], rank), reverse=True))
    is_flush = len({card[1] for card in cards}) == 1
    if ranks == WHEEL or len(ranks) == 5 and ranks[0] - ranks[4] == 4:
        return (STRAIGHT_FLUSH if is_flush else STRAIGHT), (3 if ranks == WHEEL else ranks[0],)
    return (FLUSH if is_flush else SHAPES.get(tuple(sorted(counts.values(), reverse=True)), HIGH_CARD)), ranks


@functools.lru_cache(maxsize=64)
def value_of_seven(cards):
    """The value of the best five. Those of a showdown are asked for several times."""
    return max(map(value_of_five, combinations(cards, 5)))


class Hand:
    """A hand as it is played, with the cards that are known. `waiting` are those who still have to act in the round, in order;
    `opener` acted first in it, and `raiser` raised last. `folded` says in which round somebody folded."""

    def __init__(self, game):
        self.game, self.players = game, range(len(game.stacks))
        self.spent, self.folded, self.betting = list(game.blinds), {}, ""
        self.holes, self.board, self.seen = [""] * len(self.players), [], set()
        self.begin_round(game.first)

    @property
    def round(self):
        return self.betting.count("/")

    def see(self, cards):
        """Cards that nobody has seen before: no card comes twice."""
        for card in cards:
            want(card not in self.seen, f"{card} comes twice")
            self.seen.add(card)

    def hold(self, player, hole):
        """A player is dealt two cards, or shows them. They are those that he was dealt, if he was seen to be dealt any."""
        if not self.holes[player]:
            self.see([hole[:2], hole[2:]])
        want(self.holes[player] in ("", hole), f"player {player} has {self.holes[player]} and not {hole}")
        self.holes[player] = hole

    def lacks_board(self):
        """How many cards are to be dealt to the board next, none if it has all of its rounds."""
        return (1 if self.board else 3) if len(self.board) < (0, 3, 4, 5)[self.round] else 0

    def is_live(self, player):
        return player not in self.folded and self.spent[player] < self.game.stacks[player]

    def standing(self, start=0):
        """Who has not folded, round the table from a player on."""
        return [p for p in ((start + step) % len(self.players) for step in self.players) if p not in self.folded]

    def begin_round(self, first):
        self.before = max(self.spent) if self.round else 0
        self.least = self.before + max(self.game.blinds) * (1 if self.round else 2)
        self.waiting = [player for player in self.standing(first) if self.is_live(player)]
        self.opener, self.raiser, self.acts = self.waiting[0], None, 0

    def fold(self):
        player = self.waiting.pop(0)
        want(self.spent[player] < max(self.spent), f"player {player} folds and faces no bet")
        self.folded[player] = self.round
        self.act("f")

    def call(self):
        player = self.waiting.pop(0)
        self.spent[player] = min(max(self.spent), self.game.stacks[player])
        self.act("c")

    def raise_to(self, amount):
        player, most = self.waiting.pop(0), max(self.spent)
        stack = self.game.stacks[player]
        want(self.acts + 1 + len(self.players) <= 64, "a raise in a round that is full")
        want(sum(map(self.is_live, self.players)) > 1 and stack > most, f"player {player} may not raise")
        least, top = (most + self.game.sizes[self.round],) * 2 if self.game.sizes else (self.least, stack)
        want(min(least, stack) <= amount <= min(top, stack), f"player {player} raises to {amount}, and the least is {least} of {stack}")
        self.spent[player], self.raiser, self.least = amount, player, max(self.least, 2 * amount - most)
        self.waiting = [other for other in self.standing(player + 1) if other != player and self.is_live(other)]
        self.act("r" if self.game.sizes else f"r{amount}")

    def act(self, text):
        """Notes an action, and ends the round where it was the last one."""
        self.betting, self.acts = self.betting + text, self.acts + 1
        if len(self.standing()) == 1:
            self.waiting = []
        elif not self.waiting and self.round < 3 and sum(map(self.is_live, self.players)) > 1:
            self.betting += "/"
            self.begin_round(0)
        elif not self.waiting:
            self.betting += "/" * (3 - self.round)

    def showing(self):
        """Who shows, in order: from who raised last in the last round that was bet, else from who acted first in it."""
        standing = self.standing(self.opener if self.raiser is None else self.raiser)
        return standing if len(standing) > 1 else []

    def value(self, player):
        """The value of the best five of a player's seven cards."""
        hole = self.holes[player]
        return value_of_seven((hole[:2], hole[2:], *self.board))

    def pots(self):
        """The pots, the main one first: levels with the same eligible players are one."""
        chips, below = {}, 0
        for level in sorted({*self.spent} - {0}):
            payers = [player for player in self.players if self.spent[player] >= level]
            eligible = tuple(player for player in payers if player not in self.folded)
            chips[eligible] = chips.get(eligible, 0) + (level - below) * len(payers)
            below = level
        return [Pot(amount, eligible) for eligible, amount in chips.items()]

    def shares(self, pot):
        """What each winner of a pot gets: odd chips go one each to the first of them."""
        values = {player: self.value(player) if len(pot.eligible) > 1 else 0 for player in pot.eligible}
        winners = [player for player in pot.eligible if values[player] == max(values.values())]
        each, odd = divmod(pot.chips, len(winners))
        return {player: each + (place < odd) for place, player in enumerate(winners)}

    def payoffs(self):
        gets = Counter()
        for pot in self.pots():
            gets.update(self.shares(pot))
        return [gets[player] - self.spent[player] for player in self.players]

    def line(self, number, names, start):
        """The hand's line of the log, in which player 0 has the position `start`. A hole that isn't known is empty."""
        turned = lambda values: "|".join(str(values[(place - start) % len(values)]) for place in self.players)
        board = "".join("/" + "".join(cards) for cards in (self.board[:3], self.board[3:4], self.board[4:])[: self.round])
        return f"STATE:{number}:{self.betting}:{turned(self.holes)}{board}:{turned(self.payoffs())}:{turned(names)}"
