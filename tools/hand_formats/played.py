"""A hand of a log, played again: its rounds and actions, its pots, and who got what."""
import re
import sys
from pathlib import Path
from typing import NamedTuple, Sequence

sys.path.insert(0, str(Path(__file__).resolve().parent.parent.parent / "examples/bots"))

from table import ACTION, Betting, Game  # noqa: F401, for those who have all from here

from . import ranking
from .refused import Refused

STATE = re.compile(r"STATE:(\d+):([^:]*):([^:/]*)/?([^:]*):([^:]*):([^:]*)")


class Act(NamedTuple):
    """An action: fold `f`, call or check `c`, bet or raise `r`. Amounts are whole chips of its round alone."""

    position: int
    letter: str
    before: int  # the most that anybody had put in before it
    added: int  # what the player put in by it
    total: int  # what he then has put in
    is_all_in: bool


class Round(NamedTuple):
    """A round that the hand reached: the cards that were dealt to the board as it began, and its actions."""

    cards: str
    acts: Sequence[Act]


class Pot(NamedTuple):
    """A pot: its chips, and what each of its winners gets, by position."""

    chips: int
    shares: dict


class Uncalled(NamedTuple):
    """What nobody called of the last bet, and goes back to who made it; 0 if all was called."""

    position: int
    chips: int


class Hand:
    """A hand of a log. Positions count from 0; hole cards that are hidden are empty texts."""

    def __init__(self, game, line):
        number, betting, holes, board, values, names = STATE.fullmatch(line).groups()
        self.game, self.number = game, int(number)
        self.names, self.holes = names.split("|"), holes.split("|")
        self.payoffs = [int(value) for value in values.split("|")]
        boards = ["", *board.split("/")] if board else [""]
        self.board = "".join(boards)
        self.rounds, self.spent, self.folded = rounds_of(game, betting.split("/"), boards)
        self.unfolded = [p for p in range(game.players) if not self.folded[p]]
        self.is_showdown = len(self.unfolded) > 1
        self.uncalled = self.uncalled_bet()
        self.pots = self.all_pots()
        self.compare()

    def uncalled_bet(self):
        most, second = sorted(self.spent, reverse=True)[:2]
        return Uncalled(self.spent.index(most), most - second)

    def all_pots(self):
        """The pots, the main one first. All levels of chips with the same eligible players are one pot."""
        spent = list(self.spent)
        spent[self.uncalled.position] -= self.uncalled.chips
        chips, levels = {}, sorted({0, *spent})
        for low, high in zip(levels, levels[1:]):
            inside = [p for p, amount in enumerate(spent) if amount >= high]
            eligible = tuple(p for p in inside if not self.folded[p])
            chips[eligible] = chips.get(eligible, 0) + (high - low) * len(inside)
        return [Pot(amount, self.shares(eligible, amount)) for eligible, amount in chips.items()]

    def shares(self, eligible, chips):
        """Shares a pot among its best hands: odd chips go one each to the first of them."""
        best = max(map(self.value, eligible)) if len(eligible) > 1 else None
        winners = [p for p in eligible if best is None or self.value(p) == best]
        each, odd = divmod(chips, len(winners))
        return {p: each + (place < odd) for place, p in enumerate(winners)}

    def value(self, position):
        """What a player's cards are worth with the whole board."""
        return ranking.value(re.findall("..", self.holes[position] + self.board))

    def won(self, position):
        """What a player gets of all pots, without what he gets back uncalled."""
        return sum(pot.shares.get(position, 0) for pot in self.pots)

    def compare(self):
        """A Refused where the pots don't give the log's payoffs."""
        back = [self.uncalled.chips if p == self.uncalled.position else 0 for p in range(self.game.players)]
        found = [self.won(p) + back[p] - spent for p, spent in enumerate(self.spent)]
        if found != self.payoffs:
            raise Refused(f"hand {self.number} pays {'|'.join(map(str, found))} by its pots, and {'|'.join(map(str, self.payoffs))} in the log")

    def showing_order(self):
        """Who shows his cards at the showdown, in order: from who raised last in the last round that was bet, or was first in it."""
        acts = next(it.acts for it in reversed(self.rounds) if it.acts)
        raised = [act.position for act in acts if act.letter == "r"]
        first = raised[-1] if raised else acts[0].position
        players = self.game.players
        return [p % players for p in range(first, first + players) if not self.folded[p % players]]


def rounds_of(game, texts, boards):
    """The rounds of a hand by its betting, with what each player put in and whether he folded."""
    betting, rounds, before = Betting(game, ""), [], [0] * game.players
    for number, (text, cards) in enumerate(zip(texts, boards)):
        if number > 0:
            before = list(betting.spent)
            betting.begin_round(number)
        rounds.append(Round(cards, [act_of(betting, before, word) for word in ACTION.findall(text)]))
    if betting.to_act() is not None or len(texts) != len(boards):
        raise Refused(f"the betting {'/'.join(texts)} isn't that of a whole hand")
    return rounds, betting.spent, betting.folded


def act_of(betting, start, word):
    """What the player to act does, with amounts since the start of the round. A Refused where nobody is to act."""
    player, most = betting.to_act(), max(betting.spent) - max(start)
    if player is None:
        raise Refused(f"the action {word} comes behind the end of its round")
    had = betting.spent[player]
    betting.take(word)
    has = betting.spent[player]
    is_all_in = has == betting.game.stacks[player] and has > had
    return Act(player, word[0], most, has - had, has - start[player], is_all_in)
