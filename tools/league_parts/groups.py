"""The finished matches of a league as groups, which are what its statistics count."""
import json
from collections import defaultdict
from fractions import Fraction
from typing import Dict, List, NamedTuple, Optional, Tuple

from . import lucks
from .faults import Unfinished
from .logs import hand_chips
from .plan import Planned


class Played(NamedTuple):
    """A finished match, and what its result says."""

    planned: Planned
    result: dict

    def of(self, key, name):
        """A figure of a player; 0 where the result is older than the figure."""
        figures = self.result.get(key)
        return figures[self.planned.seats.index(name)] if figures is not None else 0

    @property
    def tells_luck(self):
        """Whether its luck is known: an earlier program doesn't tell it."""
        return "luck" in self.result

    def log(self, league):
        return league.result_of(self.planned.name) / f"{self.planned.name}.log"

    def by_hands(self, league, is_adjusted=False):
        """By name the chips of each hand by the log, or less luck by the file beside it."""
        path, seats = self.log(league), self.planned.seats
        if is_adjusted:
            path = path.with_suffix(".luck")
            told = lucks.read(path, seats)
            chips = {name: told.adjusted_chips(name) for name in seats}
        else:
            chips = dict(zip(seats, hand_chips(path, seats)))
        for hands in chips.values():
            see_hands(path, len(hands), league)
        return chips

    def adjusted(self, name):
        """A player's chips less luck over all hands, and the sum of the squares of each hand's."""
        parts = self.result["parts"]
        chips = self.of("chips", name) - Fraction(self.of("luck", name), parts)
        return chips, Fraction(self.of("adjusted_squares", name), parts**2)


class Group(NamedTuple):
    """All seatings of one meeting, all finished. Chips are whole."""

    players: Tuple[str, ...]
    meeting: int
    matches: List[Played]
    # By name the chips over all hands and seatings, and the sum of the squares of each hand's.
    chips: Dict[str, int]
    squares: Dict[str, int]
    # The same of results less luck, which are fractions of chips; none where a match doesn't tell its luck.
    adjusted: Optional[Dict[str, Fraction]]
    adjusted_squares: Optional[Dict[str, Fraction]]

    @property
    def tells_luck(self):
        return self.adjusted is not None

    def sums(self, is_adjusted):
        """By name the chips over all hands and seatings, and the sums of the squares of each hand's, both as they are or less luck."""
        if not is_adjusted:
            return self.chips, self.squares
        if not self.tells_luck:
            silent = next(it.planned.name for it in self.matches if not it.tells_luck)
            raise Unfinished(f"{silent} doesn't tell its luck, by which rank_by ranks: an earlier program dealt it")
        return self.adjusted, self.adjusted_squares

    def by_hands(self, league, is_adjusted=False):
        """By name the chips of hand h of all seatings together, in the order of the hands."""
        seatings = [it.by_hands(league, is_adjusted) for it in self.matches]
        return {name: [sum(hands) for hands in zip(*(seating[name] for seating in seatings))] for name in self.players}


def see_hands(path, hands, league):
    """Stops where a file has another number of hands than each match of the league: its figures would be wrong."""
    if hands != league.hands:
        raise Unfinished(f"{path} has {hands} hands, and a match of this league has {league.hands}")


def played(league, plan):
    """The finished matches of a plan."""
    for it in plan:
        path = league.result_of(it.name) / "result.json"
        try:
            result = json.loads(path.read_text())
        except FileNotFoundError:
            continue
        except (OSError, ValueError) as why:
            raise Unfinished(f"{path} can't be read: {why}") from why
        see_hands(path, result.get("hands"), league)
        yield Played(it, result)


def grouped(plan, finished):
    """The finished groups by their players, in the order of their meetings, and how many groups the plan has."""
    whole, done = defaultdict(int), defaultdict(list)
    for it in plan:
        whole[it.group] += 1
    for it in finished:
        done[it.planned.group].append(it)
    groups = defaultdict(list)
    for (players, meeting), matches in sorted(done.items()):
        if len(matches) == whole.get((players, meeting)):
            chips, squares = ({name: sum(it.of(key, name) for it in matches) for name in players} for key in ("chips", "squares"))
            groups[players].append(Group(players, meeting, matches, chips, squares, *adjusted_sums(players, matches)))
    return groups, len(whole)


def adjusted_sums(players, matches):
    """By name the chips less luck over some matches, and the sums of the squares of each hand's; none where one doesn't tell its luck."""
    if not all(it.tells_luck for it in matches):
        return None, None
    sums = {name: [sum(found) for found in zip(*(it.adjusted(name) for it in matches))] for name in players}
    return tuple({name: found[at] for name, found in sums.items()} for at in range(2))
