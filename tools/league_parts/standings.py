"""What the finished groups of a league say of its players, in thousandths of the greatest blind a hand (mbb/hand)."""
from collections import Counter
from copy import copy
from fractions import Fraction
from functools import cached_property
from typing import Dict, NamedTuple, Optional, Tuple

from .estimates import Estimate, Interval, combined, estimate, estimate_of_floats, estimate_of_sums, mean_of
from .groups import grouped
from .ratings import rated
from .words import of_all

# With fewer groups than this the unit is the hand.
FEWEST_GROUPS = 5
INCIDENTS = ("restarts", "defaults", "mended", "passed")


class Cell(NamedTuple):
    """A player against a set of opponents. `plain` counts each hand of each seating by itself."""

    opponents: Tuple[str, ...]
    groups: int
    is_by_hands: bool
    estimate: Estimate
    interval: Interval
    plain_estimate: Estimate
    plain: Interval


class Standing(NamedTuple):
    """A player over all opponents; no ranks and no intervals where no group of his is finished. Ranks count from 1; equal
    means have the same rank."""

    name: str
    rank: Optional[int]
    run_off: Optional[int]
    interval: Optional[Interval]
    plain: Optional[Interval]
    is_by_hands: bool
    # Against how many sets of opponents the player has finished groups, and how many the plan has.
    met: int
    planned: int
    incidents: Dict[str, int]


class Neighbours(NamedTuple):
    """Two players side by side in rank, and by how much the better one is ahead."""

    better: str
    worse: str
    ahead: Interval
    is_by_hands: bool
    # Whether both met the same opponents, apart from each other.
    have_same_opponents: bool

    @property
    def are_told_apart(self):
        """Means over different opponents tell nobody apart, whatever their difference."""
        return self.have_same_opponents and self.ahead.leaves_out(0)


class Standings:
    """The table of a league's plan and its finished matches, by what players won or, adjusted, by that less their luck. `unit` is
    hand or group where one of them is forced; `tell` is called with what says how far it is, since it may read many logs."""

    def __init__(self, league, plan, finished, unit=None, tell=lambda text: None, is_adjusted=False):
        self.league, self.unit, self.is_adjusted, self.matches = league, unit, is_adjusted, list(finished)
        self.planned, self.tables, counted = len(plan), {it.players for it in plan}, {it.name for it in plan}
        self.finished = sum(it.planned.name in counted for it in self.matches)
        self.groups, self.planned_groups = grouped(plan, self.matches)
        self.finished_groups = sum(map(len, self.groups.values()))
        self.reckon(tell)

    def reckon(self, tell):
        """Works out the figures of all players."""
        self.samples = {}
        for players, found in self.groups.items():
            self.samples[players] = Sample(self, players, found)
            tell(lambda: f"read the logs of {of_all(len(self.samples), len(self.groups), 'set', 'sets')} of players")
        players = self.league.players
        self.cells = {name: [sample.cell(name) for sample in self.samples.values() if name in sample.players] for name in players}
        self.standings = self.ranked()
        self.neighbours = [self.side_by_side(*pair) for pair in zip(self.standings, self.standings[1:]) if pair[1].interval]

    @cached_property
    def ratings(self):
        """The players' ratings by least squares."""
        return rated(self.samples)

    @cached_property
    def other(self):
        """The same by the other results: less luck, or as they are. None where a match doesn't tell its luck."""
        if not all(group.tells_luck for found in self.groups.values() for group in found) or not self.groups:
            return None
        found = copy(self)
        found.__dict__.pop("ratings", None)
        found.is_adjusted, found.other = not self.is_adjusted, self
        found.reckon(lambda text: None)
        return found

    @property
    def plain(self):
        """The standings by what players won."""
        return self.other if self.is_adjusted else self

    @property
    def adjusted(self):
        """Those by what players won less their luck; none where that isn't known."""
        return self if self.is_adjusted else self.other

    def of(self, name):
        """A player's standing."""
        return next(it for it in self.standings if it.name == name)

    def of_whole_groups(self):
        """The same with matches alone whose meetings are finished."""
        whole = {match.planned.name for found in self.groups.values() for group in found for match in group.matches}
        found = copy(self)
        found.matches = [it for it in self.matches if it.planned.name in whole]
        return found

    @property
    def is_whole(self):
        return self.finished_groups == self.planned_groups

    @property
    def is_by_hands(self):
        return any(it.is_by_hands for it in self.standings)

    def mean(self, name, among=None):
        """A player's mean over the opponents that are among some players, or over all; none where he met none of them."""
        means = [it.estimate.mean for it in self.cells[name] if among is None or among.issuperset(it.opponents)]
        return sum(means) / len(means) if means else None

    def ranked(self):
        """All players, the greatest mean first; those without one last."""
        means = {name: self.mean(name) for name in self.league.players}
        have = {name: mean for name, mean in means.items() if mean is not None}
        order, run_off, incidents = sorted(have, key=lambda name: (-have[name], name)), self.run_off(means), self.incidents()
        ranks = {name: 1 + sum(mean > have[name] for mean in have.values()) for name in order}
        ranked = [self.standing(name, ranks[name], run_off.index(name) + 1, incidents[name]) for name in order]
        return ranked + [self.unranked(name, incidents[name]) for name in sorted(means.keys() - have.keys())]

    def standing(self, name, rank, run_off, incidents):
        """A player who has a finished group."""
        cells = self.cells[name]
        interval, plain = mean_of([it.estimate for it in cells]), mean_of([it.plain_estimate for it in cells])
        is_by_hands = any(it.is_by_hands for it in cells)
        return Standing(name, rank, run_off, interval, plain, is_by_hands, len(cells), self.sets_of_opponents(name), incidents)

    def unranked(self, name, incidents):
        """A player who has none."""
        return Standing(name, None, None, None, None, False, 0, self.sets_of_opponents(name), incidents)

    def sets_of_opponents(self, name):
        """How many sets of opponents the plan has for a player."""
        return sum(name in players for players in self.tables)

    def run_off(self, means):
        """The players by instant run-off, the winner first: again and again the one goes whose mean over those who are left
        is the least. Among equal ones the one goes whose mean over all is less, then the last by name. The last table is
        ordered by its own means."""
        left, order = set(self.league.players), []
        places = {name: at for at, name in enumerate(sorted(left))}

        def strength(name):
            here = self.mean(name, left)
            return here is not None, here or 0, means[name] or 0, -places[name]

        while len(left) > self.league.seats:
            gone = min(left, key=strength)
            left.discard(gone)
            order.insert(0, gone)
        return sorted(left, key=strength, reverse=True) + order

    def incidents(self):
        """What happened to each player in all finished matches."""
        counts = {name: Counter({key: 0 for key in INCIDENTS}) for name in self.league.players}
        for match in self.matches:
            for name in match.planned.players:
                counts[name].update({key: match.of(key, name) for key in INCIDENTS})
        return {name: dict(found) for name, found in counts.items()}

    def side_by_side(self, better, worse):
        """By how much a player is ahead of another. Where both sat the difference of the two in each unit is one sample. Each
        one's results weigh by how many sets of opponents he met, which differs while groups are unfinished."""
        first, second = better.name, worse.name
        weights = {name: Fraction(1, len(self.cells[name])) for name in (first, second)}
        terms = []
        for players, sample in self.samples.items():
            if first in players and second in players:
                terms.append((Fraction(1), sample.difference(first, weights[first], second, weights[second])))
            elif first in players:
                terms.append((weights[first], sample.estimate(first)))
            elif second in players:
                terms.append((-weights[second], sample.estimate(second)))
        is_by_hands = better.is_by_hands or worse.is_by_hands
        is_same = self.met_without(first, second) == self.met_without(second, first)
        return Neighbours(first, second, combined(terms), is_by_hands, is_same)

    def met_without(self, name, other):
        """The sets of opponents that a player met where another one didn't sit."""
        return {it.opponents for it in self.cells[name] if other not in it.opponents}


class Sample:
    """The finished groups of some players."""

    def __init__(self, standings, players, found):
        league = standings.league
        self.players, self.groups, self.blind, self.is_adjusted = players, found, league.blind, standings.is_adjusted
        self.seatings = len(found[0].matches)
        self.is_by_hands = standings.unit == "hand" or (standings.unit is None and len(found) < FEWEST_GROUPS)
        self.hands = league.hands
        if self.is_by_hands:
            parts = [group.by_hands(league, self.is_adjusted) for group in found]
            self.units = {name: [chips for part in parts for chips in part[name]] for name in players}
        else:
            self.units = {name: [group.sums(self.is_adjusted)[0][name] for group in found] for name in players}

    @property
    def scale(self):
        """What a unit's chips are multiplied by."""
        return Fraction(1000, self.blind * self.seatings * (1 if self.is_by_hands else self.hands))

    def estimate(self, name):
        return estimate(self.units[name]).scaled(self.scale)

    def difference(self, first, first_weight, second, second_weight):
        """The estimate of the difference of two players' weighted results."""
        pairs = zip(self.units[first], self.units[second])
        return estimate([first_weight * one - second_weight * other for one, other in pairs]).scaled(self.scale)

    def weighted(self, factors):
        """The estimate of a sum of the players' results, each of which counts by its factor."""
        rows = zip(*(self.units[name] for name in self.players))
        return estimate_of_floats([sum(factors[name] * it for name, it in zip(self.players, row)) for row in rows]).scaled(self.scale)

    def plain(self, name):
        """The estimate where each hand of each seating is a unit."""
        total, squares = (sum(found[name] for found in sums) for sums in zip(*(group.sums(self.is_adjusted) for group in self.groups)))
        return estimate_of_sums(total, squares, len(self.groups) * self.seatings * self.hands).scaled(Fraction(1000, self.blind))

    def cell(self, name):
        opponents = tuple(it for it in self.players if it != name)
        found, plain = self.estimate(name), self.plain(name)
        return Cell(opponents, len(self.groups), self.is_by_hands, found, mean_of([found]), plain, mean_of([plain]))
