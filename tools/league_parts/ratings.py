"""Ratings of a league's players by least squares over all that met: comparable also where players met different opponents.

A player's rating is by how much he would win against the average of those with whom a chain of matches joins him. Two players'
ratings differ by what one is expected to win against the other. At a table with more players each wins his rating less the mean of
the others'. The fit weighs each table's result by the inverse of its variance.
"""
from fractions import Fraction
from typing import List, NamedTuple, Optional

from .estimates import Interval, combined


class Rating(NamedTuple):
    """A player's rating. Ratings of different `part`s, which count from 1, say nothing of each other."""

    name: str
    part: int
    interval: Interval


class Ratings(NamedTuple):
    """All ratings, the best of each part first. `squares` is the weighted sum of the squared residuals, which is about as large as its
    degrees of freedom, `freedom`, where ratings explain the results; none where no variance is known."""

    ratings: List[Rating]
    squares: Optional[float]
    freedom: int


def rated(samples):
    """The ratings of the players of some samples: by sets of players the finished groups of each."""
    found, squares, freedom, number = [], 0.0, 0, 0
    spreads = {players: spread(sample) for players, sample in samples.items()}
    known = [it for it in spreads.values() if it]
    usual = sum(known) / len(known) if known else None
    for names in sorted(parts(samples), key=lambda names: (-len(names), names)):
        here = {players: sample for players, sample in samples.items() if players[0] in names}
        weights = {players: 1.0 / (spreads[players] or usual or 1.0) for players in here}
        number += 1
        rows, residual = solved(names, here, weights)
        squares += residual
        freedom += sum(len(players) - 1 for players in here) - (len(names) - 1)
        ratings = [Rating(name, number, interval_of(here, rows[name])) for name in names]
        found += sorted(ratings, key=lambda it: (-it.interval.value, it.name))
    return Ratings(found, squares if known else None, freedom)


def spread(sample):
    """The variance of a table's result about its ratings, for one player; none where nothing says it."""
    found = [sample.estimate(name).variance for name in sample.players]
    return None if None in found or not sum(found) else sum(found) / (len(found) - 1)


def parts(samples):
    """The players, by who is joined to whom by a chain of matches; each part sorted by name."""
    found = []
    for players in samples:
        joined = [part for part in found if not part.isdisjoint(players)]
        found = [part for part in found if part not in joined] + [set(players).union(*joined)]
    return [sorted(part) for part in found]


def solved(names, samples, weights):
    """How much each result counts for each player's rating: by player, by set, by the players of the set. And the weighted sum of
    the squared residuals."""
    place, count = {name: at for at, name in enumerate(names)}, len(names)
    # (the normal equations; a row of ones more has the ratings of a part add up to 0)
    matrix = [[1.0] * count for _ in range(count)]
    for players, weight in weights.items():
        for one in players:
            for other in players:
                matrix[place[one]][place[other]] += weight * expected(players, one, other) * scale(players)
    inverse = inverted(matrix)
    rows = {name: {} for name in names}
    for players, weight in weights.items():
        for name in names:
            rows[name][players] = {
                one: weight * sum(inverse[place[name]][place[other]] * expected(players, one, other) for other in players) for one in players
            }
    means = {players: {name: float(sample.estimate(name).mean) for name in players} for players, sample in samples.items()}
    ratings = {
        name: sum(factor * means[players][one] for players, factors in rows[name].items() for one, factor in factors.items()) for name in names
    }
    residual = sum(
        weights[players] * (means[players][one] - sum(expected(players, one, other) * ratings[other] for other in players)) ** 2
        for players in samples for one in players
    )
    return rows, residual


def scale(players):
    """Of a table what a player wins for each chip by which he is better than its mean."""
    return len(players) / (len(players) - 1)


def expected(players, one, other):
    """How much of another's rating counts for what a player wins at a table."""
    return 1.0 if one == other else -1.0 / (len(players) - 1)


def inverted(matrix):
    """The inverse of a matrix, by Gauss and Jordan, with the greatest pivot of each column."""
    count = len(matrix)
    rows = [row + [float(at == place) for place in range(count)] for at, row in enumerate(matrix)]
    for column in range(count):
        pivot = max(range(column, count), key=lambda at: abs(rows[at][column]))
        rows[column], rows[pivot] = rows[pivot], rows[column]
        rows[column] = [value / rows[column][column] for value in rows[column]]
        for at in range(count):
            factor = rows[at][column]
            if at != column and factor:
                rows[at] = [value - factor * other for value, other in zip(rows[at], rows[column])]
    return [row[count:] for row in rows]


def interval_of(samples, row):
    """A rating with its interval: a sum of what each table's results count."""
    return combined([(Fraction(1), samples[players].weighted(factors)) for players, factors in row.items()])
