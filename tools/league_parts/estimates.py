"""Means of samples, and how far they may be off. Nothing here knows of matches."""
from fractions import Fraction
from math import ceil, fsum, sqrt
from typing import NamedTuple, Optional

from .students_t import t


# What rounding may leave of a number, for each of its size.
ROUNDED = 1e-12


class Estimate(NamedTuple):
    """The mean of a sample's units, the variance of that mean, and how many units there are. One unit alone has no
    variance."""

    mean: Fraction
    variance: Optional[float]
    units: int

    def scaled(self, factor):
        """The estimate in another measure."""
        variance = None if self.variance is None else self.variance * float(factor) ** 2
        return Estimate(self.mean * factor, variance, self.units)


class Interval(NamedTuple):
    """A value, and how far its interval of 95 % reaches to each side; none where a sample has one unit alone. `freedom` is
    the degrees of freedom, none where all units were equal."""

    value: Fraction
    half: Optional[float]
    freedom: Optional[float]

    def covers(self, value):
        return self.half is not None and abs(value - self.value) <= self.half

    def leaves_out(self, value):
        """Whether the value is outside the interval. An interval of no width leaves nothing out: its units were all equal,
        which only says that nothing rare has happened yet."""
        return bool(self.half) and not self.covers(value)


def estimate(units):
    """The estimate from a sample's units, which are whole numbers or fractions, so that nothing is lost by rounding."""
    return estimate_of_sums(sum(units), sum(it * it for it in units), len(units))


def estimate_of_sums(total, squares, count):
    """The same from the units' sum, the sum of their squares, and how many they are."""
    mean = Fraction(total) / count
    return Estimate(mean, float(squares - mean * total) / (count - 1) / count if count > 1 else None, count)


def estimate_of_floats(units):
    """The same from a sample of broken numbers, of which rounding leaves a little where all are equal."""
    count, mean = len(units), fsum(units) / len(units)
    if count == 1:
        return Estimate(Fraction(mean), None, 1)
    squares = fsum((it - mean) ** 2 for it in units)
    is_noise = squares <= count * (ROUNDED * max(map(abs, units))) ** 2
    return Estimate(Fraction(mean), 0.0 if is_noise else squares / (count - 1) / count, count)


def combined(terms):
    """The interval for a sum of weighted means of samples that have nothing to do with each other. A term is a weight and
    an estimate."""
    value = sum((weight * it.mean for weight, it in terms), Fraction(0))
    if not terms or any(it.variance is None for _, it in terms):
        return Interval(value, None, None)
    parts = [(float(weight) ** 2 * it.variance, it.units - 1) for weight, it in terms]
    variance = sum(part for part, _ in parts)
    if variance == 0:
        return Interval(value, 0.0, None)
    freedom = variance**2 / sum(part**2 / free for part, free in parts)
    return Interval(value, t(freedom) * sqrt(variance), freedom)


def mean_of(estimates):
    """The interval for the mean of several samples' means, each of which weighs as much."""
    return combined([(Fraction(1, len(estimates)), it) for it in estimates])


def meetings_to_tell(interval, groups):
    """How many groups more would have an interval leave 0 out, if its value and its spread stay as they are; none where it does so
    already, or nothing says it. Four times the groups halve an interval."""
    if not interval.half or not interval.value or interval.leaves_out(0):
        return None
    return max(1, ceil(groups * (interval.half / abs(float(interval.value))) ** 2) - groups)
