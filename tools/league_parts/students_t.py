"""Student's t at 97.5 %: how many standard errors an interval of 95 % reaches to each side."""
import functools
import math

# The value of the normal distribution, what is above it, and when a step towards the value is small enough.
Z, TAIL, ENOUGH = 1.959963984540054, 0.025, 1e-10
# From so many degrees of freedom on the value is a sum of powers of Z, by factors, over powers of the degrees of freedom.
MANY = 100.0
EXPANSION = [
    {1: 1.0}, {3: 1 / 4, 1: 1 / 4}, {5: 5 / 96, 3: 16 / 96, 1: 3 / 96}, {7: 3 / 384, 5: 19 / 384, 3: 17 / 384, 1: -15 / 384},
]
# How many terms the fraction below may need, and when they are small enough.
TERMS, SMALL = 10000, 1e-15


def fraction(a, b, x):
    """The continued fraction of the incomplete beta function, by Lentz: it converges where x is below (a + 1) / (a + b + 2)."""
    upper, lower = 1.0, 1.0 - (a + b) * x / (a + 1)
    lower = 1.0 / (lower or SMALL)
    value = lower
    for term in range(1, TERMS):
        for factor in (
            term * (b - term) * x / ((a + 2 * term - 1) * (a + 2 * term)),
            -(a + term) * (a + b + term) * x / ((a + 2 * term) * (a + 2 * term + 1)),
        ):
            lower, upper = 1.0 / (1.0 + factor * lower or SMALL), 1.0 + factor / upper or SMALL
            value *= lower * upper
        if abs(lower * upper - 1.0) < SMALL * 10:
            break
    return value


def beyond(value, freedom):
    """How likely a t with these degrees of freedom is above a value, which is positive."""
    a, x = freedom / 2, freedom / (freedom + value * value)
    front = math.exp(math.lgamma(a + 0.5) - math.lgamma(a) - math.lgamma(0.5) + a * math.log(x) + 0.5 * math.log1p(-x))
    if x < (a + 1) / (a + 2.5):
        return front * fraction(a, 0.5, x) / a / 2
    return (1.0 - front * fraction(0.5, a, 1 - x) / 0.5) / 2


def density(value, freedom):
    logarithm = math.lgamma((freedom + 1) / 2) - math.lgamma(freedom / 2) - math.log(math.pi * freedom) / 2
    return math.exp(logarithm - (freedom + 1) / 2 * math.log1p(value * value / freedom))


@functools.lru_cache(maxsize=None)
def t(freedom):
    """The value for degrees of freedom, 1 at least, which may be a broken number: that above which 2.5 % are. By its expansion where they
    are many, which is right to seven digits behind the point; else by Newton from the left, where no step goes past it."""
    freedom = max(1.0, float(freedom))
    if freedom >= MANY:
        return sum(sum(factor * Z**power for power, factor in part.items()) / freedom**at for at, part in enumerate(EXPANSION))
    value, step = Z, 1.0
    while step > ENOUGH:
        step = (beyond(value, freedom) - TAIL) / density(value, freedom)
        value += step
    return value
