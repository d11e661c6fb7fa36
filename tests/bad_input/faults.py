"""Faults as they are printed, and whether docs/FAULTS.md names them."""
import functools
import re

from .models import TOP


class Fault(Exception):
    """What is wrong with an input: its number and its name, as in '10 NoGamedef', and its line or nothing."""

    def __init__(self, name, line=None):
        super().__init__(name if line is None else f"{name} {line}")


# The faults that docs/FAULTS.md names.


@functools.lru_cache
def named():
    """The pairs of a number and a name that stand on the page, in its tables and behind one another in its texts."""
    page = (TOP / "docs/FAULTS.md").read_text("utf-8")
    pairs = set(re.findall(r"\b(\d+) `([A-Z]\w+)", page))
    for numbers, names in re.findall(r"^\| ([\d, ]+) \| ([^|]*)\|", page, re.M):
        pairs |= set(zip(numbers.split(", "), re.findall(r"`([A-Z]\w+)[^`]*`", names)))
    return pairs


def is_named(text):
    """Whether a fault's text is numbers with their names, and perhaps a line or an amount behind them."""
    pairs, rest = re.findall(r"(\d+) ([A-Z]\w*)(?: |$)", text), re.sub(r"\d+ [A-Z]\w*( |$)", "", text)
    return bool(pairs) and set(pairs) <= named() and re.fullmatch(r"\d*", rest) is not None
