"""How far the cards of a match favoured each player, as the program that deals tells it of a log."""
import subprocess
from fractions import Fraction
from typing import Dict, List, NamedTuple

from .faults import Unfinished

# What an earlier program says that has no such command.
UNKNOWN = b"unrecognized subcommand"


class Lucks(NamedTuple):
    """Of a match: by name what each hand paid, and its luck, both in parts of a chip."""

    parts: int
    chips: Dict[str, List[int]]
    lucks: Dict[str, List[int]]

    def adjusted(self, name):
        """A player's results less luck, hand by hand, in parts of a chip."""
        return [paid - luck for paid, luck in zip(self.chips[name], self.lucks[name])]

    def adjusted_chips(self, name):
        """The same in chips."""
        return [Fraction(it, self.parts) for it in self.adjusted(name)]


def write(program, game, log, path):
    """Writes what a program tells of a log; whether it did. An earlier program, which can't, writes nothing."""
    with open(path, "wb") as file:
        ran = subprocess.run([program, "luck", game, log], stdout=file, stderr=subprocess.PIPE)
    if ran.returncode == 0:
        return True
    path.unlink()
    if UNKNOWN in ran.stderr:
        return False
    raise Unfinished(f"{program} tells no luck of {log}: {ran.stderr.decode(errors='replace').strip() or 'it refuses the log'}")


def read(path, names):
    """What a file says that `write` wrote."""
    chips, lucks, parts = {name: [] for name in names}, {name: [] for name in names}, 1
    try:
        with open(path, encoding="ascii") as file:
            for line in file:
                _, name, paid, luck = line.split()
                luck, _, parts = luck.partition("/")
                chips[name].append(int(paid))
                lucks[name].append(int(luck))
        parts = int(parts)
    except (OSError, ValueError, KeyError) as why:
        raise Unfinished(f"{path} doesn't tell the luck of {' and '.join(names)}: {why}") from why
    return Lucks(parts, {name: [it * parts for it in found] for name, found in chips.items()}, lucks)


def figures(lucks, names):
    """What a result says of luck, by seat: in parts of a chip the luck over all hands, and the sum of the squares of each hand's
    adjusted result."""
    return {
        "parts": lucks.parts, "luck": [sum(lucks.lucks[name]) for name in names],
        "adjusted_squares": [sum(it * it for it in lucks.adjusted(name)) for name in names],
    }
