"""Who of those that wait sits down with whom."""
from typing import NamedTuple, Optional

from .room_file import HOUSE


class Candidate(NamedTuple):
    """Somebody who may sit at a table: his name, whom he wants to play, for how many hands, whether he has waited long enough for a
    house bot, and whether he is one himself."""

    name: str
    against: Optional[str] = None
    hands: int = 0
    is_due: bool = False
    is_house: bool = False

    def suits(self, wish):
        """Whether he is who is wished for."""
        return wish == self.name or (wish == HOUSE and self.is_house)


def open_wishes(table):
    """The wishes of those at a table that nobody there meets."""
    return {it.against for it in table if it.against is not None and not any(other.suits(it.against) for other in table)}


def tables(waiting, houses, seats, met):
    """Tables of so many seats, one after the other, from those that wait in the order in which they came. `met` says how often two have
    met over so many hands: who has met least comes first. House bots sit with who wants one, or has waited long enough."""
    free = list(waiting)
    for first in waiting:
        if first in free:
            table = seated(first, free, houses, seats, met)
            if table is not None:
                free = [it for it in free if it not in table]
                yield table


def seated(first, free, houses, seats, met):
    """A table for somebody; none where too few are there who suit."""
    table = [first]
    others = [it for it in free if it.hands == first.hands and it is not first]
    while len(table) < seats:
        often = {it.name: sum(met(first.hands, it.name, one.name) for one in table) for it in (*others, *houses)}
        found = next_one(table, sorted(others, key=lambda it: often[it.name]), seats)
        if found is None:
            found = next_one(table, sorted(welcome(table, houses), key=lambda it: often[it.name]), seats)
        if found is None:
            return None
        table.append(found)
    return table


def welcome(table, houses):
    """The house bots that may sit at a table now."""
    wishes = open_wishes(table)
    return [it for it in houses if table[0].is_due or any(it.suits(wish) for wish in wishes)]


def next_one(table, candidates, seats):
    """The first one who may sit down at a table, so that the seats that are left are enough for all wishes."""
    for it in candidates:
        more = [*table, it]
        if it not in table and len(open_wishes(more)) <= seats - len(more):
            return it
    return None
