"""The rounds of a league whose players are paired by their results. The file `rounds` only grows: a line has a round's pairs, and who
has none."""
import json
import os

from .faults import Unfinished
from .files import put_once


def path(league):
    return league.folder / "rounds"


def planned(league):
    """The rounds that are planned: of each its pairs and who has a bye."""
    try:
        lines = path(league).read_text(encoding="ascii").splitlines()
        return [json.loads(line) for line in lines]
    except FileNotFoundError:
        return []
    except (OSError, ValueError) as why:
        raise Unfinished(f"{path(league)} can't be read: {why}") from why


def pairs(league):
    """All pairs of the rounds that are planned, in their order."""
    return [tuple(pair) for found in planned(league) for pair in found["pairs"]]


def told(league):
    """The newest round in words."""
    found = planned(league)[-1]
    bye = f"; {found['bye']} has a bye" if found["bye"] else ""
    return f"round {found['round']} of {league.swiss}: {', '.join(' - '.join(pair) for pair in found['pairs'])}{bye}"


def plan_next(league, order):
    """Plans the next round by an order of the players, the best one first; whether there is one. Nobody meets anybody twice, and
    nobody has two byes as long as somebody had none."""
    before = planned(league)
    if len(before) >= league.swiss:
        return False
    met = {frozenset(pair) for found in before for pair in found["pairs"]}
    byes = [found["bye"] for found in before]
    for bye in byes_of(order, byes):
        found = paired([name for name in order if name != bye], met)
        if found is not None:
            append(league, {"round": len(before) + 1, "pairs": [sorted(pair) for pair in found], "bye": bye})
            return True
    return False


def byes_of(order, byes):
    """Who may have the bye, the last one of the order first; none where all have an opponent."""
    if len(order) % 2 == 0:
        return [None]
    return sorted(reversed(order), key=byes.count)


def paired(order, met):
    """Pairs of players who haven't met, each with the next one below him that leaves all others one; none where there are none."""
    if not order:
        return []
    first, *rest = order
    for other in rest:
        if frozenset((first, other)) not in met:
            found = paired([name for name in rest if name != other], met)
            if found is not None:
                return [(first, other), *found]
    return None


def append(league, found):
    """Adds a round to the file, whole or not at all."""
    text = "".join(json.dumps(it) + "\n" for it in [*planned(league), found])
    made = path(league).with_name(".rounds.next")
    made.unlink(missing_ok=True)
    put_once(made, text.encode("ascii"))
    os.replace(made, path(league))
