"""A league's table as text, as lines of CSV, and as JSON."""
import csv
import io
import json

from .standings import INCIDENTS
from .words import counted, of_all

# Which groups of a player count who has withdrawn.
KEPT = {
    "all": "all finished groups count", "complete": "groups count against opponents against whom all are finished", "none": "no groups count",
}
LUCK = "luck-adjusted"
BY_HANDS = "by hands: too small where bots learn"
TRUST = "Each interval behind a mean, by itself, misses the true value in 1 of 20 leagues"
TRUST_OF_CELLS = "; of {cells} cells (a player against opponents) about {misses} miss"
TRUST_BY_HANDS = " Intervals by hands miss more often where bots learn or fail."
ALONE = " ± ? stands behind one result alone, which has no interval."
RATINGS = "ratings by least squares, which compare players also over different opponents"
SWISS = " Pairs were made by results: no interval here holds for whoever was in one."
UNFINISHED = " Groups are missing: a mean weighs all opponents that the player met alike, however many groups against each are finished."


def shown(interval):
    """An interval as a table shows it."""
    if interval is None:
        return "-"
    half = "?" if interval.half is None else f"{interval.half:.1f}"
    return f"{signed(interval.value)} ± {half}"


def signed(value):
    """A value with a tenth, and its sign."""
    text = f"{float(value):+.1f}"
    return "0.0" if text in ("+0.0", "-0.0") else text


def half(interval):
    return "-" if interval is None or interval.half is None else f"± {interval.half:.1f}"


def place(number):
    """A place in an order of winners."""
    return "-" if number is None else str(number)


def columns(rows, right):
    """Rows as lines with columns, of which those in `right` stand to the right."""
    widths = [max(map(len, column)) for column in zip(*rows)]
    for row in rows:
        cells = [cell.rjust(width) if at in right else cell.ljust(width) for at, (cell, width) in enumerate(zip(row, widths))]
        yield "  ".join(cells).rstrip()


def head(standings):
    league = standings.league
    kind = "duplicate" if league.duplicate else "no duplicates"
    lines = [f"{league.name}: {counted(len(league.players), 'player')}, {counted(league.hands, 'hand')} a match, {kind}, in mbb/hand"]
    open_groups = standings.planned_groups - standings.finished_groups
    counts = f"{of_all(standings.finished, standings.planned, 'match', 'matches')} and "
    counts += f"{of_all(standings.finished_groups, standings.planned_groups, 'group')} are finished"
    if open_groups:
        counts += f"; {counted(open_groups, 'group')} with an unfinished match {'does' if open_groups == 1 else 'do'}n't count"
    by_luck = ["players are ranked and told apart by their results less luck"] if standings.is_adjusted else []
    return [*lines, counts, *by_luck, *unproved(standings), *withdrawals(league)]


def unproved(standings):
    """How many matches a program dealt of which nothing is proved."""
    count = sum(bool(it.result.get("versions", {}).get("unproved")) for it in standings.matches)
    if count:
        yield f"an unproved program dealt {counted(count, 'match', 'matches')}"


def withdrawals(league):
    """Who has left the league, and which of his groups count."""
    for name in sorted(league.withdrawn):
        yield f"{name} withdrew: {KEPT[league.players[name].keep]}"


def standing_rows(standings):
    adjusted = standings.adjusted
    yield "rank", "player", "mbb/hand", "plain", *([LUCK] if adjusted else []), "run-off", *INCIDENTS, ""
    for it in standings.standings:
        plain = standings.plain.of(it.name)
        yield (
            place(it.rank), it.name, shown(plain.interval), half(plain.plain), *([shown(adjusted.of(it.name).interval)] if adjusted else []),
            place(it.run_off), *map(str, it.incidents.values()), "; ".join(marks(it)),
        )


def marks(standing):
    """What a reader of a standing has to know besides: opponents that weren't met, and a unit that is too small."""
    if standing.met < standing.planned:
        yield f"met {standing.met} of {standing.planned}"
    if standing.is_by_hands:
        yield BY_HANDS


def neighbour_marks(it):
    """The same of neighbours."""
    if not it.are_told_apart:
        yield "not told apart"
    if not it.have_same_opponents:
        yield "met different opponents"
    if it.is_by_hands:
        yield BY_HANDS


def neighbour_lines(standings):
    for it in standings.neighbours:
        yield ", ".join([f"{it.better} - {it.worse}: {shown(it.ahead)}", *neighbour_marks(it)])


def cell_rows(standings):
    """Each player against each set of opponents; of two the one that is first by name."""
    yield "player", "against", "mbb/hand", "plain", *([LUCK] if standings.adjusted else []), "groups", ""
    for name, it, adjusted in cells(standings):
        if len(it.opponents) > 1 or name < it.opponents[0]:
            luck = [shown(adjusted.interval)] if adjusted else []
            yield name, " ".join(it.opponents), shown(it.interval), half(it.plain), *luck, str(it.groups), BY_HANDS if it.is_by_hands else ""


def cells(standings):
    """Each player against each set of opponents, by what he won, and by that less luck where it is known."""
    adjusted = standings.adjusted
    for name, found in sorted(standings.plain.cells.items()):
        yield from ((name, *pair) for pair in zip(found, adjusted.cells[name] if adjusted else [None] * len(found)))


def rating_rows(standings):
    """The players by their ratings; those whom no chain of matches joins are apart."""
    yield "part", "player", "rating"
    for it in standings.ratings.ratings:
        yield str(it.part), it.name, shown(it.interval)


def contradiction(standings):
    """How much the results contradict the ratings, in one sentence."""
    found = standings.ratings
    if found.squares is None or not found.freedom:
        return "Nothing shows whether the results contradict the ratings."
    return f"The weighted squares of what ratings don't explain are {found.squares:.1f}, at {counted(found.freedom, 'degree')} of freedom."


def rating_lines(standings):
    rows = [*rating_rows(standings)]
    if len({it.part for it in standings.ratings.ratings}) == 1:
        rows = [row[1:] for row in rows]
    return [RATINGS, *columns(rows, {len(rows[0]) - 1}), contradiction(standings)]


def trust(standings):
    """How far the intervals may be trusted, and what the means of an unfinished league weigh."""
    cells = sum(map(len, standings.cells.values())) // (2 if standings.league.seats == 2 else 1)
    of_cells = TRUST_OF_CELLS.format(cells=cells, misses=f"{cells / 20:.1f}") if cells > 1 else ""
    is_alone = any(it.interval.half is None for found in standings.cells.values() for it in found)
    notes = (TRUST_BY_HANDS, standings.is_by_hands), (ALONE, is_alone), (UNFINISHED, not standings.is_whole), (SWISS, standings.league.swiss)
    return f"{TRUST}{of_cells}." + "".join(note for note, is_so in notes if is_so)


def text(standings):
    """The table for a terminal."""
    numbers = {*range(2, 5 + len(INCIDENTS) + bool(standings.adjusted))}
    lines = [*head(standings), "", *columns([*standing_rows(standings)], {0, *numbers})]
    if standings.finished_groups:
        lines += ["", "neighbours in rank, and by how much the better one is ahead", *neighbour_lines(standings)]
        lines += ["", *rating_lines(standings)] if len(standings.league.players) > 2 else []
        lines += ["", *columns([*cell_rows(standings)], {2, 3, 4, 4 + bool(standings.adjusted)}), "", trust(standings)]
    return "\n".join(lines) + "\n"


def number(value):
    return None if value is None else round(float(value), 6)


def interval_values(interval, prefix=""):
    """An interval's figures by their names."""
    if interval is None:
        return {prefix + "mean": None, prefix + "half": None, prefix + "freedom": None}
    return {prefix + "mean": number(interval.value), prefix + "half": number(interval.half), prefix + "freedom": number(interval.freedom)}


def unit(it):
    return "hand" if it.is_by_hands else "group"


def standing_values(standings, it):
    plain, adjusted = standings.plain.of(it.name), standings.adjusted and standings.adjusted.of(it.name)
    return {
        "player": it.name, "rank": it.rank, "run_off": it.run_off, **interval_values(plain.interval),
        "plain_half": interval_values(plain.plain)["half"], **adjusted_values(adjusted), "unit": unit(it), "met": it.met,
        "planned": it.planned, **it.incidents,
    }


def adjusted_values(it):
    """The interval by results less luck; nothing where that isn't known."""
    return interval_values(it.interval, "adjusted_") if it else {}


def cell_values(name, it, adjusted):
    return {
        "player": name, "against": " ".join(it.opponents), **interval_values(it.interval), "plain_half": number(it.plain.half),
        **adjusted_values(adjusted), "groups": it.groups, "unit": unit(it),
    }


def rating_values(it):
    return {"player": it.name, "part": it.part, **interval_values(it.interval)}


def neighbour_values(it):
    return {
        "player": it.better, "against": it.worse, **interval_values(it.ahead), "told_apart": it.are_told_apart,
        "same_opponents": it.have_same_opponents, "unit": unit(it),
    }


def values(standings):
    """The whole table as lists of figures by their names."""
    return {
        "league": standings.league.name, "hands": standings.league.hands, "duplicate": standings.league.duplicate,
        "rank_by": "luck" if standings.is_adjusted else "plain",
        "matches": {"planned": standings.planned, "finished": standings.finished},
        "groups": {"planned": standings.planned_groups, "finished": standings.finished_groups},
        "withdrawn": {name: standings.league.players[name].keep for name in sorted(standings.league.withdrawn)},
        "standings": [standing_values(standings, it) for it in standings.standings],
        "ratings": [rating_values(it) for it in standings.ratings.ratings],
        "residual": {"squares": number(standings.ratings.squares), "freedom": standings.ratings.freedom},
        "neighbours": [neighbour_values(it) for it in standings.neighbours],
        "cells": [cell_values(*it) for it in cells(standings)],
    }


def as_json(standings):
    return json.dumps(values(standings), indent=1) + "\n"


def as_csv(standings):
    """One line for each standing, pair of neighbours and cell; `kind` says which."""
    found, made = values(standings), io.StringIO()
    kinds = {"standing": "standings", "rating": "ratings", "neighbours": "neighbours", "cell": "cells"}
    rows = [{"kind": kind, **row} for kind, key in kinds.items() for row in found[key]]
    names = list(dict.fromkeys(name for row in rows for name in row))
    writer = csv.DictWriter(made, names, lineterminator="\n")
    writer.writeheader()
    writer.writerows(rows)
    return made.getvalue()
