"""The table of crates in bench/RESULTS.md: their lines and mutants, counted in the tree, and the minutes that they take.

Processor minutes come from out/times.md, which ./check writes, where its last run kept nothing from earlier ones. Those
of a crate that it doesn't have stay as the page has them.
"""
import re

import repository

COLUMNS = ["crate", "code", "tests", "definitions", "proofs", "examples", "mutants", "other mutants", *repository.KINDS]


def lines(files):
    return sum(len(file.read_text(encoding="utf-8").splitlines()) for file in files)


def test_files(crate):
    """The source files that are read for the crate's tests alone."""
    names = set()
    for file in crate.glob("src/**/*.rt"):
        names |= set(re.findall(r"#\[cfg\(test\)\]\s*(?:pub(?:\(crate\))? )?mod (\w+);", file.read_text(encoding="utf-8")))
    return {file for file in crate.glob("src/**/*.rt") if file.stem in names}


def line_counts(name):
    """The crate's lines by kind."""
    crate = repository.TOP / "crates" / name
    tests = test_files(crate)
    examples = {file for file in crate.glob("proofs/**/*.antt") if "Examples" in file.stem}
    return [
        lines(set(crate.glob("src/**/*.rt")) - tests),
        lines(tests),
        lines(crate.glob("specs/**/*.antt")),
        lines(set(crate.glob("proofs/**/*.antt")) - examples),
        lines(examples),
    ]


def row(cells):
    return "| " + " | ".join(map(str, cells)) + " |"


def minutes_text(minutes):
    return "" if minutes is None else f"{minutes:.1f}"


def total(column):
    """The sum of the minutes that were measured; none where none were."""
    known = [minutes for minutes in column if minutes is not None]
    return sum(known) if known else None


def table():
    """The table, line by line."""
    names, figures = [*repository.crates()], {**repository.in_page(), **repository.measured()}
    edits = {name: [*map(len, repository.of_check(name))] for name in names}
    minutes = {name: [figures.get(name, {}).get(kind) for kind in repository.KINDS] for name in names}
    rows = [[f"`{name}`", *line_counts(name), *edits[name], *map(minutes_text, minutes[name])] for name in names]
    sums = [sum(column) for column in zip(*edits.values())] + [minutes_text(total(column)) for column in zip(*minutes.values())]
    return [row(COLUMNS), "|---" * len(COLUMNS) + "|", *map(row, rows), row(["together", *[""] * 5, *sums])]


def write():
    """Replaces the table in the page by today's; whether the page has one."""
    page = repository.PAGE.read_text(encoding="utf-8")
    place = repository.TABLE.search(page)
    if place:
        repository.PAGE.write_text(page[: place.start()] + "\n".join(table()) + "\n" + page[place.end() :], encoding="utf-8")
    return place is not None
