"""The tables of crates/README.md, which have a row for each crate: by the layers of crates.txt and in its order, with the words by which
the manual of the crate begins (src/lib.rt, of a program src/main.rt). tests/names compares them, tools/pages --write makes them anew.

A row has the whole first sentence of the manual, or its beginning up to a comma, semicolon or colon. Behind that may stand, as a
sentence of its own, what the page says besides: that a crate has no code, say. The other columns are the page's.
"""
import re

import repository
import specs

PAGE = repository.TOP / "crates/README.md"
LAYER = re.compile(r"^\| \*\*(.+?)\*\* \|")
ROW = re.compile(r"^\| (\[?`(\w+)`(?:\]\([^)]*\))?) \| ([^|]*?) \|(.*)$")
# Where a first sentence ends, and where its clauses do.
SENTENCE = re.compile(r"(.*?)\.(?= [A-Z`]|$)")
CLAUSE = re.compile(r"[,;:](?= )")


def layers():
    """By crate, in the order of crates.txt: the layer."""
    found, layer = {}, None
    for line in (repository.TOP / "crates.txt").read_text().splitlines():
        if line.startswith("# "):
            layer = line[2:]
        elif ":" in line:
            found[line.partition(":")[0]] = layer
    return found


def lines_of(crate):
    """What a row may say that a crate is: the first sentence of its manual, and the beginnings of that."""
    words = specs.about(crate)
    whole = (SENTENCE.match(words) or re.match("(.*)", words))[1]
    return [whole, *(whole[: found.start()] for found in CLAUSE.finditer(whole))]


def is_line_of(crate, cell):
    return any(cell == line or cell.startswith(f"{line}. ") for line in lines_of(crate))


def rows(text):
    """The rows of crates: the line, the layer above it, the crate, and what the row says that it is."""
    layer = None
    for number, line in enumerate(text.splitlines(), 1):
        layer = LAYER.match(line)[1] if LAYER.match(line) else layer
        found = ROW.match(line)
        if found:
            yield number, layer, found[2], found[3]


def findings(text):
    """How many rows the page is to have, and what is wrong with them: the line, the crate, and why."""
    wanted, seen, wrong = layers(), [], []
    for number, layer, crate, cell in rows(text):
        if crate not in wanted:
            wrong.append((number, crate, "crates.txt has no such crate"))
            continue
        if layer != wanted[crate]:
            wrong.append((number, crate, f"its layer is {wanted[crate]!r}, not {layer!r}"))
        if not is_line_of(crate, cell):
            wrong.append((number, crate, f"it is {cell!r}, where its manual begins with {lines_of(crate)[0]!r}"))
        seen.append(crate)
    wrong += [(1, crate, "the page has no row for it") for crate in wanted if crate not in seen]
    wrong += [(1, crate, "the page has two rows for it") for crate in sorted({it for it in seen if seen.count(it) > 1})]
    if not wrong and seen != [*wanted]:
        crate = next(crate for crate, other in zip(seen, wanted) if crate != other)
        wrong.append((1, crate, "the rows aren't in the order of crates.txt"))
    return len(wanted), wrong


def made(text):
    """The page with its rows of crates in order below their layers. What a row says that is right stays, and so does the rest of it."""
    known = {found[2]: found for found in map(ROW.match, text.splitlines()) if found}
    places = [number for number, line in enumerate(text.splitlines()) if ROW.match(line) or LAYER.match(line)]
    tables = [at for at in places if at - 1 not in places]
    lines = text.splitlines()
    kept = [line for number, line in enumerate(lines) if number not in places or number in tables]
    below = {}
    for crate, layer in layers().items():
        below.setdefault(layer, []).append(row_of(crate, known.get(crate)))
    # The last layer, of tests and measures, has a table of its own with two columns.
    parts = [*below.items()]
    for table, ours in zip(tables, (parts[:-1], parts[-1:])):
        blanks = " |" * (lines[table].count("|") - 2)
        block = [line for layer, found in ours for line in (f"| **{layer}** |{blanks}", *found)]
        kept[kept.index(lines[table])] = "\n".join(block)
    return "\n".join(kept) + "\n"


def row_of(crate, found):
    """A crate's row: as it is, where it says what its manual says; else with the whole first sentence of that."""
    head, cell, rest = (found[1], found[3], found[4]) if found else (f"[`{crate}`]({crate}/README.md)", "", " |")
    return f"| {head} | {cell if is_line_of(crate, cell) else lines_of(crate)[0]} |{rest}"
