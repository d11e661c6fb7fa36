"""How long each page may be, in bytes, and what else is asked of single pages: tools/pages --style uses it.

A page that somebody reads from top to bottom is shorter than one for look-up. A page without a bound fails, so that whoever
writes one says which it is; whoever adds takes away.
"""
import re
from pathlib import Path

import style

READ, LOOK_UP = 20_480, 30_720
# The bounds of single pages. The READMEs of crates and of folders are read.
BOUNDS = {
    "README.md": 8_192,
    **{name: READ for name in (
        "CONTRIBUTING.md", "docs/ARCHITECTURE.md", "docs/BOTS.md", "docs/CLUSTER.md", "docs/DEALER.md", "docs/HANDS.md", "docs/LEAGUE-FIGURES.md", "docs/LEAGUE.md",
        "docs/NODES.md", "docs/OPERATING-NODES.md", "docs/OPERATING.md", "docs/PROVED.md", "docs/PROVING.md", "docs/ROOM.md", "docs/TRAINING.md", "docs/WATCH.md",
    )},
    **{name: LOOK_UP for name in (
        "docs/AT-NIGHT.md", "docs/DECISIONS.md", "docs/FAULTS.md", "docs/FORMATS.md", "docs/GLOSSARY.md", "docs/NOTES.md", "docs/RULES.md", "bench/RESULTS.md",
    )},
}
# The pages that have a bound together: README and docs, and the READMEs of crates.
TOGETHER = {"README and docs": 330_000, "the READMEs of crates": 195_000}
# The most sentences of a cell, and the most words of a paragraph or an item, on a page that is read in ten minutes.
SHORT_PAGES, SENTENCES, PARAGRAPH = ("docs/PROVED.md",), 2, 120
# The most words of an entry: an item with all below it, or what is below a heading of the third level.
ITEMS = {"docs/DECISIONS.md": 60}
ENTRIES = {"docs/AT-NIGHT.md": 80}


def bound_of(name):
    """The most bytes of a page, none if it has no bound."""
    return BOUNDS.get(name, READ if re.fullmatch(r"(crates/(\w+/)?|examples/)README\.md", name) else None)


def group_of(name):
    """Which sum a page belongs to, none if to none."""
    if name == "README.md" or name.startswith("docs/"):
        return "README and docs"
    return "the READMEs of crates" if name.startswith("crates/") else None


def words(text):
    return sum(bool(re.search(r"\w", word)) for word in text.split())


def entries(text):
    """What stands below each heading of the third level: the line of the heading, its words, and the text below."""
    parts = re.split(r"^### (.*)$", text, flags=re.M)
    for at in range(1, len(parts), 2):
        line = "".join(parts[: at + 1]).count("\n") + 1
        yield line, parts[at], re.split(r"^##? ", parts[at + 1], flags=re.M)[0]


def items(text):
    """Each item of the first level with all that is indented below it, and each paragraph: its line, its words, and how it begins."""
    owners, counts, begins, at = {}, {}, {}, None
    for number, line in enumerate(text.split("\n"), 1):
        at = number if line.startswith("- ") else None if line and not line[0].isspace() else at
        owners[number] = at or number
    for unit in style.units(text):
        if unit.kind == "text":
            line = owners[unit.line]
            counts[line] = counts.get(line, 0) + style.count(unit.text)
            begins.setdefault(line, style.shown(unit.text))
    for line, count in counts.items():
        yield line, count, begins[line]


def of_page(name, text):
    """What is too long on a page: pairs of a line, none for the whole page, and what it is."""
    length, bound = len(text.encode()), bound_of(name)
    if bound is None:
        yield None, f"{length} bytes, and tools/page_bounds.py has no bound for it"
    elif length > bound:
        yield None, f"{length} bytes, of {bound} at most"
    for unit in style.units(text) if name in SHORT_PAGES else []:
        count = len([*unit.sentences()])
        if unit.kind == "cell" and count > SENTENCES:
            yield unit.line, f"a cell of {count} sentences, of {SENTENCES} at most: {style.shown(unit.text)}"
        if unit.kind == "text" and style.count(unit.text) > PARAGRAPH:
            yield unit.line, f"a paragraph of {style.count(unit.text)} words, of {PARAGRAPH} at most: {style.shown(unit.text)}"
    for line, count, begin in items(text) if name in ITEMS else []:
        if count > ITEMS[name]:
            yield line, f"an entry of {count} words, of {ITEMS[name]} at most: {begin}"
    for line, title, below in entries(text) if name in ENTRIES else []:
        if words(below) > ENTRIES[name]:
            yield line, f"an entry of {words(below)} words, of {ENTRIES[name]} at most: {title}"


def of_all(lengths):
    """Of pages by their names, with their bytes: which sums there are, and whether each is within its bound."""
    for group, bound in TOGETHER.items():
        length = sum(size for name, size in lengths.items() if group_of(name) == group)
        yield f"{group}: {length} bytes together, of {bound} at most", length <= bound


def name_of(page, top):
    """A page's name in the tree; its own where it lies elsewhere."""
    page = Path(page).resolve()
    return str(page.relative_to(top)) if top in page.parents else page.name
