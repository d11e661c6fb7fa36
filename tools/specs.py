"""What the files of crates/*/specs say of themselves: the words above each file, each definition and each part of one; and
what crates/*/src/laws.rt says of each law."""
import re
from pathlib import Path

TOP = Path(__file__).resolve().parent.parent
# A public definition: a function or a statement, or a type. What is proved beside them has none of these words.
DEFINED = re.compile(r"(?:abbrev|unfoldable) pub (\S+)|pub (?:record|data) (\S+)")
# A field of a record, or a case of a type.
PART = re.compile(r"(?:pub )?([^\s:]+) :")
SECTION = re.compile(r"-- ---- (.*)")
# A law with the comment above it.
LAW = re.compile(r"((?:^///.*\n)*)^pub fn (\w+)", re.M)


class Definition:
    """A public definition: its name, the words above it (none: ""), and its parts that have words, each with them."""

    def __init__(self, name, words):
        self.name, self.words, self.parts = name, words, []


class File:
    """A file of specs/: its name, the words at its head, and below them sections, each a heading (the first: "") with its definitions."""

    def __init__(self, name, words):
        self.name, self.words, self.sections = name, words, [("", [])]

    def definitions(self):
        return [it for _, found in self.sections for it in found]


def files(crate):
    """The files of a crate's definitions, in the order in which its specs/Lib.antt lists them."""
    folder = TOP / "crates" / crate / "specs"
    listed = re.findall(r"^pub mod (\w+)$", (folder / "Lib.antt").read_text(), re.M) if folder.is_dir() else []
    return [read(folder / f"{name}.antt") for name in listed]


def read(path):
    """What stands in one file. The words of a definition, or of its part, are the comment that ends right above it."""
    lines = path.read_text().splitlines()
    head = next((at for at, line in enumerate(lines) if not line.startswith("--")), len(lines))
    found, comment, type_depth = File(path.name, joined(lines[:head])), [], None
    for line in lines[head:]:
        text, depth = line.strip(), len(line) - len(line.lstrip())
        if text.startswith("--") and not SECTION.match(text):
            comment.append(text)
            continue
        if text and type_depth is not None and depth <= type_depth:
            type_depth = None
        if SECTION.match(text):
            found.sections.append((SECTION.match(text)[1], []))
        elif type_depth is not None:
            add_part(found.definitions()[-1], text, comment)
        elif DEFINED.match(text):
            name, type_name = DEFINED.match(text).groups()
            found.sections[-1][1].append(Definition(name or type_name, joined(comment)))
            type_depth = depth if type_name else None
        comment = []
    return found


def add_part(definition, text, comment):
    """Adds a field or a case that stands on a line of a type, where it has words."""
    part = PART.match(text)
    if part and comment:
        definition.parts.append((part[1], joined(comment)))


def joined(comment):
    """The lines of a comment as one text."""
    return " ".join(filter(None, (line.lstrip("-/").strip() for line in comment)))


def laws(crate):
    """The laws of a crate, as definitions without parts: each is the contract of a public function that does nothing."""
    source = TOP / "crates" / crate / "src/laws.rt"
    found = LAW.findall(source.read_text()) if source.is_file() else []
    return [Definition(f"laws::{name}", joined(words.splitlines())) for words, name in found]


def about(crate):
    """The first paragraph of what a crate says of itself at the head of src/lib.rt, or of a program's src/main.rt."""
    root = next(path for path in (TOP / "crates" / crate / "src" / name for name in ("lib.rt", "main.rt")) if path.is_file())
    lines = re.findall(r"^//! ?(.*)$", root.read_text(), re.M)
    return " ".join(lines[: lines.index("")] if "" in lines else lines)
