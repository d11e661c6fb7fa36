"""The names on pages, and whether the crates, this tree and a release have what they name; tests/names says which forms names have."""
import collections
import functools
import re
import sys
from pathlib import Path

TOP = Path(__file__).resolve().parent.parent
sys.path.insert(0, str(TOP / "tools"))
import release_files
import repository

PATH = re.compile(r"(?<![\w:])([A-Za-z_]\w*(?:::[A-Za-z_]\w*)+)(?![\w:])")
# A file of a crate, perhaps with the name of the crate before it.
FILE_PATH = re.compile(r"(?:\b(\w+)/)?\b((?:src|specs|proofs)/[\w/]+\.(?:rt|antt))\b")
# A file or folder of this tree, and what a link points at, from the folder of its page.
PLACE = re.compile(r"(?<![\w/.*-])((?:tools|tests|bench|examples|docs)/(?!NAME)\w[\w./-]*)(?![\w*])")
# A mutant in a row of a table: whether ./check tries it, and its name.
MUTANT = re.compile(r"(✓ )?`(\w+(?:\.\w+){1,2})`")
LINK = re.compile(r"\]\(([^)#:\s]+)(?:#[^)]*)?\)")
# A link to a heading: the page, none for the one itself, and the heading as links spell it.
ANCHOR = re.compile(r"\]\(([^)#:\s]*)#([^)\s]+)\)")
HEADING = re.compile(r"^#+ +(.+?)\s*$", re.M)
CODE_BLOCK = re.compile(r"^```.*?^```", re.M | re.S)
# Names that mean any name.
PLACEHOLDERS = {"name", "NAME"}
# Types of Rust and of its libraries.
FOREIGN = {"Vec", "String", "Option", "Result", "Ordering", "File", "Instant", "Duration", "TcpStream", "Token", "Poll", "Rc", "Box", "ErrorKind"}
# Functions and methods that no source text shows: Rust derives them.
DERIVED = {"clone", "fmt", "eq", "cmp", "drop", "default", "from"}
# An item of a source file: `impl .. for Type`, `impl Type`, or the type itself.
ITEM = re.compile(r"(?:impl(?:<.*?>)? (?:[\w:<>, ]+ for )?|(?:pub(?:\(crate\))? )?(?:struct|enum|trait|type) )&?(?:\w+::)*(\w+)")
MEMBER = re.compile(r"^ *(?:pub(?:\(crate\))? )?(?:fn|const) (\w+)|^    ([A-Z]\w*)\b", re.M)
TRAIT = re.compile(r"impl(?:<.*?>)? (?:\w+::)*(\w+)(?:<.*?>)? for (?:\w+::)*(\w+)")
# A function with its contract, which ends before its body, or at a semicolon. Behind a contract the brace stands alone.
FUNCTION = re.compile(r"^ *(?:pub(?:\(crate\))? )?fn (\w+)((?:(?!ensures|requires).)*?\S \{$|.*?(?:^ *\{\}?|;)$)", re.M | re.S)
CLAUSE = re.compile(r"\b(?:ensures|ghost) (\w+) (?:\{|=)")
# A definition with fields, which a clause may bundle.
RECORD = re.compile(r"^(?:pub )?(?:record|data) (\w+)(.*(?:\n(?: .*)?)*)", re.M)
FIELD = re.compile(r"^ +(?:pub )?(\w+) :", re.M)
NAME = re.compile(r"\b[A-Z]\w+")
# A function or a clause in the column 'contract', and the brackets after it.
CONTRACT = re.compile(r"`((?:[A-Za-z_]\w*::)*[a-z_]\w*)`(?: \(([^()]*)\))?")


class Sources:
    """What the crates below a folder have: functions with their clauses by crate and file, and members by type."""

    def __init__(self, folder):
        self.folder, self.files, self.fields = folder, {}, self.bundles(folder)
        edits = [*folder.glob("*/mutants/*.edit"), *folder.glob("*/must-fail/*.edit")]
        self.mutants = {it.stem: it.parent.name == "must-fail" or repository.is_of_gate(it) for it in edits}
        self.members = collections.defaultdict(set)
        traits = collections.defaultdict(set)
        for file in sorted(folder.glob("*/src/**/*.rt")):
            text = file.read_text(encoding="utf-8")
            crate = file.relative_to(folder).parts[0]
            self.files.setdefault(crate, {}).setdefault(file.stem, {}).update(self.items(text))
            for trait, name in TRAIT.findall(text):
                traits[name].add(trait)
        for name, implemented in traits.items():
            for trait in implemented:
                self.members[name] |= self.members.get(trait, set())

    @staticmethod
    def bundles(folder):
        """The fields of each definition that has some, with those of the definitions that its fields name."""
        texts = [file.read_text(encoding="utf-8") for file in sorted(folder.glob("*/specs/**/*.antt"))]
        bodies = [it for text in texts for it in RECORD.findall(text)]
        fields, below = collections.defaultdict(set), {}
        for name, body in bodies:
            fields[name] |= {*FIELD.findall(body)}
        for name, body in bodies:
            below[name] = fields[name].union(*(fields[it] for it in NAME.findall(body) if it in fields))
        return below

    def items(self, text):
        """The names that a source file defines, each with the clauses of functions of that name."""
        found = collections.defaultdict(set)
        for item in re.split(r"^(?=\S)", text, flags=re.M):
            type_name = ITEM.match(item)
            if type_name:
                found[type_name[1]] |= set()
                self.members[type_name[1]] |= {name or case for name, case in MEMBER.findall(item)}
            for name in re.findall(r"\b(?:const|static|type|struct|enum|trait|fn) (\w+)", item):
                found[name] |= set()
        for name, contract in FUNCTION.findall(text):
            found[name] |= {*CLAUSE.findall(contract)}.union(*(self.fields[it] for it in NAME.findall(contract) if it in self.fields))
        for clause in CLAUSE.findall(text):
            found[clause] |= set()
        return found

    def has(self, crate, names):
        """Whether a crate has what a path below it names: a file, a function or type, or a member of a type."""
        files = self.files[crate]
        if names[0] in files and len(names) > 1 and self.has_in({names[0]: files[names[0]]}, names[1:]):
            return True
        return names == names[:1] and names[0] in files or self.has_in(files, names)

    def has_in(self, files, names):
        is_there = any(names[0] in items for items in files.values())
        return is_there and (len(names) == 1 or names[1] in self.members.get(names[0], set()) | DERIVED)

    def clauses(self, crates, path):
        """The clauses of all functions of a name, of the crates that have the type before it; none where there is none."""
        *types, name = path.split("::")
        of_type = [it for it, files in self.files.items() if types and any(types[-1] in items for items in files.values())]
        known = [items[name] for it in of_type or crates for items in self.files.get(it, {}).values() if name in items]
        return set().union(*known) if known else None


def why_lost(path, crates, sources):
    """Why a path names nothing: none where it does, or is of another library."""
    first, *rest = path.split("::")
    if rest[-1] in PLACEHOLDERS:
        return None
    if first in sources.files:
        return None if sources.has(first, rest) else f"the crate {first} has no {'::'.join(rest)}"
    if first[:1].isupper():
        if first in FOREIGN:
            return None
        if first not in sources.members:
            return f"no crate has a type {first}"
        return None if rest[0] in sources.members[first] | DERIVED else f"{first} has no {rest[0]}"
    of_any = {name: files[first] for name, files in sources.files.items() if first in files}
    own = {name: items for name, items in of_any.items() if name in crates}
    if not of_any or sources.has_in(own or of_any, rest):
        return None
    return f"src/{first}.rt of {' or '.join(own) or 'any crate'} has no {'::'.join(rest)}"


def files_lost(line, crates, sources):
    """How many files of crates a line names, and which of them aren't there."""
    found = [(crate, path) for crate, path in FILE_PATH.findall(line) if crate in sources.files or crates and not crate]
    lost = [it for it in found if not any((sources.folder / crate / it[1]).is_file() for crate in ([it[0]] if it[0] else crates))]
    return len(found), [f"{crate or ' and '.join(crates)} has no {path}" for crate, path in lost]


def places_lost(line, page):
    """How many files and folders of this tree a line names or links to, and which of them aren't there."""
    text = LINK.sub("]", line)
    found = [(TOP / place.rstrip("./-"), place) for place in PLACE.findall(text)]
    found += [(page.parent / place, place) for place in LINK.findall(line) if "out/" not in place]
    return len(found), [f"there is no {place}" for file, place in found if not file.exists()]


@functools.lru_cache(maxsize=None)
def released():
    """The files of a release, and their folders."""
    found = {*release_files.files()}
    return found.union(*(file.parents for file in found))


def links_lost(line, page):
    """How many links a line of a page of a release has, and which of them lead to what the release lacks."""
    found = [place for place in LINK.findall(line) if "out/" not in place] if page in released() else []
    return len(found), [f"a release lacks {place}" for place in found if (page.parent / place).resolve() not in released()]


@functools.lru_cache(maxsize=None)
def headings(page):
    """The headings of a page, as links spell them: small letters, digits, _ and -, and - for a space."""
    text = CODE_BLOCK.sub("", page.read_text(encoding="utf-8"))
    return {re.sub(r"[^\w\- ]", "", it.lower()).replace(" ", "-") for it in HEADING.findall(text)}


def headings_lost(line, page):
    """How many headings a line links to, and which of them their pages don't have."""
    found = [(page.parent / name if name else page, anchor) for name, anchor in ANCHOR.findall(line)]
    found = [it for it in found if it[0].suffix == ".md" and it[0].is_file()]
    return len(found), [f"{file.name} has no heading {anchor}" for file, anchor in found if anchor not in headings(file)]


def marks_lost(line, mutants):
    """How many mutants a row of a table names, and which of them it marks wrongly as tried by ./check or not."""
    found = [(mark, name) for mark, name in MUTANT.findall(line) if name in mutants]
    wrong = [(mark, name) for mark, name in found if bool(mark) != mutants[name]]
    return len(found), [f"{name} has a ✓, and ./check doesn't try it" if mark else f"{name} has no ✓, and ./check tries it" for mark, name in wrong]


def contracts(cell, sources):
    """The functions that a cell of the column 'contract' names, each with its clauses: those in the next brackets, up to a
    semicolon. One that is named without its type is of the type named before it, where that has such a function."""
    found, of, waiting = [], None, []
    for it in CONTRACT.finditer(cell):
        path, brackets = it.groups()
        of = path.rpartition("::")[0] or of
        is_member = of is not None and path in sources.members.get(of.rpartition("::")[2], set())
        waiting.append(f"{of}::{path}" if is_member else path)
        if brackets is not None or cell.startswith(";", it.end()):
            clauses = re.findall(r"`([a-z]\w*)`", (brackets or "").partition(":")[0])
            found += [(path, clauses) for path in waiting]
            waiting = []
    return found + [(path, []) for path in waiting]


def why_contract_lost(path, clauses, crates, sources):
    known = sources.clauses(crates, path)
    if path in sources.files:
        return None
    if known is None:
        return None if "::" in path else f"{' and '.join(crates)} has no {path}"
    lacking = [clause for clause in clauses if clause not in known]
    return f"{path} has no clause {', '.join(lacking)}" if lacking else None


def rows_lost(line, column, crates, sources):
    """How many contracts a row of a table names, and why some of them are wrong."""
    cells = re.split(r"(?<!\\)\|", line)[1:-1]
    found = contracts(cells[column], sources) if column is not None and column < len(cells) else []
    return len(found), [*filter(None, (why_contract_lost(*it, crates, sources) for it in found))]


def looked_at(page, sources):
    """How many names a page has, and those that are wrong: the line, the name and why."""
    crates = [page.parent.name] if page.parent.parent.name == "crates" else []
    count, lost, column = 0, [(1, crate, "is no crate") for crate in crates if crate not in sources.files], None
    text = page.read_text(encoding="utf-8")
    for number, line in enumerate(text.splitlines(), 1):
        if line.startswith("#") and page.parent.parent.name != "crates":
            crates = [it for it in re.findall(r"`(\w+)`", line) if it in sources.files] or crates
        for path in PATH.findall(line):
            count += 1
            lost.append((number, path, why_lost(path, crates, sources)))
        places = places_lost(line, page), links_lost(line, page), headings_lost(line, page)
        for more, wrong in (files_lost(line, crates, sources), *places):
            count += more
            lost += [(number, "file", why) for why in wrong]
        if "✓" in text and line.startswith("|"):
            more, wrong = marks_lost(line, sources.mutants)
            count += more
            lost += [(number, "mutant", why) for why in wrong]
        if not line.startswith("|"):
            column = None
        elif crates and "contract" in [cell.strip() for cell in line.split("|")]:
            column = [cell.strip() for cell in line.split("|")[1:-1]].index("contract")
        elif column is not None:
            more, wrong = rows_lost(line, column, crates, sources)
            count += more
            lost += [(number, "contract", why) for why in wrong]
    return count, [it for it in lost if it[2]]
