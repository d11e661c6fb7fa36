"""What the scripts know of the crates: what they use, where their mutants are and what came of them, and the minutes that they take."""
import contextlib
import fcntl
import functools
import hashlib
import os
import re
import shutil
from pathlib import Path

TOP = Path(__file__).resolve().parent.parent
PAGE = TOP / "bench/RESULTS.md"
TIMES = TOP / "out/times.md"
# Beside the mutants of a crate: what the last try of each came to, a line each: the mutant, a sum of what it was tried on, the verdict.
TRIED = "TRIED"
# The crates that have mutants in must-fail/, so that whoever looks at `rt ci` alone sees some. `rt ci` proves such a crate a
# second time, from nothing: of these that costs a minute or less each.
TWICE = ("byte_queue", "side_pots", "deck_draw", "protocol_model", "dealer_kind", "joined_lines")
# The first line of a mutant that `tools/wrong_bodies --gate` tries.
GATE = "gate\n"
# What a verdict says whose proof names what the mutant took away: that shows nothing of the contract.
ITS_PROOF = "its proof names what is gone"
# Where libraries stand aside while `rt ci` runs.
ASIDE = TOP / "out/libraries"
# The pages that are written by hand.
PAGES = ["README.md", "CONTRIBUTING.md", "docs/*.md", "bench/RESULTS.md", "crates/README.md", "crates/*/README.md", "examples/README.md"]
TABLE = re.compile(r"^\| crate \|.*(?:\n\|.*)*\n?", re.M)
# The columns of processor minutes, in both tables: what proving a crate and its tests took, and what its mutants took.
KINDS = ("minutes of proofs", "of mutants")
# What out/times.md says of a run that did not prove and try everything.
PARTLY = ("kept from earlier runs", "it failed")
# What a check of a crate is given of the memory, in bytes, and what is left to all others. Nearly all checks take less; the
# tests of the commands, which are the largest, were seen to take 5.4 GB.
MEMORY, RESERVE = 3_000_000_000, 2_500_000_000


def crates():
    """The crates in the order of crates.txt, each with the crates that it names."""
    found = [line.partition(":") for line in (TOP / "crates.txt").read_text().splitlines() if ":" in line]
    named = {head.split()[0]: rest.split() for head, _, rest in found}
    return {name: [it for it in below if it in named] for name, below in named.items()}


def library(name):
    """Where a crate's library stands, once it is built."""
    return TOP / "crates" / name / "out/rlib" / f"{name}.rlib"


@contextlib.contextmanager
def libraries_aside():
    """Sets the libraries aside that earlier runs left, so that those stay behind this part that `rt ci` makes in it: at its end
    `rt ci` would put the earlier ones over its own, whatever text they are of. Those that `rt check` keeps, which have a
    stamp, come back behind this part; the others are of no use to anybody."""
    put_back_libraries()
    for found in sorted(TOP.glob("crates/*/out/rlib")):
        if (found / "stamp").is_file():
            ASIDE.mkdir(parents=True, exist_ok=True)
            shutil.move(found, ASIDE / found.parent.parent.name)
        else:
            shutil.rmtree(found)
    try:
        yield
    finally:
        put_back_libraries()


def put_back_libraries():
    """Puts the libraries back that were set aside, now or by a run that was killed; none over one that `rt check` made since."""
    for kept in sorted(ASIDE.glob("*")):
        place = TOP / "crates" / kept.name / "out/rlib"
        if not (place / "stamp").is_file() and place.parent.parent.is_dir():
            shutil.rmtree(place, ignore_errors=True)
            place.parent.mkdir(exist_ok=True)
            shutil.move(kept, place)
    shutil.rmtree(ASIDE, ignore_errors=True)


def of_kit(name):
    """The libraries of the kit that a crate names in crates.txt."""
    rows = dict(line.split("#")[0].partition(":")[::2] for line in (TOP / "crates.txt").read_text().splitlines() if ":" in line.split("#")[0])
    named = {head.split()[0]: rest.split() for head, rest in rows.items()}
    return [it for it in named[name] if it not in named]


def places(name):
    """The folders of a crate's mutants: those that `rt ci` tries, and those that tools/wrong_bodies tries."""
    return TOP / "crates" / name / "must-fail", TOP / "crates" / name / "mutants"


def edits(folder):
    """The mutants in a folder."""
    return sorted(folder.glob("*.edit"))


def beside(name):
    """The mutants of a crate that tools/wrong_bodies tries."""
    return edits(places(name)[1])


def is_of_gate(edit):
    """Whether `tools/wrong_bodies --gate` tries a mutant: its first line is 'gate'."""
    return edit.read_text(encoding="utf-8", errors="replace").startswith(GATE)


def of_gate(name):
    """The mutants of a crate that `tools/wrong_bodies --gate` tries."""
    return [edit for edit in beside(name) if is_of_gate(edit)]


def of_check(name):
    """The mutants of a crate that ./check tries, by `rt ci` and behind it, and the others."""
    tried = [*edits(places(name)[0]), *of_gate(name)]
    return tried, [edit for edit in beside(name) if edit not in tried]


def crate_of(edit):
    """The name of a mutant's crate."""
    return edit.parent.parent.name


def struck(edit):
    """The file that strikes out the clause for which an edit is refused, beside that edit."""
    return edit.with_suffix(".struck")


def text_of(file):
    """The text of an edit without the line that marks it for the gate; of a file that strikes out a clause, behind that of its edit."""
    text = file.read_text(encoding="utf-8", errors="replace")
    text = text[len(GATE) :] if text.startswith(GATE) else text
    return text if file.suffix == ".edit" else f"{text_of(file.with_suffix('.edit'))}\n{text}"


def stale(edit):
    """Why an edit can't be applied to its crate, none if it can: as the kit reads it, a pair of lines after another."""
    crate = edit.parent.parent
    texts, path, old, pairs = {}, None, None, 0
    if not edit.with_suffix(".edit").is_file():
        return "no edit of this name is beside it"
    for line in text_of(edit).split("\n"):
        if line.startswith("file: "):
            path = line[len("file: ") :].strip()
            if not path.startswith(("src/", "specs/", "proofs/")) or not (crate / path).is_file():
                return f"no file of the crate's src/, specs/ or proofs/: {path}"
            texts.setdefault(path, (crate / path).read_text(encoding="utf-8"))
        elif line.startswith("old: "):
            old = line[len("old: ") :]
        elif line.startswith("new:"):
            if not path or not old:
                return "a line 'new:' stands before any 'file:' or 'old:'"
            count, new = texts[path].count(old), re.sub("^ ", "", line[len("new:") :])
            if count != 1 or new == old:
                return f"an old text stands in {path} {count} times, and not once: {old.strip()}" if count != 1 else "it changes nothing"
            texts[path] = texts[path].replace(old, new)
            old, pairs = None, pairs + 1
    return None if pairs else "it has no pair of lines 'old:' and 'new:'"


def edited(edit, crate):
    """The texts of the files that an edit that isn't stale changes, by their paths: as they stand in a crate, and as it makes them."""
    before, after, path, old = {}, {}, None, None
    for line in text_of(edit).split("\n"):
        if line.startswith("file: "):
            path = line[len("file: ") :].strip()
            before.setdefault(path, (crate / path).read_text(encoding="utf-8"))
            after.setdefault(path, before[path])
        elif line.startswith("old: "):
            old = line[len("old: ") :]
        elif line.startswith("new:"):
            after[path] = after[path].replace(old, re.sub("^ ", "", line[len("new:") :]))
    return before, after


def applied(edit, crate):
    """Applies an edit that isn't stale to a copy of its crate. The texts of the files that it changed, as they were."""
    before, after = edited(edit, crate)
    for path, text in after.items():
        (crate / path).write_text(text, encoding="utf-8")
    return before


def faults(folder):
    """The files in a folder of a crate's mutants that can't be applied or are no mutants, each with why."""
    for file in sorted(folder.iterdir()) if folder.is_dir() else []:
        if file.name == TRIED and folder.name == "mutants":
            continue
        is_edit = file.is_file() and re.fullmatch(r"[\w-][\w.-]*\.(edit|struck)", file.name, re.A)
        why = stale(file) if is_edit else "no name of an edit: letters, digits, _, - and ., and .edit or .struck at the end"
        if why:
            yield file.relative_to(TOP), why


def strangers():
    """The folders of mutants that nothing tries, or that cost a second proof, each with why."""
    names = crates()
    for folder in sorted([*TOP.glob("crates/*/mutants"), *TOP.glob("crates/*/must-fail")]):
        if folder.parent.name not in names:
            yield folder.relative_to(TOP), "crates.txt names no such crate"
        elif folder.name == "must-fail" and folder.parent.name not in TWICE:
            yield folder.relative_to(TOP), "for this folder `rt ci` proves the crate a second time: its mutants belong in mutants/, with the line 'gate'"


@functools.lru_cache(maxsize=None)
def sources_sum(name):
    """A sum over the files of a crate that its check reads: its sources, its definitions and its proofs."""
    found = hashlib.sha256()
    for part in ("src", "specs", "proofs"):
        for file in sorted(it for it in (TOP / "crates" / name / part).rglob("*") if it.is_file()):
            found.update(f"{file.relative_to(TOP)}\n".encode() + file.read_bytes())
    return found.hexdigest()


def sum_of(edit):
    """A sum of what an edit is tried on: its own text, that of what strikes out its clause, and its crate's files.

    Crates below are left out: else each change of one would make all edits above untried. What an edit shows is of its
    own crate's clauses.
    """
    texts = [text_of(struck(edit) if struck(edit).is_file() else edit), sources_sum(crate_of(edit))]
    return hashlib.sha256("\n".join(texts).encode()).hexdigest()[:16]


def tries(name):
    """What each mutant of a crate was tried on and came to, by the mutant's name."""
    file = places(name)[1] / TRIED
    lines = file.read_text(encoding="utf-8").splitlines() if file.is_file() else []
    rows = [line.split(None, 2) for line in lines if line and not line.startswith("#")]
    return {stem: (sum_then, verdict) for stem, sum_then, verdict in rows}


@contextlib.contextmanager
def alone_in(folder):
    """Waits until no other process is in this part over the same folder."""
    held = os.open(folder, os.O_RDONLY)
    try:
        fcntl.flock(held, fcntl.LOCK_EX)
        yield
    finally:
        os.close(held)


def note_tries(verdicts):
    """Writes what mutants came to into the TRIED of their crates, each with the sum of what it was tried on; lines of mutants
    that are gone go. Runs side by side lose no line of each other."""
    for folder in {edit.parent for edit, _, _ in verdicts}:
        with alone_in(folder):
            rows = {stem: row for stem, row in tries(folder.parent.name).items() if (folder / f"{stem}.edit").is_file()}
            rows.update({edit.stem: (tried_on, verdict) for edit, tried_on, verdict in verdicts if edit.parent == folder})
            made = folder / f"{TRIED}.new"
            head = "# Written by tools/wrong_bodies: the mutant, a sum of what it was tried on, and what the try came to.\n"
            made.write_text(head + "".join(f"{stem} {then} {verdict}\n" for stem, (then, verdict) in sorted(rows.items())), encoding="utf-8")
            made.replace(folder / TRIED)


def untried(edits):
    """Those of these mutants of which nothing is known over today's files, each with why."""
    of_crate = functools.lru_cache(maxsize=None)(tries)
    for edit in edits:
        then, verdict = of_crate(crate_of(edit)).get(edit.stem, (None, None))
        if then != sum_of(edit):
            yield edit, "tried before it or its crate changed" if then else "never tried"
        elif ITS_PROOF in verdict:
            yield edit, ITS_PROOF


def figures(text):
    """The processor minutes in the table of a text, by crate and kind, as far as they stand in it."""
    found = TABLE.search(text)
    lines = [[cell.strip(" `") for cell in line.strip("|").split("|")] for line in found[0].splitlines()] if found else [[]]
    rows = [dict(zip(lines[0], line)) for line in lines[2:] if line[0] != "together"]
    return {row["crate"]: {kind: float(row[kind]) for kind in KINDS if re.fullmatch(r"\d+(\.\d+)?", row.get(kind, ""))} for row in rows}


def in_page():
    """The minutes that bench/RESULTS.md has."""
    return figures(PAGE.read_text())


def measured():
    """The minutes that the last ./check here measured; none if it left out what earlier runs had passed, or failed."""
    text = TIMES.read_text() if TIMES.is_file() else ""
    return {} if any(words in text for words in PARTLY) else figures(text)


def lanes():
    """How many checks run side by side: as many as there are processors, where memory allows, or as RT_JOBS says.

    By itself `rt` sets aside two to seven times what a large crate's check takes, and lets processors idle for that (DECISIONS).
    """
    given = os.environ.get("RT_JOBS", "")
    if given.isdigit() and int(given) > 0:
        return int(given)
    processors = len(os.sched_getaffinity(0))
    try:
        free = int(re.search(r"^MemAvailable:\s+(\d+) kB$", Path("/proc/meminfo").read_text(), re.M)[1]) * 1024
    except (OSError, TypeError):
        return processors
    return min(processors, max(1, (free - RESERVE) // MEMORY))


def surroundings():
    """The variables that `rt` is run with. Where there is memory for one check alone, `rt` finds small ones that fit beside it."""
    return {**os.environ, **({"RT_JOBS": str(lanes())} if lanes() > 1 else {})}
