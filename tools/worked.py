"""What is worked out beside the definitions: the examples in crates/*/proofs, and the mutants that the prover refuses."""
import re

import repository
import specs

# A lemma: its name and the first line of what it says.
LEMMA = re.compile(r"(?:pub )?([^\s:(]+) :(?: (.*))?$")
WORD = re.compile(r"[^\s(){}\[\];,.∷]+")


class Example:
    """A lemma that the prover computes: its name, the words above it (none: ""), and what it says."""

    def __init__(self, name, words, statement):
        self.name, self.words, self.statement = name, words, statement


class Mutant:
    """An edit that the prover must refuse: its name, whether ./check tries it, and the words of what it changes."""

    def __init__(self, edit, contracts):
        self.name, self.is_tried = edit.name[: -len(".edit")], edit.parent.name == "must-fail" or repository.is_of_gate(edit)
        parts = self.name.split(".")
        old = "\n".join(re.findall(r"^old: (.*)$", edit.read_text(encoding="utf-8"), re.M))
        changed = old if parts[0][:1].isupper() else contracts.get((parts[0], parts[1]), "")
        self.words = {*WORD.findall(changed), parts[1]}


def examples(crate):
    """The examples of a crate, file by file, each with the comment that ends right above it."""
    for path in sorted((repository.TOP / "crates" / crate / "proofs").glob("**/*Examples*.antt")):
        yield from read(path.read_text(encoding="utf-8").splitlines())


def read(lines):
    """The examples of one file: a statement goes on over the lines that are indented below its name."""
    comment, found = [], None
    for line in lines:
        lemma = LEMMA.match(line)
        if line.startswith("--"):
            comment += [] if specs.SECTION.match(line) else [line]
        elif lemma and not line.startswith(("abbrev", "unfoldable")):
            found = Example(lemma[1], specs.joined(comment), lemma[2] or "")
            yield found
        elif found and line.startswith(" ") and not comment:
            found.statement += " " + line.strip()
        if not line.startswith(("--", " ")):
            comment, found = [], found if lemma else None


def contracts(crate):
    """What the contract of each function of a crate says, by its file and its name."""
    found = {}
    for file in (repository.TOP / "crates" / crate / "src").glob("**/*.rt"):
        for name, text in re.findall(r"^ *(?:pub(?:\(crate\))? )?fn (\w+)(.*?)^ *\{$", file.read_text(encoding="utf-8"), re.M | re.S):
            found[file.stem, name] = found.get((file.stem, name), "") + text
    return found


def mutants(crate):
    """The mutants of a crate: those that ./check tries first, and then those beside it."""
    known = contracts(crate)
    return [Mutant(edit, known) for folder in repository.places(crate) for edit in repository.edits(folder)]


def text_of(example):
    return f"`{example.name}`" + (f" ({example.words})" if example.words else "")


def bullets(crate):
    """A bullet for each definition that an example or a mutant names, and one for each kind that names none."""
    names = [it.name for file in specs.files(crate) for it in file.definitions()]
    shown, tried = [*examples(crate)], mutants(crate)
    said = {id(it): {*WORD.findall(it.statement)} for it in shown}
    for name in names:
        worked = [text_of(it) for it in shown if name in said[id(it)]]
        refused = [f"`{it.name}`" for it in tried if name in it.words]
        if worked or refused:
            yield f"- `{name}`"
        if worked:
            yield "  - examples: " + ", ".join(worked)
        if refused:
            yield "  - mutants: " + ", ".join(refused)
    rest = [f"`{it.name}`" for it in tried if not it.words & {*names}]
    if rest:
        yield "- Other mutants: " + ", ".join(rest)


HEAD = """# Examples

This page is for readers who ask what a definition excludes: the worked examples and the mutants of each definition, crate by crate. `tools/pages` makes it.

An example is a lemma in a file of `crates/NAME/proofs/` whose name has `Examples` in it. The prover computes each example and refuses a false one. It is listed below each definition that it names, with the comment above it in brackets.

A mutant is an edit that the prover must refuse, in `crates/NAME/mutants/` or in `crates/NAME/must-fail/`. Its name has the file, the function and the wrong body. It is listed below each definition that the contract of that function names. Definitions without an example or a mutant aren't listed."""


def page():
    """The page of examples."""
    found = [HEAD]
    for crate in repository.crates():
        lines = [*bullets(crate)]
        found += [f"## `{crate}`", "\n".join(lines)] if lines else []
    return "\n\n".join(found) + "\n"
