"""The pages below out/docs, which are made of the tree: of the comments beside definitions, and of worked examples and mutants."""
import repository
import specs
import worked

OUT = repository.TOP / "out/docs"
HEAD = """# Definitions

This page is for readers of contracts: the definitions that public contracts rest on, crate by crate and file by file, in the words of the comments above them. `tools/pages` makes it.

A name without words has no comment of its own. Below a type are its fields and cases that have a comment. A file whose name ends in `Inside` says what the private fields of a type keep. Each crate ends with its laws: each law is the contract of a public function that does nothing."""


def bullets(definitions):
    """Definitions with their words, and below each its parts; names with neither that follow one another are one bullet."""
    found, is_bare = [], False
    for it in definitions:
        if is_bare and not it.words and not it.parts:
            found[-1] += f", `{it.name}`"
        else:
            found.append(f"- `{it.name}`" + (f": {it.words}" if it.words else ""))
        found += [f"  - `{name}`: {words}" for name, words in it.parts]
        is_bare = not it.words and not it.parts
    return "\n".join(found)


def paragraphs(file):
    """What the page of definitions has of a file: none where nothing public is defined there."""
    if not file.definitions():
        return []
    found = [f"### `specs/{file.name}`", file.words]
    for title, definitions in file.sections:
        found += [f"*{title}*"] if title and definitions else []
        found += [bullets(definitions)] if definitions else []
    return found


def definitions_of(crate):
    """What the page of definitions has of a crate."""
    laws = specs.laws(crate)
    found = [f"## `{crate}`", specs.about(crate), *(it for file in specs.files(crate) for it in paragraphs(file))]
    return found + (["### `src/laws.rt`", bullets(laws)] if laws else [])


def definitions():
    """The page of definitions."""
    crates = [name for name in repository.crates() if specs.files(name)]
    links = "The crates: " + ", ".join(f"[`{name}`](#{name})" for name in crates) + "."
    return "\n\n".join([HEAD, links, *(it for name in crates for it in definitions_of(name))]) + "\n"


def make():
    """Makes the pages below out/docs; how many there are."""
    made = {"DEFINITIONS.md": definitions(), "EXAMPLES.md": worked.page()}
    OUT.mkdir(parents=True, exist_ok=True)
    for name, text in made.items():
        (OUT / name).write_text(text, encoding="utf-8")
        print(f"{(OUT / name).relative_to(repository.TOP)}: {len(text.encode()) // 1000} KB")
    return len(made)
