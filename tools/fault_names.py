"""Whether docs/FAULTS.md has one row for each fault number: the numbers and names in the code against the rows of the page."""
import re

import repository

PAGE = repository.TOP / "docs/FAULTS.md"
# A fault as code prints it, and as `code()` answers for it.
PRINTED = re.compile(r'"(\d{1,3}) ([A-Z][A-Za-z]+)\b')
ANSWERED = re.compile(r"^\s*\w+::(\w+)(?:\(_\)|\(\.\.\)| \{ \.\. \})? => (\d{1,3}),$", re.M)
# The first two cells of a row.
ROW = re.compile(r"^\| ([^|]+?) \| ([^|]*?) ?\|", re.M)


def in_code():
    """The faults that the crates have, without those of tests: pairs of a number and a name."""
    found = set()
    for file in (repository.TOP / "crates").glob("*/src/**/*.rt"):
        text = "" if "_tests" in str(file.relative_to(repository.TOP)) else file.read_text(encoding="utf-8")
        found |= {(int(number), name) for number, name in PRINTED.findall(text)}
        found |= {(int(number), name) for name, number in ANSWERED.findall(text)} if "fn code(" in text else set()
    return found


def in_page():
    """The faults that rows of the page have, one for each row: `| 91 | `Store` |`, or `| 91 `Store` |`."""
    found = []
    for first, second in ROW.findall(PAGE.read_text(encoding="utf-8")):
        pairs = re.findall(r"(\d{1,3}) `([A-Z]\w+)", first)
        if not pairs and re.fullmatch(r"[\d, ]+", first):
            pairs = zip(re.findall(r"\d+", first), re.findall(r"`([A-Z]\w+)[^`]*`", second))
        found += [(int(number), name) for number, name in pairs]
    return found


def check():
    """Prints what is missing, repeated or unknown on the page; how many faults have one row, and how many things are wrong."""
    code, page = in_code(), in_page()
    wrong = [(it, f"has {page.count(it)} rows, and not one") for it in sorted(code) if page.count(it) != 1]
    wrong += [(it, "is no fault of the code") for it in sorted({*page} - code)]
    for (number, name), why in wrong:
        print(f"docs/FAULTS.md: {number} {name} {why}")
    passed = sum(page.count(it) == 1 for it in code)
    print(f"docs/FAULTS.md: {passed} of {len(code)} faults of the code have one row")
    return passed, len(wrong)
