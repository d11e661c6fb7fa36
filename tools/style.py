"""What tools/pages --style looks for on pages: long sentences, a high mean, fault numbers without a name, private words.

A page is Markdown. Code blocks, comments and headings are no sentences. What is in backquotes counts as one word and
isn't looked into. A paragraph, an item of a list and a cell of a table each end their last sentence.
"""
import re

MARK = "<!-- plain -->"
LONGEST, MEAN = 35, 18
# A cell of fewer words is no sentence: it doesn't count for the mean of its page.
SHORTEST_CELL = 4
# Private words without an everyday meaning, each with the field's word for it.
PRIVATE = {
    r"want(?:s|ed|ing)? (?:of|no) memory|want(?:s|ed|ing)? memory": "allocation failure",
    r"growths?": "allocation",
    r"(?:is|are|was|were|be|been|being) played for|plays? for (?:him|it|them)": "the default action is taken for",
    r"faces? something|facing something": "faces a bet",
    r"to the letter": "exactly",
    r"of no account": "ignored",
    r"in vain": "without success",
    r"dear(?:er|est)?": "expensive",
    r"refused edits?|wrong bod(?:y|ies)|planted bod(?:y|ies)": "mutant",
    r"pinned|pins": "covered by an example",
    r"told (?:commands?|values?)": "value reported in a Promise",
    r"chains? of moves": "execution",
    r"least quorums?": "minimal majority",
    r"what (?:each|a|every) call owes|owes|owed": "obligation, postcondition",
    r"own deals? of a node|deals of a node's own": "deck seeds",
    r"deeds?": "history step",
    r"keeps? its word|kept its word": "honours sync",
    r"made anew": "replaced",
    r"askers?": "status client",
    r"comers?": "inbound connection",
    r"hangs? up|hung up": "closes the connection",
    r"lets? go of": "disconnects",
    r"turn(?:s|ed|ing)? away": "reject",
    r"stands? (?:in|at|there|here)": "is, is defined in",
    r"comes? of": "is caused by",
}
WORD = re.compile(r"\b(?:" + "|".join(f"({text})" for text in PRIVATE) + r")\b", re.I)
# Numbers of faults. Small ones are often counts, so they are looked at only after the word fault.
LARGE = {*range(60, 65), 70, 71, *range(80, 86), *range(90, 97), *range(100, 111), *range(120, 130)}
SMALL = {1, 2, *range(10, 27), 30, 31, *range(40, 55)}
# The word before a number that means a fault, and what follows a number that counts nothing.
BEFORE = r"(?:by|with|see|under|faults?|numbers?|codes?|answers?|prints?|ends? (?:by|with)|statuses|says)"
AFTER = r"(?=\s*(?:$|[,.;:)\]]|(?:and|or|to|where|when|if|with|at|in|for|is|are|was|means?|comes?|ends?)\b))"
NUMBER = r"(\d{1,3})(?![\d.,]*\d)(?!\s*(?:%|§[A-Z]|[A-Z][a-z]+[A-Z]))"
BARE = re.compile(rf"\b({BEFORE})\s+(?:the\s+)?{NUMBER}{AFTER}", re.I)
FIRST = re.compile(rf"^\W*{NUMBER}{AFTER}")
LIST = re.compile(r"\((\d{1,3}(?:(?:,| and| or| to) \d{1,3})+)\)")
SPAN = re.compile(r"(`+)(.+?)\1", re.S)
END = re.compile(r"(?<=[.!?])[\"')*_]*\s+(?=[\"'(*_\[]*[A-Z§0-9])|(?<=[.!?]\*\*)\s+(?=[A-Z§0-9])")
ABBREVIATION = re.compile(r"(?:\b(?:e\.g|i\.e|vs|cf|etc|no)\.|\.\.)$")
ITEM = re.compile(r"\s*(?:[-*+]|\d+[.)])\s+")
RULE = re.compile(r"\s*\|?[\s:|-]+\|[\s:|-]*$")


class Unit:
    """A text that ends its last sentence: the line where it begins, what it is ('text', 'cell' or 'heading'), its words."""

    def __init__(self, line, kind, text):
        self.line, self.kind, self.text = line, kind, text

    def sentences(self):
        """Its sentences, each with the line on which it begins."""
        begin = 0
        for end in [*(it for it in END.finditer(self.text)), None]:
            found = self.text[begin : end.start() if end else len(self.text)]
            if end and ABBREVIATION.search(found):
                continue
            if found.strip():
                yield self.line + self.text[: begin + len(found) - len(found.lstrip())].count("\n"), found.strip()
            begin = end.end() if end else begin


def blanked(text):
    """A text with each code span as one word: § and the name that it begins with, or § alone; line ends stay."""

    def word(span):
        name = re.match(r"\s*(?:\d+ )?([A-Z][a-z]\w*)\b", span[2])
        return "§" + (name[1] if name else "") + "\n" * span[0].count("\n")

    return SPAN.sub(word, text)


def without_blocks(lines):
    """The lines of a page without its code blocks and comments, which are empty lines here."""
    fence, is_comment, is_code, before, is_list = None, False, False, "", False
    for line in lines:
        text = line.strip()
        opens = re.match(r"(```+|~~~+)", text)
        is_code = (is_code and (not text or line.startswith("    "))) or (
            not is_list and not before and line.startswith("    ") and bool(text)
        )
        is_list = bool(ITEM.match(line)) or (is_list and (not text or line.startswith(" ")))
        if fence or opens:
            yield ""
            fence = None if fence and text.startswith(fence) else fence or opens[1]
        elif is_comment or text.startswith("<!--"):
            yield ""
            is_comment = "-->" not in text
        else:
            yield "" if is_code else line
        before = text


def cells(line):
    """The cells of a row of a table, without what links point at."""
    return [cell.replace("\\|", "|").strip() for cell in re.split(r"(?<!\\)\|", line.strip())[1:-1]]


def units(text):
    """What a page says, unit by unit."""
    text = "\n".join(without_blocks(text.splitlines()))
    lines = re.sub(r"\]\([^)]*\)", "]", blanked(text)).splitlines()
    found, is_open = [], False
    for number, line in enumerate(lines, 1):
        bare = line.strip()
        is_row = bare.startswith("|") and bare.endswith("|")
        if is_row:
            found += [] if RULE.match(bare) else [Unit(number, "cell", cell) for cell in cells(line)]
        elif bare.startswith("#"):
            found.append(Unit(number, "heading", bare.lstrip("# ")))
        elif is_open and bare and not ITEM.match(line):
            found[-1].text += "\n" + bare
        elif bare:
            item = ITEM.match(line)
            found.append(Unit(number, "text", line[item.end() if item else 0 :].strip()))
        is_open = bool(bare) and not is_row and not bare.startswith("#")
    return found


def count(sentence):
    """How many words a sentence has; a code span is one."""
    return sum(bool(re.search(r"[\w§]", word)) for word in sentence.split())


def shown(sentence):
    """The beginning of a sentence, to be found by."""
    words = re.sub(r"[*_]|§(?=[A-Z])", "", sentence).replace("§", "`..`").split()
    return " ".join(words[:9]) + (" .." if len(words) > 9 else "")


def bare_numbers(sentence, kind):
    """The fault numbers of a sentence that go without a name."""
    if kind == "cell" and re.fullmatch(r"[\d\s,]*(?:(?:and|or|to)[\d\s,]*)*", sentence):
        return []
    found = [it[2] for it in BARE.finditer(sentence) if int(it[2]) in (LARGE | SMALL if it[1].lower().startswith("fault") else LARGE)]
    first = FIRST.match(sentence) if kind == "text" else None
    found += [first[1]] if first and int(first[1]) in LARGE else []
    for several in LIST.findall(sentence):
        numbers = re.findall(r"\d+", several)
        found += numbers if all(int(it) in LARGE | SMALL for it in numbers) and any(int(it) in LARGE for it in numbers) else []
    return sorted({*found}, key=int)


def private_words(sentence):
    """The private words of a sentence, each with the field's word."""
    meanings, text = list(PRIVATE.values()), re.sub(r"§\w*", "§", sentence)
    return [(it[0].replace("\n", " "), meanings[it.lastindex - 1]) for it in WORD.finditer(text)]


def findings(text):
    """What is found on a page: pairs of a line (none for the whole page) and what it is."""
    found, lengths = [], []
    for unit in units(text):
        for line, sentence in unit.sentences():
            length = count(sentence)
            if unit.kind == "text" or unit.kind == "cell" and length >= SHORTEST_CELL:
                lengths.append(length)
            if length > LONGEST:
                found.append((line, f"{length} words: {shown(sentence)}"))
            found += [(line, f"fault number {it} without its name: {shown(sentence)}") for it in bare_numbers(sentence, unit.kind)]
            found += [(line, f"private word {word!r} (say: {better}): {shown(sentence)}") for word, better in private_words(sentence)]
    mean = sum(lengths) / max(len(lengths), 1)
    if mean > MEAN:
        found.append((None, f"a mean of {mean:.1f} words a sentence, {len(lengths)} sentences"))
    return found, mean
