"""Which mutants of a crate can be tried in one check, and what that check says of each.

A function's proof rests on its own body and on the contracts of the functions that it calls. So a wrong body shows in
its own function: the check names its open goals. Hence no two mutants of a group are in one function. Of a function that
calls one that isn't proved a check may say only so; then it is tried without that one.
"""
import collections
import re
from pathlib import PurePosixPath

import repository

# How many mutants are tried in one check at most. If the check dies, nothing is known of any.
MOST = 18
FUNCTION = re.compile(r"^( *)(?:pub(?:\([\w ]+\))? )?(?:const |unsafe )*fn (\w+)")
IMPL = re.compile(r"^( *)(?:impl(?:<.*?>)? (?:(?:\w+::)*(\w+)(?:<.*>)? for )?|(?:pub )?trait )&?(?:\w+::)*(\w+)")
# A line of a check: what it says of a function, what it says of a place in a file, and what isn't proved of a function's code.
OF_FUNCTION = re.compile(r"^fn (\S+): (no proof|not proved)(.*)")
OF_PLACE = re.compile(r"^(?:\./)?((?:src|specs|proofs)/\S+?):(\d+):\d+: error(.*)")
OF_CODE = re.compile(r"^note: (?:\./)?(src/\S+?):(\d+):\d+: it is not proved that (.*)")
GOAL = re.compile(r"`([^`\s]+)`")
# A name in a proof that the edit took away, which says little of the contract.
GONE = re.compile(r"has no field|is not in scope|has no `|was not admitted")
NO_GOAL = "no open goal of its own is named"
# What antt says of a text that it can't read, where one that only makes a statement false reads well.
UNREAD = re.compile(r"is not in scope|has no field|is no name|operand is missing|expected the end|cannot continue")


class Function:
    """A function with a body: its file, its name, the type and the trait of its impl, and its lines, counted from 0."""

    def __init__(self, path, name, owner, lines):
        self.path, self.name, self.owner, self.lines = path, name, owner, lines

    def key(self):
        return self.path, self.owner, self.name

    def asked_for(self):
        """The end of its name, by which a check takes it alone. It may fit other functions too: the check then says so."""
        trait, type_name = self.owner
        of = [type_name + (trait or "")] if type_name else [PurePosixPath(self.path).stem]
        return "::".join([*(it for it in of if it not in ("lib", "main")), self.name])

    def has(self, at):
        """Whether a line is of its body."""
        return self.lines[1] <= at <= self.lines[2]

    def is_at(self, path, at):
        """Whether a line of a file is one of its signature, its contract or its body, or of its proof."""
        if path == self.path:
            return self.lines[0] <= at <= self.lines[2]
        parts = [part.lstrip("+") for part in PurePosixPath(path).parts]
        return parts[0] == "proofs" and self.is_named(["", *parts[1:-1]])

    def is_named(self, parts):
        """Whether a name is that of this function, or of a closure in it: the crate, the modules, the type, the function.

        The modules before a type are those that declare it, which need not be those of its impl.
        """
        parts, (trait, type_name) = [part for part in parts if part != "fn"], self.owner
        if type_name is None:
            modules = [part for part in PurePosixPath(self.path).with_suffix("").parts[1:] if part not in ("lib", "main")]
            return parts[1 : 2 + len(modules)] == [*modules, self.name]
        owners = [at for at, part in enumerate(parts) if part == type_name or (trait and part.startswith(type_name + trait))]
        return any((trait is None or parts[at] != type_name) and parts[at + 1 : at + 2] == [self.name] for at in owners)


def functions(path, text):
    """Finds the functions with a body in a source file as `rt fmt` leaves it."""
    lines, found, closing, owner = text.split("\n"), [], None, (None, None)
    for at, line in enumerate(lines):
        impl, function = IMPL.match(line), FUNCTION.match(line)
        if impl:
            closing, owner = impl[1] + "}", (impl[2], impl[3])
        elif line == closing:
            closing, owner = None, (None, None)
        elif function:
            begin, end = body(lines, at, function[1])
            if end is not None:
                found.append(Function(path, function[2], owner, (at, begin, end)))
    return found


def body(lines, at, indent):
    """The first and the last line of a function's body. Its brace ends a line with the indentation of the function's first
    line, and its last one stands alone behind that indentation. The last line is None where there is no body."""
    for begin in range(at, len(lines)):
        line = lines[begin]
        if begin > at and (FUNCTION.match(line) or not (line.startswith(indent) or not line)):
            break
        if line.startswith(indent + " ") or not line:
            continue
        if line.endswith("{"):
            return begin + 1, next((end for end in range(begin + 1, len(lines)) if lines[end] == indent + "}"), None)
        if line.endswith(("}", ";")):
            return begin, begin if line.endswith("}") else None
    return at, None


class Calls:
    """Which functions of a crate have a body and a contract, and which call which, as far as the text tells: rather too many
    than too few."""

    NAMED = re.compile(r"(?:(\w+)(?:::<[^>]*>)?(::)|(\.))?\b(\w+)\b(\s*\()?")

    def __init__(self, crate):
        self.known, self.stated, texts = collections.defaultdict(list), [], {}
        for file in sorted((crate / "src").rglob("*.rt")):
            path, text = str(file.relative_to(crate)), file.read_text(encoding="utf-8")
            lines = text.split("\n")
            for function in functions(path, text):
                self.known[function.name].append(function)
                texts[function] = "\n".join(lines[function.lines[1] : function.lines[2] + 1])
                is_stated = any(re.match(r" +ensures\b", line) for line in lines[function.lines[0] : function.lines[1]])
                is_law = file.name == "laws.rt" or texts[function].strip() in ("}", "{}")
                self.stated += [function] if is_stated and not is_law and f"trait {function.owner[1]}" not in text else []
        self.modules = {PurePosixPath(it.path).stem for it in texts} | {"crate", "super", "self"}
        called = {}
        for function, text in texts.items():
            called.setdefault(function.key(), set()).update(self.in_text(function, text))
        self.below = {key: self.all_below(key, called) for key in called}

    def in_text(self, function, text):
        """The functions that a body names."""
        for path, colons, dot, name, brackets in self.NAMED.findall(text):
            for other in self.known.get(name, []):
                owner = other.owner[1]
                if colons:
                    is_called = path in self.modules if owner is None else path in (owner, "Self")
                else:
                    is_called = owner is not None and bool(brackets) if dot else owner is None
                if is_called and other.key() != function.key():
                    yield other.key()

    @staticmethod
    def all_below(key, called):
        found, left = set(), [key]
        while left:
            new = called.get(left.pop(), set()) - found
            found |= new
            left += new
        return found


class Controls:
    """The functions of a crate that a check of changed ones may have for a control: an unchanged one that it must prove,
    since of a crate of which it proves nothing its refusals show nothing."""

    def __init__(self, crate):
        calls = Calls(crate)
        keys = collections.Counter(it.key() for it in calls.stated)
        once = [it for it in calls.stated if keys[it.key()] == 1]
        # A control is to cost little: one that calls no other and is short comes first. (A law may rest on many lemmas.)
        self.functions = sorted(once, key=lambda it: (len(calls.below[it.key()]), it.lines[2] - it.lines[0], it.key()[0], it.name))
        self.below = calls.below

    def of(self, group):
        """The control of a group's check, none if the crate has no function for it: one that the group doesn't change, nor
        what it calls."""
        names = {name for mutant in group for name in mutant.names}
        return next((it for it in self.functions if it.key() not in names and not self.below[it.key()] & names), None)


class Mutant:
    """An edit: the lines that it changes, by file and number, and the functions whose bodies have these lines. It has no
    functions if it changes anything else, and then is tried alone."""

    def __init__(self, edit, crate):
        self.edit, self.lines, self.functions, self.why = edit, {}, [], None
        before, after = repository.edited(edit, crate)
        for path, text in before.items():
            old, new = text.split("\n"), after[path].split("\n")
            changed = {at: line for at, line in enumerate(new) if at >= len(old) or line != old[at]}
            self.lines.update({(path, at): line for at, line in changed.items()})
            own = functions(path, text) if path.startswith("src/") else []
            inside = [[it for it in own if it.has(at)] for at in changed]
            if len(old) != len(new) or "#[cycle(" in text or not all(len(it) == 1 for it in inside):
                self.why = f"it changes more of {path} than bodies of functions"
            self.functions += [it[0] for it in inside if len(it) == 1]
        if self.why:
            self.functions = []
        self.names = {it.key() for it in self.functions}

    def is_apart(self, other):
        """Whether they change different functions."""
        return bool(self.names and other.names) and not self.names & other.names


def groups(mutants, most=MOST):
    """Puts mutants into groups, each to be tried in one check."""
    found = []
    for mutant in mutants:
        fits = [it for it in found if len(it) < most and all(mutant.is_apart(other) for other in it)]
        if fits:
            fits[0].append(mutant)
        else:
            found.append([mutant])
    return found


def apply(group, crate):
    """Applies the mutants of a group to a copy of their crate; the texts of the files that they change, as they were."""
    before = {path: (crate / path).read_text(encoding="utf-8") for mutant in group for path, _ in mutant.lines}
    if len(group) == 1:
        return repository.applied(group[0].edit, crate)
    for path, text in before.items():
        lines = text.split("\n")
        for mutant in group:
            for (_, at), line in [it for it in mutant.lines.items() if it[0][0] == path]:
                lines[at] = line
        (crate / path).write_text("\n".join(lines), encoding="utf-8")
    return before


def goals(line):
    """The goals that a line of a check names as open: one of a place, or those of a function. Those of a return have the name
    of the clause that is open there, or else of the place."""
    named, placed, coded = OF_FUNCTION.match(line), OF_PLACE.match(line), OF_CODE.match(line)
    if named:
        found = GOAL.findall(named[3].partition("did not prove ")[2].partition("it calls")[0])
    else:
        found = GOAL.findall(placed[3] if placed and placed[3].startswith(": `") else coded[3] if coded else "")[:1]
    for goal in found:
        _, at_return, rest = goal.partition("returns-") if goal.startswith("returns-") else ("", "", "")
        yield rest.rpartition("clause-")[2] if at_return else goal


def refusals(said, of_group):
    """The functions that a check doesn't prove for what is in them, each with its open goals as far as they are named.

    One that isn't proved only since another isn't that it calls is not among them.
    """
    found, gone = {}, set()
    for line in said.splitlines():
        named, placed, coded = OF_FUNCTION.match(line), OF_PLACE.match(line), OF_CODE.match(line)
        for function in of_group:
            if named and function.is_named(named[1].split("::")):
                what = [*goals(line)]
                if what or "it calls" not in named[3]:
                    found.setdefault(function, []).extend(what)
            elif placed and placed[1].startswith("proofs/") and function.is_at(placed[1], -1):
                if is_gone(line):
                    gone.add(function)
                else:
                    found.setdefault(function, []).extend(goals(line))
            elif coded and function.is_at(coded[1], int(coded[2]) - 1):
                found.setdefault(function, []).extend(goals(line))
    return {it: list(dict.fromkeys(what or ([repository.ITS_PROOF] if it in gone else []))) for it, what in found.items()}


def unread(said):
    """The lines that say that a text can't be read or compiled, so that no contract was tried."""
    lines = said.splitlines()
    read = [line for line in lines if OF_FUNCTION.match(line) or re.match(r"fn \S+: proved|logic=", line)]
    placed = [line for line in lines if re.search(r"\berror\[[\w-]+\]", line)] if not read else []
    return placed + [line for line in lines if (found := OF_PLACE.match(line)) and found[1].startswith(("src/", "specs/")) and UNREAD.search(re.sub(r"`[^`]*`", "", found[3]))]


def come_to(group, said, status):
    """What the check of a group says of each of its mutants: 'refused: ' and the open goals of its functions, or 'let
    through', or 'stale', or 'not tried: ' and why; of those of which it names no goal nothing, but where one is tried
    alone, and of none where it came to no verdict."""
    lines = said.splitlines()
    if status not in (0, 1) or (status == 1 and not any(OF_FUNCTION.match(line) or OF_PLACE.match(line) or "error" in line for line in lines)):
        return {}
    if len(group) == 1:
        return {group[0]: alone(group[0], said, status)}
    if unread(said):
        return {}
    found = refusals(said, [function for mutant in group for function in mutant.functions])
    verdicts = {mutant: worded([goal for it in mutant.functions for goal in found.get(it, [])]) for mutant in group}
    return {mutant: verdict for mutant, verdict in verdicts.items() if verdict.startswith("refused")}


def alone(mutant, said, status):
    """What the check of one mutant says of it. One of a definition is refused by whatever rests on that."""
    if status == 0:
        return "let through"
    if unread(said):
        return "stale"
    if mutant.functions:
        return worded([goal for what in refusals(said, mutant.functions).values() for goal in what])
    lines = [line for line in said.splitlines() if OF_FUNCTION.match(line) or OF_PLACE.match(line)]
    return worded([goal for line in lines for goal in ([repository.ITS_PROOF] if is_gone(line) else goals(line))])


def is_proved(said, function):
    """Whether a check says of a function that it is proved; without one, of any function."""
    names = [line[len("fn ") : -len(": proved")] for line in said.splitlines() if line.startswith("fn ") and line.endswith(": proved")]
    return any(function is None or function.is_named(name.split("::")) for name in names)


def is_gone(line):
    """Whether a line says only that a proof names what an edit took away."""
    placed = OF_PLACE.match(line)
    return bool(placed and placed[1].startswith("proofs/") and GONE.search(placed[3]))


def worded(named):
    """A verdict with the first three of the open goals. Without any it shows nothing of the contract."""
    own = [goal for goal in dict.fromkeys(named) if goal != repository.ITS_PROOF]
    more = f" and {len(own) - 3} more" if len(own) > 3 else ""
    return f"refused: {', '.join(own[:3])}{more}" if own else f"not tried: {repository.ITS_PROOF if named else NO_GOAL}"


def left_of(group, came_to, said, status):
    """The groups in which those are to be tried of which the check of a group said nothing: one of which it named no goal
    alone, and where it came to no verdict those apart that it couldn't read, or else each half."""
    left = [it for it in group if it not in came_to]
    if len(group) == 1:
        return []
    if came_to or status == 0:
        return [[it] for it in left]
    lost = unread_of(group, said) if unread(said) else []
    others = [it for it in group if it not in lost]
    half = len(others) // 2
    return [[it] for it in lost] + [it for it in ([others] if lost else [others[:half], others[half:]]) if it]


def unread_of(group, said):
    """Those of a group whose texts a check says it can't read."""
    places = [(match[1], int(match[2]) - 1) for match in (re.match(r"(?:\./)?(src/\S+?):(\d+):\d+", line.strip().removeprefix("--> ")) for line in said.splitlines()) if match]
    return [mutant for mutant in group if any(it.is_at(*place) for it in mutant.functions for place in places)]
