"""Scripts of `play`."""
import functools
import re

from .damage import DRAWN, changes, cuts, drawn
from .models import GAMES, nodes
from .running import AT_ONCE, LONG_RUN, PROGRAM, Tally, run, shown

MATCH = b"""name = "m1"
game = "l2.game"
hands = 2
names = ["alice", "bob"]
[[node]]
seed = 1
[[node]]
seed = 2
[[node]]
seed = 3
"""
# Each word of a script: node 0 has its deal chosen, stops, starts and asks; bob comes, goes and comes again; alice is away.
SCRIPT = b"""connect 0 1
line 0 1 VERSION:2.0.0
tick 0
deliver 0
deliver 2
deliver 3
deliver 7
deliver 0005
stop 0 18446744073709551615
tick 0
start 0
flush 18446744073709551615
drop 0 1
connect 0 1
line 0 1 VERSION:2.0.0
away 0
flush 6
""".splitlines()
WORDS = [
    *b"tick away deliver flush connect drop line stop start 0 1 2 3 9 0000 -1 +0 0x1 18446744073709551615 18446744073709551616".split(),
    *b"VERSION:2.0.0 MATCHSTATE:1:0::|8hTc:c TICK ticks".split(), b" ", b"\t", b"\r", b"\0", b"\xff",
]  # fmt: skip


def long_lines(line):
    """A line of a script of `play` made too long, or its numbers."""
    for more in (b" ", b"0", b" 0", b"x" * 5000, b" " * 5000, b"0" * 4000, b"\r"):
        yield line + more
    for found in re.finditer(rb"\b[0-9]+\b", line):
        for number in (b"0" * 30 + found[0], b"18446744073709551615", b"18446744073709551616", b"-1", b"+" + found[0], b"", b"0x0"):
            yield line[: found.start()] + number + line[found.end() :]


def scripts_at(dice, place):
    """A right script up to a place, and the lines that are given there one behind another."""
    line = SCRIPT[place]
    inputs = [*cuts(line), *long_lines(line), *changes(dice, line), line]
    inputs += [drawn(dice, lambda: dice.choice(SCRIPT), WORDS) for _ in range(DRAWN // len(SCRIPT))]
    return SCRIPT[:place], [one.replace(b"\n", b" ") for one in inputs]


def take_lines(tally, folder, match, right, inputs):
    """Runs a script of right lines and inputs behind them, and compares the answer to each input."""
    model = nodes.Script(match)
    before = [*model.begin(), *(text for line in right for text in model.answer(line))]
    got = played(folder, b"".join(line + b"\n" for line in [*right, *inputs]))
    printed = got[1].split(b"\n")[:-1] if isinstance(got, tuple) and (got[0], got[2]) == (0, b"") else []
    if printed[: len(before)] != before:
        tally.wrong.append(f"{right} were answered by {shown(got)}")
        return
    place = len(before)
    for line in inputs:
        wanted = model.answer(line)
        answer, place = printed[place : place + len(wanted)], place + len(wanted)
        tally.take(line, answer, wanted, faults_of(wanted))
        if answer != wanted:
            # where one answer is another, those behind it aren't found
            return
    if printed[place:]:
        tally.wrong.append(f"behind all answers stands {shown(printed[place:])}")


def faults_of(lines):
    return sorted({found[1].decode("latin-1") for found in (re.match(rb"(?:\d )*E (.*)", line) for line in lines) if found})


def scripts_of_play(dice, folder, pool):
    """Lines of scripts of `play`, at each place of a right script, and scripts that end or are changed anywhere."""
    tally, match = Tally("scripts of play"), match_in(folder)
    for place in range(len(SCRIPT)):
        take_lines(tally, folder, match, *scripts_at(dice, place))
    whole = b"".join(line + b"\n" for line in SCRIPT)
    scripts = [*cuts(whole), *changes(dice, whole), *(drawn(dice, lambda: whole, WORDS) for _ in range(DRAWN))]
    for script, got in zip(scripts, pool.map(functools.partial(played, folder), scripts, chunksize=AT_ONCE)):
        wanted = nodes.play(match, script)
        tally.take(script, got, (0, wanted, b""), faults_of(wanted.split(b"\n")))
    tally.want("110 BadScript,90 Down,96 NothingToAct,read".split(","))
    return tally


def match_in(folder):
    """The match of these scripts, whose files it writes."""
    (folder / "l2.game").write_bytes(GAMES["l2"])
    (folder / "m1.toml").write_bytes(MATCH)
    return nodes.Match("m1.toml", folder)


def played(folder, script):
    return run([PROGRAM, "play", "m1.toml"], folder, script, LONG_RUN)
