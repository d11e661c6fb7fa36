"""Scripts of `hand`."""
import functools

from .damage import DRAWN, changes, cuts, drawn
from .games import hand_script, read_game
from .models import GAMES, dealer
from .running import AT_ONCE, LONG_RUN, PROGRAM, Tally, run, shown


SCRIPT_WORDS = [
    *b"names deal f c r r100 r200 r0 r00 r4294967295 r4294967296 alice bob carol | / TdAs 2c2d td As -".split(),
    b" ", b"\r", b"\0", b"\xff",
]  # fmt: skip


class HandScripts:
    """Scripts of `hand` that are written line by line: to give a line where some of a right script's lines were given.
    Each is a list of its lines, with what is wanted of each and whether it is an input."""

    def __init__(self, game, script):
        self.game, self.right, self.runs = game, script, []
        self.begin()

    def begin(self):
        """Begins a further script."""
        self.match, self.place = dealer.Match(dealer.Game(self.game), 10000, "g.game"), 0
        self.runs.append([])

    def give(self, line, is_input=False):
        """Gives a line; whether it did something."""
        answer = self.match.answer(line.decode("latin-1"))
        self.runs[-1].append((line, "".join(text + "\n" for text in answer).encode("latin-1"), is_input))
        return not answer[0].startswith("E ")

    def give_at(self, place, line):
        """Gives an input behind so many lines of the right script: the names, the deal and actions of a hand."""
        if place != self.place:
            self.lead_to(place)
        if self.give(line, is_input=True):
            self.place = None

    def lead_to(self, place):
        if place == 0 and self.match.names is not None:
            self.begin()
        if place and self.match.names is None:
            self.give(self.right[0])
        while self.match.hand and not self.match.hand.over:
            self.give(b"c")
        for line in self.right[1:place]:
            self.give(line)
        self.place = place


def long_lines(line):
    """A line of a script of `hand` made too long."""
    for more in (b" ", b"0", b"|x", b"/2c", b"x" * 335, b" " * 5000, b"0" * 100000, b"|bob" * 100000):
        yield line + more
    for length in (334, 335, 336, 4096, 1 << 20):
        yield line + b"x" * max(0, length - len(line))


def hand_scripts(dice, folder, pool):
    """Lines of scripts of `hand`, at each place of a right script, and scripts that end anywhere."""
    tally = Tally("scripts of hand")
    for name, game in GAMES.items():
        script = hand_script(read_game(game)).splitlines()[:14]
        written, count = HandScripts(game, script), len(script)
        for place, line in enumerate(script):
            for one in [*cuts(line), *long_lines(line), *changes(dice, line)]:
                written.give_at(place, one.replace(b"\n", b" "))
        for _ in range(DRAWN // len(GAMES)):
            place = dice.randrange(count + 1)
            line = drawn(dice, lambda: dice.choice(script), SCRIPT_WORDS)
            written.give_at(place if dice.random() < 0.9 else 0, line.replace(b"\n", b" "))
        (folder / "g.game").write_bytes(game)
        for lines in written.runs:
            take_script(tally, folder, lines)
        whole = b"".join(line + b"\n" for line in script)
        for data, got in zip(cuts(whole), pool.map(functools.partial(played, folder), cuts(whole), chunksize=AT_ONCE)):
            wanted = dealer.play(game, data, 10000, "g.game")
            tally.take(data, got, (0, wanted, b""), faults_of(wanted))
    tally.want("110 BadScript,21 FoldNotFacing,24 RaiseTooSmall,25 RaiseTooLarge,22 TooManyRaises,read".split(","))
    return tally


def played(folder, script):
    return run([PROGRAM, "hand", "--hands", "10000", "--log", "g.game"], folder, script, LONG_RUN)


def faults_of(printed):
    return [line[2:] for line in printed.decode("latin-1").splitlines() if line.startswith("E ")]


def take_script(tally, folder, lines):
    """Runs a script, and compares the answer to each line."""
    got = played(folder, b"".join(line + b"\n" for line, _, _ in lines))
    if isinstance(got, str) or (got[0], got[2]) != (0, b""):
        tally.wrong.append(f"a script of {len(lines)} lines ended with {shown(got)}")
        return
    printed = got[1]
    for line, wanted, is_input in lines:
        answer, printed = printed[: len(wanted)], printed[len(wanted) :]
        if is_input:
            tally.take(line, answer, wanted, faults_of(wanted))
        elif answer != wanted:
            tally.wrong.append(f"{shown(line)}: {shown(answer)}, not {shown(wanted)}")
        if answer != wanted:
            # where one answer is another, those behind it aren't found
            return
    if printed:
        tally.wrong.append(f"behind all answers stands {shown(printed)}")
