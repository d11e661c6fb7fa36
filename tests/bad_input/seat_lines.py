"""Lines that seats send."""
from .damage import DRAWN, changes, cuts, drawn
from .games import read_game
from .models import GAMES, NAMES, nodes
from .running import PROGRAM, Tally, take_lines


LINE_WORDS = [
    *b"MATCHSTATE VERSION 2.0.0 2.0.0000000000 2.0 0 1 2 3 9999 10000 00 -1 f c r r100 r300 r0 r4294967295 r4294967296 / | : # ;".split(),
    *b"Td As 2c2d TdAs /2c8c3h matchstate".split(), b" ", b"\r", b"\0", b"\xff", b"cc/", b"rrrrr",
]


class Seats:
    """Lines of seats at the nodes of a match, through one script of `play`: a hand runs, and stays as it is."""

    def __init__(self, word, actions):
        self.word = word
        players = read_game(GAMES[word])
        names = ", ".join(f'"{name}"' for name in NAMES[:players])
        self.text = f'name = "m1"\ngame = "{word}.game"\nhands = 2\nnames = [{names}]\n' + "[[node]]\nseed = 1\n" * 3
        self.lines, self.inputs, self.actions = [], [], actions

    def begin(self, folder):
        (folder / f"{self.word}.game").write_bytes(GAMES[self.word])
        (folder / f"{self.word}.toml").write_text(self.text)
        self.model = nodes.Script(nodes.Match(f"{self.word}.toml", folder))
        self.first = self.model.begin()
        for line in [b"tick 0", b"flush 99"]:
            self.say(line)
        for action in self.actions:
            seat = self.turn()
            for line in (b"connect 0 %d" % seat, b"line 0 %d VERSION:2.0.0" % seat, b"line 0 %d %s" % (seat, self.answer(seat, action)), b"flush 99"):
                self.say(line)

    def table(self):
        return self.model.nodes[0].table

    def turn(self):
        """The seat that is to act, or seat 0."""
        hand = self.table().hand
        return 0 if hand.over else (hand.turn + hand.number) % hand.game.players

    def answer(self, seat, action):
        """A seat's line with an action behind it."""
        return self.table().line(seat).encode() + b":" + action

    def say(self, line):
        self.lines.append((line, self.model.answer(line), None))

    def give(self, node, seat, data, is_first=False):
        """Gives a line in a new session, as its first line or behind the version."""
        data = data.replace(b"\n", b" ")
        self.say(b"connect %d %d" % (node, seat))
        if not is_first:
            self.say(b"line %d %d VERSION:2.0.0" % (node, seat))
        line = b"line %d %d %s" % (node, seat, data)
        self.lines.append((line, self.model.answer(line), data))


def long_answers(line):
    """A line of a seat made too long, by itself and up to the most that a line may have."""
    for more in (b"0", b"c", b":", b":c", b"/", b" ", b"\r"):
        yield line + more
    for length in (4094, 4095, 4096, 4097, 5000, 100000):
        yield line + b"0" * max(0, length - len(line))
        yield b"#" + line + b"x" * max(0, length - len(line) - 1)


def lines_of_seats(dice, folder):
    """Lines of seats to nodes of several matches."""
    tally = Tally("lines of seats")
    setups = [("l2", []), ("l2", [b"c", b"c", b"r"]), ("l2", [b"c"] * 8), ("n3", [b"r300"]), ("n3", [b"c", b"c", b"c", b"r200"])]
    for word, actions in setups:
        seats = Seats(word, actions)
        seats.begin(folder)
        turn, players = seats.turn(), seats.table().game.players
        acts = [b"f", b"c", b"r"] if seats.table().game.limit else [b"f", b"c", b"r500", b"r1", b"r4294967295"]
        for line in (seats.answer(turn, act) for act in acts[:3]):
            for one in [*cuts(line), *long_answers(line), *changes(dice, line), line]:
                seats.give(dice.choice([0, 0, 1]), turn, one)
        for line in (b"VERSION:2.0.0", b"VERSION:2.0.123456789", b"# x", b"; x"):
            for one in [*cuts(line), *long_answers(line), *changes(dice, line), line]:
                seats.give(0, turn, one, is_first=True)
        for _ in range(DRAWN // len(setups)):
            seat, of = dice.choice([turn, turn, dice.randrange(players)]), dice.randrange(players)
            line = drawn(dice, lambda: seats.answer(dice.choice([seat, seat, seat, of]), dice.choice(acts)), LINE_WORDS)
            seats.give(dice.randrange(3), seat, line, dice.random() < 0.1)
        take_lines(tally, folder, [PROGRAM, "play", f"{word}.toml"], seats.first, seats.lines)
    tally.want("80 BadVersion,81 LineTooLong,82 Malformed,83 NotCurrent,84 NotYourTurn,85 Illegal,read".split(","))
    tally.want("40 NotMatchstate,41 BadNumber,42 BadBetting,43 BadCards,44 BadAction".split(","))
    return tally
