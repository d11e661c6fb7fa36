"""Random scripts of `play`: a match of two to ten players at three, five or seven nodes, and what happens to its frames, nodes and
seats. `write` makes the files of a script; what is wanted of it is what second_nodes.py says."""
import random

import second_nodes as nodes

LINES = 300
NO_LINES = ["", "tick", "tick 9", "deliver 999999", "flush -1", "line 0 0", "connect 0 10", " tick 0", "start 0 ", "stop 0"]
FIRST_LINES = 8 * ["VERSION:2.0.0"] + ["VERSION:2.1.0", "# x", "", "VERSION:2.0.0 "]
WRONG_LINES = NO_LINES + ["away", "away 9", "away 0 1"]


def game_text(dice, players):
    first = "2 1 1 1" if players == 2 else "3 1 1 1"
    if dice.random() < 0.3:
        first = " ".join(str(dice.randint(1, players)) for _ in range(4))
    blinds = [10, 5] if players == 2 else [5, 10] + [0] * (players - 2)
    lines = ["GAMEDEF", f"numPlayers = {players}", "numRounds = 4", f"blind = {' '.join(map(str, blinds))}"]
    lines += ["limit", "raiseSize = 10 10 20 20", "maxRaises = 3 4 4 4"] if dice.random() < 0.5 else ["nolimit"]
    if dice.random() < 0.7:
        lines.append("stack = " + " ".join(str(dice.choice([11, 25, 60, 1000])) for _ in range(players)))
    lines += [f"firstPlayer = {first}", "numSuits = 4", "numRanks = 13", "numHoleCards = 2", "numBoardCards = 0 3 1 1"]
    return "\n".join([*lines, "END GAMEDEF", ""])


def deal_text(dice, players):
    cards = dice.sample(nodes.dealer.CARDS, 2 * players + 5)
    holes = "|".join(cards[2 * p] + cards[2 * p + 1] for p in range(players))
    return f'"{holes}/{"".join(cards[-5:-2])}/{cards[-2]}/{cards[-1]}"'


def match_text(dice, players, count, hands):
    names = ", ".join(f'"seat{seat}"' for seat in range(players))
    text = f'name = "random"\ngame = "random.game"\nhands = {hands}\nnames = [{names}]\n'
    for _ in range(count):
        deals = ", ".join(deal_text(dice, players) for _ in range(hands))
        text += "[[node]]\n" + (f"seed = {dice.randrange(1 << 63)}\n" if dice.random() < 0.3 else f"deals = [{deals}]\n")
    return text


class Writer:
    """Writes a script, looking at what its lines come to."""

    def __init__(self, dice, match):
        self.dice, self.match, self.run, self.lines = dice, match, nodes.Script(match), []
        self.count, self.players = len(match.sources), match.game.players
        self.is_calm, self.stops = dice.random() < 0.25, dice.random() < 0.5
        self.run.begin()

    def say(self, line):
        self.lines.append(line)
        self.run.answer(line.encode("latin-1"))

    def write(self):
        for seat in range(self.players):
            self.connect(seat, "VERSION:2.0.0")
        choices = [
            self.deliver, self.repeat, self.flush, self.tick, self.stop, self.start, self.reconnect, self.drop, self.wrong, self.act,
            self.away, self.halt,
        ]
        while len(self.lines) < LINES:
            self.dice.choices(choices, [45, 5, 8, 4, 2, 4, 2, 0.5, 1.5, 28, 5, 0.5])[0]()
        for node in range(self.count):
            self.say(f"start {node}")
        self.say("flush 3000")
        return "".join(line + "\n" for line in self.lines)

    def node(self):
        return self.dice.randrange(self.count)

    def connect(self, seat, first):
        node = self.node()
        self.say(f"connect {node} {seat}")
        self.say(f"line {node} {seat} {first}")

    def deliver(self):
        waiting = sorted(self.run.waiting)
        if waiting:
            self.say(f"deliver {waiting[0] if self.is_calm else self.dice.choice(waiting)}")

    def repeat(self):
        if self.run.sent:
            self.say(f"deliver {self.dice.randrange(len(self.run.sent))}")

    def flush(self):
        self.say(f"flush {self.dice.choice([0, 1, 3, 10, 60])}")

    def tick(self):
        self.say(f"tick {self.node()}")

    def stop(self):
        if self.stops:
            self.say(f"stop {self.node()} {self.dice.choice([0, 1, 2, 8, (1 << 64) - 1])}")

    def halt(self):
        """All nodes stop and start, and one of them ticks: it has to be told what was accepted."""
        if self.stops:
            for node in range(self.count):
                self.say(f"stop {node} {self.dice.choice([0, 1, 2, 8])}")
                self.say(f"start {node}")
            self.say(f"tick {self.node()}")

    def start(self):
        self.say(f"start {self.node()}")

    def away(self):
        self.say(f"away {self.node()}")

    def reconnect(self):
        self.connect(self.dice.randrange(self.players), self.dice.choice(FIRST_LINES))

    def drop(self):
        self.say(f"drop {self.node()} {self.dice.randrange(self.players)}")

    def wrong(self):
        self.say(self.dice.choice(WRONG_LINES))

    def act(self):
        """A seat that is connected to some node acts there, mostly in its turn and by a right line."""
        node = self.run.nodes[self.node()]
        ready = sorted(seat for seat in node.sessions if node.sessions[seat].is_ready)
        if not ready or node.table.hand is None:
            self.say(self.dice.choice(["flush 5", "flush 20", f"tick {self.node()}"]))
            return
        hand = node.table.hand
        turn = (hand.turn + hand.number) % self.players
        seat = turn if turn in ready and self.dice.random() < 0.9 else self.dice.choice(ready)
        line = node.table.line(seat)
        if self.dice.random() < 0.04:
            place = self.dice.randrange(len(line))
            line = line[:place] + self.dice.choice("0123456789:|/cfrMAT ;#dhs") + line[place + 1 :]
        self.say(f"line {node.number} {seat} {line}:{self.action(hand)}")

    def action(self, hand):
        if self.dice.random() < 0.07:
            return self.dice.choice(["x", "", "r1", "r", "ff", "F", "r00"])
        raises = ["r"] if self.match.game.limit else [f"r{hand.least}", f"r{hand.least + self.dice.randrange(200)}", "r0", "r4294967296"]
        return self.dice.choice(["f", "c", "c", "c", *raises])


def write(number, seed, folder):
    """Writes a script's files into a folder; the script, and what is wanted of it."""
    dice = random.Random(f"{seed} {number}")
    players, count, hands = dice.choice([2, 2, 2, 3, 3, 4, 6, 10]), dice.choice([3, 3, 5, 7]), dice.randint(1, 5)
    (folder / "random.game").write_text(game_text(dice, players))
    (folder / "random.toml").write_text(match_text(dice, players, count, hands))
    match = nodes.Match("random.toml", folder)
    script = Writer(dice, match).write().encode("latin-1")
    return script, nodes.play(match, script)
