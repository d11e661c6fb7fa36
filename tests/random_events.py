"""The random events of a run of nodes: frames that are lost, late or come twice, ticks, stops and starts, seats and their answers,
and orders for who is away. tests/runs and tests/faults draw them."""
from collections import Counter

# What a hundred runs must have met.
MUST_BE_MET = ["again", "lose", "stop", "start", "halt", "complete", "away", "played_for", "together"]


def answer_of(dice, line, limit):
    """What a seat sends: mostly a call behind the line that it saw, seldom something else."""
    if line is None or dice.random() < 0.04:
        return dice.choice(["VERSION:2.0.0", "MATCHSTATE:0:0::|:c", "", "# nothing", "VERSION:1.0.0"])
    raised = "r" if limit else f"r{dice.choice([200, 300, 400, 1000, 5000, 20000])}"
    return f"{line}:{dice.choices(['c', raised, 'f'], [10, 3, 3])[0]}"


class Chance:
    """The random events of a run."""

    def __init__(self, dice, run, nodes, players, limit):
        self.dice, self.run, self.nodes, self.players, self.limit = dice, run, nodes, players, limit
        self.next, self.met = 0, Counter()
        # of each order that was taken, which act was due at its node, if that was shown
        self.ordered = []

    def deliver(self, number):
        self.run.give(f"deliver {number}")

    def order(self, node):
        due, refused = self.run.due(node), self.run.faults.total()
        self.run.give(f"away {node}")
        if self.run.faults.total() == refused:
            self.ordered.append(due)

    def halt(self, leader):
        """All nodes stop and start, and one of them ticks. What was on its way is lost."""
        for node in range(self.nodes):
            self.run.forget(node)
            self.run.give(f"stop {node} {self.dice.randrange(27)}")
            self.run.give(f"start {node}")
        self.next = len(self.run.frames)
        self.run.give(f"tick {leader}")

    def event(self):
        dice, run = self.dice, self.run
        node, seat = dice.randrange(self.nodes), dice.randrange(self.players)
        kind = dice.choices(
            ["next", "lose", "again", "tick", "answer", "connect", "drop", "stop", "start", "away", "halt"],
            [140, 4, 6, 4, 24, 3, 1, 2, 6, 4, 1],
        )[0]
        if kind == "next" and self.next == len(run.frames):
            kind = dice.choice(["answer", "answer", "answer", "answer", "tick"])
        if kind == "next":
            self.deliver(self.next)
            self.next += 1
        elif kind == "lose" and self.next < len(run.frames):
            self.next += 1
        elif kind == "again" and run.frames:
            self.deliver(dice.randrange(len(run.frames)))
        elif kind == "answer":
            run.give(f"line {node} {seat} {answer_of(dice, run.seen.get((node, seat)), self.limit)}")
        elif kind == "connect":
            run.forget(node, seat)
            run.give(f"connect {node} {seat}")
            run.give(f"line {node} {seat} VERSION:2.0.0")
        elif kind == "drop":
            run.forget(node, seat)
            run.give(f"drop {node} {seat}")
        elif kind == "stop":
            run.forget(node)
            run.give(f"stop {node} {dice.randrange(27)}")
        elif kind == "start":
            run.give(f"start {node}")
        elif kind == "away":
            self.order(node)
        elif kind == "halt":
            self.halt(node)
        else:
            kind = "tick"
            run.give(f"tick {node}")
        self.met[kind] += 1
