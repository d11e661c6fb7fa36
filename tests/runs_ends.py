"""How each run of tests/runs ends: from wherever its events led it, one node of a minimal majority ends the match.

No state of a match is a dead end. A node that has something to propose moves on by at most 4q events, with q members of the
majority: by the round of its next ballot, or, where the member that promised most refuses that, by the round of the ballot
after it. Where it has nothing to propose, it awaits a bot, and an order of the default action helps. So the match ends by at
most q + 3 + (N - f)(4q - 2) events, where its hands have N commands at most, and f is the node's front.

What is next is read off the printed frames alone: a node's promise is the greatest ballot that it began, promised or accepted.
"""
PREPARE, PROMISE, REFUSE, ACCEPT, ACCEPTED = range(1, 6)
# The commands of a hand: its deal and at most 256 actions.
OF_A_HAND = 257


class DeadEnd(Exception):
    """Where a run didn't go on, in words."""


def kind(frame):
    return frame[5]


def ballot_of(frame):
    return int.from_bytes(frame[6:10], "big"), frame[10]


def slot_of(frame):
    return int.from_bytes(frame[11:15], "big")


def told_by(refuse):
    """The ballot that a Refuse tells."""
    return int.from_bytes(refuse[15:19], "big"), refuse[19]


def promised(frames, node):
    """The greatest ballot that a node has promised, by what it sent."""
    said = (frame for sender, _, frame in frames if sender == node and kind(frame) in (PREPARE, PROMISE, ACCEPTED))
    return max(map(ballot_of, said), default=(0, 0))


class Ending:
    """The events by which a node ends a match with the members of a minimal majority; `order` gives an order to a node."""

    def __init__(self, run, members, node, hands, order):
        self.run, self.members, self.node, self.hands, self.order = run, members, node, hands, order
        self.others = [member for member in members if member != node]
        self.events = self.refused = self.ordered = 0

    def give(self, event):
        """The frames that an event made, each with its number; it mustn't print a fault."""
        first, faults = len(self.run.frames), self.run.faults.total()
        event()
        self.events += 1
        if self.run.faults.total() != faults:
            raise DeadEnd(f"event {self.events} of the end of a match printed a fault")
        return list(enumerate(self.run.frames[first:], first))

    def deliver(self, number):
        return self.give(lambda: self.run.give(f"deliver {number}"))

    def tick(self):
        """The Prepare of the node's next ballot to each other node; none where the match is over at it."""
        made = self.give(lambda: self.run.give(f"tick {self.node}"))
        return {receiver: number for number, (_, receiver, frame) in made if kind(frame) == PREPARE}

    def answer(self, number, wanted):
        """The number of the one frame of this kind that the node is sent for a frame."""
        made = [at for at, (_, receiver, frame) in self.deliver(number) if receiver == self.node and kind(frame) == wanted]
        if len(made) != 1:
            raise DeadEnd(f"frame {number} was answered by {len(made)} frames of kind {wanted}")
        return made[0]

    def next_ballot(self, prepares, is_first):
        """The Prepares of a ballot that nobody of the members refuses."""
        ballot = ballot_of(self.run.frames[next(iter(prepares.values()))][2])
        most, member = max((promised(self.run.frames, other), other) for other in self.others)
        if most < ballot:
            return prepares
        if not is_first:
            raise DeadEnd(f"ballot {ballot} is refused again, by node {member} for {most}")
        refusal = self.answer(prepares[member], REFUSE)
        if told_by(self.run.frames[refusal][2]) != most:
            raise DeadEnd(f"frame {refusal} doesn't tell {most}")
        self.deliver(refusal)
        self.refused += 1
        prepares = self.tick()
        ballot = ballot_of(self.run.frames[next(iter(prepares.values()))][2])
        if ballot != (most[0] + 1, self.node):
            raise DeadEnd(f"node {self.node} was told {most} and began {ballot}")
        return prepares

    def proposal(self, prepares):
        """The Accept to each other node, behind the last Promise or behind an order."""
        made = []
        for promise in [self.answer(prepares[other], PROMISE) for other in self.others]:
            made += self.deliver(promise)
        accepts = {receiver: number for number, (_, receiver, frame) in made if kind(frame) == ACCEPT}
        if not accepts:
            made = self.give(lambda: self.order(self.node))
            self.ordered += 1
            accepts = {receiver: number for number, (_, receiver, frame) in made if kind(frame) == ACCEPT}
        if not accepts:
            raise DeadEnd(f"node {self.node} proposes nothing")
        return accepts

    def way(self, prepares, is_first, commands_of):
        """Takes one way, behind its tick; the slot to which the node's front then has come."""
        before = self.events - 1
        accepts = self.proposal(self.next_ballot(prepares, is_first))
        accept = self.run.frames[next(iter(accepts.values()))][2]
        for vote in [self.answer(accepts[other], ACCEPTED) for other in self.others]:
            self.deliver(vote)
        most = 4 * len(self.members) + self.ordered if is_first else 4 * len(self.members) - 2
        if self.events - before > most:
            raise DeadEnd(f"a way took {self.events - before} events")
        return slot_of(accept) + len(commands_of(accept[16:]))

    def play(self, commands_of):
        """Ends the match at the node; how many ways that took."""
        for member in self.members:
            self.give(lambda: self.run.give(f"start {member}"))
        first = front = None
        ways, prepares = 0, self.tick()
        while prepares:
            slot = slot_of(self.run.frames[next(iter(prepares.values()))][2])
            first = slot if first is None else first
            if front is not None and slot < front:
                raise DeadEnd(f"the front of node {self.node} is {slot} behind a way to {front}")
            front, ways = self.way(prepares, ways == 0, commands_of), ways + 1
            prepares = self.tick()
        q, left = len(self.members), OF_A_HAND * self.hands - (first or 0)
        # The last tick, at which the match is over, isn't one of them.
        if self.events - 1 > q + 3 + left * (4 * q - 2):
            raise DeadEnd(f"the match took {self.events - 1} events to its end")
        return ways
