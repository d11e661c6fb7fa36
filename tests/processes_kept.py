"""The files that a simulated process keeps of its peers: of each the life of its store, and the greatest ballot that it is known to have promised.

They are written between two turns, so that their syncs are no part of a call of the node. Times are in milliseconds.
"""
import second_nodes as nodes

# A file is made, with so many syncs, of itself and of its name, when a store is met, and anew for the first ballot of that store. Ballots
# are given a second after the last ones at the soonest.
SYNCS, A_SECOND = 2, 1000.0


def promised_in(message):
    """The ballot that who sends this shows as promised, if it shows one."""
    if message[0] in (nodes.PROMISE, nodes.ACCEPTED):
        return message[1]
    return message[3] if message[0] == nodes.REFUSE else None


class Files:
    """The files of a process, by its peers' numbers: the ballot that each says, if it says one. They are there when it is started again."""

    def __init__(self):
        self.ballots = {}
        self.begin()

    def begin(self):
        """The process is started: what it keeps, it knows."""
        self.met, self.heard, self.next = [], {number: ballot for number, ballot in self.ballots.items() if ballot is not None}, 0.0

    def meet(self, number, promised):
        """A connection to a peer opens, which had promised so much."""
        if number not in self.ballots and number not in self.met:
            self.met.append(number)
        self.hear(number, promised)

    def hear(self, number, promised):
        """A peer shows what it promised."""
        if promised is not None and promised != nodes.NONE:
            self.heard[number] = max(promised, self.heard.get(number, promised))

    def keep(self, now):
        """Keeps what isn't kept yet, and is due behind a turn; how many syncs that costs."""
        made = len(self.met)
        self.ballots.update(dict.fromkeys(self.met))
        self.met = []
        if now >= self.next:
            made += self.give(now)
        return SYNCS * made

    def give(self, now):
        """Keeps the ballots that peers are known to have promised; how many files are made for it."""
        given = {number: ballot for number, ballot in self.heard.items() if self.ballots[number] != ballot}
        made = sum(self.ballots[number] is None for number in given)
        self.ballots.update(given)
        self.next = now + A_SECOND if given else self.next
        return made
