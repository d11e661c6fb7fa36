"""Which Prepares and Accepts of peers a simulated process takes, and when: those are the frames that cost syncs.

Of each peer only the newest that was read counts, by ballot and then slot. Where it can't be of use yet it is set aside, one of each
peer at most, and is taken last in a turn. Times are in milliseconds.
"""
import second_nodes as nodes

# An Accept that is set aside waits for its slot for so long behind the last command at most.
HOLD = 200.0


def asks(message):
    """Whether a frame is a Prepare or an Accept."""
    return message[0] in (nodes.PREPARE, nodes.ACCEPT)


def subject(message):
    """The ballot and the slot that a Prepare or an Accept names."""
    return message[1], message[2]


def behind(message):
    """The slot behind those of an Accept."""
    return message[2] + len(message[3])


class Aside:
    """What a process keeps of its peers' Prepares and Accepts: by peers' numbers the newest that was read of each, and those that are
    set aside."""

    def __init__(self, process):
        self.process, self.newest, self.frames = process, {}, {}

    def read(self, number, message):
        """A frame of a peer is read."""
        if asks(message):
            newest = self.newest.get(number)
            self.newest[number] = subject(message) if newest is None else max(newest, subject(message))

    def is_older(self, number, message):
        """Whether a newer one of this peer was read."""
        return subject(message) < self.newest[number]

    def waits(self, message, is_last):
        """Whether a Prepare or an Accept is set aside, of which it is said whether nothing more has come behind it."""
        return message[2] > self.process.node.front if message[0] == nodes.ACCEPT else bool(not is_last or self.frames)

    def tells(self, number, message, is_last):
        """Whether a frame is taken when its turn comes: not one that is older, and not one that is set aside."""
        return not asks(message) or not self.is_older(number, message) and not self.waits(message, is_last)

    def lets(self, number, message):
        """Whether a frame whose turn has come is taken now; else it is left out, or set aside."""
        is_told = self.tells(number, message, not self.process.backlog)
        if not is_told and not self.is_older(number, message):
            self.frames[number] = message
        return is_told

    def is_needless(self, number, message):
        """Whether nobody needs the vote for an Accept any more: its peer has told that it knows all its slots as chosen."""
        beat = self.process.peers[number].beat
        return message[0] == nodes.ACCEPT and beat is not None and behind(message) <= beat["front"]

    def is_ready(self, message):
        """Whether one that is set aside may be taken, once nothing else waits."""
        process = self.process
        return message[0] == nodes.PREPARE or message[2] <= process.node.front or process.world.now - process.moved >= HOLD

    def next(self):
        """The next that is taken of those that are set aside, and its peer, if there is one: Prepares first, by falling ballots."""
        self.frames = {number: message for number, message in self.frames.items() if not self.is_older(number, message) and not self.is_needless(number, message)}
        ready = [number for number, message in self.frames.items() if self.is_ready(message)]
        if not ready:
            return None
        number = max(ready, key=lambda number: (self.frames[number][0] == nodes.PREPARE, self.frames[number][1], -number))
        return number, self.frames.pop(number)

    def until(self):
        """When the next may be taken."""
        if not self.frames:
            return 1e18
        return self.process.world.now if any(map(self.is_ready, self.frames.values())) else self.process.moved + HOLD
