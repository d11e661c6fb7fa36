"""The rules of tests/simulation on how soon a node serves: what it learns, what it tells its seats, and what it reads of them."""
import bisect

from simulation_trace import STILL, Wrong
from simulation_windows import MINUTE, NEVER, PROGRESS, WELL

# The token of a seat is its number, so many times (crates/simulator/src/plan.rt).
TOKEN_DIGITS = 64

# Without a quorum for so long a process lets go of its seats, and it reads on what a bot says for so long then (docs/OPERATING-NODES.md).
HANG_UP, RESUME = 300_000, 2_000_000

# A node that has been well for a while tells a seat a line, and reads what its bot says, within so long.
SOON = 100_000


def token_of(seat):
    return str(seat) * TOKEN_DIGITS


class Served:
    """What nodes that are well owe to their seats, and what they are to know; and what those without a quorum tell them."""

    def begin_served(self):
        # When each command of the list was chosen.
        self.moments = []
        # Of each bot the number of the connection that it dialled last, and when; those that weren't taken in yet; and the bots that
        # closed theirs since.
        self.dialled, self.waiting, self.parted = {}, {}, set()
        # Which processes told a bot to wait, and when, of which no note says yet that they have no quorum.
        self.unsure = []

    def calm_since(self, node):
        """Since when a node has been well for a while with more than half of all."""
        return min(since for group, since in self.groups.items() if node in group) + WELL

    def dial(self, moment, bot, number, node, seat):
        """A bot dials a node: it gives up its dial before, or the connection that it had."""
        self.taken(moment, self.dialled.get(bot))
        self.dialled[bot], self.waiting[number] = number, (moment, node, seat)
        self.parted.discard(bot)

    def leave(self, moment, bot):
        """A bot gives up its connection, or its dial."""
        self.taken(moment, self.dialled.get(bot))
        self.parted.add(bot)

    def taken(self, moment, number):
        """A bot sits down that dialled, or gives its dial up. A node that is well, has nothing to learn, and at which nobody sits at that
        seat, takes it in at once, however many others come."""
        begun, node, seat = self.waiting.pop(number, (moment, None, None))
        if node is not None and max(begun, self.open_since(node, seat)) + SOON < moment and self.shows_token(number):
            raise Wrong("taken", moment, f"node {node} left a bot waiting that dialled it at {begun}")

    def turn_away(self, moment, node, process, number, connection):
        """A node closes the connection of a bot that doesn't sit yet: one that would have to take it in doesn't. Another one has been crowded
        since then."""
        begun, at, seat = self.waiting.pop(number, (moment, None, None))
        if at is None or connection.token not in (None, token_of(seat)) or not self.stays(node, process, number, connection):
            return
        process.crowded[seat] = moment
        if self.shows_token(number) and self.open_since(node, seat) + SOON < moment:
            raise Wrong("taken", moment, f"node {node} turned a bot away that dialled it at {begun}")

    def shows_token(self, number):
        """Whether the bot of a connection showed the token of its seat, where seats have tokens."""
        connection = self.connections[number]
        return not self.has_tokens or connection.token == token_of(connection.seat)

    def open_since(self, node, seat):
        """Since when a node has had to take in at once who comes to a seat; never where it hasn't."""
        process = self.processes.get(node)
        if process is None or seat in process.seated or process.known < self.front or self.front in process.disk.store.entries:
            return NEVER
        return max(self.last, process.freed.get(seat, 0), self.calm_since(node))

    def part(self, moment, node, process, number, connection):
        """A node closes the connection of a bot that was taken in at its seat. One that is well does so where the bot closed it, or the match
        is over. One without a quorum has told it to wait where it read that it asks, and has read whether it does, or waited for that."""
        seat = connection.seat
        if process.seated.get(seat) != number or self.readings[number].is_too_long or not self.stays(node, process, number, connection):
            return
        if seat in process.sits and self.calm_since(node) < moment:
            raise Wrong("kept", moment, f"node {node} closes the connection of seat {seat}, whose bot stays")
        is_read = connection.named or moment - connection.taken_at >= RESUME
        if connection.word is None and (connection.resumed or not is_read):
            if not process.is_quorate:
                raise Wrong("waits", moment, f"node {node}, which has no quorum, closes the connection of seat {seat} without a word")
            process.hung.append(moment)

    def stays(self, node, process, number, connection):
        """Whether a bot has its connection still, as far as it goes by the bot, and the match goes on. Where seats have tokens another one
        that has dialled this node for the same seat takes its place."""
        bot = connection.dialler
        if bot in self.parted or self.dialled.get(bot) != number or self.dealt.is_over() or process.is_failed or self.may_refuse:
            return False
        others = [self.connections[last] for other, last in self.dialled.items() if other != bot]
        return not self.has_tokens or all((end.listener, end.seat) != (node, connection.seat) for end in others)

    def note_quorum(self, row, node, process):
        process.is_quorate, process.hung = True, []
        process.forget_beat()
        self.quorum = row[0] if self.quorum is None else self.quorum

    def note_quorumlost(self, row, node, process):
        """It is told behind what was said and closed in the same turn."""
        process.is_quorate = False
        process.forget_beat()
        self.unsure = [(moment, other) for moment, other in self.unsure if other is not process]
        if process.hung and process.hung[-1] + STILL > row[0]:
            raise Wrong("waits", process.hung[-1], f"node {node}, which lost its quorum, closes the connection of a seat without a word")

    def look_at_wait(self, moment, node, process, connection):
        """A node tells a bot to wait: it has been without a quorum for a while, and tells so behind that, if it had one."""
        if process.is_quorate:
            self.unsure.append((moment, process))
        elif moment - process.began < HANG_UP:
            raise Wrong("waits", moment, f"node {node} tells seat {connection.seat} to wait {moment - process.began} behind its begin")

    def settle_waits(self, moment):
        """Who told a bot to wait has told by now that its quorum is lost."""
        for told, process in self.unsure:
            if told + STILL + self.longest < moment and process in self.processes.values():
                raise Wrong("waits", told, "a node with a quorum tells a bot to wait")

    def look_at_nodes(self, moment):
        """Looks at each node that has been well for a while."""
        self.pass_busy(moment)
        if self.unsure:
            self.settle_waits(moment)
        if self.aged:
            self.look_at_older(moment)
        for node, process in self.processes.items():
            if process.known < self.front and moment - self.moments[process.known] > PROGRESS:
                self.look_at_front(moment, node, process)
            for seat, number in process.seated.items():
                self.look_at_seat(moment, node, process, seat, number)

    def look_at_answers(self, moment, node, seat):
        """A node orders that a seat is played for: no other one has had its answer for long, where all have been well for a while."""
        since = max(*self.well, *self.pairs.values()) + WELL
        for other, process in self.processes.items():
            if self.dealt.to_act() == seat and process.answered.get(seat) == self.dealt.last[seat]:
                base = max(since, process.answers_at[seat])
                if moment - base > WELL + 4 * self.longest_since(base - MINUTE):
                    raise Wrong("answered", moment, f"node {node} plays for seat {seat}, whose answer node {other} has had since {process.answers_at[seat]}")

    def look_at_front(self, moment, node, process):
        """A node that is well with more than half of all knows what was chosen within the time in which the next command is to come."""
        since = min(since for group, since in self.groups.items() if node in group)
        base = max(self.moments[process.known], since + WELL, process.began)
        limit = PROGRESS + 4 * self.longest_since(base - MINUTE)
        if moment - base > limit:
            raise Wrong("behind", moment, f"node {node}, which has been well since {since}, tells {process.known} of {self.front} commands, behind {(moment - base) / 1e6:.1f} s, of {limit / 1e6:.1f} at most")

    def look_at_seat(self, moment, node, process, seat, number):
        """A bot that sits at a node that is well: what it said is read, and the lines that the node has are told to it."""
        connection = self.connections[number] if number < len(self.connections) else None
        if connection is None or process.seated.get(seat) != number or seat not in process.sits:
            return
        since = max(self.well[node], process.seated_at[seat]) + WELL
        if since + SOON >= moment:
            return
        if connection.unread and max(since, connection.unread_since) + SOON < moment:
            raise Wrong("heard", moment, f"node {node} has read nothing of seat {seat} since {connection.unread_since}: {connection.unread!r}")
        places, told = self.dealt.places[seat], -1 if connection.place is None else connection.place
        if told + 1 == len(places) or process.known < places[told + 1]:
            return
        newest = bisect.bisect_right(places, process.knew_at(moment - SOON)) - 1
        if told < 0 and (connection.asked or "").startswith("MATCHSTATE"):
            # The node may not have come to the line that its bot named.
            return
        if told < newest:
            raise Wrong("shown", moment, f"node {node} has told seat {seat} its line {told}, and not its line {newest}")
