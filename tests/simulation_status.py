"""The rules of tests/simulation on status lines: what a node's store, the list and the match make it say."""
import re

from simulation_trace import SLOTS, STILL, Wrong

# What a status line says (docs/NOTES.md).
YES, BALLOT = "(yes|no)", r"(-|\d+\.\d+)"
STATUS = re.compile(rf"node (\d) front (\d+) hand (-|\d+) over {YES} replaying {YES} promised {BALLOT} leads {YES} quorum {YES} peers (\S+) seats (\S+) pending {YES} backlog (\S+) commands (\d+)/s\n")

# For a bot 64 KiB wait at most, and one line of 4,096 bytes with its end (docs/OPERATING-NODES.md, `backlog`).
LINE = 4_096
MOST_WAITING = 65_536 + LINE + 2


class StatusLines:
    """The rules on status lines."""

    def status(self, moment, node, line):
        self.count_one("told a status")
        found = STATUS.fullmatch(line)
        if found is None:
            raise Wrong("status", moment, f"node {node} tells as its status {line!r}")
        process = self.processes[node]
        backlog = [int(count) for count in found[12].split(",")]
        if max(backlog) >= MOST_WAITING - LINE - 2:
            self.count_one("all that waits for a bot")
        if max(backlog) > MOST_WAITING:
            raise Wrong("queue", moment, f"node {node} has {max(backlog)} bytes that wait for a bot")
        self.settle_doubts(moment)
        wrong = [*self.wrong_node(node, process, found), *self.wrong_peers(node, process, moment, found), *self.wrong_seats(moment, node, process, found)]
        if wrong:
            raise Wrong("status", moment, f"node {node}, {wrong}: {line!r}; {self.front} commands, promised {process.disk.store.promised}")

    def wrong_node(self, node, process, found):
        """Of what a status line says of its node what isn't so."""
        told, front, hand, over, _, promised, _, _, _, _, _, _, commands = found.groups()
        front, ballot = int(front), process.disk.store.promised
        dealt, finished = self.dealt.hands[min(front, self.front)]
        wrong = {
            "node": int(told) != node,
            "front": not process.known <= front <= self.front,
            "hand": hand != (str(dealt - 1) if dealt else "-"),
            "over": over != ("yes" if finished == self.hands else "no"),
            "promised": promised != ("-" if ballot == (0, 0) else "{}.{}".format(*ballot)),
            "leads": not self.may_lead(node, process, ballot, front, found[7]),
            "pending": not self.may_wait(process, front, dealt == finished, found[11]),
            "commands": int(commands) > front,
        }
        return [word for word, is_wrong in wrong.items() if is_wrong]

    def may_lead(self, node, process, ballot, front, leads):
        """A node leads if more than half promised its ballot, and surely if it proposed in it, a slot of it is left, and nobody promised a
        greater one."""
        if leads == "yes":
            return ballot[1] == node and 2 * len(self.promises.get(ballot, ())) > self.count
        return process.proposed != ballot or self.highest > ballot or front >= process.first + SLOTS

    def may_wait(self, process, front, is_between, pending):
        """An action waits if one was read or ordered, and surely where an answer to the newest line was read."""
        if is_between:
            return pending == "no"
        seat = self.dealt.to_act()
        if front != self.front or seat is None:
            return True
        state = self.dealt.last[seat]
        if pending == "yes":
            is_answered = any(self.dealt.command(action) is not None for action in self.answers.get((seat, state), ()))
            return is_answered or seat in self.orders or self.dealt.default() in self.shown
        return process.answered.get(seat) != state

    def is_steady(self, moment, node, other=None):
        """Whether a node has been well for a while, and its ways from and to another one."""
        self.pass_busy(moment)
        pairs = () if other is None else (self.pairs[min(node, other), max(node, other)],)
        return max([self.well[node], *pairs]) + STILL < moment

    def wrong_peers(self, node, process, moment, found):
        """Of what it says of the others what isn't so: each is there, and a front is one that the other told. A node that is well says that
        it has a quorum where it hears one, and that it replays where it has a vote at its front or hears one that is ahead."""
        others = [word.split(":") for word in found[9].split(",")]
        heard = [words for words in others if words[1] != "gone"]
        if [int(words[0]) for words in others] != [other for other in range(self.count) if other != node]:
            yield "peers"
        elif any(int(words[1]) not in self.fronts[int(words[0])] for words in heard):
            yield "fronts of peers"
        if any(self.is_steady(moment, node, int(words[0])) and self.well[int(words[0])] + STILL < moment for words in others if words[1] == "gone"):
            yield "a peer that is there"
        is_steady, is_heard = self.is_steady(moment, node), 2 * (len(heard) + 1) > self.count
        if (found[8] == "yes") != is_heard and (is_steady or not is_heard):
            yield "quorum"
        front = int(found[2])
        is_behind = front in process.disk.store.entries or any(int(words[1]) > front for words in heard)
        is_still = max(self.last, process.voted, process.began) + STILL < moment
        if (found[5] == "yes") != is_behind and (is_still or is_steady and not is_behind):
            yield "replaying"

    def wrong_seats(self, moment, node, process, found):
        """Of what it says of seats what isn't so. A note on who sits there may come behind the line, in the same turn."""
        seats, backlog = [word.split(":") for word in found[10].split(",")], found[12].split(",")
        if [words[0] for words in seats] != self.names or len(backlog) != len(self.names):
            yield "seats"
            return
        heard = [int(words[0]) for words in (word.split(":") for word in found[9].split(",")) if words[1] != "gone"]
        for seat, (_, word) in enumerate(seats):
            # At a node that has been without a quorum for a while nobody sits, whoever is there to be told to wait.
            is_known = process.is_quorate
            if is_known and (word == "seated") != (seat in process.sits):
                self.doubts.append((moment, process, seat))
            elif is_known and word != "seated" and backlog[seat] != "0":
                yield f"backlog of seat {seat}"
            told = [self.sat_at(moment, node, other, seat) for other in heard]
            if word == "elsewhere" and not any(True in sat for sat in told) or word == "away" and {True} in told:
                yield f"seat {seat}"

    def sat_at(self, moment, node, other, seat):
        """What a node may know of a seat at another node, by what that one told: whether it sits there, if it was told long ago."""
        told = self.sat[other]
        since = moment - STILL if self.is_steady(moment, node, other) else 0
        first = max(place for place, (begun, _) in enumerate(told) if begun <= since)
        return {bool(seats >> seat & 1) for _, seats in told[first:]}

    def settle_doubts(self, moment, process=None, seat=None):
        """A note says who sits at a seat: what a status line said of it was right, or nothing has said so for a while."""
        self.doubts = [doubt for doubt in self.doubts if doubt[1] is not process or doubt[2] != seat]
        for told, _, doubted in self.doubts:
            if told + STILL < moment:
                raise Wrong("status", told, f"a status line that says of seat {doubted} what no note says")
