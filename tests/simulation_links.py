"""The rules of tests/simulation on what nodes say to each other: connections, records, frames and campaigns."""
from simulation_codes import TAG_BYTES, Direction, proof
from simulation_covered import RECORDS
from simulation_list import AWAY
from simulation_older import SHOWN_AT, shown_by
from simulation_trace import KINDS, SLOTS, STILL, Records, Wrong, ballot_of, number, split
from simulation_windows import WELL

# What a beat begins with where there is no key, in hexadecimal, and how long it is; the places of the front, the flags and the seats in it,
# and which flag says that the match is over.
BEAT, BEAT_SIZE, FRONT, FLAGS, SEATS, OVER = "0000001003", 40, slice(26, 34), slice(34, 36), slice(36, 40), 2

# The same where there is a key, with its tag behind it.
KEYED_BEAT, KEYED_BEAT_SIZE = bytes([0, 0, 0, 1 + 15 + TAG_BYTES, 3]), 5 + 15 + TAG_BYTES

# The version of frames.
FRAMES = 2

HELLO, PROOF, FRAME, BEATS, LIVES, PROMISED = 0, 1, 2, 3, 4, 6
RECORD_WORDS, FRAME_WORDS = [f"record {word}" for word in RECORDS], [f"frame {word}" for word in KINDS]
# What judges a frame of each kind.
SAYS = [f"say_{word.lower()}" for word in KINDS]
# The kinds of frames that a process may say again whatever happened since, with what is counted of each.
LASTING = {KINDS.index(word): (RECORD_WORDS[FRAME], f"frame {word}") for word in ("Accept", "Accepted", "Chosen")}

# The key that nodes of simulated matches share (crates/simulator/src/place.rt).
KEY = bytes([5]) * 32

# A process is taught as long as the front that it is told has risen within its wait for answers, a second at least; between two that are well
# a beat says a front within so long.
TAUGHT, TOLD = 950_000, 350_000

# Campaigns of one process in vain: behind so many the next waits so long at least (docs/NODES.md), whatever it is for: the
# shortest wait, a fifth of a second, is doubled up to two seconds.
SHORTEST, MOST_WAIT = 200_000, 2_000_000


class Connection:
    """A connection, and who has its ends: nodes by their numbers, bots as b0, b1, .."""

    # What its bot said and no node read yet, since when, and what was read of it and is no whole line yet.
    unread, unread_since, partial = b"", 0, b""
    # What was told to its bot and is no whole line yet, and behind how many commands it got the last one.
    told, said, at = b"", b"", 0
    # From which line on its bot asked to be told, if it did, and when; and the place of the last line that it was told. How many commands
    # its node had when it took the bot in.
    asked, asked_at, place, known = None, 0, None, 0
    # The token that its bot showed, when it was taken in, and whether its node has read that it asks, or a line of another kind.
    token, taken_at, resumed, named = None, 0, False, False
    # The word by which its node parts with its bot.
    word = None

    def __init__(self, dialler, listener, seat=None):
        self.dialler, self.listener, self.seat = dialler, listener, seat
        # Of each end that is a node's the process that has it.
        self.processes = {}
        if seat is None:
            # Which node dialled; what each side says: its records, its Hello, and with a key how its further records are opened.
            self.number = int(dialler)
            self.records, self.hellos, self.directions = {}, {}, {}

    def other(self, who):
        return self.listener if self.dialler == who else self.number

    def records_of(self, who):
        records = self.records.get(who)
        if records is None:
            records = self.records[who] = Records()
        return records

    def greet(self, who, body):
        """A side says its Hello. Behind both there is a key for each direction, where the nodes have one."""
        self.hellos[who] = body
        other = str(self.other(who))
        if other in self.hellos:
            hellos = self.hellos[str(self.dialler)] + self.hellos[str(self.listener)]
            for role, side in enumerate((str(self.dialler), str(self.listener))):
                self.directions[side] = Direction(KEY, role, hellos)
            self.proofs = {side: proof(KEY, role, hellos) for role, side in enumerate((str(self.dialler), str(self.listener)))}


class Links:
    """The rules on connections between nodes."""

    def on_dial(self, row):
        connection, *rest = map(int, row[3:])
        while len(self.connections) <= connection:
            self.connections.append(None)
        if self.connections[connection] is not None:
            for process in self.processes.values():
                process.ways.clear()
        if row[1][0] == "b":
            self.connections[connection] = Connection(row[1], rest[0], rest[1])
            self.dial(row[0], row[1], connection, *rest)
        else:
            made = self.connections[connection] = Connection(row[1], rest[0])
            made.processes[row[1]] = self.processes[int(row[1])]

    def connection(self, row):
        at = int(row[3])
        return self.connections[at] if at < len(self.connections) else None

    def own(self, row, connection):
        """The process that speaks over a connection, which is the one that dialled or took it."""
        process = self.speaking.get(row[1])
        if process is None or connection.processes.get(row[1]) is not process:
            raise Wrong("old", row[0], f"node {row[1]} speaks over connection {row[3]}, which its process doesn't have")
        return process

    def open_to(self, row, connection, process):
        """A process speaks over one connection to a peer, behind the greeting: not over an earlier one once it has over a later one."""
        peer, number = connection.other(row[1]), int(row[3])
        process.ways[row[3]] = connection, peer, number, connection.records_of(row[1])
        last = process.open.get(peer, number)
        if last > number:
            raise Wrong("old", row[0], f"node {row[1]} speaks over connection {number} to node {peer}, behind {last}")
        if last < number:
            process.beats.clear()
        process.open[peer] = number

    def is_said_again(self, row, process):
        """Whether frames that stay right, and were before, are whole ones over a connection to another node over which the process has
        spoken before. They are counted then."""
        way = process.ways.get(row[3])
        if way is None:
            return False
        connection, peer, number, reader = way
        if reader.data:
            return False
        if process.open.get(peer) != number:
            self.open_to(row, connection, process)
        process.spoken.setdefault(peer, row[0])
        words, shown = process.lasting[row[4]]
        for word in words:
            self.counts[word] += 1
        for ballot in shown:
            self.show(row[0], int(row[1]), peer, ballot)
        return True

    def say_to_node(self, row, connection, data):
        process, reader = self.own(row, connection), connection.records_of(row[1])
        if self.has_key:
            if len(data) != KEYED_BEAT_SIZE or data[:5] != KEYED_BEAT or reader.data:
                for kind, body in reader.read(data):
                    self.record(row, connection, process, kind, body)
                return
            self.open_to(row, connection, process)
            body = self.opened(row, connection, BEATS, data[5:])
            self.beats += 1
            if process.beats.get(row[3]) != body[8:]:
                self.beat_anew(row, process, body[8:], number(body[8:12]), body[12], number(body[13:15]))
            return
        is_whole, said, shown = not reader.data, [], []
        for kind, body in reader.read(data):
            self.record(row, connection, process, kind, body)
            said.append(LASTING.get(body[5]) if kind == FRAME else None)
            if kind == FRAME and body[5] in SHOWN_AT:
                shown.append(shown_by(body[5], body[6:]))
        if reader.data:
            process.beats.pop(row[3], None)
        elif is_whole and None not in said:
            process.lasting[row[4]] = [word for words in said for word in words], shown

    def record(self, row, connection, process, kind, body):
        moment, node = row[0], int(row[1])
        if kind != BEATS:
            self.counts[RECORD_WORDS[kind]] += 1
        if kind == HELLO:
            connection.greet(row[1], body)
            self.hello(moment, node, body)
            return
        peer = connection.other(row[1])
        if kind != PROOF and process.open.get(peer) != int(row[3]):
            self.open_to(row, connection, process)
        if kind == FRAME:
            process.spoken.setdefault(peer, moment)
        if self.has_key:
            body = self.opened(row, connection, kind, body)
        if kind == FRAME:
            # Frames that stay right are judged once: without a key by what is written, with one by what it opens to.
            if not self.has_key or body not in process.lasting:
                self.frame(moment, node, process, body)
                if self.has_key and body[5] in LASTING:
                    process.lasting[body] = None
            else:
                self.counts[FRAME_WORDS[body[5]]] += 1
            if body[5] in SHOWN_AT:
                self.show(moment, node, peer, shown_by(body[5], body[6:]))
        elif kind == BEATS:
            self.beats += 1
            if not self.has_key:
                self.beat(moment, node, process, number(body[8:12]), body[12], number(body[13:15]))
            elif process.beats.get(row[3]) != body[8:]:
                self.beat_anew(row, process, body[8:], number(body[8:12]), body[12], number(body[13:15]))
        elif kind == LIVES:
            self.lives(moment, node, body)
        elif kind == PROMISED:
            self.told_promise(moment, node, peer, body)

    def opened(self, row, connection, kind, content):
        """What a record says where the nodes have a key."""
        direction = connection.directions.get(row[1])
        if direction is None:
            raise Wrong("tag", row[0], f"node {row[1]} says a record of kind {kind} before both Hellos")
        body = direction.opened(kind, content) if kind != PROOF else content
        if body is None or kind == PROOF and content != connection.proofs[row[1]]:
            raise Wrong("tag", row[0], f"node {row[1]} says a record of kind {kind} with a wrong tag")
        return body

    def is_beat(self, row, process):
        """Whether what is written is a beat and nothing else, between two nodes without a key; it is judged then."""
        connection = self.connection(row)
        if connection is None or connection.seat is not None:
            return False
        who, words = row[1], row[4]
        records = connection.records.get(who)
        if records is not None and records.data:
            return False
        if connection.processes.get(who) is not process:
            self.own(row, connection)
        self.beats += 1
        self.open_to(row, connection, process)
        self.beat_anew(row, process, words[FRONT.start :], int(words[FRONT], 16), int(words[FLAGS], 16), int(words[SEATS], 16))
        return True

    def beat_anew(self, row, process, said, front, flags, seats):
        """A beat says what the one before it did over another connection, but for its number, and nothing changed what is right: else it is
        judged. Over this connection what it says is right from now on."""
        if said != process.beat or process.doubted is not None:
            self.beat(row[0], int(row[1]), process, front, flags, seats)
            process.forget_beat()
            process.beat = said
        if process.doubted is None:
            process.beats[row[3]] = said

    def beat(self, moment, node, process, front, flags, seats):
        """A beat says a front that the list has, not below an earlier one of the process, and the match's end where it has come. Behind a
        failed call of its disk a process tells nothing of its node any more."""
        if process.is_failed:
            return
        if front > self.front or front < process.beat_front or flags & OVER and not self.dealt.is_over():
            raise Wrong("beat", moment, f"node {node} tells front {front} and flags {flags} behind {process.beat_front}, of {self.front} commands")
        if front > process.beat_front:
            self.rises[node].append((moment, front))
        process.beat_front = front
        self.fronts[node].add(front)
        if self.sat[node][-1][1] != seats:
            self.sat[node].append((moment, seats))
        process.learn(moment, front)
        self.doubt(moment, node, process, seats)

    def doubt(self, moment, node, process, seats):
        """Beats say who sits at a node, as notes do a moment before or later. A node without a quorum tells of no seats."""
        process.beat_seats = seats
        if not process.is_quorate or seats == process.sits_now():
            process.doubted = None
        elif process.doubted is None:
            process.doubted = moment
        elif process.doubted + STILL < moment:
            raise Wrong("beat", moment, f"node {node} tells the seats {seats:b}, and by its notes {sorted(process.sits)} sit there")

    def lives(self, moment, node, body):
        """A life that is told is that of the store, or of one that it had before that."""
        told = [body[at : at + 16] for at in range(0, len(body), 16)]
        if len(told) != self.count or any(life not in self.lives_of(place) for place, life in enumerate(told)):
            raise Wrong("lives", moment, f"node {node} tells lives that no store has: {body.hex()}")

    def lives_of(self, node):
        """The lives that the stores of a node had so far, and that of none."""
        return [bytes(16), *(bytes([node + 1 + 16 * count]) * 16 for count in range(self.replacements[node] + 1))]

    def hello(self, moment, node, body):
        """What a Hello says that was promised is so in each image."""
        ballot = ballot_of(body[72:77])
        if self.processes[node].spoilt is not None:
            raise Wrong("store", moment, f"node {node} goes on with no store")
        if not self.processes[node].disk.backs(lambda store: store.promised >= ballot):
            raise Wrong("backed", moment, f"node {node} says that it promised {ballot}, which its disk may not keep")

    # Frames: what one says of its node's store stands in each image of its disk.

    def frame(self, moment, node, process, body):
        if number(body[:4]) != len(body) - 4 or body[4] != FRAMES or not body[5]:
            raise ValueError(f"a frame of node {node}: {body.hex()}")
        self.counts[FRAME_WORDS[body[5]]] += 1
        getattr(self, SAYS[body[5]])(moment, node, process, body[6:])

    def promised(self, moment, node, process, ballot):
        if not process.disk.backs(lambda store: store.promised >= ballot):
            raise Wrong("backed", moment, f"node {node} says that it promised {ballot}, which its disk may not keep")

    def say_ask(self, moment, node, process, part):
        self.count_one("due ask")
        self.know(moment, node, process, number(part))

    def know(self, moment, node, process, front):
        """A process says that it has so many commands."""
        if front > self.front:
            raise Wrong("front", moment, f"node {node} says that it has {front} commands, of {self.front}")
        process.learn(moment, front)

    def say_prepare(self, moment, node, process, part):
        ballot, front = ballot_of(part), number(part[5:9])
        if ballot[1] != node:
            raise Wrong("own", moment, f"node {node} prepares {ballot}")
        self.promised(moment, node, process, ballot)
        self.know(moment, node, process, front)
        process.first = front
        own = {slot: vote for slot, vote in process.disk.store.entries.items() if front <= slot < front + SLOTS and vote[0] < ballot}
        self.reports.setdefault(ballot, {}).setdefault(node, own)
        if ballot in process.begun:
            self.campaign(moment, node, process, ballot, front)

    def say_promise(self, moment, node, process, part):
        ballot = ballot_of(part)
        self.promised(moment, node, process, ballot)
        self.promises.setdefault(ballot, {ballot[1]}).add(node)
        rest, told, entries = part[10:], {}, process.disk.store.entries
        for _ in range(part[9]):
            size = {1: 6 + rest[14] if rest[9] == 1 else 0, 2: 12, 3: 7}[rest[9]]
            slot, earlier, command = number(rest[:4]), ballot_of(rest[4:9]), rest[9 : 9 + size]
            rest = rest[9 + size :]
            kept = entries.get(slot)
            told[slot] = (earlier, command)
            if kept is None or kept[0] < earlier or kept[0] == earlier and kept[1] != command:
                raise Wrong("backed", moment, f"node {node} tells a vote at slot {slot} that its disk doesn't have")
        if rest:
            raise ValueError(f"a promise of node {node} with more than its votes")
        first = number(part[5:9])
        left = [slot for slot in range(first, first + SLOTS) if slot in entries and entries[slot][0] < ballot and slot not in told]
        if left:
            raise Wrong("told", moment, f"node {node} promises {ballot} and doesn't tell its votes at {left}")
        self.reports.setdefault(ballot, {}).setdefault(node, told)

    def say_refuse(self, moment, node, process, part):
        self.promised(moment, node, process, ballot_of(part[9:]))

    def say_accept(self, moment, node, process, part):
        """Who proposes has voted for it himself, in a ballot of his own, which more than half of all promised."""
        ballot = ballot_of(part)
        if ballot[1] != node:
            raise Wrong("own", moment, f"node {node} proposes in {ballot}")
        if 2 * len(self.promises.get(ballot, ())) <= self.count:
            raise Wrong("quorum", moment, f"node {node} proposes in {ballot}, which {sorted(self.promises.get(ballot, ()))} promised")
        process.proposed = ballot
        slot, commands = number(part[5:9]), split(part[10:])
        self.accepted(moment, node, ballot, slot, commands, part[9])
        for place, command in enumerate(commands):
            if not self.may_propose(node, ballot, slot + place, command):
                raise Wrong("value", moment, f"node {node} proposes in {ballot} at slot {slot + place} another command than it was told of")

    def may_propose(self, node, ballot, slot, command):
        """Whether of more than half of all nodes, with the one that proposes, none has told a vote at a slot, or this command is that of the
        greatest ballot."""
        votes = {other: told.get(slot) for other, told in self.reports.get(ballot, {}).items()}
        least = max((vote[0] for vote in votes.values() if vote is not None and vote[1] == command), default=(0, 0))
        agree = {other for other, vote in votes.items() if vote is None or vote[0] <= least}
        return node in agree and 2 * len(agree) > self.count

    def say_accepted(self, moment, node, process, part):
        self.accepted(moment, node, ballot_of(part), number(part[5:9]), split(part[10:]), part[9])

    def accepted(self, moment, node, ballot, slot, commands, count):
        if len(commands) != count:
            raise ValueError(f"a frame of node {node} with another count than {count} of commands")
        for place, command in enumerate(commands):
            vote = self.votes.get((slot + place, ballot), {}).get(node)
            if vote is None:
                raise Wrong("backed", moment, f"node {node} says that it accepted slot {slot + place} in {ballot}, which isn't synced")
            if vote != command:
                raise Wrong("backed", moment, f"node {node} says that it accepted another command at {slot + place}")

    def say_chosen(self, moment, node, process, part):
        slot = number(part[:4])
        if self.chosen.get(slot) != part[4:]:
            raise Wrong("chosen", moment, f"node {node} says that a command was chosen at {slot} that wasn't")
        self.know(moment, node, process, slot + 1)

    def say_forward(self, moment, node, process, part):
        if part[0] == AWAY:
            self.show_default(moment, node, part)

    def look_at_lesson(self, begun, node, before, front):
        """A process begins no ballot while the node whose ballot it has promised teaches it: it is told that one's front, which is above its
        own, and rises. Both have been well for that time, and the way between them."""
        leader = before[1]
        if before == (0, 0) or leader == node or self.dealt.is_over():
            return
        since = max(self.well[node], self.well[leader], self.pairs[min(node, leader), max(node, leader)]) + WELL
        told = [to for moment, to in self.rises[leader] if begun - TAUGHT < moment < begun - TOLD]
        if since < begun - TAUGHT and told and told[-1] > front:
            raise Wrong("taught", begun, f"node {node} begins a ballot at {front} while node {leader}, whose ballot it promised, tells {told[-1]}")

    def campaign(self, moment, node, process, ballot, front):
        """A process campaigns, and says from which slot on: its front. While that stands, it votes in none of its ballots and promised
        itself to nobody else, the waits between its campaigns are doubled. It begins no ballot before it has said the one before."""
        begun, before = process.begun.pop(ballot)
        self.look_at_lesson(begun, node, before, front)
        if any(later > ballot for later in process.begun):
            raise Wrong("twice", moment, f"node {node} says that it began {ballot} behind the next one: {sorted(process.begun)}")
        if begun < process.last:
            return
        if front != process.front:
            process.ballots = 0
        if process.ballots:
            self.count_one("due campaign again")
        least = min(SHORTEST << process.ballots, MOST_WAIT) - self.longest if process.ballots > 1 else 0
        if begun - process.last < least:
            raise Wrong("ballots", moment, f"node {node} campaigns {begun - process.last} after its last one, behind {process.ballots} in vain")
        process.front, process.last = front, begun
        process.ballots += 1
