"""The rules by which tests/simulation judges a trace, each with its name."""
import collections
import functools
import struct

from simulation_covered import names_of
from simulation_links import BEAT, BEAT_SIZE, FRONT
from simulation_list import AWAY, Dealt, Decks
from simulation_older import OLDER, Older, Unknowable
from simulation_process import Process
from simulation_seats import Seats
from simulation_served import Served
from simulation_trace import NO_STORE, TOP, Backwards, Wrong, bytes_of, dealer, field, flipped, new_store, rows_of
from simulation_windows import NEVER, Windows

# What each rule says of a trace.
RULES = {
    "agree": "at no slot two commands are chosen, and none is voted for above a ballot in which another one was",
    "answered": "no node plays for a seat whose answer it has, or another one has had for long where all are well",
    "backed": "what a node says of its store stands in each image of its disk",
    "ballot": "no record of a store is of a ballot below one that was promised",
    "ballots": "the waits between campaigns in vain double",
    "beat": "a beat tells a front that the list has, none below an earlier one, the end where it has come, and the seats that sit there",
    "behind": "a node that is well with more than half knows each command within its time",
    "chosen": "who says that a command was chosen is right",
    "deal": "a deal is of the cards of the node that proposed it first",
    "early": "nobody is played for before all seats came, or the start is over",
    "ends": "no process ends but at the end of the match, or since its disk failed",
    "front": "no node says that it has more commands than the list",
    "gap": "wherever more than half of the nodes are well for a second, the next command comes within its time",
    "heard": "a node that is well reads at once what a bot says that sits there",
    "image": "a process begins on what its disk kept",
    "joined": "a process tells of each peer to which it speaks that it is there",
    "kept": "a node that is well with more than half closes no connection of a bot that stays",
    "late": "who is played for was waited for",
    "lives": "who tells of a store's life is right",
    "memory": "a run takes no more memory than its processes and commands need",
    "no-gap": "a connection is told all lines of its seat from the one on that was asked for",
    "older": "where an older copy of a store is put back, who knows better refuses its node, which ends, and nobody else is refused by that",
    "old": "a process speaks over connections that it dialled or took itself, one to each peer",
    "one-list": "each line is the second dealer's, of a beginning of the list",
    "one-log": "each log is the second dealer's, of a beginning of the list",
    "one-value": "in a ballot nobody votes for two commands at a slot",
    "opens": "a process begins, unless its disk fails then",
    "ordered": "a default action was ordered by a node, and the match has a patience",
    "own": "a node campaigns and proposes in ballots of its own",
    "peers": "no node refuses another one of the match",
    "progress": "the match ends at all nodes",
    "queue": "what waits for a bot, and what is read of whoever came, is bounded",
    "quorum": "who proposes has the promises of more than half of all nodes",
    "replaced": "no node takes one in whose store it knew before that was lost",
    "said": "an act was said by the seat to act, with its amount",
    "seated": "who sits at a seat was taken in there",
    "shown": "a node that is well tells a seat at once each line that it has",
    "status": "a status line says what the store, the list and the peers make it say",
    "store": "what a disk keeps is a store",
    "tag": "each record is said with the tag that the key gives it",
    "taught": "a node begins no ballot while the one whose ballot it promised teaches it",
    "taken": "a node that is well with more than half takes a bot in at once that dials it",
    "token": "who shows no token, where seats have them, and who comes to no seat is told nothing but a status",
    "told": "a promise tells each vote of its node at the slots that were asked for",
    "trace": "what a process does is told of one that runs, and what nodes say are whole records and frames",
    "twice": "a ballot is said before the next one begins",
    "value": "who proposes takes the vote of the greatest ballot that it was told of at that slot",
    "whole-log": "a process that ends well has written the whole log",
    "waits": "a node without a quorum, and no other, tells a bot to wait that asked for its lines, and closes it then",
    "wire": "of a bot is read what it said",
    "word": "a bot that asked for its lines is told of the end, or that its line is none, where that is so",
}

# How long seats are waited for at the start, where the script doesn't say.
START = 600_000_000

# A process whose match is over ends at once: what its peers told in the last second may still wait behind its slow calls.
UNTOLD = 1_000_000

# The most memory of a run, in bytes: that of the program with its trace, that of each process, and for each command what its node and its
# disk keep. A process takes room for 128 commands before a call, 41 KB each, whose pages are there once the room was moved. Nothing grows
# by how long the match takes, what is lost, or who comes. What a process alone takes is said in docs/OPERATING-NODES.md (What to watch).
PROGRAM_TAKES, PROCESS_TAKES, COMMAND_TAKES = 4 << 20, 6 << 20, 3 << 9

# By which faults the nodes that know a match refuse one whose store was lost, and which refuses them.
LOST = ("StoreReplaced", "OtherMatch")
# By which a store is refused.
NO_STORES = ("NoStore", "BadHeader", "BadRecord")

# What reading a row comes to that no process does.
NO_TRACE = (ValueError, IndexError, KeyError, AttributeError, struct.error)

# How many calls of a disk pass before one fails, by the order `fail`, where none does.
NO_FAILURE = (1 << 64) - 1


class Checker(Seats, Windows, Served, Older):
    """Goes through a trace, event by event: a row has its moment, who it is of, its word, and what is behind that."""

    def __init__(self, script, text, peak=None, may_refuse=False):
        self.script, self.peak, self.may_refuse = script, peak, may_refuse
        words = script[0].split(" ")
        self.count, self.hands, self.has_key = int(words[1]), int(words[2]), words[5] == "key"
        self.patience = None if words[4] == "-" else int(words[4])
        game, self.names = dealer.Game((TOP / words[6]).read_bytes()), words[7].split("|")
        self.start = int(words[9]) if len(words) > 9 and words[9] != "-" else START
        self.waits, self.has_tokens = words[10:11] == ["waits"], words[8:9] == ["tokens"]
        self.dealt = Dealt(game, self.names, self.hands, f"# name/game/hands m1 {words[6]} {self.hands}")
        self.decks = [Decks((int(words[3]) + node) % (1 << 64), game.players) for node in range(self.count)]
        self.rows = rows_of(text)
        self.counts, self.told, self.beats, self.longest = collections.defaultdict(int), 0, 0, 0
        self.begin_nodes()
        self.begin_list()
        self.begin_windows()
        self.begin_served()
        self.begin_older()

    def begin_nodes(self):
        """What is known of nodes, connections and bots."""
        self.processes, self.images, self.logs, self.connections = {}, {}, {}, []
        # The same processes by what rows say of whom they are.
        self.speaking = {}
        self.died, self.over = {}, set()
        # Who has been told which peers are there, while their stores were what they had been.
        self.met = set()
        # The nodes whose store has a bit that is another one, and how many times each one's was replaced by a new one.
        # The nodes whose disk is to fail, the fronts that each has told by beats, and the seats, with the moment since when.
        self.damaged, self.replacements = set(), [0] * self.count
        self.failing, self.fronts, self.sat = set(), [{0} for _ in range(self.count)], [[(0, 0)] for _ in range(self.count)]
        # When the front rose that each node has told, and to what.
        self.rises = [[] for _ in range(self.count)]
        # What status lines said of seats that no note has said yet.
        self.doubts = []
        # What was read of who came, by the numbers of connections.
        self.readings = {}

    def begin_list(self):
        """What is known of the list: votes, promises, what seats said and when they were played for."""
        self.votes, self.promises, self.chosen, self.front = {}, {}, {}, 0
        # By ballots what each node that promised it had voted for at the slots that were asked for.
        self.reports = {}
        # By which ballot a command was first voted for at a slot, in which it was chosen, and the highest that any node promised.
        self.origins, self.chosen_in, self.highest = {}, {}, (0, 0)
        # What nodes read of seats: the actions by seat and line. When the last command came that did something.
        self.answers, self.acted = {}, 0
        # When default actions were shown first, which were ordered since the last command, and how many each seat had in a row.
        self.shown, self.orders, self.defaults = {}, {}, [0] * len(self.names)
        # Which seats have come, when the last one did, and when a node first had a quorum: nobody is played for before all came, or the start is over.
        self.came, self.all_came, self.quorum = set(), NEVER, None

    def count_one(self, word):
        self.counts[word] += 1

    def run(self):
        try:
            self.go_through()
        except Unknowable:
            self.count_one("an older copy of which nobody is sure to know")
            return self
        finally:
            if self.beats:
                self.counts["record Beat"] = self.beats
        self.at_end()
        return self

    def go_through(self):
        """All rows, one after another. What a process says is mostly what was right before, over this connection or another one of its: a
        beat that says what the one before it did, or, without a key, frames that stay right. Nothing more is looked at then."""
        does = {name[3:].replace("_", "-"): getattr(self, name) for name in dir(self) if name.startswith("on_")}
        speaking, on_say, said = self.speaking, self.on_say, FRONT.start
        for row in self.rows:
            word = row[2]
            try:
                if word == "say":
                    words, process = row[4], speaking.get(row[1])
                    if process is None:
                        on_say(row)
                    elif len(words) == BEAT_SIZE and words.startswith(BEAT):
                        if process.beats.get(row[3]) == words[said:]:
                            self.beats += 1
                        elif self.has_key or not self.is_beat(row, process):
                            on_say(row)
                    elif words not in process.lasting or not self.is_said_again(row, process):
                        on_say(row)
                elif row[1] == "-":
                    self.count_one("order " + word)
                    self.order(row)
                elif word in does:
                    does[word](row)
            except NO_TRACE as why:
                raise Wrong("trace", row[0], f"{why!r} in {' '.join(map(str, row))[:200]}") from why

    @property
    def end(self):
        return self.rows[-1][0] if self.rows else 0

    # What happens.

    def order(self, row):
        word = row[2]
        if word in ("kill", "halt"):
            self.died[int(row[3])] = int(row[4])
            self.stop_begin(row[0], int(row[3]))
        elif word == "fail":
            (self.failing.discard if int(row[4]) == NO_FAILURE else self.failing.add)(int(row[3]))
        elif word in ("leave", "hush"):
            self.leave(row[0], f"b{row[3]}")
        elif word == "store":
            self.change_store(row[0], *map(int, row[3:6]))
        else:
            self.order_window(row)

    def change_store(self, moment, node, what, place):
        """What the disk of a node keeps is another from now on, where it has no process: by WHAT 3 a bit of it, which may be what it was
        before. By 5 a copy of it is made, and by 6 put back. Else its store is lost: a new one is in its place, of another life, or nothing,
        or another node's; or the node is of another match. A process that begins by no store ends at once, though it is told later."""
        process = self.processes.get(node)
        if process is not None and process.spoilt is None:
            return
        image = self.images.get(node, new_store(node, self.count)) if process is None else process.spoilt
        if what == 5:
            self.copies[node] = image
            return
        if what == 6:
            self.put_back(moment, node, image)
            return
        self.images[node] = {0: new_store(node, self.count), 1: b"", 3: flipped(image, place)}.get(what, image)
        if process is not None:
            process.spoilt = self.images[node]
        if what == 2:
            del self.images[node]
        if what == 3:
            self.damaged ^= {node} if self.images[node] != image else set()
            return
        self.replacements[node] += what == 0
        self.lost.setdefault(node, moment)
        self.see_node(moment, node)

    def on_begin(self, row):
        moment, node, image = row[0], int(row[1]), bytes_of(row[3])
        if node in self.images and image != self.images[node]:
            raise Wrong("image", moment, f"node {node} begins on another image than its disk kept")
        new = new_store(node, self.count)
        try:
            if image[:6] != new[:6]:
                raise ValueError("a store of another node, or none")
            process = Process(image, moment)
        except NO_STORE as why:
            if node not in self.damaged and node not in self.lost:
                raise Wrong("store", moment, f"node {node} begins on no store: {why}")
            process = Process(new, moment)
            process.spoilt = image
        self.processes[node] = self.speaking[row[1]] = process
        self.up.add(node)
        self.see_node(moment, node)
        for ballot, slot, command in process.disk.found:
            self.vote(moment, node, ballot, slot, command)
        self.count_one("begin again" if node in self.images else "begin")

    def stop_at(self, moment, node):
        """The process of a node is gone; which it was, if there was one."""
        self.up.discard(node)
        self.see_node(moment, node)
        self.stopped[node] = moment
        self.speaking.pop(str(node), None)
        return self.processes.pop(node, None)

    def stop_begin(self, moment, node):
        """A node is killed. A process that is about to open its store is gone then: nothing more is told of it, and its disk keeps what it did."""
        process = self.processes.get(node)
        if process is not None and not process.is_open:
            self.images[node] = process.image(bytes(process.disk.synced))
            self.stop_at(moment, node)

    def on_refused(self, row):
        node, words = int(row[1]), " ".join(row[3:])
        for number in filter(str.isdigit, row[3:]):
            self.count_one(f"fault {number}")
        process = self.stop_at(row[0], node)
        self.images[node] = process.image(bytes(process.disk.synced))
        if node not in self.failing and process.spoilt is None and not self.may_refuse:
            raise Wrong("opens", row[0], f"node {node} can't begin: {words}")
        self.failing.discard(node)

    def on_died(self, row):
        node = int(row[1])
        process = self.stop_at(row[0], node)
        if process is not None:
            self.images[node] = process.image(process.disk.image(self.died[node]))
            self.count_one(f"died with {min(len(process.disk.unsynced), 3)} unsynced")

    def on_ended(self, row):
        moment, node = row[0], int(row[1])
        process = self.stop_at(moment, node)
        self.images[node] = process.image(process.disk.all_written())
        words = " ".join(row[3:])
        if any(other is process for _, other in self.unsure):
            raise Wrong("waits", moment, f"node {node}, which had a quorum, told a bot to wait")
        self.count_one("ended " + names_of(words)[0])
        self.count_faults("store", names_of(words))
        self.failing.discard(node)
        if words == "Over":
            self.over.add(node)
            untold = {peer for peer, said in process.spoken.items() if said < moment - UNTOLD} - process.joined
            if untold and not self.may_refuse:
                raise Wrong("joined", moment, f"node {node} sent frames to {untold}, and never told that they are there")
            if not self.dealt.is_over() or process.log != self.dealt.log:
                raise Wrong("whole-log", moment, f"node {node} ends well without the whole log")
        elif not process.is_failed and not self.may_refuse and not self.may_end(node, process, names_of(words)):
            raise Wrong("older" if words == OLDER else "ends", moment, f"node {node} ended: {words}")

    def may_end(self, node, process, names):
        """Whether a process may end by a fault since its store was lost, isn't one, or is an older copy."""
        if names[0] == OLDER:
            return node in self.aged
        return process.spoilt is not None and names[-1] in NO_STORES or names == ["StoreReplaced"] and self.replacements[node]

    def on_disk_failed(self, row):
        self.processes[int(row[1])].is_failed = True
        self.count_one("disk failed")

    def on_write(self, row):
        process = self.processes[int(row[1])]
        if process.spoilt is not None:
            raise Wrong("store", row[0], f"node {row[1]} goes on with no store")
        process.disk.write(row[0], int(row[3]), bytes_of(row[4]))

    def on_sync(self, row):
        moment, node, begun = row[0], int(row[1]), int(row[3])
        if moment - begun > self.longest:
            self.longest = moment - begun
        process = self.processes[node]
        process.is_open, before = True, process.disk.store.promised
        try:
            found = process.disk.sync(begun)
        except Backwards as why:
            raise Wrong("ballot", moment, f"node {node} synced {why}")
        except NO_STORE as why:
            raise Wrong("store", moment, f"node {node} synced no store: {why}")
        promised = process.disk.store.promised
        if promised > before:
            self.highest, self.most_promised[node] = max(self.highest, promised), max(self.most_promised[node], promised)
        if found:
            process.voted = moment
            self.count_one("stored votes")
            if found[0][0][1] == node:
                # It leads: its front may move, as where it learns what was chosen before.
                process.ballots = 0
        elif promised > before:
            self.count_one("stored promise")
            if promised[1] == node:
                process.begun[promised] = begun, before
                self.count_one("due campaign")
            else:
                process.ballots = 0
        for ballot, slot, command in found:
            self.vote(moment, node, ballot, slot, command)

    def vote(self, moment, node, ballot, slot, command):
        """A vote is on a disk: with those of more than half of all nodes its command is chosen."""
        voters = self.votes.setdefault((slot, ballot), {})
        # All votes of before are for one command.
        if next(iter(voters.values()), command) != command:
            raise Wrong("one-value", moment, f"two commands in ballot {ballot} at slot {slot}")
        voters[node] = command
        self.origins.setdefault((slot, command), ballot)
        if command[0] == AWAY:
            self.show_default(moment, node, command)
        if slot in self.chosen and self.chosen[slot] != command and ballot > self.chosen_in[slot]:
            raise Wrong("agree", moment, f"node {node} votes at slot {slot} in {ballot} for another command than the one that is chosen")
        if 2 * len(voters) > self.count:
            if self.chosen.setdefault(slot, command) != command:
                raise Wrong("agree", moment, f"two commands are chosen at slot {slot}")
            self.chosen_in.setdefault(slot, ballot)
            self.go_on(moment)

    def go_on(self, moment):
        """What is chosen next comes into the list."""
        if self.front not in self.chosen:
            return
        self.pass_busy(moment)
        self.look(moment)
        self.look_at_nodes(moment)
        self.last = moment
        while self.front in self.chosen:
            command = self.chosen[self.front]
            self.dealt.take(command, self.check_command(moment, command))
            self.front += 1
            self.moments.append(moment)

    # What is said and told.

    def on_say(self, row):
        who, connection, data = row[1], self.connection(row), bytes_of(row[4])
        if who[0] == "b":
            self.hear(row[0], connection, data)
        elif connection is None:
            self.say_to_stranger(row, data)
        elif connection.seat is None:
            self.say_to_node(row, connection, data)
        else:
            self.say_to_seat(row, connection, data)

    def on_log(self, row):
        node = int(row[1])
        process = self.processes[node]
        process.log += bytes_of(row[3]).decode("latin-1")
        self.logs[node] = process.log
        if not self.dealt.log.startswith(process.log):
            raise Wrong("one-log", row[0], f"the log of node {node} is no beginning of that of the list")
        process.learn(row[0], self.dealt.front_of_log(len(process.log)))

    def on_note(self, row):
        word, node = row[3], int(row[1])
        self.counts["note " + word] += 1
        does = note_of(word)
        if does is not None:
            does(self, row, node, self.processes[node])

    def note_refused(self, row, node, process):
        fault = names_of(field(row, "fault"))
        self.count_faults("node", fault)
        peer = int(field(row, "peer"))
        is_right = fault[0] == "AlreadyHere" or fault[0] in LOST and (node in self.lost or peer in self.lost) or self.is_older(node, peer, fault)
        if not is_right and not self.may_refuse:
            raise Wrong("older" if fault[0] == OLDER else "peers", row[0], f"node {node} refuses a node: {' '.join(row[3:])}")

    def note_callers(self, row, node, process):
        self.count_faults("node", names_of(field(row, "fault")))

    def note_faulty(self, row, node, process):
        self.count_faults("seat", names_of(field(row, "fault")))

    def note_otherline(self, row, node, process):
        self.count_faults("seat", ["OtherLine"])

    def note_setting(self, row, node, process):
        self.count_one("setting " + field(row, "what"))

    def note_ordered(self, row, node, process):
        self.order_default(row[0], node, int(field(row, "seat")))

    def note_seated(self, row, node, process):
        seat = int(field(row, "seat"))
        if seat not in process.took:
            raise Wrong("seated", row[0], f"node {node} tells that seat {seat} sits there, where nobody was taken in")
        self.came.add(seat)
        process.sits.add(seat)
        process.seated_at[seat] = row[0]
        process.settle_beat()
        if len(self.came) == len(self.names):
            self.all_came = min(self.all_came, row[0])
        self.settle_doubts(row[0], process, seat)

    def note_left(self, row, node, process):
        process.sits.discard(int(field(row, "seat")))
        process.settle_beat()
        self.settle_doubts(row[0], process, int(field(row, "seat")))

    def note_joined(self, row, node, process):
        peer = int(field(row, "peer"))
        process.joined.add(peer)
        if peer in self.lost and (node, peer) in self.met and self.calm_since(node) < self.lost[peer]:
            raise Wrong("replaced", row[0], f"node {node}, which knew the store of node {peer} before it was lost, takes it in")
        if peer not in self.lost:
            self.met.add((node, peer))

    # What is so at the end.

    def most_memory(self):
        """How much memory the run may have taken."""
        return PROGRAM_TAKES + self.count * (PROCESS_TAKES + COMMAND_TAKES * self.front)

    def at_end(self):
        end = self.end
        if self.peak is not None and self.peak > self.most_memory():
            raise Wrong("memory", end, f"the run took {self.peak >> 10} KiB, of {self.most_memory() >> 10} at most: {self.count} processes, {self.front} commands")
        left = set(range(self.count)) - self.over - set(self.lost) - set(self.aged)
        if left:
            raise Wrong("progress", end, f"the match isn't over at {sorted(left)}: {self.front} commands, hand {self.dealt.table.finished} of {self.hands}")
        self.pass_busy(end)
        self.look(end)
        self.look_at_older(end)
        self.settle_doubts(end)
        self.settle_waits(end)


@functools.lru_cache(maxsize=64)
def note_of(word):
    """What judges a note of a word; none where nothing does."""
    return getattr(Checker, f"note_{word.lower()}", None)
