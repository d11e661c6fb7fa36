"""A cluster of the program `workload` beside those that the rules allow; what tests/disks, step_growths and faults share.

The program takes one line at a time, as of a script of `play`, makes one call of a cluster over disks that fail, and
prints what came of it. `Run` gives it lines, and compares what it prints with the nodes of second_nodes.py, which are
written from docs/NODES.md, FORMATS.md and RULES.md. A call whose disk failed says so and nothing else; its node's
store has then what it had before or what the call was to store, so `Run` goes on with both, and drops those that say
otherwise than what is printed.
"""
import copy
import functools
import re
import subprocess
import sys
from pathlib import Path

sys.dont_write_bytecode = True

import printed_runs as runs
import second_nodes as nodes

TOP = Path(__file__).resolve().parent.parent
PROGRAM = TOP / "crates/workload/out/workload"
# A line that says nothing: what is printed for it ends the answer to the line before.
MARK, MARKED = "?", "E 110 BadScript"
NAMES = ["alice", "bob", "carol", "dave", "erin", "frank", "grace", "heidi", "ivan", "judy"]
VERSION = "VERSION:2.0.0"
FAILED = "E 91 Store 63 Disk"
FRAME = re.compile(r"frame (\d+) (\d)>(\d) ([0-9a-f]+)")
PREPARE, PROMISE, REFUSE, ACCEPT, ACCEPTED, CHOSEN, ASK, FORWARD = range(1, 9)


# Bytes that are no frame, each with its fault: too long by its field (of 4096 at most), of another version, of no kind,
# with a byte too few or too many, too short, and of ballots of nodes that the version has none of; proposals of a call
# with another count than one, with a count where the version has none, and without one where it has; and proposals of
# several commands: more than 64, past the last slot, one that is none behind others, and with a byte too few or too many.
GOOD = nodes.frame_of((PREPARE, (1, 0), 0))
CALL = nodes.act_bytes(0, 0, "c", 0)
PROPOSAL, OLD_PROPOSAL = (nodes.frame_of((ACCEPT, (1, 0), 0, [CALL]), version) for version in (nodes.VERSION, 1))
BAD_FRAMES = {
    (4097).to_bytes(4, "big") + bytes([2, PREPARE]) + bytes(4095): "51 TooLong",
    (4097).to_bytes(4, "big") + bytes([2, PREPARE]) + bytes(4091): "51 TooLong",
    GOOD[:4] + bytes([0]) + GOOD[5:]: "52 BadVersion",
    GOOD[:4] + bytes([3]) + GOOD[5:]: "52 BadVersion",
    GOOD[:5] + bytes([9]) + GOOD[6:]: "53 BadKind",
    GOOD[:-1]: "54 BadBody",
    GOOD + b"\0": "54 BadBody",
    GOOD[:3]: "50 TooShort",
    b"\0": "50 TooShort",
    (1).to_bytes(4, "big") + bytes([2]): "50 TooShort",
    nodes.frame_of((PREPARE, (1, 7), 0)): "54 BadBody",
    nodes.frame_of((PREPARE, (1, 5), 0), 1): "54 BadBody",
    PROPOSAL[:15] + bytes([0]) + PROPOSAL[16:]: "54 BadBody",
    PROPOSAL[:15] + bytes([2]) + PROPOSAL[16:]: "54 BadBody",
    PROPOSAL[:4] + bytes([1]) + PROPOSAL[5:]: "54 BadBody",
    OLD_PROPOSAL[:4] + bytes([2]) + OLD_PROPOSAL[5:]: "54 BadBody",
    nodes.frame_of((ACCEPT, (1, 0), 0, 65 * [CALL])): "54 BadBody",
    nodes.frame_of((ACCEPT, (1, 0), nodes.SLOTS - 1, [CALL, CALL])): "54 BadBody",
    nodes.frame_of((ACCEPT, (1, 0), 0, [CALL, CALL, CALL[:-1] + b"\1"])): "54 BadBody",
    nodes.frame_of((ACCEPT, (1, 0), 0, [CALL, CALL, CALL[:-1]])): "54 BadBody",
    nodes.frame_of((ACCEPT, (1, 0), 0, [CALL, CALL, CALL + b"\0"])): "54 BadBody",
}


class Wrong(Exception):
    """What was printed that mustn't be, in words."""


class Ended(Exception):
    """The program ended before its input did."""


class Match(nodes.Match):
    """A match whose nodes draw their deals from seeds that follow one another."""

    def __init__(self, game="l2", hands=1, seed=1, count=3, text=None):
        self.name, self.word, self.hands, self.seed = "m1", f"{game}.game", hands, seed
        self.game = nodes.dealer.Game(text or (TOP / "examples" / self.word).read_bytes())
        self.names = NAMES[: self.game.players]
        self.sources = [{"seed": seed + node} for node in range(count)]

    def __deepcopy__(self, memo):
        return self

    @functools.lru_cache
    def deal(self, node, hand):
        return super().deal(node, hand)

    def line(self, disks):
        """What the program is to read first: the match, and a word for each disk."""
        return " ".join([self.word, "|".join(self.names), str(self.hands), str(self.seed), *map(str, disks)])


class Program:
    """A task of `workload` on its way, to be given lines one by one."""

    def __init__(self, folder, task, first, **extra):
        self.process = subprocess.Popen(
            [PROGRAM, task], cwd=folder, stdin=subprocess.PIPE, stdout=subprocess.PIPE, stderr=subprocess.PIPE, text=True, **extra
        )
        self.begun = self.give(first)

    def give(self, line):
        """The lines that are printed for a line."""
        try:
            self.process.stdin.write(f"{line}\n{MARK}\n")
            self.process.stdin.flush()
        except BrokenPipeError:
            pass
        printed = []
        for text in self.process.stdout:
            if text == MARKED + "\n":
                return printed
            printed.append(text.rstrip("\n"))
        self.process.wait(timeout=60)
        raise Ended(printed, self.process.returncode, self.process.stderr.read())

    def leave(self):
        """Ends the input; what stands on standard error."""
        self.process.stdin.close()
        self.process.stdout.read()
        errors = self.process.stderr.read()
        if self.process.wait(timeout=60) != 0:
            raise Ended([], self.process.returncode, errors)
        return errors


class Cluster:
    """The nodes by the rules, with what the record counts."""

    def __init__(self, match, before=None):
        self.script, self.arrivals, self.starts, self.pieces = nodes.Script(match), 0, 0, 0
        for node, old in zip(self.script.nodes, before.script.nodes if before else []):
            node.promised, node.accepted = old.promised, dict(old.accepted)

    def begin(self):
        """What is printed at the beginning: all frames, then all log lines."""
        self.starts = len(self.script.nodes)
        lines = self.counted([line.decode() for line in self.script.begin()])
        return sorted(lines, key=lambda line: not line.startswith("frame"))

    def counted(self, lines):
        # The score stands in one piece with the last hand.
        self.pieces += sum(re.match(r"\d (?:\d|L(?! SCORE:)) [^E]", line) is not None for line in lines)
        return lines

    def answer(self, line):
        """What is printed for a line."""
        words = line.split(" ")
        if words[0] == "record":
            return [f"{len(self.script.sent)} frames, {self.pieces} pieces, {self.arrivals} arrivals, {self.starts} starts"]
        if words[0] == "show":
            node = self.script.nodes[int(words[1])]
            waits = node.pending is not None
            return [f"{node.number} runs {node.is_up}, front {node.front}, waits {waits}".replace("T", "t").replace("F", "f")]
        was_up = self.node_of(line).is_up
        if words[0] == "frame":
            return self.told(line, words, was_up)
        self.arrivals += was_up and words[0] in ("deliver", "line", "connect", "drop", "away")
        self.starts += not was_up and words[0] == "start"
        return self.counted([text.decode("latin-1") for text in self.script.answer(line.encode("latin-1"))])

    def told(self, line, words, was_up):
        """What comes of bytes that are said: a frame that `message_of` reads, or one of those that are no frame."""
        self.arrivals += was_up
        node, frame = self.node_of(line), bytes.fromhex(words[3])
        if frame in BAD_FRAMES:
            return [f"{node.number} E " + (f"94 BadFrame {BAD_FRAMES[frame]}" if was_up else "90 Down")]
        answer = self.script.told(node.call(lambda: node.frame(int(words[1]), message_of(frame))))
        return self.counted([text.decode("latin-1") for text in answer])

    def node_of(self, line):
        """The node to which a line says that something comes."""
        words = line.split(" ")
        place = self.script.sent[int(words[1])][1] if words[0] == "deliver" else int(words[2 if words[0] == "frame" else 1])
        return self.script.nodes[place]

    def failed(self, line):
        """The clusters that may be where the node's disk failed in its call: its store is as before, or as after the call."""
        old, after = copy.deepcopy(self), copy.deepcopy(self)
        old.arrivals += old.node_of(line).is_up and not line.startswith("tick")
        after.answer(line)
        made, node = after.node_of(line), old.node_of(line)
        node.stop()
        if (made.promised, made.accepted) == (node.promised, node.accepted):
            return [old]
        new = copy.deepcopy(old)
        new.node_of(line).promised, new.node_of(line).accepted = made.promised, dict(made.accepted)
        return [old, new]


def message_of(frame):
    """The message of a frame of either version that is a Prepare, an Accept or an Accepted, or of a Refuse."""
    ballot, slot = (int.from_bytes(frame[6:10], "big"), frame[10]), int.from_bytes(frame[11:15], "big")
    if frame[5] == PREPARE:
        return PREPARE, ballot, slot
    if frame[5] == REFUSE:
        return REFUSE, ballot, slot, (int.from_bytes(frame[15:19], "big"), frame[19])
    return frame[5], ballot, slot, runs.commands_of(frame[15 if frame[4] == 1 else 16 :])


def line_of_frame(sender, receiver, *message):
    """The line by which a message comes that no node of the test sent."""
    return f"frame {sender} {receiver} {nodes.frame_of(message).hex()}"


def deals_and_folds(match, hands):
    """The commands of so many hands that node 0 deals, in each of which all players but the last to act fold."""
    folds = lambda hand: [nodes.act_bytes(hand, index, "f", 0) for index in range(match.game.players - 1)]
    return [command for hand in range(hands) for command in [nodes.deal_bytes(hand, match.deal(0, hand)), *folds(hand)]]


class Run:
    """A cluster of the program beside those that the rules allow. A line that fails is left to `mend`."""

    def __init__(self, folder, match, task, disks, mend=None, before=None, **extra):
        self.match, self.sent, self.pieces, self.seats, self.faults = match, [], [], set(), []
        self.mend, self.delivered, self.kind = mend, set(), None
        self.program = Program(folder, task, match.line(disks), **extra)
        self.allowed = [Cluster(match, cluster) for cluster in (before or [None])]
        self.compare("the beginning", self.program.begun, [(cluster.begin(), cluster) for cluster in self.allowed])
        self.keep(self.program.begun)

    def compare(self, line, printed, expected):
        self.allowed = [cluster for text, cluster in expected if text == printed]
        if not self.allowed:
            raise Wrong(f"{line}: printed {printed}, and the rules say {[text for text, _ in expected]}")

    def keep(self, printed):
        for text in printed:
            frame, shown = FRAME.fullmatch(text), runs.SHOWN.fullmatch(text)
            if frame:
                self.sent.append((int(frame[2]), int(frame[3]), bytes.fromhex(frame[4])))
            elif shown and not runs.FAULT.fullmatch(text):
                self.pieces.append((int(shown[1]), shown[2], shown[3]))

    def give(self, line):
        """Gives a line, and once more as `mend` says where it fails."""
        fault = self.once(line)
        if fault:
            self.mend(self, line, fault)

    def once(self, line):
        """Gives a line, and compares what is printed; the number of the fault that stopped it, if any: 91 or 92."""
        try:
            printed = self.program.give(line)
        except Ended as why:
            if why.args[0]:
                self.compare(line, why.args[0], [(cluster.answer(line), cluster) for cluster in self.allowed])
            raise
        node = self.allowed[0].node_of(line).number if line.split(" ")[0] not in ("record", "show") else None
        if printed == [f"{node} {FAILED}"]:
            self.allowed = [after for cluster in self.allowed for after in cluster.failed(line)]
            self.faults.append(line)
            self.kind = "disk"
            return 91
        if printed == [f"{node} E 92 OutOfMemory"]:
            self.faults.append(line)
            self.kind = "again"
            return 92
        self.compare(line, printed, [(cluster.answer(line), cluster) for cluster in self.allowed])
        self.keep(printed)
        return None

    def number_of(self, kind, way):
        """The first frame of a kind and a way, as '0>1', that wasn't delivered; none where there is none."""
        for number, (sender, receiver, frame) in enumerate(self.sent):
            if frame[5] == kind and f"{sender}>{receiver}" == way and number not in self.delivered:
                return number
        return None

    def line_of(self, step):
        """The line of a step; none where there is no such frame, or no line to answer."""
        if isinstance(step, tuple):
            number = self.number_of(*step)
            self.delivered.add(number)
            return None if number is None else f"deliver {number}"
        if not step.startswith("answer"):
            return step
        node = int(step[-1])
        shown = self.last_line(node, 1)
        return shown and f"line {node} 1 {shown}:c"

    def take(self, course):
        """Takes the steps of a course, but those whose frame or line there isn't: lines, kinds of frames with a way, 'again'
        for the last one once more, and 'answer I' for a call of seat 1 behind its last line at node I."""
        last = None
        for step in course:
            line = last if step == "again" else self.line_of(step)
            if line is not None:
                last = line
                self.give(line)

    def last_line(self, node, seat):
        """The last line that a seat got at a node; none where it got none."""
        return next((text for place, reader, text in reversed(self.pieces) if (place, reader) == (node, str(seat))), None)

    def flush(self):
        """Delivers all frames that weren't delivered, in order; those to nodes that are down are lost."""
        number = 0
        while number < len(self.sent):
            if number not in self.delivered:
                self.delivered.add(number)
                self.give(f"deliver {number}")
            number += 1

    def seat(self, node, seat):
        self.seats.add((node, seat))
        self.give(f"connect {node} {seat}")
        self.give(f"line {node} {seat} {VERSION}")

    def front(self, node):
        return min(cluster.script.nodes[node].front for cluster in self.allowed)

    def check_one_list(self):
        """All that was shown comes from one list, which is read off the frames."""
        commands = runs.list_in(self.sent, len(self.match.sources))
        one = runs.OneDealer(self.match.game, self.match.hands, commands)
        runs.check_shown(self.pieces, one, self.match.word)
        return commands

    def end(self):
        self.program.leave()


def once_more(run, line):
    if run.once(line):
        raise Wrong(f"{line} failed once more")


def again(run, line, fault):
    """Gives a line again that failed once; where the disk failed, its node is started first, and its seats sit down."""
    node = run.allowed[0].node_of(line).number
    if fault == 91 and not line.startswith("start"):
        once_more(run, f"start {node}")
        for place, seat in sorted(run.seats):
            if place == node:
                once_more(run, f"connect {node} {seat}")
                once_more(run, f"line {node} {seat} {VERSION}")
    asked = len(run.sent)
    once_more(run, line)
    check_answer(run, line, run.sent[asked:])


def check_answer(run, line, answer):
    """What a node sends that got a Prepare or an Accept once more, after its disk had failed at the first."""
    if not line.startswith("deliver"):
        return
    _, node, frame = run.sent[int(line.split(" ")[1])]
    kinds = [sent[5] for _, _, sent in answer]
    if frame[5] == PREPARE:
        names_itself = [sent for _, _, sent in answer if sent[5] == REFUSE and sent[15:20] == frame[6:11]]
        if PROMISE not in kinds and not names_itself:
            raise Wrong(f"{line}: after its disk had failed, node {node} answered a Prepare by {answer}")
    if frame[5] == ACCEPT and kinds.count(ACCEPTED) != len(run.match.sources) - 1:
        raise Wrong(f"{line}: after its disk had failed, node {node} answered an Accept by {answer}")


def round_of(leader, other):
    """A round in which a leader and another node choose what the leader proposes."""
    out, back = f"{leader}>{other}", f"{other}>{leader}"
    return [f"tick {leader}", (PREPARE, out), (PROMISE, back), (ACCEPT, out), (ACCEPTED, back), (ACCEPTED, out)]
