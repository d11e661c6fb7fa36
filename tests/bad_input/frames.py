"""Frames between nodes, read by docs/FORMATS.md."""
import re

from .damage import DRAWN, changes, cuts, random_bytes
from .faults import Fault
from .frame_rows import rows
from .models import GAMES, MOST_CHIPS, TOP, dealer, nodes
from .running import LONG_RUN, WORKLOAD, Tally, run, shown, take_lines

# The greatest node of a ballot, by the frame's version.
LAST_NODE = {1: 4, nodes.VERSION: 6}


class Body:
    """The body of a frame of some version that is read from its front."""

    def __init__(self, data, version):
        self.data, self.version = data, version

    def take(self, count):
        if len(self.data) < count:
            raise Fault("54 BadBody")
        part, self.data = self.data[:count], self.data[count:]
        return part

    def number(self, count, most, least=0):
        value = int.from_bytes(self.take(count), "big")
        if not least <= value <= most:
            raise Fault("54 BadBody")
        return value

    def ballot(self):
        return self.number(4, 0xFFFFFFFF, 1), self.number(1, LAST_NODE[self.version])

    def slot(self):
        return self.number(4, nodes.SLOTS - 1)

    def entries(self, begin):
        """A Promise's entries: slots rise, and lie among the 64 from the first on."""
        entries = [(self.slot(), self.ballot(), self.command()) for _ in range(self.number(1, nodes.WINDOW))]
        slots = [begin - 1, *(entry[0] for entry in entries)]
        if not all(low < high < begin + nodes.WINDOW for low, high in zip(slots, slots[1:])):
            raise Fault("54 BadBody")
        return entries

    def commands(self, begin):
        """The commands that are proposed or accepted from a slot on, behind how many there are; version 1 had one, and no
        such count."""
        count = self.number(1, nodes.WINDOW, 1) if self.version == nodes.VERSION else 1
        commands = [self.command() for _ in range(count)]
        if begin + count > nodes.SLOTS:
            raise Fault("54 BadBody")
        return commands

    def command(self, may_go_on=False):
        begin = self.data
        kind = self.number(1, 3, 2 if may_go_on else 1)
        self.number(4, 9999)
        if kind == 1:
            count = self.number(1, 25, 9)
            cards = self.take(count)
            if count % 2 == 0 or len(set(cards)) < count or max(cards) > 51:
                raise Fault("54 BadBody")
        else:
            self.number(2, 255)
        if kind == 2:
            is_raise = self.number(1, 2) == 2
            self.number(4, MOST_CHIPS if is_raise else 0)
        return begin[: len(begin) - len(self.data)]


def read_frame(data):
    """The message of bytes that are to be one whole frame, of this version or the one before."""
    length = int.from_bytes(data[:4], "big")
    if len(data) < 4 or length < 2:
        raise Fault("50 TooShort")
    if length > nodes.LONGEST:
        raise Fault("51 TooLong")
    if len(data) != length + 4:
        raise Fault("54 BadBody")
    if data[4] not in LAST_NODE:
        raise Fault("52 BadVersion")
    if not nodes.PREPARE <= data[5] <= nodes.FORWARD:
        raise Fault("53 BadKind")
    body = Body(data[6:], data[4])
    message = (data[5], *read_parts(data[5], body))
    if body.data:
        raise Fault("54 BadBody")
    return message


def read_parts(kind, body):
    """What stands in a body of a kind."""
    if kind == nodes.FORWARD:
        return [body.command(may_go_on=True)]
    if kind in (nodes.CHOSEN, nodes.ASK):
        return [body.slot()] + ([body.command()] if kind == nodes.CHOSEN else [])
    ballot, slot = body.ballot(), body.slot()
    if kind == nodes.PROMISE:
        return [ballot, slot, body.entries(slot)]
    if kind in (nodes.ACCEPT, nodes.ACCEPTED):
        return [ballot, slot, body.commands(slot)]
    return [ballot, slot] + ([body.ballot()] if kind == nodes.REFUSE else [])


DEAL = nodes.deal_bytes(0, dealer.CARDS[:9])
LONG_DEAL = nodes.deal_bytes(1, dealer.CARDS[:25])
CALL, RAISE = nodes.act_bytes(0, 0, "c", 0), nodes.act_bytes(0, 1, "r", 20)


def away_bytes(hand, index):
    """The command that plays for a player who is away."""
    return bytes([3]) + hand.to_bytes(4, "big") + index.to_bytes(2, "big")


AWAY = away_bytes(0, 0)
MESSAGES = [
    (nodes.PREPARE, (1, 0), 0), (nodes.PROMISE, (1, 0), 0, []),
    (nodes.PROMISE, (2, 1), 3, [(3, (1, 0), DEAL), (5, (1, 2), CALL), (66, (2, 1), RAISE)]), (nodes.REFUSE, (1, 0), 0, (1, 1)),
    (nodes.ACCEPT, (1, 0), 0, [DEAL]), (nodes.ACCEPT, (3, 2), 1, [CALL]), (nodes.ACCEPTED, (1, 0), 0, [RAISE]), (nodes.CHOSEN, 1, CALL),
    (nodes.ACCEPT, (1, 2), 0, [DEAL, CALL]), (nodes.ACCEPTED, (2, 1), 5, [LONG_DEAL, AWAY, RAISE]), (nodes.ACCEPT, (1, 0), 3999936, 64 * [AWAY]),
    (nodes.CHOSEN, 0, DEAL), (nodes.ASK, 0), (nodes.FORWARD, CALL), (nodes.CHOSEN, 2, LONG_DEAL),
    (nodes.ACCEPT, (1, 0), 1, [AWAY]), (nodes.CHOSEN, 1, AWAY), (nodes.FORWARD, AWAY),
    (nodes.PROMISE, (2, 1), 3, [(slot, (1, 0), AWAY) for slot in range(3, 67)]),
    (nodes.PREPARE, (1, 4), 0), (nodes.PREPARE, (1, 6), 0), (nodes.REFUSE, (1, 4), 0, (2, 5)),
]  # fmt: skip


class Values:
    """Values of any range that are drawn, few of them wrong."""

    def __init__(self, dice):
        self.dice = dice

    def number(self, *usual):
        return self.dice.choice([*usual, *usual, self.dice.randrange(1 << 32)])

    def ballot(self):
        return self.number(1, 1, 2, 0xFFFFFFFF), self.dice.choice([0, 1, 2, 3, 4, 4, 5, 6, 6, 7])

    def slot(self):
        return self.number(0, 1, 2, 63, 64, 3999999, 3999935)

    def cards(self):
        return self.dice.sample(dealer.CARDS, self.dice.choice([9, 9, 11, 25, 24, 7, 27]))

    def goes_on(self):
        hand, index = self.number(0, 0, 9999), self.dice.choice([0, 1, 255, 256])
        if self.dice.random() < 0.3:
            return away_bytes(hand, index)
        return nodes.act_bytes(hand, index, self.dice.choice("fcr"), self.number(0, 0, 20, MOST_CHIPS))

    def command(self):
        return self.goes_on() if self.dice.random() < 0.6 else nodes.deal_bytes(self.number(0, 0, 9999), self.cards())


def drawn_message(dice):
    """A message with values of any range, few of them wrong."""
    values = Values(dice)
    kind = dice.randrange(1, 9)
    if kind == nodes.FORWARD:
        return kind, values.command() if dice.random() < 0.1 else values.goes_on()
    if kind in (nodes.CHOSEN, nodes.ASK):
        return (kind, values.slot(), values.command())[: 3 if kind == nodes.CHOSEN else 2]
    commands = lambda: [values.command() for _ in range(dice.choice([0, 1, 1, 1, 2, 2, 3, 64, 65]))]
    behind = {nodes.REFUSE: [values.ballot], nodes.ACCEPT: [commands], nodes.ACCEPTED: [commands]}
    message = [kind, values.ballot(), values.slot(), *(part() for part in behind.get(kind, []))]
    if kind == nodes.PROMISE:
        rising = sorted(dice.sample(range(70), dice.choice([0, 1, 3, 64])))
        message.append([(message[2] + step & 0xFFFFFFFF, values.ballot(), values.command()) for step in rising])
    return tuple(message)


def drawn_proposal(dice):
    """A frame of either version of some commands that are proposed or accepted, whose count is mostly theirs."""
    values, version = Values(dice), dice.choice([1, 2])
    commands = [values.command() for _ in range(dice.choice([0, 1, 1, 1, 1, 1, 1, 2, 3, 64, 65]))]
    count = dice.choice([len(commands), len(commands), len(commands), 0, 1, 2, 65, 255])
    is_counted = (version == nodes.VERSION) != (dice.random() < 0.1)
    body = nodes.ballot_bytes(values.ballot()) + values.slot().to_bytes(4, "big") + bytes([count]) * is_counted
    return with_length(bytes([version, dice.choice([nodes.ACCEPT, nodes.ACCEPTED])]) + body + b"".join(commands))


def drawn_frame(dice):
    """A frame of a drawn message, as it is or with bytes that are others, too many or too few, or any bytes."""
    kind = dice.randrange(8)
    if kind == 0:
        return random_bytes(dice, dice.choice([0, 1, 3, 4, 6, 20, 100]))
    if kind == 1:
        return with_length(bytes([dice.randrange(1, 3), dice.randrange(10)]) + random_bytes(dice, dice.randrange(40)))
    frame = nodes.frame_of(drawn_message(dice), dice.choice([1, 2, 2]))
    for _ in range(dice.choice([0, 0, 0, 1, 2])):
        place, end = dice.randrange(len(frame) + 1), dice.choice([0, 1, 1, 2])
        frame = frame[:place] + random_bytes(dice, dice.choice([0, 1, 1, 2])) + frame[place + end :]
    return with_length(frame[4:]) if dice.random() < 0.5 else frame


def with_length(behind):
    return len(behind).to_bytes(4, "big") + behind


def long_frames(frame):
    """A frame made too long, with the length that it then has and without."""
    for more in (b"\0", b"\1", frame, bytes(4096 - len(frame) + 4), bytes(4096 - len(frame) + 5), bytes(100000)):
        yield frame + more
        yield with_length(frame[4:] + more)
    for length in (0, 1, 2, 4096, 4097, 0x7FFFFFFF, 0xFFFFFFFF):
        yield length.to_bytes(4, "big") + frame[4:]
        yield length.to_bytes(4, "big") + frame[4:] + bytes(max(0, min(length, 5000) - len(frame) + 4))


def shown_frames():
    """The frames that docs/FORMATS.md shows, each in a row of its own."""
    page = (TOP / "docs/FORMATS.md").read_text("utf-8")
    return [bytes.fromhex(digits) for digits in re.findall(r"^\| [A-Z].* \| `([0-9a-f ]+)` \|$", page, re.M)]


def frame_inputs(dice):
    frames = [nodes.frame_of(message, version) for version in (1, 2) for message in MESSAGES] + shown_frames()
    inputs = [one for frame in frames for one in [*cuts(frame), *long_frames(frame), *changes(dice, frame), frame]]
    return inputs + [draw(dice) for draw in (drawn_frame, drawn_proposal) for _ in range(DRAWN)]


def frames(dice, folder):
    """Frames, as a reader reads them, and as nodes take them."""
    tally, inputs = Tally("frames"), []
    for frame, wanted in rows():
        inputs.append(frame)
        tally.take(frame, answer_of(frame), wanted, [])
    inputs += frame_inputs(dice)
    answers = [answer_of(frame) for frame in inputs]
    lines = [f"{frame.hex()} {answer}" for frame, answer in zip(inputs, answers)]
    got = run([WORKLOAD, "frames"], folder, "".join(f"{line}\n" for line in lines).encode(), LONG_RUN)
    wanted = (0, f"frames: {len(lines)} right, 0 wrong\n".encode(), b"")
    told = set(got[1].decode().splitlines()) if isinstance(got, tuple) else set()
    for frame, line, answer in zip(inputs, lines, answers):
        is_right = f"wrong: {line}" not in told
        tally.take(frame, is_right, True, [fault_of(frame)] if fault_of(frame) else [])
    if got != wanted and not tally.wrong:
        tally.wrong.append(f"workload ended with {shown(got)}")
    tally.want("50 TooShort,51 TooLong,52 BadVersion,53 BadKind,54 BadBody,read".split(","))
    return tally


def fault_of(frame):
    """The fault of bytes that are no frame; else none."""
    try:
        read_frame(frame)
    except Fault as fault:
        return str(fault)
    return None


def answer_of(frame):
    """What comes of a frame: the frame as which its message is written, or its fault."""
    if fault_of(frame):
        return fault_of(frame)
    message = read_frame(frame)
    return nodes.frame_of(message).hex() if nodes.frame_of(message, frame[4]) == frame else "two readings"


class Conflict(Exception):
    """Two commands for one slot, which no frames bring that weren't forged."""


def careful(learn):
    """A node's learning, where a second command for a slot is told."""

    def learnt(node, slot, command):
        if node.log.get(slot, command) != command:
            raise Conflict
        learn(node, slot, command)

    return learnt


nodes.Node.learn = careful(nodes.Node.learn)


class Cluster:
    """Nodes that get frames, of which node 0 has begun to lead; beside them those of the program `workload`."""

    def __init__(self, folder):
        text = 'name = "m1"\ngame = "l2.game"\nhands = 2\nnames = ["alice", "bob"]\n'
        (folder / "frames.toml").write_text(text + "".join(f"[[node]]\nseed = {seed}\n" for seed in (1, 2, 3)))
        self.model, self.lines = nodes.Script(nodes.Match("frames.toml", folder)), []
        self.first = self.model.begin()
        self.lines.append((b"tick 0", self.model.answer(b"tick 0"), None))

    def give(self, sender, receiver, frame):
        node = self.model.nodes[receiver]
        line = b"frame %d %d %s" % (sender, receiver, frame.hex().encode())
        if fault_of(frame):
            wanted = [b"%d E 94 BadFrame %s" % (receiver, fault_of(frame).encode())]
        else:
            wanted = self.model.told(node.call(lambda: node.frame(sender, read_frame(frame))))
        self.lines.append((line, wanted, frame))


def frames_to_nodes(dice, folder):
    """The same kinds of frames, brought to nodes."""
    tally = Tally("frames to nodes")
    (folder / "l2.game").write_bytes(GAMES["l2"])
    clusters = [Cluster(folder)]
    for frame in frame_inputs(dice):
        sender, receiver = dice.choice([(1, 0), (2, 0), (0, 1), (2, 1), (0, 2)])
        if len(clusters[-1].lines) > 200:
            clusters.append(Cluster(folder))
        try:
            clusters[-1].give(sender, receiver, frame)
        except Conflict:
            clusters.append(Cluster(folder))
            clusters[-1].give(sender, receiver, frame)
    for cluster in clusters:
        take_lines(tally, folder, [WORKLOAD, "fused-cluster"], cluster.first, cluster.lines, b"l2.game alice|bob 2 1 - - -\n")
    tally.want("94 BadFrame 50 TooShort,94 BadFrame 51 TooLong,94 BadFrame 54 BadBody,read".split(","))
    return tally
