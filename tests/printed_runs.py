"""What nodes printed, and the one list of commands behind it: frames, lines and faults as they come; which commands are chosen, read
off the frames alone; and what the second dealer (second_dealer.py) writes after each beginning of that list, beside what was shown."""
import re
from collections import Counter, defaultdict

import second_dealer as dealer

NAMES = ["alice", "bob", "carol"]
FRAME = re.compile(r"frame (\d+) (\d)>(\d) ([0-9a-f]+)")
FAULT = re.compile(r"(\d )?\d E \d+ .*")
SHOWN = re.compile(r"(\d) (\d|L) (.*)")


class Wrong(Exception):
    """What a run showed that it mustn't, in words."""


class Printed:
    """What nodes printed."""

    def __init__(self):
        self.frames, self.pieces, self.faults = [], [], Counter()
        # the last line that a seat got at a node, since it connected there
        self.seen = {}

    def take(self, text):
        frame, shown = FRAME.fullmatch(text), SHOWN.fullmatch(text)
        if frame:
            if int(frame[1]) != len(self.frames):
                raise Wrong(f"{text!r} isn't frame {len(self.frames)}")
            self.frames.append((int(frame[2]), int(frame[3]), bytes.fromhex(frame[4])))
        elif FAULT.fullmatch(text):
            self.faults[text.split(" E ")[1]] += 1
        elif shown:
            node, reader = int(shown[1]), shown[2]
            self.pieces.append((node, reader, shown[3]))
            if reader != "L":
                self.seen[node, int(reader)] = shown[3]
        else:
            raise Wrong(f"printed {text!r}")

    def due(self, node):
        """The hand and the number of the act that is due by the lines which seats got at a node; none where none got any."""
        lines = [line.split(":") for (place, _), line in self.seen.items() if place == node]
        return max(((int(line[2]), sum(line[3].count(letter) for letter in "fcr")) for line in lines), default=None)

    def forget(self, node, seat=None):
        for key in [key for key in self.seen if key[0] == node and seat in (None, key[1])]:
            del self.seen[key]


def commands_of(data):
    """The commands that stand one behind the other."""
    commands = []
    while data:
        length = {1: 6 + data[5], 2: 12, 3: 7}[data[0]]
        commands.append(data[:length])
        data = data[length:]
    return commands


def slots_of(frame):
    """The slots of an Accept or an Accepted of this version, each with its command. Behind the ballot and the first slot
    stands how many commands follow, one for each slot from there on."""
    return list(enumerate(commands_of(frame[16:]), int.from_bytes(frame[11:15], "big")))


def chosen_in(frames, nodes):
    """By slot, the command that is chosen there."""
    voters, chosen = defaultdict(set), {}
    for sender, _, frame in frames:
        if frame[5] == 5:
            for slot, command in slots_of(frame):
                voters[frame[6:11], slot, command].add(sender)
    for (_, slot, command), senders in voters.items():
        if 2 * len(senders) > nodes and chosen.setdefault(slot, command) != command:
            raise Wrong(f"two commands at slot {slot}: {chosen[slot].hex()} and {command.hex()}")
    return chosen


def together_in(frames):
    """How many Accepts have several commands."""
    return sum(frame[5] == 4 and len(slots_of(frame)) > 1 for _, _, frame in frames)


def list_in(frames, nodes):
    """The commands that are chosen, up to the first slot where none is."""
    chosen = chosen_in(frames, nodes)
    slots = next(slot for slot in range(len(chosen) + 1) if slot not in chosen)
    return [chosen[slot] for slot in range(slots)]


def card(number):
    return dealer.RANKS[number // 4] + dealer.SUITS[number % 4]


class OneDealer:
    """The dealer of a list: after each beginning of it the seats' lines, and how many lines the log has."""

    def __init__(self, game, hands, commands):
        self.match = dealer.Match(game, hands, "game")
        self.log = [f"# name/game/hands m1 {{}} {hands}"]
        self.match.answer("names " + "|".join(NAMES[: game.players]))
        self.lines, self.logged = [{}], [1]
        for command in commands:
            self.take(command)

    def take(self, command):
        hand, script = int.from_bytes(command[1:5], "big"), None
        if command[0] == 1:
            script = self.deal(hand, [card(number) for number in command[6:]])
        elif self.is_next(hand, int.from_bytes(command[5:7], "big")):
            script = "away" if command[0] == 3 else self.act(command)
        answer = self.match.answer(script) if script else [dealer.BAD]
        if answer[0].startswith("E "):
            raise Wrong(f"chosen command {command.hex()} doesn't fit: {answer[0]}")
        self.lines.append(dict(line.split(" ", 1) for line in answer if line[0] != "L"))
        self.log += [line[2:] for line in answer if line[0] == "L"]
        self.logged.append(len(self.log))

    def deal(self, hand, cards):
        """The script's line of a deal; none where its number isn't the next hand's."""
        n = self.match.game.players
        if hand != self.match.finished or len(cards) != 2 * n + 5:
            return None
        holes = "|".join(cards[2 * p] + cards[2 * p + 1] for p in range(n))
        self.actions = 0
        return f"deal {holes}/{''.join(cards[-5:-2])}/{cards[-2]}/{cards[-1]}"

    def is_next(self, hand, index):
        """Whether an action of this index is the next one of this hand, and then counts it."""
        if self.match.hand is None or hand != self.match.hand.number or index != self.actions:
            return False
        self.actions += 1
        return True

    def act(self, command):
        """The script's line of an action."""
        letter, amount = "fcr"[command[7]], int.from_bytes(command[8:], "big")
        return f"r{amount}" if letter == "r" and not self.match.game.limit else letter


def check_shown(pieces, one, word):
    """Each piece must be what the dealer writes after a beginning, none shorter than the one before in its start."""
    header = one.log[0].format(word)
    reached, logs = {}, {}
    for node, reader, text in pieces:
        if reader == "L" and text == header:
            reached[node], logs[node] = 0, 0
            continue
        if node not in reached:
            raise Wrong(f"node {node} showed {text!r} before its log began")
        if reader == "L":
            if logs[node] == 0:
                logs[node] = 1
            if logs[node] >= len(one.log) or one.log[logs[node]] != text:
                raise Wrong(f"node {node} logged {text!r}")
            logs[node] += 1
            fits = lambda at: one.logged[at] >= logs[node]
        else:
            fits = lambda at: one.lines[at].get(reader) == text
        found = next((at for at in range(reached[node], len(one.lines)) if fits(at)), None)
        if found is None:
            raise Wrong(f"node {node} showed seat {reader} {text!r}, which is no line after a beginning that isn't shorter")
        reached[node] = found
    return header
