"""A second cluster of nodes, written from docs/NODES.md, FORMATS.md and RULES.md: what seats see and
send, the calls of a node, and the answers to a script of `play`. tests/nodes compares it with cases; others drive it, or run its
nodes by themselves. second_frames.py has its decks, commands and frames."""
import ast
import re

import second_dealer as dealer
from second_frames import (  # noqa: F401, for those who have all from here
    ACCEPT, ACCEPTED, ASK, CARD, CHOSEN, FORWARD, LONGEST, NONE, PREPARE, PROMISE, REFUSE, SLOTS, VERSION, WINDOW, act_bytes, ballot_bytes,
    cards_of, deal_bytes, draw, frame_of, number_of, shuffled, words_of,
)

BAD = b"E 110 BadScript"


# What a seat sees and sends.


def walked(game, number, cards, text):
    """The hand after a betting text, which must be one of a legal play; else None."""
    hand = dealer.Hand(game, number, cards)
    while hand.text != text:
        rest = text[len(hand.text) :]
        found = re.match(r"[fcr]" if game.limit else r"[fc]|r(0|[1-9]\d*)", rest)
        if hand.over or not text.startswith(hand.text) or not found:
            return None
        try:
            hand.act(rest[0], int(found[1]) if found.lastindex else None)
        except dealer.Refused:
            return None
    return hand


def shows_cards(hand, viewer, text):
    """Whether a text of cards is what a viewer gets of some deal, after the hand's betting."""
    shown = hand.unfolded() if hand.over and len(hand.unfolded()) > 1 else []
    holes = r"\|".join(2 * CARD if p == viewer or p in shown else "" for p in range(hand.game.players))
    board = "".join(["/" + 3 * CARD, "/" + CARD, "/" + CARD][: hand.round])
    cards = cards_of(text)
    return re.fullmatch(holes + board, text) is not None and len(set(cards)) == len(cards)


class Session:
    """One seat's talk with one node."""

    def __init__(self, seat):
        self.seat, self.is_ready = seat, False

    def answer(self, table, line):
        """What a whole line comes to: None where it is skipped, 'ready', an act, or a fault's words."""
        if len(line) > LONGEST:
            return "81 LineTooLong"
        text = line[: -1 if line.endswith(b"\r") else None].decode("latin-1")
        if text[:1] in ("#", ";"):
            return None
        if not self.is_ready:
            self.is_ready = bool(re.fullmatch(r"VERSION:2\.0\.[0-9]{1,9}", text))
            return "ready" if self.is_ready else "80 BadVersion"
        return self.act_of(table, text)

    def act_of(self, table, text):
        fields = text.split(":")
        if fields[0] != "MATCHSTATE" or len(fields) != 6:
            return "82 Malformed 40 NotMatchstate"
        game = table.game
        numbers = [int(word) if re.fullmatch("0|[1-9][0-9]{0,8}", word) else None for word in fields[1:3]]
        if None in numbers or numbers[0] >= game.players or numbers[1] > 9999:
            return "82 Malformed 41 BadNumber"
        then = walked(game, numbers[1], dealer.CARDS[: 2 * game.players + 5], fields[3])
        if then is None:
            return "82 Malformed 42 BadBetting"
        if not shows_cards(then, numbers[0], fields[4]):
            return "82 Malformed 43 BadCards"
        found = re.fullmatch("f|c|r" if game.limit else "f|c|r(0|[1-9][0-9]{0,9})", fields[5])
        if not found or not game.limit and int(found[1] or 0) > 4294967295:
            return "82 Malformed 44 BadAction"
        if table.hand is None or ":".join(fields[:5]) != table.line(self.seat):
            return "83 NotCurrent"
        if table.hand.over or table.hand.turn != numbers[0]:
            return "84 NotYourTurn"
        return table.act(fields[5][0], None if game.limit else int(found[1] or 0))


class Table:
    """The sequential dealer."""

    def __init__(self, game, hands):
        self.game, self.hands, self.hand, self.finished = game, hands, None, 0
        self.score = [0] * game.players

    def runs(self):
        return self.hand is not None and not self.hand.over

    def line(self, seat):
        return self.hand.line((seat - self.hand.number) % self.game.players)

    def index(self):
        return len(re.findall("[fcr]", self.hand.text))

    def act(self, letter, amount):
        """The command of an action of now, or the fault's words."""
        after = walked(self.game, self.hand.number, self.hand.cards, self.hand.text)
        turn = after.turn
        try:
            after.act(letter, amount)
        except dealer.Refused as why:
            return f"85 Illegal {why}"
        return act_bytes(self.hand.number, self.index(), letter, after.spent[turn] if letter == "r" else 0)

    def fits(self, command):
        number = int.from_bytes(command[1:5], "big")
        if command[0] == 1:
            is_next = not self.runs() and self.finished < self.hands and number == self.finished
            return is_next and command[5] == 2 * self.game.players + 5
        if not self.runs() or number != self.hand.number or int.from_bytes(command[5:7], "big") != self.index():
            return False
        if command[0] == 3:
            return True
        letter, amount = "fcr"[command[7]], int.from_bytes(command[8:12], "big")
        return self.act(letter, None if self.game.limit else amount) == command

    def apply(self, command):
        """Takes a command that fits."""
        if command[0] == 1:
            self.hand = dealer.Hand(self.game, self.finished, [dealer.CARDS[card] for card in command[6:]])
            return
        if command[0] == 3:
            self.hand.act_for_absent()
        else:
            self.hand.act("fcr"[command[7]], None if self.game.limit else int.from_bytes(command[8:12], "big"))
        if self.hand.over:
            self.finished += 1

    def log(self, names):
        """The log's lines of the hand that has just ended."""
        n, hand = self.game.players, self.hand
        won = hand.payoffs()
        for p in range(n):
            self.score[(p + hand.number) % n] += won[p]
        holes = "|".join(hand.hole(p) for p in range(n))
        seats = "|".join(names[(p + hand.number) % n] for p in range(n))
        lines = [f"STATE:{hand.number}:{hand.text}:{holes}{hand.board()}:{'|'.join(map(str, won))}:{seats}"]
        if self.finished == self.hands:
            lines.append(f"SCORE:{'|'.join(map(str, self.score))}:{'|'.join(names)}")
        return lines


class Node:
    def __init__(self, match, number):
        self.match, self.number = match, number
        self.promised, self.accepted = NONE, {}
        self.lose_all()
        self.is_up = False

    def lose_all(self):
        """What a stop takes away."""
        self.table = Table(self.match.game, self.match.hands)
        self.log, self.votes, self.front = {}, {}, 0
        self.sessions, self.pending, self.seen = {}, None, NONE
        self.state, self.ballot, self.begun, self.told, self.promisers, self.proposed = "idle", NONE, 0, {}, set(), set()

    def others(self):
        return [node for node in range(len(self.match.sources)) if node != self.number]

    def is_quorum(self, nodes):
        return 2 * len(nodes) > len(self.match.sources)

    # A call: what it sends, shows and says of faults is gathered, then it closes.

    def call(self, body):
        self.frames, self.shown, self.faults, asked = [], [], [], None
        if not self.is_up:
            return [], [], [f"{self.number} E 90 Down"]
        asked = body()
        self.close()
        if asked is not None and asked[1] > self.front:
            self.send([asked[0]], (ASK, self.front))
        return self.frames, self.shown, self.faults

    def send(self, receivers, message):
        self.frames += [(self.number, receiver, message) for receiver in receivers]

    def start(self):
        if self.is_up:
            return [], [], []
        self.lose_all()
        self.is_up, self.seen = True, self.promised
        self.frames, self.faults = [], []
        self.shown = [f"{self.number} L {self.match.header()}"]
        if self.promised != NONE:
            self.send(self.others(), (ASK, 0))
        return self.frames, self.shown, self.faults

    def stop(self):
        self.is_up = False
        self.lose_all()

    def tick(self):
        if self.table.finished == self.match.hands:
            return
        self.ballot, self.state, self.begun = (self.seen[0] + 1, self.number), "preparing", self.front
        self.seen = self.promised = self.ballot
        self.promisers, self.told, self.proposed = {self.number}, {}, set()
        self.be_told(self.entries(self.front))
        self.send(self.others(), (PREPARE, self.ballot, self.front))

    def entries(self, slot):
        return [(s, *self.accepted[s]) for s in sorted(self.accepted) if slot <= s < slot + WINDOW]

    def be_told(self, entries):
        for slot, ballot, command in entries:
            if slot not in self.told or ballot > self.told[slot][0]:
                self.told[slot] = (ballot, command)

    def meet(self, *ballots):
        self.seen = max(self.seen, *ballots)

    def frame(self, sender, message):
        return getattr(self, "on_" + NAMES[message[0]])(sender, *message[1:])

    def on_prepare(self, sender, ballot, slot):
        self.meet(ballot)
        if ballot > self.promised:
            self.promised, self.state = ballot, "idle"
            self.send([sender], (PROMISE, ballot, slot, self.entries(slot)))
        else:
            self.send([sender], (REFUSE, ballot, slot, self.promised))
        return sender, slot

    def on_promise(self, sender, ballot, slot, entries):
        self.meet(ballot, *(entry[1] for entry in entries))
        if self.state == "preparing" and (ballot, slot) == (self.ballot, self.begun) and sender not in self.promisers:
            self.promisers.add(sender)
            self.be_told(entries)
            if self.is_quorum(self.promisers):
                self.state = "leading"

    def on_refuse(self, sender, ballot, slot, promised):
        self.meet(ballot, promised)
        if promised > self.ballot:
            self.state = "idle"

    def on_accept(self, sender, ballot, slot, commands):
        self.meet(ballot)
        if ballot < self.promised:
            self.send([sender], (REFUSE, ballot, slot, self.promised))
            return sender, slot
        self.promised, self.state = ballot, "idle"
        taken = self.accept(ballot, slot, commands)
        self.send(self.others(), (ACCEPTED, ballot, slot, taken))
        self.count_votes(self.number, ballot, slot, taken)
        return sender, slot

    def accept(self, ballot, slot, commands):
        """Stores the commands, up to the first slot that differs from the first one in whether this ballot stands there. What
        stands there of it stays. Gives what stands there then."""
        stood = [s in self.accepted and self.accepted[s][0] == ballot for s in range(slot, slot + len(commands))]
        count = stood.index(not stood[0]) if (not stood[0]) in stood else len(stood)
        for place in range(0 if stood[0] else count):
            self.accepted[slot + place] = (ballot, commands[place])
        return [self.accepted[slot + place][1] for place in range(count)]

    def on_accepted(self, sender, ballot, slot, commands):
        self.meet(ballot)
        self.count_votes(sender, ballot, slot, commands)
        return sender, slot

    def count_votes(self, voter, ballot, slot, commands):
        for place, command in enumerate(commands):
            self.count_vote(voter, ballot, slot + place, command)

    def on_chosen(self, sender, slot, command):
        before = self.front
        if self.front <= slot < self.front + WINDOW:
            self.learn(slot, command)
        if before < self.front < SLOTS and self.front % WINDOW == 0:
            self.send([sender], (ASK, self.front))

    def on_ask(self, sender, slot):
        for s in range(slot, min(self.front, (slot // WINDOW + 1) * WINDOW)):
            self.send([sender], (CHOSEN, s, self.log[s]))

    def on_forward(self, sender, command):
        if self.pending is None and self.table.fits(command):
            self.pending = command

    def count_vote(self, voter, ballot, slot, command):
        if self.front <= slot < self.front + WINDOW:
            voters = self.votes.setdefault((slot, ballot, command), set())
            voters.add(voter)
            if self.is_quorum(voters):
                self.learn(slot, command)

    def learn(self, slot, command):
        self.log.setdefault(slot, command)
        while self.front in self.log:
            self.take(self.log[self.front])
            self.front += 1
        if self.pending is not None and not self.table.fits(self.pending):
            self.pending = None

    def take(self, command):
        """The command at the front: what it shows, where it takes effect."""
        if not self.table.fits(command):
            return
        self.table.apply(command)
        for seat in sorted(self.sessions):
            if self.sessions[seat].is_ready:
                self.show(seat)
        if not self.table.runs():
            self.shown += [f"{self.number} L {line}" for line in self.table.log(self.match.names)]

    def show(self, seat):
        self.shown.append(f"{self.number} {seat} {self.table.line(seat)}")

    def hear(self, seat, line):
        """A whole line of a seat's, without its LF."""
        if seat not in self.sessions:
            return
        answer = self.sessions[seat].answer(self.table, line)
        if answer == "ready":
            if self.table.hand is not None:
                self.show(seat)
        elif isinstance(answer, bytes):
            self.take_act(answer)
        elif answer is not None:
            self.faults.append(f"{self.number} {seat} E {answer}")
            if answer[:2] in ("80", "81"):
                del self.sessions[seat]

    def take_act(self, act):
        if self.pending is None:
            self.pending = act
        if self.promised != NONE and self.promised[1] in self.others():
            self.send([self.promised[1]], (FORWARD, act))

    def away(self):
        if not self.table.runs():
            self.faults.append(f"{self.number} E 96 NothingToAct")
            return
        self.take_act(bytes([3]) + self.table.hand.number.to_bytes(4, "big") + self.table.index().to_bytes(2, "big"))

    def close(self):
        if self.state != "leading":
            return
        if not self.begun <= self.front < self.begun + WINDOW or self.front >= SLOTS:
            self.state = "idle"
            return
        slot, commands = self.front, self.to_propose()
        if not commands:
            return
        self.proposed.update(range(slot, slot + len(commands)))
        taken = self.accept(self.ballot, slot, commands)
        self.send(self.others(), (ACCEPT, self.ballot, slot, commands))
        self.send(self.others(), (ACCEPTED, self.ballot, slot, taken))
        self.count_votes(self.number, self.ballot, slot, taken)

    def to_propose(self):
        """The told commands from the front on, up to the first slot that has none, is outside the ballot's slots or was
        proposed already; where none is told at the front, the node's own command, alone."""
        if self.front in self.proposed:
            return []
        commands, slot = [], self.front
        while slot in self.told and slot < min(self.begun + WINDOW, SLOTS) and slot not in self.proposed:
            commands.append(self.told[slot][1])
            slot += 1
        own = self.own_command()
        return commands or ([] if own is None else [own])

    def own_command(self):
        if not self.table.runs() and self.table.finished < self.match.hands:
            return deal_bytes(self.table.finished, self.match.deal(self.number, self.table.finished))
        return self.pending


NAMES = ["", "prepare", "promise", "refuse", "accept", "accepted", "chosen", "ask", "forward"]


def entries_of(text):
    """The entries of a right match file in the plain part of TOML: an entry a line, and tables of nodes."""
    entries = {}
    table = entries
    for line in text.splitlines():
        key, _, value = line.partition("=")
        if line.strip() == "[[node]]":
            table = {}
            entries.setdefault("node", []).append(table)
        elif line.startswith("["):
            table = {}
        elif value and not line.startswith("#"):
            value = re.sub(r"(\w+) *=", r"'\1':", value) if "{" in value else value
            table[key.strip()] = ast.literal_eval(value.strip())
    return entries


class Match:
    def __init__(self, path, folder):
        entries = entries_of((folder / path).read_text("utf-8"))
        self.name, self.word, self.hands, self.names = (entries[key] for key in ("name", "game", "hands", "names"))
        self.game = dealer.Game((folder / self.word).read_bytes())
        self.sources = entries["node"]

    def header(self):
        return f"# name/game/hands {self.name} {self.word} {self.hands}"

    def deal(self, node, hand):
        source = self.sources[node]
        if "seed" in source:
            return draw(source["seed"], hand, self.game.players)
        return cards_of(source["deals"][hand])


class Script:
    """The nodes, and the frames that they sent."""

    def __init__(self, match, kind=Node):
        self.match, self.nodes = match, [kind(match, number) for number in range(len(match.sources))]
        self.sent, self.waiting = [], set()

    def begin(self):
        return [line for node in self.nodes for line in self.told(node.start())]

    def told(self, answer):
        """What a call's frames, lines and faults are as lines of the output."""
        frames, shown, faults = answer
        lines = []
        for sender, receiver, message in frames:
            lines.append(f"frame {len(self.sent)} {sender}>{receiver} {frame_of(message).hex()}")
            self.waiting.add(len(self.sent))
            self.sent.append((sender, receiver, message))
        return [line.encode("latin-1") for line in lines + shown + faults]

    def deliver(self, number):
        sender, receiver, message = self.sent[number]
        self.waiting.discard(number)
        node = self.nodes[receiver]
        return self.told(node.call(lambda: node.frame(sender, message)))

    def answer(self, line):
        """The lines that are written for a line of the script."""
        words = line.split(b" ", 3)
        numbers = [int(word) if re.fullmatch(rb"[0-9]+", word) else 1 << 64 for word in words[1:3]]
        form = (words[0], len(words) - 1)
        known = {b"away": 1, b"tick": 1, b"start": 1, b"deliver": 1, b"flush": 1, b"connect": 2, b"drop": 2, b"line": 3, b"stop": 2}
        if known.get(words[0]) != form[1] or max(numbers) >= 1 << 64:
            return [BAD]
        if words[0] == b"deliver":
            return self.deliver(numbers[0]) if numbers[0] < len(self.sent) else [BAD]
        if words[0] == b"flush":
            return list(self.flush(numbers[0]))
        if numbers[0] >= len(self.nodes) or words[0] not in (b"away", b"tick", b"start", b"stop") and numbers[1] >= self.match.game.players:
            return [BAD]
        return self.told(self.event(self.nodes[numbers[0]], words, *numbers[1:]))

    def flush(self, most):
        while most and self.waiting:
            yield from self.deliver(min(self.waiting))
            most -= 1

    def event(self, node, words, seat=None):
        if words[0] == b"start":
            return node.start()
        if words[0] == b"stop":
            node.stop()
            return [], [], []
        calls = {
            b"tick": node.tick,
            b"away": node.away,
            b"connect": lambda: node.sessions.update({seat: Session(seat)}),
            b"drop": lambda: node.sessions.pop(seat, None) and None,
            b"line": lambda: node.hear(seat, words[3] + b"\r"),
        }
        return node.call(calls[words[0]])


def play(match, script):
    """What `play` is to write for a right match file and a script."""
    run = Script(match)
    lines = run.begin() + [text for line in script.split(b"\n")[:-1] for text in run.answer(line)]
    return b"".join(line + b"\n" for line in lines)
