"""The list of commands of a simulated match, and what the sequential dealer of second_nodes.py makes of each beginning of it."""
import bisect
import re

import second_nodes as nodes
import simulation_codes
from simulation_trace import number

DEAL, ACT, AWAY = 1, 2, 3
# Decks of so many hands are drawn at once.
DECKS = 8
ACTION = re.compile(r"(f|c)|r(\d{1,10})?")


class Decks:
    """The cards that the node of a number deals, by hands."""

    def __init__(self, seed, players):
        self.seed, self.players, self.cards = seed, players, {}

    def hand(self, hand):
        """The bytes of the command that deals a hand."""
        if hand not in self.cards:
            first = hand - hand % DECKS
            hands = range(first, first + DECKS)
            for place, words in zip(hands, simulation_codes.words_of(self.seed, hands)):
                self.cards[place] = nodes.deal_bytes(place, drawn(words, self.seed, place, self.players))
        return self.cards[hand]


def drawn(words, seed, hand, players):
    """The cards of a hand by the first words of its stream, or by all of it where those don't suffice."""
    try:
        deck = nodes.shuffled(nodes.dealer.CARDS, iter(words))
    except StopIteration:
        return nodes.draw(seed, hand, players)
    return deck[: 2 * players + 5]


class Dealt:
    """The sequential dealer's lines and log after each beginning of a list of commands."""

    def __init__(self, game, names, hands, header):
        self.table = nodes.Table(game, hands)
        self.names, self.lines, self.count = names, [{} for _ in names], 0
        self.log, self.ends = header + "\n", [len(header) + 1]
        # The newest line of each seat, and its place among the lines of the seat.
        self.last = [None for _ in names]
        self.order = [{} for _ in names]
        # The commands of actions that were asked for behind the list, and how many acts its last hand has.
        self.legal, self.acts = {}, 0
        # After which beginnings of the list each line of a seat became its newest.
        self.places = [[] for _ in names]
        # After each beginning of the list: how many hands were dealt, and how many are finished.
        self.hands = [(0, 0)]

    def to_act(self):
        """The seat to act; none where no hand runs."""
        hand = self.table.hand
        return (hand.turn + hand.number) % len(self.names) if self.table.runs() else None

    def command(self, action):
        """The command of an action of the seat to act, as a bot says it; none where it is no legal one."""
        if action not in self.legal:
            self.legal[action] = self.legal_command(action)
        return self.legal[action]

    def legal_command(self, action):
        found, game, hand = ACTION.fullmatch(action), self.table.game, self.table.hand
        if found is None or found[1] is None and game.limit != (found[2] is None):
            return None
        after = object.__new__(type(hand))
        after.__dict__.update(hand.__dict__)
        after.spent, after.folded, after.owing = list(hand.spent), list(hand.folded), set(hand.owing)
        try:
            after.act(action[0], int(found[2]) if found[2] else 0)
        except nodes.dealer.Refused:
            return None
        return nodes.act_bytes(hand.number, self.acts, action[0], after.spent[hand.turn] if action[0] == "r" else 0)

    def default(self):
        """The command of the default action of the seat to act."""
        return bytes([AWAY]) + self.table.hand.number.to_bytes(4, "big") + self.acts.to_bytes(2, "big")

    def fits(self, command):
        """Whether a command does something behind the list."""
        if command[0] == ACT and self.table.runs():
            letter, amount = "fcr"[command[7]], number(command[8:12])
            action = f"r{amount}" if letter == "r" and not self.table.game.limit else letter
            return self.command(action) == command
        return self.table.fits(command)

    def take(self, command, fits):
        """One command more, which does nothing where it doesn't fit."""
        self.count += 1
        table = self.table
        if fits:
            table.apply(command)
            self.legal, self.acts = {}, 0 if command[0] == DEAL else self.acts + 1
            if table.hand.over:
                self.log += "".join(line + "\n" for line in table.log(self.names))
        self.ends.append(len(self.log))
        self.hands.append((0 if table.hand is None else table.hand.number + 1, table.finished))
        if fits:
            self.tell()

    def tell(self):
        """Notes the lines that seats have from now on."""
        for seat, last in enumerate(self.last):
            line = self.table.line(seat)
            if line != last:
                self.lines[seat].setdefault(line, []).append(self.count)
                self.last[seat] = line
                self.order[seat].setdefault(line, len(self.order[seat]))
                self.places[seat].append(self.count)

    def front_of_log(self, size):
        """How many commands the list has at least where the log has so many bytes."""
        return bisect.bisect_left(self.ends, size)

    def is_over(self):
        return self.table.finished == self.table.hands

