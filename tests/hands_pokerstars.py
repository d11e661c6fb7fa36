"""A reader of PokerStars' text, by another author than tools/hands and without its code. It plays each hand again, and compares
each line with what was played.

What the text is, from memory: a head, the seats with their stacks, the blinds, a part for each round, perhaps a showdown, and a
summary; three empty lines are behind it. Amounts are chips of a play-money table, and those of a round. `raises A to B`: A is what B
is above the bet before, B what the player then has put in. A bet that nobody called is returned, and isn't in the pot. Side pots
are collected first, the last one before all others.
"""
import re

from hands_rules import (
    CARD, FLUSH, FOUR, FULL_HOUSE, HIGH_CARD, PAIR, STRAIGHT, STRAIGHT_FLUSH, THREE, TWO_PAIRS, Game, Hand, Read,
)
from measuring import want

HEAD = r"PokerStars Hand #([1-9]\d{7})(\d{4}):  Hold'em (No Limit|Limit) \((\d+)/(\d+)\) - 2000/01/01 (\d\d):(\d\d):(\d\d) ET"
TABLE = r"Table '([\w.-]+)' (2|6|9|10)-max \(Play Money\) Seat #(\d+) is the button"
SEAT = r"Seat (\d+): (\S+) \(([1-9]\d*) in chips\)"
STREETS = {3: "FLOP", 4: "TURN", 5: "RIVER"}
FOLDED = ["before Flop", "on the Flop", "on the Turn", "on the River"]
WORDS = "Deuce Three Four Five Six Seven Eight Nine Ten Jack Queen King Ace".split()


def described(value):
    """What a value is called."""
    category, (first, *others) = value
    word, many = WORDS[first], [WORDS[rank] + ("es" if WORDS[rank] == "Six" else "s") for rank in (first, *others)]
    return {
        HIGH_CARD: f"high card {word}",
        PAIR: f"a pair of {many[0]}",
        TWO_PAIRS: f"two pair, {' and '.join(many[:2])}",
        THREE: f"three of a kind, {many[0]}",
        STRAIGHT: f"a straight, {WORDS[first - 4]} to {word}",
        FLUSH: f"a flush, {word} high",
        FULL_HOUSE: f"a full house, {' full of '.join(many[:2])}",
        FOUR: f"four of a kind, {many[0]}",
        STRAIGHT_FLUSH: "a Royal Flush" if word == "Ace" else f"a straight flush, {WORDS[first - 4]} to {word}",
    }[category]


class Text:
    """A hand's lines, taken one by one. Players are positions: 0 sits behind the button, or has the big blind where two play."""

    def __init__(self, lines, place):
        self.lines, self.place = lines, place
        self.first_digits, number, kind, *stakes, hours, minutes, seconds = self.take(HEAD)
        want(int(number) == place == (int(hours) * 60 + int(minutes)) * 60 + int(seconds), f"hand {place}: its number or its time")
        self.match, size, button = self.take(TABLE)
        seats = []
        while self.lines[0].startswith("Seat "):
            seats.append(self.take(SEAT))
        self.count = len(seats)
        want([int(number) for number, *_ in seats] == [*range(1, self.count + 1)], f"seats {seats}")
        want(int(size) == min(size for size in (2, 6, 9, 10) if size >= self.count), f"a table for {size}")
        seats = seats[int(button):] + seats[: int(button)]
        self.seats, self.names, self.stacks = [int(it[0]) for it in seats], [it[1] for it in seats], [int(it[2]) for it in seats]
        self.small, self.big = (1, 0) if self.count == 2 else (0, 1)
        self.hand = Hand(self.game(kind == "Limit", *map(int, stakes)))

    def take(self, form):
        """The groups of the next line, which must have this form."""
        found = self.lines and re.fullmatch(form, self.lines[0])
        want(found, f"{self.lines[:1]} where {form} is due")
        del self.lines[0]
        return found.groups()

    def line(self, text):
        self.take(re.escape(text))

    def game(self, is_limit, low, high):
        """Reads the blinds, which the head must have."""
        blinds = [0] * self.count
        for player, name in (self.small, "small"), (self.big, "big"):
            blinds[player] = int(self.take(re.escape(self.names[player]) + f": posts {name} blind ([1-9]\\d*)")[0])
        told = (blinds[self.big], 2 * blinds[self.big]) if is_limit else (blinds[self.small], blinds[self.big])
        want((low, high) == told, f"{low}/{high} in the head, not {told}")
        return Game(blinds, self.stacks, [low, low, high, high] if is_limit else [], (self.big + 1) % self.count)

    def holes(self):
        self.line("*** HOLE CARDS ***")
        for player in sorted(range(self.count), key=self.seats.__getitem__):
            if self.lines[0].startswith(f"Dealt to {self.names[player]} "):
                self.hand.hold(player, "".join(self.take(rf"Dealt to \S+ \[({CARD}) ({CARD})\]")))

    def street(self):
        board, new = self.hand.board, self.hand.lacks_board()
        before = f"[{' '.join(board)}] " if board else ""
        start = re.escape(f"*** {STREETS[len(board) + new]} *** {before}")
        cards = self.take(start + rf"\[{' '.join([f'({CARD})'] * new)}\]")
        self.hand.see(cards)
        board += cards

    def action(self):
        hand, player = self.hand, self.hand.waiting[0]
        most, left = max(hand.spent), hand.game.stacks[player] - hand.spent[player]
        bet, to_call = most - hand.before, min(most - hand.spent[player], left)
        text, all_in = self.take(re.escape(self.names[player]) + ": (.+?)( and is all-in)?")
        raised = re.fullmatch(r"(?:bets|raises \d+ to) (\d+)", text)
        if raised:
            to = int(raised[1])
            want(text == (f"raises {to - bet} to {to}" if bet else f"bets {to}"), f"{text} above {bet}")
            hand.raise_to(hand.before + to)
        elif text == "folds":
            hand.fold()
        else:
            want(text == (f"calls {to_call}" if to_call else "checks"), f"{text}, and {to_call} is to be called")
            hand.call()
        want(bool(all_in) == (hand.spent[player] == hand.game.stacks[player]), f"{text}: all-in or not")

    def uncalled(self):
        """Reads what goes back to who put in most, and takes it out of the hand."""
        spent = self.hand.spent
        second, most = sorted(spent)[-2:]
        if most > second:
            player = spent.index(most)
            self.line(f"Uncalled bet ({most - second}) returned to {self.names[player]}")
            spent[player] = second

    def showdown(self):
        self.line("*** SHOW DOWN ***")
        for player in self.hand.showing():
            *hole, text = self.take(re.escape(self.names[player]) + rf": shows \[({CARD}) ({CARD})\] \((.*)\)")
            self.hand.hold(player, "".join(hole))
            want(text == described(self.hand.value(player)), f"{self.names[player]} shows {text}")

    def collected(self, pots):
        """Reads who collects the pots, with their names; what each player gets of them."""
        won = [0] * self.count
        for name, pot in reversed([*pots.items()]):
            for player, chips in self.hand.shares(pot).items():
                self.line(f"{self.names[player]} collected {chips} from {name}")
                won[player] += chips
        return won

    def summary(self, pots, won):
        parts = "".join(f" {name.capitalize()} {pot.chips}." for name, pot in pots.items()) if len(pots) > 1 else ""
        self.line("*** SUMMARY ***")
        self.line(f"Total pot {sum(won)}{parts} | Rake 0")
        if self.hand.board:
            self.line(f"Board [{' '.join(self.hand.board)}]")
        for player in sorted(range(self.count), key=self.seats.__getitem__):
            places = [name for name, at in (("button", self.count - 1), ("small blind", self.small), ("big blind", self.big)) if at == player]
            self.line(" ".join([f"Seat {self.seats[player]}: {self.names[player]}", *(f"({name})" for name in places), self.fate(player, won[player])]))
        want(not self.lines, f"more lines: {self.lines[:2]}")

    def fate(self, player, chips):
        hand, hole = self.hand, self.hand.holes[player]
        if player in hand.folded:
            return f"folded {FOLDED[hand.folded[player]]}" + ("" if hand.spent[player] else " (didn't bet)")
        if not hand.showing():
            return f"collected ({chips})"
        return f"showed [{hole[:2]} {hole[2:]}] and {f'won ({chips})' if chips else 'lost'} with {described(hand.value(player))}"

    def read(self, start):
        """Plays the hand."""
        hand = self.hand
        self.holes()
        while hand.waiting:
            if hand.lacks_board():
                self.street()
            self.action()
        self.uncalled()
        while hand.lacks_board():
            self.street()
        if hand.showing():
            self.showdown()
        found = hand.pots()
        sides = [f"side pot-{number}" for number in range(1, len(found))] if len(found) > 2 else ["side pot"]
        pots = dict(zip(["main pot", *sides] if len(found) > 1 else ["pot"], found))
        won = self.collected(pots)
        if not hand.showing():
            self.line(f"{self.names[hand.standing()[0]]}: doesn't show hand")
        self.summary(pots, won)
        want(self.seats == [(place + start + self.place) % self.count + 1 for place in hand.players], f"seats {self.seats}")
        return Read(self.match, hand.game, hand.line(self.place, self.names, start))


def hands_in(text, start=0):
    """Each hand of a file; player 0 has the position `start` in the log."""
    want(text.endswith("\n\n\n\n"), "three empty lines are behind each hand")
    texts = [Text(part.split("\n"), place) for place, part in enumerate(text[:-4].split("\n\n\n\n"))]
    want(len({text.first_digits for text in texts}) == 1, "the first digits of the hands' numbers differ")
    return [text.read(start) for text in texts]
