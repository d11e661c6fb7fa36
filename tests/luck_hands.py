"""Drawn hands for tests/luck: matches of drawn deals, played by drawn styles, as the texts of their logs."""
import random

from luck_reader import BOARD_CARDS, RANKS, SUITS, settle, worth


def text_of(cards):
    return "".join(RANKS[c // 4] + SUITS[c % 4] for c in cards)


class Play:
    """The betting of one hand; `text` is its betting text so far."""

    def __init__(self, game):
        self.game, self.spent, self.folded = game, list(game.blinds), [False] * game.players
        self.text, self.round, self.over = "", 0, False
        self.begin(0)

    def begin(self, number):
        self.round, self.raises, self.actions = number, 0, 0
        self.least = max(self.spent) + max(self.game.blinds)
        self.owing = {p for p in range(self.game.players) if self.lives(p)}
        self.place = self.game.first[number]
        self.pass_on()

    def lives(self, p):
        return not self.folded[p] and self.spent[p] < self.game.stacks[p]

    def pass_on(self):
        for step in range(self.game.players):
            self.who = (self.place + step) % self.game.players
            if self.lives(self.who):
                return

    def faces(self):
        return self.spent[self.who] < max(self.spent)

    def raise_ends(self):
        """The least and the greatest amount to raise to; None where no raise is allowed."""
        stack, most = self.game.stacks[self.who], max(self.spent)
        live = sum(self.lives(p) for p in range(self.game.players))
        if live < 2 or stack <= most or self.actions + self.game.players > 64 or (self.game.is_limit and self.raises > 2):
            return None
        if self.game.is_limit:
            return (min(most + self.game.sizes[self.round], stack),) * 2
        return min(self.least, stack), stack

    def act(self, letter, amount=None):
        who, most = self.who, max(self.spent)
        self.actions += 1
        self.owing.discard(who)
        self.text += letter
        if letter == "f":
            self.folded[who] = True
        elif letter == "c":
            self.spent[who] = min(most, self.game.stacks[who])
        else:
            self.text += "" if self.game.is_limit else str(amount)
            self.spent[who], self.raises = amount, self.raises + 1
            self.least = max(self.least, 2 * amount - most)
            self.owing = {p for p in range(self.game.players) if self.lives(p) and p != who}
        self.owing = {p for p in self.owing if self.lives(p)}
        self.end_round(who)

    def end_round(self, who):
        if sum(not f for f in self.folded) < 2:
            self.over = True
        elif self.owing:
            self.place = who + 1
            self.pass_on()
        elif self.round == 3 or sum(self.lives(p) for p in range(self.game.players)) < 2:
            self.over, self.text, self.round = True, self.text + "/" * (3 - self.round), 3
        else:
            self.text += "/"
            self.begin(self.round + 1)


# ---- styles: from the play, the hole cards of who acts, the board so far and chance to an action

def wild(play, hole, board, chance):
    ends, pick = play.raise_ends(), chance.random()
    if ends and pick < 0.22:
        low, high = ends
        return "r", chance.choice([low, low, min(high, max(low, 3 * low)), high])
    return ("f",) if play.faces() and pick > 0.75 else ("c",)


def bets_pairs(play, hole, board, chance):
    """Bets and raises a pair, of the board's cards too, half of the time; folds to a bet what has none."""
    ends, ranks = play.raise_ends(), {c // 4 for c in board}
    has_pair = hole[0] // 4 == hole[1] // 4 or any(c // 4 in ranks for c in hole)
    if has_pair and ends and chance.random() < 0.5:
        low, high = ends
        return "r", min(high, 3 * low)
    return ("c",) if has_pair or not play.faces() else ("f",)


def keeps_high_cards(play, hole, board, chance):
    """Plays only what has an ace or a king, and only calls."""
    return ("c",) if not play.faces() or any(c // 4 > 10 for c in hole) else ("f",)


def calls(play, hole, board, chance):
    return ("c",)


# ---- logs

def log_of(game, hands, styles, seed):
    """The log of a match, with styles by seat, and the seats' names."""
    chance = random.Random(seed)
    names = [f"s{seat}" for seat in range(game.players)]
    lines, totals = [f"# name/game/hands drawn game {hands}"], [0] * game.players
    for number in range(hands):
        deal = chance.sample(range(52), 2 * game.players + 5)
        holes = [deal[2 * p:2 * p + 2] for p in range(game.players)]
        board = deal[2 * game.players:]
        seat = [(p + number) % game.players for p in range(game.players)]
        play = Play(game)
        while not play.over:
            play.act(*styles[seat[play.who]](play, holes[play.who], board[:BOARD_CARDS[play.round]], chance))
        worths = [worth(hole + board) for hole in holes]
        values = settle(play.spent, play.folded, worths)
        cards = "|".join(text_of(hole) for hole in holes)
        for street in range(play.round):
            cards += "/" + text_of(board[BOARD_CARDS[street]:BOARD_CARDS[street + 1]])
        lines.append(":".join(["STATE", str(number), play.text, cards, "|".join(map(str, values)), "|".join(names[s] for s in seat)]))
        for p, value in enumerate(values):
            totals[seat[p]] += value
    lines.append("SCORE:" + "|".join(map(str, totals)) + ":" + "|".join(names))
    return ("\n".join(lines) + "\n").encode()
