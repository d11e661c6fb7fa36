"""A second dealer, written from docs/RULES.md alone: it plays and pays hands and takes scripts of `hand`, for tests/dealer and
whoever else compares what the program does with what the rules say. `seeded_match` draws a game and a script."""
import itertools
import random
import re
from collections import Counter

RANKS, SUITS = "23456789TJQKA", "cdhs"
CARDS = [rank + suit for rank in RANKS for suit in SUITS]
MOST = 2147483647
NAME = re.compile(r"[A-Za-z0-9_.-]{1,32}")
BAD = "E 110 BadScript"


class Game:
    """A right game file's values."""

    def __init__(self, text):
        keys = {}
        for line in text.decode("latin-1").split("\n"):
            words = line.split("#")[0].replace("=", " = ").split()
            if not words or words[0].lower() == "gamedef":
                continue
            if words[0].lower() == "end":
                break
            keys[words[0].lower()] = [int(word) for word in words[1:] if word != "="]
        self.players = keys["numplayers"][0]
        self.limit = "nolimit" not in keys
        self.stacks = keys.get("stack", [MOST] * self.players)
        self.blinds = keys.get("blind", [0] * self.players)
        self.sizes = keys.get("raisesize")
        self.first = [place - 1 for place in keys.get("firstplayer", [1] * 4)]
        self.raises = keys.get("maxraises", [255] * 4)


class Refused(Exception):
    pass


class Hand:
    """A hand's betting so far, by position."""

    def __init__(self, game, number, cards):
        self.game, self.number, self.cards = game, number, cards
        self.spent = list(game.blinds)
        self.folded = [False] * game.players
        self.text, self.round, self.over = "", 0, False
        self.begin_round()

    def unfolded(self):
        return [p for p in range(self.game.players) if not self.folded[p]]

    def is_live(self, position):
        return not self.folded[position] and self.spent[position] < self.game.stacks[position]

    def next_live(self, position):
        """The first live position from one on, round the table."""
        places = ((position + step) % self.game.players for step in range(self.game.players))
        return next((p for p in places if self.is_live(p)), None)

    def begin_round(self):
        self.count = self.raised = 0
        self.owing = {p for p in range(self.game.players) if self.is_live(p)}
        self.least = max(self.spent) + max(self.game.blinds)
        self.turn = self.next_live(self.game.first[self.round])

    def act(self, letter, amount):
        """The player to act folds, calls, or raises to the amount (any where the game has limits)."""
        stack, most = self.game.stacks[self.turn], max(self.spent)
        if letter == "f":
            if self.spent[self.turn] >= most:
                raise Refused("21 FoldNotFacing")
            self.folded[self.turn] = True
            self.text += "f"
        elif letter == "c":
            self.spent[self.turn] = min(most, stack)
            self.text += "c"
        else:
            self.take_raise(amount, stack, most)
        self.count += 1
        self.owing.discard(self.turn)
        self.go_on()

    def act_for_absent(self):
        """What is done for the player to act where he is away: a fold where he faces something, else a call."""
        self.act("f" if self.spent[self.turn] < max(self.spent) else "c", None)

    def take_raise(self, amount, stack, most):
        if self.raised >= self.game.raises[self.round]:
            raise Refused("22 TooManyRaises")
        if self.count + self.game.players > 64:
            raise Refused("26 RoundFull")
        if sum(self.is_live(p) for p in range(self.game.players)) < 2:
            raise Refused("23 NobodyToCall")
        if most >= stack:
            raise Refused(f"25 RaiseTooLarge {stack}")
        if self.game.limit:
            amount = min(most + self.game.sizes[self.round], stack)
            self.text += "r"
        else:
            if amount < min(self.least, stack):
                raise Refused(f"24 RaiseTooSmall {min(self.least, stack)}")
            if amount > stack:
                raise Refused(f"25 RaiseTooLarge {stack}")
            self.least = max(self.least, 2 * amount - most)
            self.text += f"r{amount}"
        self.spent[self.turn] = amount
        self.raised += 1
        self.owing = {p for p in range(self.game.players) if self.is_live(p)}

    def go_on(self):
        """Finds who is to act next, in this round or the next one."""
        self.owing = {p for p in self.owing if self.is_live(p)}
        if len(self.unfolded()) == 1:
            self.over = True
        elif self.owing:
            self.turn = self.next_live(self.turn + 1)
        elif sum(self.is_live(p) for p in range(self.game.players)) < 2:
            self.over = True
            self.text += "/" * (3 - self.round)
            self.round = 3
        elif self.round == 3:
            self.over = True
        else:
            self.round += 1
            self.text += "/"
            self.begin_round()

    def board(self):
        """The board of the rounds reached, each round's behind its slash."""
        rest = self.cards[2 * self.game.players :]
        rounds = ["".join(rest[:3]), rest[3], rest[4]]
        return "".join("/" + cards for cards in rounds[: self.round])

    def hole(self, position):
        return "".join(self.cards[2 * position : 2 * position + 2])

    def line(self, viewer):
        """What the player at a position sees."""
        shown = self.unfolded() if self.over and len(self.unfolded()) > 1 else []
        holes = [self.hole(p) if p == viewer or p in shown else "" for p in range(self.game.players)]
        return f"MATCHSTATE:{viewer}:{self.number}:{self.text}:{'|'.join(holes)}{self.board()}"

    def payoffs(self):
        """Chip level by chip level, all levels with the same players in one pot."""
        pots = {}
        levels = sorted({0, *self.spent})
        for low, high in zip(levels, levels[1:]):
            inside = [p for p in range(self.game.players) if self.spent[p] >= high]
            eligible = tuple(p for p in inside if not self.folded[p])
            pots[eligible] = pots.get(eligible, 0) + (high - low) * len(inside)
        won = [-amount for amount in self.spent]
        board = self.cards[2 * self.game.players :]
        value = lambda p: best(self.cards[2 * p : 2 * p + 2] + board)
        for eligible, chips in pots.items():
            top = max(value(p) for p in eligible) if len(eligible) > 1 else None
            winners = [p for p in eligible if top is None or value(p) == top]
            for place, p in enumerate(winners):
                won[p] += chips // len(winners) + (place < chips % len(winners))
        return won


def best(cards):
    return max(five_value(five) for five in itertools.combinations(cards, 5))


def five_value(five):
    """The category, then the ranks by how often each comes and by height."""
    ranks = [RANKS.index(card[0]) for card in five]
    groups = sorted(Counter(ranks).items(), key=lambda it: (-it[1], -it[0]))
    counts, order = [count for _, count in groups], [rank for rank, _ in groups]
    is_flush = len({card[1] for card in five}) == 1
    top = None
    if counts == [1] * 5:
        top = order[0] if order[0] - order[4] == 4 else 3 if order == [12, 3, 2, 1, 0] else None
    if top is not None:
        return (8 if is_flush else 4, [top])
    if is_flush:
        return (5, order)
    category = {(4, 1): 7, (3, 2): 6, (3, 1, 1): 3, (2, 2, 1): 2, (2, 1, 1, 1): 1}.get(tuple(counts), 0)
    return (category, order)


class Match:
    """A script on its way."""

    def __init__(self, game, hands, word):
        self.game, self.hands, self.word = game, hands, word
        self.names, self.hand, self.finished, self.score = None, None, 0, [0] * game.players

    def answer(self, line):
        """The lines that are written for a line of the script."""
        if self.names is None:
            return self.take_names(line)
        if line.startswith("deal "):
            return self.take_deal(line[5:])
        if self.hand is None or self.hand.over:
            return [BAD]
        if line == "away":
            self.hand.act_for_absent()
            return self.acted()
        found = re.fullmatch("f|c|r" if self.game.limit else "f|c|r(0|[1-9][0-9]{0,9})", line)
        if not found:
            return [BAD]
        amount = None if self.game.limit else int(found[1] or 0)
        if amount is not None and amount > 4294967295:
            return [BAD]
        try:
            self.hand.act(line[0], amount)
        except Refused as why:
            return [f"E {why}"]
        return self.acted()

    def take_names(self, line):
        names = line[6:].split("|")
        right = all(NAME.fullmatch(name) for name in names) and len(set(names)) == len(names) == self.game.players
        if not line.startswith("names ") or not right:
            return [BAD]
        self.names = names
        return [f"L # name/game/hands hand {self.word} {self.hands}"] if self.word else []

    def take_deal(self, text):
        players = self.game.players
        form = r"\|".join([r"(..)(..)"] * players) + r"/(..)(..)(..)/(..)/(..)"
        found = re.fullmatch(form, text)
        cards = list(found.groups()) if found else []
        is_deal = len(set(cards)) == 2 * players + 5 and set(cards) <= set(CARDS)
        if not is_deal or self.finished == self.hands or self.hand and not self.hand.over:
            return [BAD]
        self.hand = Hand(self.game, self.finished, cards)
        return self.seats()

    def seats(self):
        n = self.game.players
        return [f"{seat} {self.hand.line((seat - self.hand.number) % n)}" for seat in range(n)]

    def acted(self):
        return self.seats() + (self.end() if self.hand.over else [])

    def end(self):
        n, hand = self.game.players, self.hand
        self.finished += 1
        won = hand.payoffs()
        for p in range(n):
            self.score[(p + hand.number) % n] += won[p]
        if not self.word:
            return []
        holes = "|".join(hand.hole(p) for p in range(n))
        names = "|".join(self.names[(p + hand.number) % n] for p in range(n))
        values = "|".join(map(str, won))
        lines = [f"L STATE:{hand.number}:{hand.text}:{holes}{hand.board()}:{values}:{names}"]
        if self.finished == self.hands:
            lines.append(f"L SCORE:{'|'.join(map(str, self.score))}:{'|'.join(self.names)}")
        return lines


def play(game, script, hands=1, word=None):
    """What `hand` is to write for a right game file and a script; the log too where there is a word for the game."""
    match = Match(Game(game), hands, word)
    lines = script.decode("latin-1").split("\n")[:-1]
    return "".join(text + "\n" for line in lines for text in match.answer(line)).encode("latin-1")


def seeded_match(players, hands, seed):
    """A no-limit game with uneven stacks, and a script of so many hands: most end early, some go to a showdown."""
    dice = random.Random(f"{players} {hands} {seed}")
    blinds = [100, 50] if players == 2 else [50, 100] + [0] * (players - 2)
    first = "2 1 1 1" if players == 2 else "3 1 1 1"
    stacks = [dice.choice([150, 1000, 2500, 20000]) for _ in range(players)]
    game = (
        f"GAMEDEF\nnolimit\nnumPlayers = {players}\nnumRounds = 4\nstack = {' '.join(map(str, stacks))}\n"
        f"blind = {' '.join(map(str, blinds))}\nfirstPlayer = {first}\nnumSuits = 4\nnumRanks = 13\n"
        "numHoleCards = 2\nnumBoardCards = 0 3 1 1\nEND GAMEDEF\n"
    )
    names = ["alice", "bob", "carol", "dave", "erin", "frank", "grace", "heidi", "ivan", "judy"][:players]
    match = Match(Game(game.encode()), hands, None)
    script = ["names " + "|".join(names)]
    match.answer(script[0])
    while match.finished < hands:
        cards = dice.sample(CARDS, 2 * players + 5)
        holes = "|".join(cards[2 * p] + cards[2 * p + 1] for p in range(players))
        script.append(f"deal {holes}/{''.join(cards[-5:-2])}/{cards[-2]}/{cards[-1]}")
        match.answer(script[-1])
        while not match.hand.over:
            hand = match.hand
            stack = hand.game.stacks[hand.turn]
            amount = dice.choice([min(hand.least, stack), stack, min(2 * hand.least, stack)])
            script.append(dice.choices(["f", "c", f"r{amount}"], [6, 4, 1])[0])
            match.answer(script[-1])
    return game, "".join(line + "\n" for line in script)
