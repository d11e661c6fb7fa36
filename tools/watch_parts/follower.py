"""What the page shows of one match, as far as its log goes."""
from collections import deque

from hand_formats.played import Hand
from hand_formats.pokerstars import action
from hand_formats.refused import Refused

# How many hands of a match the page shows at most.
HANDS_SHOWN = 20
# What a line that no dealer wrote comes to as it is read or played.
WRONG = (ValueError, AttributeError, IndexError, KeyError, TypeError, StopIteration, Refused)


class Follower:
    """Follows a match. `hiding` takes the cards out of a hand's line that the table wasn't shown; it changes nothing where all cards
    are revealed. Hands are shown when `delay` further ones are finished, or the match is over."""

    def __init__(self, key, name, game, log, delay, hiding):
        """`key` is what the page knows it by, which no other match has."""
        self.key, self.name, self.game, self.log, self.delay, self.hiding = key, name, game, log, delay, hiding
        # Nothing of a match that is held is shown but how far it is.
        self.is_held = False
        self.begin()

    def begin(self):
        self.total, self.seats, self.finished, self.is_over, self.fault = None, [], 0, False, None
        self.waiting, self.shown, self.chips, self.count = deque(), deque(maxlen=HANDS_SHOWN), [], 0

    def look(self):
        """Reads what came to the log. The hands that are to be shown now; whether anything else of the match has changed."""
        is_new = self.log.has_begun_anew()
        if is_new:
            self.log = self.log.anew()
            self.begin()
        lines = self.log.lines() if self.fault is None else []
        try:
            for line in lines:
                self.take(line)
            return self.release(), bool(lines) or is_new
        except WRONG as why:
            self.fault = f"its log isn't right behind hand {self.count}: {why}"
            return [], True

    def take(self, line):
        """Takes a line of the log."""
        if line.startswith("# name/game/hands "):
            self.total = int(line.split(" ")[-1])
        elif line.startswith("STATE:"):
            _, number, *_, names = line.split(":")
            if int(number) != self.finished:
                raise ValueError(f"hand {self.finished} is missing")
            if not self.seats:
                self.seats, self.chips = names.split("|"), [0] * self.game.players
            self.finished += 1
            self.waiting.append(line)
        elif line.startswith("SCORE:"):
            self.is_over = True

    def release(self):
        """The hands whose time has come, as the page shows them."""
        found = []
        while not self.is_held and len(self.waiting) > (0 if self.is_over else self.delay):
            line = self.waiting.popleft()
            *_, values, names = line.split(":")
            for name, chips in zip(names.split("|"), values.split("|")):
                self.chips[self.seats.index(name)] += int(chips)
            self.count += 1
            # (no more hands than the page shows are read whole)
            if len(self.waiting) < HANDS_SHOWN + self.delay:
                # (the whole line is played first: what hides cards trusts the betting)
                Hand(self.game, line)
                found.append(hand_shown(Hand(self.game, self.hiding(line))))
        self.shown.extend(found)
        return found

    def figures(self):
        """All but the hands."""
        held = {"isHeld": True} if self.is_held else {"chips": self.chips, "shown": self.count}
        return {
            "key": self.key, "name": self.name, "players": self.seats, "hands": self.total, "finished": self.finished, "isOver": self.is_over, "fault": self.fault,
            **held,
        }

    def whole(self):
        return {**self.figures(), "list": [] if self.is_held else [*self.shown]}


def hand_shown(hand):
    """A hand as the page shows it: players by position, and each round's cards and actions in words."""
    return {
        "number": hand.number,
        "players": [{"name": name, "cards": cards, "chips": chips} for name, cards, chips in zip(hand.names, hand.holes, hand.payoffs)],
        "rounds": [{"cards": it.cards, "acts": [f"{hand.names[act.position]} {action(act)}" for act in it.acts]} for it in hand.rounds],
    }
