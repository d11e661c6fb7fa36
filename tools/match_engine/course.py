"""The course of a match as relays' traces and a node's log tell it: who did what, and when."""
import re
from typing import NamedTuple, Optional

from .program import Betting

ACTION = re.compile(r"[fc]|r[0-9]*")
PASSED_OVER = "passed over, since "


class Place(NamedTuple):
    """How far a match has come: the number of the hand, and how many actions of it there were."""

    hand: int
    count: int


class Prompt(NamedTuple):
    """A line that a seat is to answer: its place, its text, and when it was sent, in microseconds since 1970."""

    place: Place
    line: str
    sent: int


class Acted(NamedTuple):
    """An action. What the player said and the times are there where a trace told them."""

    seat: int
    action: str
    said: Optional[str] = None
    sent: Optional[int] = None
    received: Optional[int] = None


class Ended(NamedTuple):
    """A hand is over, and this is its line in the log."""

    line: str


class SeatCourse:
    """What the trace of a seat has told so far."""

    def __init__(self):
        self.place, self.line, self.prompt, self.is_gone = None, None, None, False
        self.answers = {}


class Course:
    """The course of a match, of which `next` tells one thing after the other."""

    def __init__(self, game, hands):
        self.game, self.hands = game, hands
        self.hand, self.count, self.last = 0, 0, None
        self.bettings, self.ended = {}, {}
        self.seats = [SeatCourse() for _ in range(game.players)]

    def first_seat(self):
        """The seat that is to act first; none where a hand is over as it is dealt."""
        return Betting(self.game, "").to_act()

    def seat_at(self, position):
        """The seat that has a position in the hand up to which `next` has told it."""
        return (position + self.hand) % self.game.players

    def place(self):
        """The place up to which `next` has told it."""
        return Place(self.hand, self.count)

    def sent(self, seat, at, line):
        """A seat was sent a line."""
        _, position, hand, betting, _ = line.split(":")
        hand, told = int(hand), self.seats[seat]
        told.line, told.place = line, Place(hand, len(ACTION.findall(betting)))
        is_turn = Betting(self.game, betting).to_act() == int(position)
        told.prompt = Prompt(told.place, line, at) if is_turn else None
        self.see(hand, betting)

    def see(self, hand, betting):
        """A line shows the betting of a hand."""
        if hand >= self.hand and len(betting) >= len(self.bettings.get(hand, "")):
            self.bettings[hand] = betting

    def received(self, seat, at, line):
        """A seat said a line. Why it is passed over, if it is."""
        told = self.seats[seat]
        if line[:1] in ("#", ";"):
            return None
        if told.line is None or not line.startswith(told.line + ":"):
            return f"{PASSED_OVER}it doesn't answer the newest line: {line}"
        if told.prompt is None:
            return f"{PASSED_OVER}it isn't this seat's turn: {line}"
        if told.place in told.answers:
            return f"{PASSED_OVER}the newest line was answered before: {line}"
        told.answers[told.place] = Acted(seat, "", line[len(told.line) + 1 :], told.prompt.sent, at)
        return None

    def logged(self, line):
        """A node's log has the line of a hand."""
        _, hand, betting, _ = line.split(":", 3)
        self.see(int(hand), betting)
        self.ended[int(hand)] = line

    def unsent(self, seat):
        """A seat's line counts as not sent: another player is to get it, who begins anew."""
        self.seats[seat].prompt = None

    def answered(self, seat):
        """What a seat's player said to the newest line of the seat, if he did."""
        told = self.seats[seat]
        return told.answers.get(told.place)

    def gone(self, seat):
        """Nothing more comes of a seat's trace."""
        self.seats[seat].is_gone = True

    def is_held_up_by(self, seat):
        """Whether the match, as far as it is known, waits for an answer of a seat of whose trace nothing more comes."""
        betting, told = self.bettings.get(self.hand), self.seats[seat]
        if betting is None or self.place() < self.newest() or not told.is_gone or self.place() in told.answers:
            return False
        position = Betting(self.game, betting).to_act()
        return position is not None and self.seat_at(position) == seat

    def unanswered(self):
        """The seats that are to answer a line, each with it. Who did by what others were told since isn't one of them, even where
        its own trace hasn't come so far."""
        for seat, told in enumerate(self.seats):
            is_open = told.prompt is not None and told.place not in told.answers and told.place >= self.newest()
            if is_open and not told.is_gone:
                yield seat, told.prompt

    def next(self, is_known=False):
        """What happened next: an action or the end of a hand; none where that isn't known yet. An action is told once the trace of
        its seat is past it, and so has told all that belongs to it; it is told at once where it is known without."""
        betting = self.bettings.get(self.hand)
        actions = [] if betting is None else list(ACTION.finditer(betting))
        if self.count < len(actions):
            return self.next_action(betting, actions[self.count], is_known)
        if self.hand in self.ended:
            return self.end_hand(len(actions))
        return None

    def next_action(self, betting, found, is_known):
        position = Betting(self.game, betting[: found.start()]).to_act()
        seat, place = self.seat_at(position), self.place()
        told = self.seats[seat]
        if not is_known and not told.is_gone and (told.place is None or told.place <= place):
            return None
        self.count += 1
        acted = told.answers.pop(place, Acted(seat, ""))
        return acted._replace(action=found[0])

    def end_hand(self, count):
        self.last, line = Place(self.hand, count), self.ended.pop(self.hand)
        del self.bettings[self.hand]
        self.hand, self.count = self.hand + 1, 0
        return Ended(line)

    def newest(self):
        """The newest place that a trace or the log has shown."""
        hand = max(self.bettings, default=self.hand)
        return Place(hand, len(ACTION.findall(self.bettings.get(hand, ""))))

    def is_over(self):
        """Whether all of the match was told."""
        return self.hand == self.hands

    def is_told(self):
        """Whether each seat was sent the last line of the last hand."""
        return self.is_over() and all(told.is_gone or told.place == self.last for told in self.seats)
