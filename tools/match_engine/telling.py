"""What the watcher of a match with nodes is told of its seats, in the order in which it happened."""
from typing import Callable, NamedTuple

from .course import Place

# Lines are told by their times: so long each is kept back, in microseconds.
ORDERED = 50_000
# The place at which each match begins.
BEGIN = Place(0, 0)


class Soon(NamedTuple):
    """What the watcher is told soon: when it was, at which place of the match, what is called, and with what words."""

    at: int
    place: Place
    call: Callable
    words: tuple


def in_order(told, sent):
    """In the order of their times, but nothing before an answer that brought it about: two relays' clocks may differ by as much as
    a line takes. What is said of an answer stands behind it."""
    behind, latest = {}, 0
    for it in sorted(told, key=lambda it: (it.place, it.call != sent)):
        behind[it] = max(it.at, latest)
        latest = behind[it] if it.call != sent else latest
    return sorted(told, key=lambda it: (behind[it], it.place, it.call != sent))


class Telling:
    """What is to be told of the seats of a course. Each line is kept back for a moment, since another relay may tell an earlier one."""

    def __init__(self, course, watcher):
        self.course, self.watcher, self.soon = course, watcher, []

    def later(self, seat, at, call, *words, place=None):
        """Has the watcher be told something of a seat: at a place, or else that to which its trace has come."""
        self.soon.append(Soon(at, place or self.course.seats[seat].place or BEGIN, call, (seat, *words)))

    def tell(self, until=None):
        """Tells the watcher what is due by its time; all of it where there is no moment. A line of a place to which the match, as
        far as it is known, hasn't come yet is kept back, and so is what stands behind an answer that isn't due."""
        is_due = [until is None or (it.at <= until and it.place <= self.course.place()) for it in self.soon]
        awaited = [it.place for it, due in zip(self.soon, is_due) if not due and it.call == self.watcher.received]
        is_due = [due and not any(place < it.place for place in awaited) for it, due in zip(self.soon, is_due)]
        due = [it for it, is_told in zip(self.soon, is_due) if is_told]
        self.soon = [it for it, is_told in zip(self.soon, is_due) if not is_told]
        for it in in_order(due, self.watcher.sent):
            it.call(*it.words)
