"""The table of a room's match: house bots are started as a league's are, and players dial in."""
import os
import time

import which_program
from league_parts import one_match, plan
from league_parts.one_match import HOST, Table
from match_engine import AGAIN, DEFAULT

from . import asking
from .leagues import GIVEN_UP
from .links import TOO_LATE, Control, Link, say_to

# How long connections may take that the room has handed over before the match began, in seconds: on a busy machine that takes a while.
HANDED_OVER = 60
# What the engine says of a player who isn't coming.
NOBODY = "the player's program ended"


class DialledTable(Table):
    """The players of a room's match, and the notes of what they do."""

    def __init__(self, players, restarts, folder, keeper, name, control, asked):
        """`asked` is the room's first message: how long a seat is kept, which seats aren't any more, and how long a house bot may
        take to come."""
        super().__init__(players, restarts, folder, keeper)
        self.name, self.control, self.wait = name, control, asked["wait"]
        # How long a player is awaited now.
        self.awaited = max(self.wait, HANDED_OVER)
        self.absent, self.house_start = set(asked["absent"]), asked["start"]
        # By seat until when a house bot may come; whether the match is over, and its score.
        self.due, self.is_over, self.score = {}, False, None
        control.begin(len(players))

    def start_all(self, ports):
        super().start_all(ports)
        self.awaited = self.wait

    def is_dialled(self, seat):
        return not self.players[seat].command

    def start(self, seat):
        """Starts a house bot, or awaits a player."""
        if not self.is_dialled(seat):
            self.due[seat] = time.monotonic() + self.house_start
            super().start(seat)
        elif seat not in self.absent:
            awaited, place = self.control.awaited[seat], (HOST, self.ports[seat])
            self.bots[seat] = Link(awaited, place, self.awaited, lambda: self.lose(seat))

    def lose(self, seat):
        """Says that a player's connection has ended, unless the match has."""
        if not self.is_over:
            self.control.say(lost=seat)

    def is_coming(self, seat):
        is_late = seat in self.due and time.monotonic() >= self.due[seat]
        return not is_late and super().is_coming(seat)

    def dropped(self, seat):
        """A player who dialled in is told why first."""
        if self.is_dialled(seat):
            if self.bots[seat] is not None:
                self.bots[seat].stop()
        else:
            super().dropped(seat)

    def failed(self, seat, why, restarts):
        if not self.is_dialled(seat):
            return super().failed(seat, why, restarts)
        link, name = self.bots[seat], self.players[seat].name
        if link is None or not link.has_come:
            why, is_again = f"nobody dialled for this seat{f' within {self.wait} s' if link else ''}", False
        else:
            why, is_again = "the player's connection ended" if why == NOBODY else why, restarts < self.restarts
        kept = f"the seat is kept for {self.wait} s ({restarts + 1} of {self.restarts})"
        self.note(f"{name}: {why}: {kept if is_again else 'folds or calls from now on'}")
        if is_again:
            self.leave([seat], asking.told(asking.AGAIN, f"{why}; {kept}, dial again"))
            self.start(seat)
            return AGAIN
        self.leave([seat], asking.told(asking.DROPPED, f"{why}; your seat folds or calls to the end of {self.name}"))
        self.give_up(seat)
        return DEFAULT

    def give_up(self, seat):
        """Keeps a seat no longer, also behind a restart of the room."""
        with open(self.folder / GIVEN_UP, "a", encoding="ascii") as file:
            file.write(self.players[seat].name + "\n")
            file.flush()
            os.fsync(file.fileno())
        left = self.control.awaited[seat].close()
        self.control.say(gone=seat)
        if left is not None:
            say_to(left.connection, TOO_LATE)
            left.connection.close()

    def logged(self, line):
        if line.startswith("SCORE:"):
            self.score = line

    def finished(self, at):
        super().finished(at)
        self.is_over = True
        self.control.say(over=0)

    def leave(self, seats, line):
        """Says to the players of some seats why their connections end, and ends them."""
        links = [self.bots[seat] for seat in seats if self.bots[seat] is not None]
        for link in links:
            link.leave(line)
        for link in links:
            link.close()
        for seat in seats:
            self.bots[seat] = None

    def end(self, seats):
        seats = [*seats]
        over = asking.told(asking.OVER, f"{self.name} {self.score or ''}".rstrip())
        interrupted = asking.told(asking.AGAIN, f"{self.name} was interrupted, dial again")
        self.leave([seat for seat in seats if self.is_dialled(seat)], over if self.is_over else interrupted)
        super().end([seat for seat in seats if not self.is_dialled(seat)])


def play(league, number, descriptor):
    """Plays a match of a room's plan, or resumes it, with players who come over a room's control."""
    planned = plan.planned(league)[number - 1]
    control = Control(descriptor)
    asked = control.first()
    if asked is None:
        return 1
    one_match.end_by_signals()
    os.chdir(league.path.parent)
    which_program.chosen()

    def seated(*words):
        return DialledTable(*words, planned.name, control, asked)

    print(f"{planned.name}: {one_match.play_planned(league, planned, league.folder, False, seated)}")
    return 0
