"""The room while it is open: its port, who waits there, and the matches that are played."""
import contextlib
import resource
import selectors
import signal
import sys
import time

from league_parts.bots import INTERRUPTS
from league_parts.faults import Stopped, Unfinished
from league_parts.words import in_words, printable
from match_engine.faults import MatchFault
from match_engine.seats import bound

from . import asking, tokens
from .callers import Caller, Refused, State
from .leagues import Leagues
from .matches import BUSY, OnWay
from .pairing import Candidate, tables

# How often deadlines are looked at, and how often pairs are sought though nobody came, in seconds.
LOOK, SEEK = 0.1, 1.0
# How long a connection is held whose player is connected already: a machine that was lost is noticed by then.
HELD = 8.0
# How many connections wait at the port until they are accepted, and how many handles are left to everything else.
BACKLOG, OTHER_HANDLES = 64, 128


def say(text):
    """Notes what happens, with its time. Nobody has to read it."""
    with contextlib.suppress(OSError):
        print(f"{time.strftime('%Y-%m-%d %H:%M:%S')} {printable(text)}", file=sys.stderr, flush=True)


class Hosting:
    """A room that is open."""

    def __init__(self, room, words):
        """`words` begin the command that plays a match."""
        self.room, self.words, self.is_ending = room, words, False
        for number in INTERRUPTS:
            signal.signal(number, lambda *_: setattr(self, "is_ending", True))
        self.leagues = Leagues(room)
        self.callers, self.matches, self.selector = set(), [], selectors.DefaultSelector()
        # The match in which a player has a seat that is kept.
        self.seats = {}
        # (a match has two handles here)
        self.most = max(room.waiting, resource.getrlimit(resource.RLIMIT_NOFILE)[0] - OTHER_HANDLES - 2 * room.at_once)
        self.sought = 0.0
        until = time.monotonic() + room.resume
        for begun in self.leagues.unfinished():
            self.add(OnWay(begun, until))
        self.listener = self.listening()
        self.selector.register(self.listener, selectors.EVENT_READ, self.accept)

    def listening(self):
        try:
            found = bound(self.room.bind, self.room.port)
            found.listen(BACKLOG)
        except (MatchFault, OSError) as why:
            raise Unfinished(str(why)) from why
        found.setblocking(False)
        return found

    @property
    def port(self):
        return self.listener.getsockname()[1]

    def add(self, match):
        self.matches.append(match)
        self.seats.update((name, match) for name in match.awaited)

    def open(self):
        """Plays until this process is asked to end."""
        known = [name for name, token in self.room.tokens.items() if token in tokens.EXAMPLES]
        if known:
            say(f"{', '.join(known)}: everybody knows the tokens of an example; tools/room --new-token draws others")
        for match in self.matches:
            say(f"{match.name}: goes on when its players are here, at the latest in {in_words(self.room.resume)}")
        try:
            while not self.is_ending:
                for key, _ in self.selector.select(LOOK):
                    key.data()
                self.look()
        finally:
            self.close()

    def look(self):
        """Does what is due."""
        for match in [*self.matches]:
            if match.is_ended():
                self.take_end(match)
        now = time.monotonic()
        for caller in [*self.callers]:
            self.look_at(caller, now)
        for match in [*self.matches]:
            if match.is_ready():
                self.start(match)
        if now >= self.sought + SEEK:
            self.seek()

    # Connections

    def accept(self):
        while True:
            try:
                connection, (address, *_) = self.listener.accept()
            except BlockingIOError:
                return
            except OSError:
                # There are no handles, or who dialled has left: the next look tries again.
                time.sleep(LOOK)
                return
            caller = Caller(connection, address)
            if sum(it.address == address and it.state != State.LEAVING for it in self.callers) >= self.room.waiting:
                self.turn_away(caller, f"{self.room.waiting} connections of {address} wait already")
            elif len(self.callers) >= self.most:
                self.turn_away(caller, "too many connections wait already")
            else:
                self.callers.add(caller)
                self.selector.register(connection, selectors.EVENT_READ, lambda caller=caller: self.take(caller))

    def turn_away(self, caller, why):
        """Closes a connection at once that is one too many."""
        say(f"{caller.text}: closed, {why}")
        caller.say(asking.LATER, why)
        caller.close()

    def take(self, caller):
        """Takes what came over a connection. Who waits and ends it doesn't wait any more."""
        if caller not in self.callers:
            return
        if not caller.take():
            if caller.state not in (State.LEAVING, State.GREETING):
                say(f"{caller.text}: left before a match")
            self.forget(caller)
            return
        try:
            if caller.state == State.GREETING and caller.greet(self.room):
                self.place(caller)
            elif caller.state != State.LEAVING:
                caller.refuse_more()
        except Refused as why:
            self.part(caller, why.what, str(why))

    def part(self, caller, what, text):
        """Says why a connection is closed, and closes it once that was read."""
        say(f"{caller.text}: {what}: {text}")
        self.unseat(caller)
        caller.leave(what, text)

    def forget(self, caller):
        """Closes a connection that doesn't play."""
        self.release(caller)
        caller.close()

    def release(self, caller):
        """Looks no longer after a connection."""
        self.callers.discard(caller)
        self.selector.unregister(caller.connection)
        self.unseat(caller)

    def unseat(self, caller):
        """Has a connection wait for no match any more."""
        for match in self.matches:
            match.callers = {name: it for name, it in match.callers.items() if it is not caller}

    def look_at(self, caller, now):
        """Does what is due for a connection: one that waits gets a seat that was lost."""
        if caller.state == State.LEAVING and now >= caller.until:
            self.forget(caller)
        elif caller.state == State.GREETING and now >= caller.until:
            self.part(caller, asking.REFUSED, f"it didn't say who it is within ten seconds: {asking.FORM}")
        elif caller.state == State.HELD:
            self.place(caller)
        elif caller.state == State.WAITING and self.is_wanted(self.seats.get(caller.name), caller.name):
            self.place(caller)

    @staticmethod
    def is_wanted(match, name):
        """Whether a match has no connection of a player whose seat is kept."""
        return match is not None and name not in match.here and name not in match.callers

    def place(self, caller):
        """Finds the place of somebody who has said who he is: first in his open match."""
        name, match = caller.name, self.seats.get(caller.name)
        if match is None:
            self.queue(caller)
        elif not self.is_wanted(match, name):
            self.hold(caller, match)
        elif match.process is not None:
            say(f"{caller.text}: goes on in {match.name}")
            self.release(caller)
            match.hand_over(name, caller)
        else:
            match.callers[name], caller.state = caller, State.GOING_ON
            lacking = ", ".join(match.lacking())
            say(f"{caller.text}: waits to go on in {match.name}")
            if lacking:
                left = in_words(max(0, match.until - time.monotonic()))
                caller.say(asking.WAITING, f"{match.name} goes on when {lacking} is here, at the latest in {left}")

    def hold(self, caller, match):
        """Holds the connection of somebody who is connected already, for a moment."""
        if caller.state != State.HELD:
            caller.state, caller.until = State.HELD, time.monotonic() + HELD
        elif time.monotonic() >= caller.until:
            self.part(caller, asking.LATER, f"{caller.name} plays {match.name} over another connection")

    def queue(self, caller):
        if self.room.a_day and self.leagues.today(caller.name) >= self.room.a_day:
            self.part(caller, asking.REFUSED, f"{caller.name} has begun {self.room.a_day} matches today, which ends at 24:00 UTC")
            return
        caller.state, self.sought = State.WAITING, 0.0
        others = len({it.name for it in self.callers if it.state == State.WAITING} - {caller.name})
        say(f"{caller.text}: waits{f' for {caller.asked.against}' if caller.asked.against else ''}")
        caller.say(asking.WAITING, f"others who wait: {others}")

    # Matches

    def seek(self):
        """Sits down who waits, as far as the bound of players at once leaves room."""
        self.sought = time.monotonic()
        waiting, playing = {}, sum(len(match.awaited) for match in self.matches if match.process is not None)
        for caller in sorted((it for it in self.callers if it.state == State.WAITING), key=lambda it: it.since):
            if caller.name not in self.seats:
                waiting.setdefault(caller.name, caller)
        due = self.sought - self.room.house_after
        candidates = [
            Candidate(it.name, it.asked.against, it.asked.hands or self.room.hands[0], it.since <= due) for it in waiting.values()
        ]
        houses = [Candidate(name, is_house=True) for name in self.room.houses]
        for table in tables(candidates, houses, self.room.game.players, self.leagues.often):
            dialled = [it.name for it in table if not it.is_house]
            if playing + len(dialled) <= self.room.at_once and not self.refuse_today([waiting[name] for name in dialled]):
                playing += len(dialled)
                self.begin(table, {name: waiting[name] for name in dialled})

    def refuse_today(self, callers):
        """Refuses those who have played enough today since they began to wait; whether there are any."""
        found = [it for it in callers if self.room.a_day and self.leagues.today(it.name) >= self.room.a_day]
        for caller in found:
            self.queue(caller)
        return bool(found)

    def begin(self, table, callers):
        """Plans a match, and starts it. Where the disk takes nothing its players wait on."""
        try:
            begun = self.leagues.begin(table[0].hands, [it.name for it in table])
        except (OSError, Stopped) as why:
            say(f"no match of {' and '.join(callers)}: {why}")
            return
        match = OnWay(begun, time.monotonic() + self.room.resume)
        match.callers = callers
        self.add(match)
        self.start(match)

    def start(self, match):
        """Starts a match's process, with those who are there."""
        callers = match.callers.values()
        for caller in callers:
            self.callers.discard(caller)
            self.selector.unregister(caller.connection)
        words = [*self.words, str(match.begun.league.path), str(match.begun.planned.number)]
        say(f"{match.name}: begins with {', '.join(match.callers) or 'nobody'}")
        try:
            lacking = match.start(words, {"wait": self.room.wait, "start": self.room.limits.start / 1000})
        except OSError as why:
            say(f"{match.name}: can't be started: {why.strerror}")
            for caller in callers:
                caller.say(asking.LATER, "the room has no memory, or no handles")
                caller.close()
            match.callers = {}
            match.put_off()
            return
        self.selector.register(match.control, selectors.EVENT_READ, lambda: self.hear(match))
        self.let_go(match, lacking)

    def hear(self, match):
        """Takes what a match says of its seats."""
        before = set(match.here)
        gone = match.read()
        for name in sorted(before - match.here - gone):
            say(f"{match.name}: {name} is away, the seat is kept")
        self.let_go(match, gone)

    def let_go(self, match, names):
        """Lets players go whose seats in a match are given up, or who have played it to its end."""
        for name in sorted(names):
            if self.seats.get(name) is match:
                if not match.is_over:
                    say(f"{match.name}: the seat of {name} is given up")
                match.gone.add(name)
                del self.seats[name]

    def take_end(self, match):
        """Takes the end of a match's process: it is over, or goes on when its players are there again."""
        self.hear(match)
        self.selector.unregister(match.control)
        status, said = match.take_end(self.room.resume)
        if match.begun.is_finished():
            say(f"{match.name}: over, {match.begun.score()}")
            self.matches.remove(match)
            self.seats = {name: it for name, it in self.seats.items() if it is not match}
        elif status != BUSY:
            say(f"{match.name}: {said.removeprefix('room: ')}; it goes on when its players are here again")

    def close(self):
        """Ends all matches in order, which the next start of the room goes on with, and lets go of who waits."""
        self.listener.close()
        for caller in self.callers:
            caller.say(asking.LATER, "the room closes")
            caller.close()
        for match in self.matches:
            match.end()
        for match in self.matches:
            match.await_end()
        self.leagues.close()
