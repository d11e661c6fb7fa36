"""The seats of a match with nodes: a relay for each, at which its player sits, or a stand-in for one who has failed and may return."""
import selectors
import socket
from contextlib import ExitStack

from .faults import Failed, MatchFault
from .host_nodes import HostRelay
from .match import AGAIN, THOUSAND
from .relays import Relay
from .seats import bound, no_port

# How long a relay may take to tell of a player who came although his programs have ended, in seconds.
TOLD_LATE = 1.0
# The address of this machine at which stand-ins sit.
HERE = "127.0.0.1"


def held_ports(listen, ports, stack):
    """Holds ports, 0 being any free one, for a match; their numbers. Nobody can come to one before a relay listens there too, which
    may, and no other program gets it meanwhile."""
    found = []
    for port in ports:
        if port and port in found:
            raise no_port(listen, port, "Address already in use")
        found.append(stack.enter_context(bound(listen, port)).getsockname()[1])
    return found


class StandIn:
    """Sits at a relay for a player who isn't there. It answers only what it is told to."""

    def __init__(self, port):
        try:
            self.connection = socket.create_connection((HERE, port))
        except OSError as why:
            raise no_port(HERE, port, why.strerror) from why
        self.is_dropped, self.folded = False, None
        self.connection.setblocking(False)
        self.say("VERSION:2.0.0")

    def say(self, line):
        try:
            self.connection.sendall(line.encode() + b"\r\n")
        except OSError:
            # The relay has ended, and its status says why.
            pass

    def fold(self, prompt):
        """Folds at a line, once: the relay makes a call of it where the seat faces no bet."""
        if self.folded != prompt.place:
            self.folded = prompt.place
            self.say(f"{prompt.line}:f")

    def fileno(self):
        return self.connection.fileno()

    def read(self):
        """Takes what came, since a relay doesn't send to somebody who takes nothing. False where nothing more comes."""
        try:
            return bool(self.connection.recv(65536))
        except BlockingIOError:
            return True
        except OSError:
            return False

    def close(self):
        self.connection.close()


class NodeSeats:
    """The seats of a match. `gone` are those whose relays have ended, and aren't replaced."""

    def __init__(self, settings, course, watcher, looked):
        """Takes the players' ports, before anything else is begun."""
        self.settings, self.course, self.watcher, self.looked = settings, course, watcher, looked
        self.players, self.folder, self.slot = len(settings.names), None, None
        self.open, self.selector = ExitStack(), selectors.DefaultSelector()
        self.relays, self.gone = [], []
        self.ports = held_ports(settings.listen, [*settings.ports, *[0] * self.players][: self.players], self.open)
        # When each seat was sent its newest line.
        self.asked_at = [0.0] * self.players
        # By seat who stands in for a player, why one has failed who wasn't asked to act since, until when one is awaited (without end
        # where there is no moment), and since when no program of an awaited one is there; and who has default actions from now on.
        self.stand_ins, self.lost, self.awaited, self.unseen, self.absent = {}, {}, {}, {}, set()
        self.restarts = [0] * self.players

    def start(self, folder, slot):
        """Starts the relays, whose nodes are at a slot: now players may come, but for those who have default actions already."""
        self.folder, self.slot = folder, slot
        for seat in range(self.players):
            self.relays.append(self.relay(seat))
            self.ports[seat] = self.relays[seat].port
        for seat in sorted(self.absent):
            self.give_up(seat)

    def host(self, seat):
        """The host of a seat's player; none where he runs here."""
        return self.settings.at[seat] if self.settings.at else None

    def relay(self, seat):
        """A relay for a seat's player, where that one runs."""
        if self.host(seat):
            return self.begun(HostRelay(self.settings.program, self.folder, self.slot, seat, self.host(seat), self.settings.place))
        return self.begun(Relay(self.settings.program, self.folder, self.slot, seat, self.settings.listen, self.ports[seat]))

    def begun(self, found):
        for pipe in found.pipes():
            self.selector.register(pipe, selectors.EVENT_READ)
        return found

    def wait(self, seconds):
        """Waits until something comes of a relay, but not longer."""
        for key, _ in self.selector.select(seconds):
            if isinstance(key.fileobj, StandIn) and not key.fileobj.read():
                self.selector.unregister(key.fileobj)
                key.fileobj.is_dropped = True

    def is_played(self, seat):
        """Whether a seat's player sits there, or may come, and no stand-in."""
        return seat not in self.stand_ins

    def take_end(self, seat):
        """Takes note that the relay of a seat has ended; whether it is news."""
        if seat in self.gone:
            return False
        self.gone.append(seat)
        for pipe in self.relays[seat].pipes():
            self.selector.unregister(pipe)
        return True

    # Players who may return

    def await_all(self, until):
        self.awaited = {seat: until for seat in range(self.players) if seat not in self.absent}

    def tend(self, late):
        """Looks after seats whose players failed, or are awaited. `late` is how long a response may take, in seconds."""
        for seat in list(self.awaited):
            self.look_for(seat)
        for seat in list(self.gone):
            if not self.relays[seat].is_over():
                self.lose(seat, self.why_ended(seat))
        for seat, prompt in list(self.course.unanswered()):
            if seat in self.absent:
                self.stand_ins[seat].fold(prompt)
            elif seat in self.lost:
                self.recover(seat, prompt)
            elif seat not in self.awaited and self.looked.seconds > self.asked_at[seat] + late:
                self.lose(seat, f"out of time: no response came within {self.settings.limits.response / THOUSAND:.3f} s")

    def why_ended(self, seat):
        """Why a seat's relay has ended. A MatchFault where that isn't the player's fault, or nobody can have failed."""
        try:
            self.relays[seat].fail()
        except Failed as why:
            if self.is_played(seat):
                return str(why)
        raise MatchFault(f"the relay of seat {seat + 1} ended, at which nobody sat")

    def look_for(self, seat):
        """Looks whether an awaited player has come, or won't."""
        relay, until = self.relays[seat], self.awaited[seat]
        if relay.has_version():
            del self.awaited[seat]
        elif until is not None and self.looked.seconds >= until:
            self.lose(seat, "the player named no version in time" if relay.has_come else "the player didn't connect in time")
        elif not relay.has_come and seat not in self.gone and self.is_nobody_coming(seat):
            self.lose(seat, "the player's program ended")

    def is_nobody_coming(self, seat):
        """Whether no program of an awaited player has been there for a while."""
        if self.watcher.is_coming(seat):
            self.unseen.pop(seat, None)
            return False
        return self.looked.seconds > self.unseen.setdefault(seat, self.looked.seconds) + TOLD_LATE

    def lose(self, seat, why):
        """Has a stand-in sit for a player who has failed, until the seat is to act."""
        self.awaited.pop(seat, None)
        self.unseen.pop(seat, None)
        self.lost[seat] = why
        self.sit_in(seat)

    def recover(self, seat, prompt):
        """Asks what becomes of a seat that is to act, whose player has failed."""
        if prompt.place != self.course.place():
            return
        why = self.lost.pop(seat)
        self.leave(seat)
        self.watcher.dropped(seat)
        self.replace(seat, self.relay)
        if self.watcher.failed(seat, why, self.restarts[seat]) == AGAIN:
            self.restarts[seat] += 1
            limit = self.settings.limits.start
            self.awaited[seat] = None if limit < 0 else self.looked.seconds + limit / THOUSAND
            return
        self.give_up(seat)

    def give_up(self, seat):
        """Has a stand-in take default actions for a player, to the match's end."""
        self.lost.pop(seat, None)
        self.absent.add(seat)
        self.sit_in(seat)

    def sit_in(self, seat):
        self.leave(seat)
        self.replace(seat, lambda seat: self.begun(Relay(self.settings.program, self.folder, self.slot, seat, HERE, 0)))
        self.stand_ins[seat] = StandIn(self.relays[seat].port)
        self.selector.register(self.stand_ins[seat], selectors.EVENT_READ)

    def leave(self, seat):
        """Ends a seat's relay, and with it the connection of who sat there."""
        found = self.stand_ins.pop(seat, None)
        if found is not None:
            if not found.is_dropped:
                self.selector.unregister(found)
            found.close()
        if seat not in self.gone:
            self.take_end(seat)
        self.relays[seat].close()

    def replace(self, seat, relay):
        """Starts another relay for a seat whose last one was ended: a line counts as sent once this one has sent it."""
        self.gone.remove(seat)
        self.course.unsent(seat)
        self.relays[seat] = relay(seat)

    def answer_again(self, seat, line, said):
        """Says for a player what he answered before his connection ended: it may not have come to a node."""
        if seat in self.stand_ins:
            self.stand_ins[seat].say(f"{line}:{said}")

    def end_relays(self):
        """Ends the relays, and with them the players' connections."""
        for found in self.stand_ins.values():
            found.close()
        for relay in self.relays:
            relay.close()

    def close(self):
        """Lets go of the ports."""
        self.selector.close()
        self.open.close()
