"""A match that nodes keep, each in a process of its own, with a relay between each player and them."""
import time
from contextlib import ExitStack

from .course import Acted, Course, Ended
from .faults import Failed, MatchFault, SeatFault
from .files import File, Restart, Transaction, transactions, whole_lines
from .host_nodes import HostNode, HostSlot
from .match import THOUSAND, Clock, Result, Times, Watcher, game_at, header
from .node_files import NodeFolder
from .node_logs import FarthestLog
from .node_processes import Node, Nodes
from .node_seats import NodeSeats
from .program import Dealer
from .slots import Slot
from .telling import ORDERED, Telling

# How often logs and processes are looked at where no trace tells anything, and how often nodes that replay, in seconds.
LOOK, REPLAY_LOOK = 0.02, 0.05
# How long nodes that replay wait for one of them that says nothing, in seconds; the others go on without it.
HUNG = 30.0
# Of a look that took longer, in seconds, so much counts.
LONGEST_LOOK = 0.5
# How far a trace may be behind a limit, in seconds: the relay writes it when it has time.
TRACED = 10.0
# How long nothing more may come of the match, in seconds, where a player who has left may have done all that he had to, or where
# the hands before that in which a player failed aren't in the log.
GRACE = 60.0
# A relay drops lines of its trace where this process takes none for long. Once the log has its score, or a relay has ended with
# the match, nothing more is waited for where nothing has come for so many seconds.
UNTOLD = 300.0
# How long logs of other hosts are waited for once one of them is whole, in seconds.
COMING = 3.0
# How long relays are waited for at the match's end until they have said so to their players, in seconds.
PARTING = 0.5


class LookTime:
    """How long this process has looked at the match, in seconds, up to the beginning of its newest look: what had come by then
    was read since. Of a time in which it stood still little counts, since others may have stood still with it."""

    def __init__(self):
        self.seconds, self.begun = 0.0, time.monotonic()

    def begin_look(self):
        now = time.monotonic()
        self.seconds += min(now - self.begun, LONGEST_LOOK)
        self.begun = now


class NodeMatch:
    """A match on its way: of the same form as `Match`.

    Nodes and relays play it by themselves. This process reads what relays trace and nodes log, writes files by it, and ends all of
    them with the match, or with itself."""

    def __init__(self, settings, watcher=None):
        """Takes the match's files and an address, makes the stores, or goes on with those that are there, and starts the relays.
        InUse where another dealer plays the match, MatchFault where anything else is wrong."""
        self.settings, self.watcher = settings, watcher or Watcher()
        self.players = len(settings.names)
        self.clock, self.open = Clock(), ExitStack()
        self.times = Times(settings.limits, settings.hands, self.players)
        self.mended, self.defaults = ([0] * self.players for _ in range(2))
        self.score = self.scored = None
        # What the transaction file told when it was opened, how much of that was met again, and so much of the log was there.
        self.told, self.met, self.logged = [], 0, 0
        # Whether the nodes run, and whether nothing of the match is wanted any more.
        self.is_running, self.is_finished = False, False
        # When the match was last seen to go on.
        self.looked, self.news_at, self.seats = LookTime(), 0.0, None
        try:
            self.prepare()
        except BaseException:
            self.close()
            raise

    def kept(self, part):
        """A part that is closed with the match."""
        self.open.callback(part.close)
        return part

    def prepare(self):
        """Files come last of what may be refused: then what an earlier match left is as it was."""
        settings = self.settings
        self.game = game_at(settings.game)
        dealer = Dealer(settings.program, settings.game, self.game, settings.hands, settings.names)
        dealer.close()
        self.course = Course(dealer.game, settings.hands)
        self.telling = Telling(self.course, self.watcher)
        self.seats = self.kept(NodeSeats(settings, self.course, self.watcher, self.looked))
        slot = self.kept(
            HostSlot(settings.hosts, settings.first_port, self.players) if settings.hosts else Slot(settings.nodes, self.players)
        )
        self.transactions, self.log = self.file(settings.transactions), self.file(settings.log)
        self.folder = self.kept(NodeFolder(settings, header(settings).split(" ")[2]))
        self.open.callback(self.leave_folder)
        self.nodes = self.kept(Nodes(slot, [self.node(number) for number in range(settings.nodes)], self.watcher.troubled))
        self.farthest = FarthestLog([self.folder.log(node) for node in range(settings.nodes)])
        if self.is_going_on():
            self.go_on(slot)
        else:
            self.begin(slot)

    def node(self, number):
        settings = self.settings
        if settings.hosts:
            return HostNode(settings.program, self.folder, number, settings.hosts[number], settings.place)
        return Node(settings.program, self.folder, number)

    def file(self, path):
        return None if path is None else self.kept(File(path))

    @property
    def ports(self):
        return self.seats.ports

    # The start

    def is_going_on(self):
        """Whether the match goes on from stores that are there. A MatchFault where it should, and can't."""
        if not self.settings.is_resumed or self.transactions is None:
            return False
        if not self.folder.has_stores() and whole_lines(self.transactions.content()):
            raise MatchFault(
                f"{self.folder.path}: there are no stores with which the match of {self.transactions.path} could go on; "
                "--nodes 0 goes on with that file alone"
            )
        if self.folder.has_stores() and not self.folder.is_of(self.game):
            raise MatchFault(f"{self.folder.path}: the stores are of another match: look at game, seed, hands, names and --nodes")
        return self.folder.has_stores()

    def begin(self, slot):
        """Makes the stores of a new match, and begins its files."""
        self.folder.empty()
        self.folder.furnish(self.game, slot)
        self.seats.start(self.folder, slot)
        self.nodes.initialize()
        for file in (self.transactions, self.log):
            if file is not None and not self.settings.is_resumed:
                file.cut(0)
        self.publish(header(self.settings))
        self.folder.finish(self.game)

    def go_on(self, slot):
        """Has the nodes replay what the stores have, and adds to the files what they lack of it."""
        kept = whole_lines(self.transactions.content())
        for number, told in transactions(self.transactions.path, kept):
            if isinstance(told, Restart):
                self.seats.restarts[told.seat] += 1
            else:
                self.told.append((number, told))
        self.folder.furnish(self.game, slot)
        self.await_replay()
        lines = self.take_log()
        happened = list(iter(lambda: self.course.next(is_known=True), None))
        self.compare(lines, [acted for acted in happened if isinstance(acted, Acted)])
        self.transactions.cut(len(kept))
        self.publish(header(self.settings))
        for one in happened:
            self.take(one)
        if self.course.is_over():
            self.nodes.close()
            self.is_running = False
            self.let_go()
        self.seats.start(self.folder, slot)

    def let_go(self):
        """Awaits nothing more of any relay."""
        for seat in range(self.players):
            self.course.gone(seat)

    def let_go_of_the_gone(self):
        """Awaits nothing more of relays that have ended, since the log has the score."""
        for seat in self.seats.gone:
            self.course.gone(seat)

    def await_replay(self):
        """Starts the nodes, and waits until they know all that was chosen before: else players got lines of the past."""
        self.is_running, front, before, until = True, None, None, time.monotonic() + HUNG
        while (front is None or front != before) and not self.nodes.know_the_end():
            time.sleep(REPLAY_LOOK)
            self.nodes.tend()
            before, front = front, self.nodes.front(is_majority_enough=time.monotonic() > until)

    def compare(self, lines, acted):
        """A MatchFault where the files aren't those of the match in the stores; neither was changed yet."""
        for told, one in zip(self.told, acted):
            self.compare_action(*told, one)
        text = "".join(line + "\n" for line in [header(self.settings), *lines])
        old = b"" if self.log is None else self.log.content()
        if not text.startswith(old.decode("latin-1")):
            raise MatchFault(f"{self.log.path}: what is in it isn't what the stores have: it is of another match")
        self.logged = len(old)

    def compare_action(self, number, told, acted):
        """A MatchFault where the transaction file has another action than the match."""
        if told.action != acted.action:
            where = f"{self.transactions.path}: line {number}"
            raise MatchFault(f"{where} is of another match: it has {told.action}, and the stores have {acted.action}")

    # The match

    def play(self):
        """Waits for the players and plays to the end; the Result. SeatFault where a seat failed."""
        try:
            self.await_players()
            self.watcher.started(self.clock.now())
            if not self.is_running and not self.course.is_over():
                self.start_nodes()
            while not self.is_done():
                self.look()
        finally:
            self.telling.tell()
        if self.settings.hosts:
            self.compare_logs()
        self.nodes.forget()
        self.watcher.finished(self.clock.now())
        self.is_finished = True
        return Result(self.score, self.times.used, self.times.worst, self.mended, self.seats.restarts, self.defaults)

    def compare_logs(self):
        """A MatchFault where two nodes have written different logs, as far as these can be had. Those that come are waited for a
        moment."""
        until, coming = time.monotonic() + COMING, [self.folder.log(node.number) for node in self.nodes.all if node.is_heard()]
        while not self.farthest.are_equal(coming) and time.monotonic() < until:
            time.sleep(LOOK)
        self.farthest.compare()

    def is_done(self):
        """Whether the log has its score, and each player was sent the last line of the last hand."""
        return self.score is not None and self.course.is_told()

    def await_players(self):
        limit = self.settings.limits.start
        until = None if limit < 0 else self.looked.seconds + limit / THOUSAND
        if self.settings.may_return:
            self.seats.await_all(until)
            while self.seats.awaited:
                self.look()
            return
        while True:
            awaited = [relay for relay in self.seats.relays if not relay.has_version()]
            if not awaited:
                return
            if until is not None and self.looked.seconds >= until:
                what = "named no version" if awaited[0].has_come else "didn't connect"
                raise SeatFault(awaited[0].seat, f"the player {what} in time")
            self.look()

    def start_nodes(self):
        """Starts the nodes of a new match. The relay of who is to act first is stopped until each other player was sent the first
        line: a relay begins with the newest line, and so a player could miss those before it reached a node."""
        first = self.course.first_seat()
        if first is not None:
            self.seats.relays[first].hold(True)
        self.is_running = True
        while not all(told.place for seat, told in enumerate(self.course.seats) if seat != first):
            self.look()
        if first is not None:
            self.seats.relays[first].hold(False)

    def look(self):
        """Goes on by what traces, logs and processes tell, and looks whether a player has failed."""
        self.advance()
        self.judge()
        self.telling.tell(self.clock.now() - ORDERED)

    def advance(self):
        """Waits a moment for traces, takes what happened as far as they and the logs tell, and starts nodes again that have ended."""
        self.looked.begin_look()
        self.seats.wait(LOOK)
        for relay in self.seats.relays:
            self.take_trace(relay)
        if self.take_log():
            self.news_at = self.looked.seconds
        for place, one in iter(self.next, (None, None)):
            self.take(one, place)
        if self.is_running:
            self.nodes.tend()

    def next(self):
        """What happened next and where, if that is known. What the transaction file told needs no trace."""
        place = self.course.place()
        happened = self.course.next(is_known=self.met < len(self.told))
        return (None, None) if happened is None else (place, happened)

    def take_trace(self, relay):
        """Takes what a relay tells."""
        for at, way, line in relay.read():
            if way == "TO":
                self.take_sent(relay.seat, at, line)
            elif self.seats.is_played(relay.seat):
                self.telling.later(relay.seat, at, self.watcher.received, at, line)
                warning = self.course.received(relay.seat, at, line)
                if warning is not None:
                    self.telling.later(relay.seat, at, self.watcher.warned, warning)
        if relay.status is not None and self.seats.take_end(relay.seat):
            self.news_at = self.looked.seconds
            if not self.settings.may_return or relay.is_over() or self.scored is not None:
                self.course.gone(relay.seat)

    def take_sent(self, seat, at, line):
        """Takes a line that a seat was sent. A stand-in answers it where the player did so already."""
        self.seats.asked_at[seat] = self.news_at = self.looked.seconds
        self.course.sent(seat, at, line)
        if self.seats.is_played(seat):
            self.telling.later(seat, at, self.watcher.sent, at, line)
        elif self.course.answered(seat) is not None:
            self.seats.answer_again(seat, line, self.course.answered(seat).said)

    def take_log(self):
        """Takes what the farthest log has new; its lines without their ends."""
        lines = [line[:-1] for line in self.farthest.lines()]
        for line in lines:
            if line.startswith("STATE:"):
                self.course.logged(line)
            elif line.startswith("SCORE:"):
                self.scored = line
        return [line for line in lines if not line.startswith("#")]

    def take(self, happened, place=None):
        """Takes an action, or the end of a hand, into figures and files."""
        if isinstance(happened, Ended):
            self.end_hand(happened.line)
        elif self.met < len(self.told):
            number, told = self.told[self.met]
            self.compare_action(number, told, happened)
            self.count(happened.seat, told)
            self.met += 1
        else:
            self.note(happened, place)

    def count(self, seat, told):
        """Adds an action to the seat's figures."""
        self.times.add(seat, told.received - told.sent)
        if told.mark == "mended":
            self.mended[seat] += 1
        if told.mark == "default":
            self.defaults[seat] += 1
            self.seats.absent.add(seat)

    def note(self, acted, place):
        """Writes an action. Of one that no trace told, since this process wasn't there, the time is when it was learned of."""
        sent = received = self.clock.now()
        mark = "default" if acted.said is None and acted.seat in self.seats.absent else None
        if acted.said is not None:
            sent, received = acted.sent, acted.received
            self.check(acted.seat, received - sent)
            if acted.said != acted.action:
                mark = "mended"
                text = f"the action {acted.said!r} is changed to {acted.action}"
                self.telling.later(acted.seat, received, self.watcher.warned, text, place=place)
        told = Transaction(acted.action, sent, received, mark)
        self.count(acted.seat, told)
        if self.transactions is not None:
            kept = told if self.settings.may_return else told._replace(mark=None)
            self.transactions.append(kept.text() + "\n")
            if self.settings.sync_actions:
                self.transactions.sync()

    def check(self, seat, time):
        """Has a player fail whose response took longer than a limit. Of one who may return the action stands: it is chosen."""
        try:
            self.times.check(seat, time)
        except Failed as why:
            if not self.settings.may_return:
                raise SeatFault(seat, str(why)) from why
            if self.seats.is_played(seat) and not self.course.is_over():
                self.seats.lose(seat, str(why))

    def end_hand(self, line):
        """Writes a hand's line, once its actions are down on the disk."""
        self.times.begin_hand()
        if self.transactions is not None and self.met == len(self.told):
            self.transactions.sync()
        self.publish(line)

    def publish(self, line):
        """Adds a line to the log, unless it was there before."""
        text = line + "\n"
        known = min(self.logged, len(text))
        self.logged -= known
        if self.log is not None:
            self.log.append(text[known:])
        if known < len(text) and not line.startswith("#"):
            self.watcher.logged(line)

    def judge(self):
        """Adds the score behind the last hand. Looks after players who are late, or have left: who may not return ends the match."""
        if self.course.is_over() and self.score is None and self.scored is not None:
            self.publish(self.scored)
            self.score = self.scored
        if self.scored is not None and self.is_silent_for(UNTOLD):
            self.let_go()
        if self.is_done():
            return
        late = self.settings.limits.response / THOUSAND + TRACED
        if self.settings.may_return:
            if self.scored is None:
                self.seats.tend(late)
            else:
                self.let_go_of_the_gone()
            return
        for seat, _ in self.course.unanswered():
            if self.looked.seconds > self.seats.asked_at[seat] + late:
                self.end_by(seat, self.fail_late)
        for seat in self.seats.gone:
            if self.is_lost(seat):
                self.end_by(seat, self.seats.relays[seat].fail)

    def is_silent_for(self, seconds):
        """Whether nothing has come of the match for so long."""
        return self.looked.seconds > self.news_at + seconds

    def is_lost(self, seat):
        """Whether the match can't go on without a seat whose relay has ended."""
        if self.seats.relays[seat].is_over():
            # All that the player was to be told he was told: other traces, and the logs, may come to the end later.
            return self.is_silent_for(UNTOLD)
        is_another_asked = any(True for _ in self.course.unanswered())
        return not self.may_be_done(seat) or (self.is_silent_for(GRACE) and not is_another_asked)

    def may_be_done(self, seat):
        """Whether a player who has left may have done all that he had to: he left in the last hand, and nothing shows that the
        match waits for him; or that isn't known, since his trace lacks lines."""
        relay = self.seats.relays[seat]
        is_last = self.course.newest().hand >= self.settings.hands - 1
        return relay.has_left() and (relay.has_gaps() or (is_last and not self.course.is_held_up_by(seat)))

    def fail_late(self):
        raise Failed(f"out of time: no response came within {self.settings.limits.response / THOUSAND:.3f} s")

    def end_by(self, seat, fail):
        """Ends the match by a call that says why the seat's player failed, once all hands before are in the log."""
        begun = self.looked.seconds
        while self.course.hand < self.course.newest().hand and self.looked.seconds < max(begun, self.news_at) + GRACE:
            self.advance()
        try:
            fail()
        except Failed as why:
            raise SeatFault(seat, str(why)) from why

    # The end

    def leave_folder(self):
        """Removes the folder where the match is over, and one from which nothing can go on; else says where it is."""
        is_in_memory_alone = self.settings.stores is None and self.settings.transactions is None
        if self.is_finished or is_in_memory_alone or not self.folder.has_stores():
            self.folder.remove()
        else:
            self.watcher.troubled(f"the stores are kept in {self.folder.path}")

    def take_leave(self):
        """Waits a moment until the relays have said to their players that nothing more comes. Ports stay held."""
        until = time.monotonic() + PARTING
        while len(self.seats.gone) < self.players and time.monotonic() < until:
            self.seats.wait(LOOK)
            for relay in self.seats.relays:
                self.take_trace(relay)

    def close(self):
        """Ends all that belongs to it: first the relays, and with them the players' connections."""
        if self.seats is not None:
            self.seats.end_relays()
        self.open.close()

    def __enter__(self):
        return self

    def __exit__(self, kind, *_):
        self.is_finished = self.is_finished and kind is None
        self.close()
