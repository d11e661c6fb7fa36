"""A node in a process of its own, in simulated time, and its connections to the others.

The node is one of second_nodes.py. Times are in milliseconds here, and in whole microseconds for the program that says when
the node ticks.

A process does one thing at a time: it reads all that came, calls its node for at most 20 ms, with beats between, asks
what is due, and waits. A connection is as TCP's: in order, nothing lost while it stands, what a cut holds up comes once it
heals, and what is under way when it ends is lost.
"""
import second_nodes as nodes
from processes_aside import Aside
from processes_kept import Files, promised_in
from processes_seats import Seating

# What a process does and waits for, in milliseconds.
BEAT, HANGUP, REPEAT, TURN = 50.0, 300.0, 100.0, 20.0
CALL, REDIAL, ASK_AGAIN, FORWARD_AGAIN = 0.02, 20.0, 20.0, 20.0
# So many things a turn takes of what came, however long that takes, as long as the next one costs no sync: these kinds don't.
LEAST_TAKEN, CHEAP = 4, (nodes.ACCEPTED, nodes.CHOSEN, nodes.ASK, nodes.REFUSE)
END_READ = 10.0
# A process that was up for so long and heard nobody waits for nobody to catch up with.
ALONE = 1000.0
# After so long a system that wasn't answered asks again for a connection, as Linux does once in two seconds.
ASK_FOR_IT = 1000.0
# What is measured counts for two such parts of time at least.
PART = 30_000.0
# How many frames wait for a connection.
WAITING_FRAMES = 16
# A process slept where it lost more than so long, as the crate has it.
LEAP = 100.0


def micros(moment):
    return int(moment * 1000)


class Longest:
    """The longest of what was measured in the last minute, as `Longest` of the crate has it; in whole microseconds there."""

    def __init__(self, begun=0, newest=0, middle=0, oldest=0, part=PART):
        self.begun, self.newest, self.middle, self.oldest, self.part = begun, newest, middle, oldest, part

    def move_on(self, now):
        """Parts that have ended move on, and the oldest is forgotten."""
        passed = int(max(0, now - self.begun) // self.part)
        if passed >= 3:
            self.begun, self.newest, self.middle, self.oldest = now, 0, 0, 0
        for _ in range(passed if passed < 3 else 0):
            self.begun += self.part
            self.newest, self.middle, self.oldest = 0, self.newest, self.middle

    def note(self, length, now):
        self.move_on(now)
        self.newest = max(self.newest, length)

    def lately(self, now):
        self.move_on(now)
        return max(self.newest, self.middle, self.oldest)


class Measures:
    """What is measured of a peer, over all connections to it, as a process of the program does: ways there and back, and
    silences. One that goes on tells beats also while its way is cut: they come all at once, and such a silence doesn't count."""

    def __init__(self, limits):
        self.limits, self.counted, self.closings = limits, Longest(), Longest()
        # The last way, and the last long silence: its length, when it ended, and the number of the beat before it.
        self.way, self.silence = None, None

    def settle(self, number, heard, now):
        """The last long silence counts where the peer stood in it: it told fewer than half of the beats that one tells that goes
        on, which came all at once behind it, before those of the time since then."""
        if self.silence is not None:
            length, ended, before = self.silence
            if 2 * BEAT * (number - before) < length + 2 * (heard - ended):
                self.counted.note(length, now)
        self.silence = None

    def hear(self, heard, number, now):
        """Something came of a peer that was heard last then, with the last beat of this number; whether it was silent for
        long."""
        length = now - heard
        is_long = length > self.limits.a_silence
        if is_long or self.silence is not None and now - self.silence[1] > self.limits.a_silence:
            self.settle(number, heard, now)
        if is_long:
            self.silence = length, now, number
        return is_long

    def go_there_and_back(self, passed, now):
        """Of two ways in a row the shorter one counts: one alone may have been cut."""
        if self.way is not None:
            self.counted.note(min(self.way, passed), now)
        self.way = passed

    def close(self, silent, now):
        """A connection is closed by such a silence: whether the peer stood isn't known."""
        self.closings.note(silent, now)

    def closing(self, silence, now):
        """How long a peer is silent until its connection is closed, where one that is present is silent for so long at most."""
        times = self.limits.silences
        return max(times * silence, self.counted.lately(now), times * self.closings.lately(now))


def to_act(table):
    """The seat to act of a hand that runs."""
    return (table.hand.turn + table.hand.number) % table.game.players


class Node(nodes.Node):
    """A node that keeps what its list says of the acts of each seat: whether one was its own, and how many of the newest in a
    row were default actions."""

    def lose_all(self):
        super().lose_all()
        self.acts = {seat: (False, 0) for seat in range(len(self.match.names))}

    def take(self, command):
        table = self.table
        if command[0] == 1 or not table.runs():
            super().take(command)
            return
        seat, before = to_act(table), table.hand.text
        super().take(command)
        if table.hand.text != before:
            has_acted, defaults = self.acts[seat]
            self.acts[seat] = (has_acted, defaults + 1) if command[0] == 3 else (True, 0)


class Stored(dict):
    """What a node has accepted; counts what it stored."""

    count = 0

    def __setitem__(self, slot, entry):
        self.count += 1
        super().__setitem__(slot, entry)


class Wire:
    """A connection: two ways, each in order."""

    def __init__(self, world, caller, called):
        self.world, self.ends = world, (caller, called)
        self.last, self.held, self.closed, self.broken = {}, {}, set(), False

    def send(self, sender, what):
        """Puts something on the way to the other end."""
        a, b = self.ends
        receiver = b if sender == a else a
        if sender in self.closed:
            return
        if self.world.is_cut(sender, receiver) or self.held.get(sender):
            self.held.setdefault(sender, []).append(what)
            return
        self.put(sender, receiver, what, self.world.way())

    def put(self, sender, receiver, what, delay):
        when = max(self.world.now + delay + self.world.longer.get((sender, receiver), 0.0), self.last.get(sender, 0.0))
        self.last[sender] = when
        self.world.at(when, self.world.processes[receiver].arrive, (sender, self, what))

    def heal(self):
        """What was held up is sent again after a while."""
        for sender, receiver in (self.ends, self.ends[::-1]):
            if self.held.get(sender) and not self.world.is_cut(sender, receiver):
                held, self.held[sender] = self.held[sender], []
                again = self.world.random.random() * 200
                for what in held:
                    self.put(sender, receiver, what, again + self.world.way())

    def close(self, end):
        if end not in self.closed:
            self.send(end, ("end",))
            self.closed.add(end)

    def reset(self):
        """It ends at both ends, and what is under way is lost."""
        if not self.closed:
            self.broken = True
            self.closed = set(self.ends)
            for sender, receiver in (self.ends, self.ends[::-1]):
                self.world.after(self.world.way(), self.world.processes[receiver].arrive, (sender, self, ("end",)))


class Peer:
    """What a process knows of another."""

    def __init__(self, number, now, limits):
        self.number, self.accepted, self.over = number, None, False
        self.wire, self.since, self.heard_ever = None, now, now
        self.last, self.repeated, self.asked = None, -1e9, (None, -1e9)
        self.forwarded, self.forwarded_at = None, -1e9
        self.waiting, self.owed = [], None
        self.dialled, self.unanswered_dials = None, 0
        self.measures = Measures(limits)
        self.clear()

    def clear(self):
        self.opened = self.heard = 0.0
        self.trip, self.beat, self.unanswered = None, None, None
        self.number_sent = self.number_got = 0
        # The beat whose answer is awaited, and when it was told.
        self.probe, self.seats = None, set()

    def again(self, pause):
        """How long it is until something goes to it again: so long, or as long as its last way there and back was."""
        return max(pause, self.trip or 0.0)


class Process:
    def __init__(self, world, number):
        self.world, self.number = world, number
        self.node = Node(world.match, number)
        self.node.accepted = Stored()
        self.up, self.life, self.ended, self.logs = False, 0, False, []
        self.files = Files()

    # A life.

    def start(self):
        if self.up or self.ended:
            return
        now = self.world.now
        self.up, self.life = True, self.life + 1
        self.log = []
        self.logs.append(self.log)
        # It has its ports before it reads its store, behind a sync.
        self.world.after(self.world.sync(self.number), self.open_store, self.life)
        self.begin(now)

    def begin(self, now):
        """The process knows nothing but its store, and serves nobody yet."""
        self.peers = {j: Peer(j, now, self.world.limits) for j in range(self.world.count) if j != self.number}
        self.inbox, self.backlog, self.busy, self.paused = [], [], True, False
        self.wake, self.moved, self.promised_since, self.began = None, now, now, now
        self.work_since = self.behind_since = None
        self.ticked, self.in_vain, self.calls = None, 0, Longest()
        self.was_led, self.unquorate, self.over_since, self.silence = False, None, None, 1000.0
        self.quorate_since, self.replays, self.seating, self.ordered = now, False, Seating(self), None
        self.has_caught_up = False
        self.next_beat, self.turn_began, self.aside = now, now, Aside(self)
        # Until when its last turn was to wait, and by how much turns came later than that, as the program keeps it.
        self.left, self.late, self.in_calls = now, [0, 0, 0], 0.0
        # It writes files between two turns, and has read nothing until then.
        self.is_between, self.kept_until = False, now
        self.files.begin()
        # Since when its turn takes what came, and how many things it took.
        self.taking, self.taken = now, 0
        self.has_kept_time = self.has_taken_aside = False
        self.until = now

    def open_store(self, life):
        """It has read its store, and starts."""
        if not self.up or life != self.life:
            return
        if self.paused:
            self.world.after(1.0, self.open_store, life)
            return
        came = self.inbox
        self.begin(self.world.now)
        self.inbox = came
        self.tend()
        self.call(self.node.start)

    def die(self):
        """Signal 9: what the process had is gone, and its connections end."""
        if not self.up:
            return
        self.up = False
        self.node.stop()
        for peer in self.peers.values():
            if peer.wire is not None:
                peer.wire.close(self.number)
            if isinstance(peer.dialled, Wire):
                peer.dialled.close(self.number)
        for bot in self.world.bots:
            bot.drop_at(self.number)

    def end(self):
        """Status 0."""
        self.ended = True
        self.die()
        self.world.went_on()

    def pause(self, length):
        """SIGSTOP, and after a while SIGCONT."""
        if self.up and not self.paused:
            self.paused = True
            self.world.after(length, self.go_on, self.life, length)

    def go_on(self, life, length):
        if self.up and life == self.life:
            self.paused = False
            if self.busy and not self.is_between:
                self.discount(length)
                self.lose(length)
                self.in_calls += length
            self.turn(life)

    def lose(self, length):
        """So much went by beyond what the process asked to wait and its calls took. Where it is a sleep, a node that is behind doesn't
        wait meanwhile."""
        self.note_late(length)
        if length > LEAP:
            self.seating.pass_by(length)
            if self.behind_since is not None:
                self.behind_since = min(self.world.now, max(self.behind_since, self.moved) + length)

    def discount(self, length):
        """What went by isn't counted as silence."""
        for peer in self.peers.values():
            peer.heard = min(self.world.now, peer.heard + length)

    # A turn: reads all, calls for a while, asks what is due, waits.

    def arrive(self, item):
        if not self.up or item[1] is not None and item[1].broken and item[2][0] != "end":
            return
        self.inbox.append(item)
        if not self.busy and not self.paused and self.wake != self.world.now:
            self.wake = self.world.now
            self.world.at(self.world.now, self.turn, self.life)

    def turn(self, life):
        if not self.up or life != self.life or self.busy or self.paused:
            return
        begins = self.world.had(self.number, 0.0)
        if begins > self.world.now:
            # It waits for a processor.
            self.wake = begins
            self.world.at(begins, self.awake, self.life, begins)
            return
        late = max(0.0, self.world.now - self.left)
        if late > 0:
            # That is no silence of others.
            self.discount(late)
        self.lose(late)
        self.world.began(self.number)
        self.turn_began, self.has_kept_time, self.has_taken_aside = self.world.now, False, False
        self.in_calls = 0.0
        takes = self.world.had(self.number, self.world.turn_ms)
        if takes > self.world.now:
            self.busy = True
            self.world.at(takes, self.go_through, self.life)
        else:
            self.go_through(self.life)

    def go_through(self, life):
        """A turn, once it has had a processor for as long as it takes by itself."""
        if not self.up or life != self.life:
            return
        self.busy = False
        self.read()
        self.tend()
        self.taking, self.taken = self.world.now, 0
        self.step()

    def note_late(self, late):
        """A turn comes so much later than it was to, or takes so much beyond its calls: where that is so again and again it counts as
        calls do."""
        late = micros(late)
        if late or any(self.late):
            *self.late, counted = map(int, self.world.clock.answer(["late", *self.late, late, micros(self.world.now)])[1:])
            if counted:
                self.calls.note(counted / 1000, self.world.now)

    def read(self):
        """What came over a connection is taken in order, and what came over those that are new after the ends of others."""
        inbox, self.inbox = self.inbox, []
        new = [wire for _, wire, what in inbox if what[0] == "hello"]
        for sender, wire, what in sorted(inbox, key=lambda item: item[1] in new):
            if sender is None:
                self.backlog.append((None, None, what[1]))
            else:
                getattr(self, "on_" + what[0])(self.peers[sender], wire, *what[1:])

    def step(self):
        """Calls the node with what came, for a while; then does what is due; and then takes one frame that was set aside."""
        if not self.take_next() and not self.keep_time() and not self.take_aside():
            self.rest()

    def take_next(self):
        """Calls the node with the next thing that came, unless the turn's calls have taken their time; whether it does. One thing is
        taken in any case, and more as long as they cost no sync."""
        while self.backlog and (self.taken == 0 or self.world.now - self.taking < TURN or self.is_cheap()):
            sender, message, body = self.backlog.pop(0)
            if sender is None or self.aside.lets(sender, message):
                self.taken += 1
                self.call(body)
                return True
        return False

    def is_cheap(self):
        """Whether few things were taken, and the first of those that came which is taken costs no sync."""
        last = len(self.backlog) - 1
        taken = (message for at, (sender, message, _) in enumerate(self.backlog) if sender is None or self.aside.tells(sender, message, at == last))
        first = next(taken, None)
        return self.taken < LEAST_TAKEN and first is not None and first[0] in CHEAP

    def keep_time(self):
        """Does what is due, once in a turn; whether the node is called for it."""
        if self.has_kept_time:
            return False
        self.has_kept_time = True
        return self.tick_if_due()

    def take_aside(self):
        """Calls the node with one frame that was set aside, once in a turn in which all that came was taken; whether it does."""
        found = None if self.backlog or self.has_taken_aside else self.aside.next()
        if found is None:
            return False
        self.has_taken_aside = True
        self.call(self.frame_body(*found))
        return True

    def rest(self):
        """Waits for what comes, or until a moment."""
        self.lose(max(0.0, self.world.now - self.turn_began - self.in_calls))
        if self.backlog or self.inbox or self.has_taken_aside:
            most = 0.0
        else:
            self.seating.read_all()
            most = max(min(self.until, self.next_beat, self.next_forward(), self.aside.until()) - self.world.now, 0.05)
        self.left = self.world.now + most
        syncs = self.files.keep(self.world.now)
        if syncs:
            self.busy = self.is_between = True
            self.kept_until = self.world.now + syncs * self.world.sync(self.number)
            self.world.at(self.kept_until, self.go_on_behind_files, self.life, most)
        else:
            self.wait(most)

    def wait(self, most):
        """Waits for so long, or not at all where something came."""
        if most == 0.0 or self.inbox:
            self.wake = self.world.now
            self.world.at(self.world.now, self.turn, self.life)
        else:
            self.wake = self.world.now + most
            self.world.at(self.wake, self.awake, self.life, self.wake)

    def go_on_behind_files(self, life, most):
        if not self.up or life != self.life:
            return
        if self.paused:
            self.world.after(1.0, self.go_on_behind_files, life, most)
            return
        self.busy = self.is_between = False
        self.wait(most)

    def awake(self, life, when):
        if self.up and life == self.life and self.wake == when:
            self.turn(life)

    # A call: it blocks the process, and what it made is handed on at its end.

    def call(self, body):
        node = self.node
        promised, stored, front, was_idle = node.promised, node.accepted.count, node.front, node.state == "idle"
        answer = body()
        stores = (node.promised, node.accepted.count) != (promised, stored)
        cost = self.world.cost_of_call(self.number, CALL, 2 * self.world.sync(self.number) if stores else 0.0)
        self.busy = True
        has_ended = self.world.tells_ends and node.state == "idle" and not was_idle
        self.world.after(cost, self.called, self.life, answer, promised, front, cost, has_ended)

    def called(self, life, answer, promised, front, cost, has_ended):
        if not self.up or life != self.life:
            return
        if self.paused:
            self.world.after(1.0, self.called, life, answer, promised, front, cost, has_ended)
            return
        now, node = self.world.now, self.node
        self.busy = False
        self.in_calls += cost
        self.calls.note(cost, now)
        self.discount(cost)
        if node.front != front:
            self.moved, self.in_vain = now, 0
            for peer in self.peers.values():
                peer.forwarded = None
                if peer.beat is not None and peer.beat["front"] >= front:
                    peer.beat["below"] = now
        if node.promised != promised:
            if promised == nodes.NONE or node.promised[1] != promised[1]:
                self.promised_since = now
            self.note_leader(node.promised[1])
        self.hand_on(answer)
        self.world.progressed(node.front)
        self.beat_all() if has_ended else self.beat_if_due()
        self.step()

    def note_leader(self, leader):
        """A promise to a ballot tells that its node campaigns."""
        self.was_led = True
        peer = self.peers.get(leader)
        if self.world.by_beats:
            return
        if peer is not None and peer.beat is not None and not peer.beat["campaigns"]:
            peer.beat.update(campaigns=True, told=self.world.now)

    def hand_on(self, answer):
        frames, shown, _ = answer
        for _, receiver, message in frames:
            if self.world.writes(self, receiver, message):
                self.send(self.peers[receiver], message)
        for text in shown:
            _, reader, line = text.split(" ", 2)
            if reader == "L":
                self.log.append(line)
            else:
                for bot in self.world.bots:
                    if bot.seat == int(reader):
                        bot.told(self.number, line)

    def send(self, peer, message):
        """Gives a frame to a peer's connection, but an Ask that has just been put."""
        if message[0] == nodes.ASK:
            block, when = peer.asked
            if block == message[1] // 64 and self.world.now - when < peer.again(ASK_AGAIN):
                return
            peer.asked = (message[1] // 64, self.world.now)
        if message[0] == nodes.ACCEPTED:
            peer.last, peer.accepted = message, message[2]
        if message[0] == nodes.FORWARD:
            peer.forwarded, peer.forwarded_at = message, self.world.now
        if message[0] in (nodes.PREPARE, nodes.ACCEPT):
            peer.owed = message
        if peer.wire is None:
            peer.waiting = [*peer.waiting, message][-WAITING_FRAMES:]
        else:
            peer.wire.send(self.number, ("frame", message))

    def repeat(self, peer):
        if peer.last is not None:
            peer.repeated = self.world.now
            peer.wire.send(self.number, ("frame", peer.last))

    def forward_again(self):
        """An act that went on to a peer goes again as long as the front stands: the peer may not have known yet for what
        it was."""
        now = self.world.now
        for peer in self.peers.values():
            if peer.forwarded is not None and peer.wire is not None and now - peer.forwarded_at >= peer.again(FORWARD_AGAIN):
                peer.forwarded_at = now
                peer.wire.send(self.number, ("frame", peer.forwarded))

    def next_forward(self):
        """When that is next."""
        return min((p.forwarded_at + p.again(FORWARD_AGAIN) for p in self.peers.values() if p.forwarded and p.wire), default=1e18)

    # Connections.

    def dial(self, j, life):
        """The greater number dials, where it has no connection."""
        peer = self.peers.get(j)
        if not self.up or life != self.life or peer.wire is not None or peer.dialled is not None:
            return
        peer.dialled = attempt = ("attempt", self.world.now)
        waits = self.world.limits.connect_wait(peer.unanswered_dials)
        for after in range(0, int(waits), int(ASK_FOR_IT)):
            self.world.after(float(after), self.ask_for_it, j, life, attempt)
        self.world.after(waits, self.not_answered, j, life, attempt)

    def ask_for_it(self, j, life, attempt):
        """The system asks the other one for a connection, at once and again while nothing is answered."""
        world, other = self.world, self.world.processes[j]
        if not self.up or life != self.life or self.peers[j].dialled != attempt or world.is_cut(self.number, j) or world.is_cut(j, self.number):
            return
        if other.up:
            world.after(2 * world.way(), self.connected, j, life, attempt)
        else:
            world.after(2 * world.way() + REDIAL, self.redial, j, life, attempt)

    def not_answered(self, j, life, attempt):
        if self.up and life == self.life and self.peers[j].dialled == attempt:
            self.peers[j].unanswered_dials += 1
            self.redial(j, life, attempt)

    def redial(self, j, life, attempt):
        """Dials again, unless this dial came to something else."""
        if self.up and life == self.life and self.peers[j].dialled == attempt:
            self.peers[j].dialled = None
            self.dial(j, life)

    def connected(self, j, life, attempt):
        if not self.up or life != self.life or self.peers[j].dialled != attempt:
            return
        peer = self.peers[j]
        wire = Wire(self.world, self.number, j)
        self.world.wires.append(wire)
        peer.dialled = wire
        wire.send(self.number, ("hello", self.life, self.node.promised))
        self.world.after(self.world.limits.greet, self.give_up, j, life, wire)
        other = self.world.processes[j]
        self.world.after(self.world.limits.stranger, other.let_go, self.number, other.life, wire)

    def give_up(self, j, life, wire):
        """A Hello that isn't answered."""
        if self.up and life == self.life and self.peers[j].dialled is wire:
            wire.close(self.number)
            self.redial(j, life, wire)

    def let_go(self, j, life, wire):
        """One who dialled and whose Hello hasn't come."""
        if self.up and life == self.life and self.number not in wire.closed and self.peers[j].wire is not wire and not self.busy and not self.paused:
            wire.close(self.number)

    def on_hello(self, peer, wire, life, promised):
        if self.number in wire.closed:
            return
        if peer.number < self.number:
            if peer.dialled is wire:
                peer.dialled = None
                self.open(peer, wire, promised)
            return
        if peer.wire is not None and self.world.now - peer.heard < self.silence:
            wire.send(self.number, ("refused",))
            wire.close(self.number)
            return
        if peer.wire is not None:
            self.close(peer)
        wire.send(self.number, ("hello", self.life, self.node.promised))
        self.open(peer, wire, promised)

    def on_refused(self, peer, wire):
        if peer.dialled is wire:
            wire.close(self.number)
            self.world.after(REDIAL, self.redial, peer.number, self.life, wire)

    def open(self, peer, wire, promised):
        now = self.world.now
        self.files.meet(peer.number, promised)
        peer.clear()
        peer.wire, peer.opened, peer.heard, peer.heard_ever = wire, now, now, now
        # What waits goes over this connection; what was asked last and doesn't wait is lost.
        peer.unanswered = None if any(message is peer.owed for message in peer.waiting) else peer.owed
        self.beat(peer)
        waiting, peer.waiting = peer.waiting, []
        for message in waiting:
            wire.send(self.number, ("frame", message))
        self.repeat(peer)

    def close(self, peer):
        """The connection has ended, or is given up: what was sent and isn't answered may be lost."""
        peer.wire.close(self.number)
        peer.measures.settle(peer.number_got, peer.heard, self.world.now)
        peer.wire, peer.since = None, self.world.now
        peer.unanswered = None
        if peer.number < self.number:
            self.world.after(REDIAL / 10, self.dial, peer.number, self.life)

    def on_end(self, peer, wire):
        if peer.wire is wire:
            self.close(peer)
        elif peer.dialled is wire:
            wire.close(self.number)
            self.world.after(REDIAL, self.redial, peer.number, self.life, wire)
        else:
            wire.close(self.number)

    def on_beat(self, peer, wire, number, got, front, campaigns, over, seats):
        if peer.wire is not wire:
            return
        now = self.world.now
        self.hear(peer)
        peer.number_got, peer.seats = number, seats
        self.seating.hear(peer.number)
        if peer.probe is not None and peer.probe[0] <= got:
            peer.trip, peer.probe = now - peer.probe[1], None
            peer.measures.go_there_and_back(peer.trip, now)
        beat = peer.beat or {"below": now, "told": now, "risen": now, "front": front, "campaigns": campaigns}
        if front > beat["front"]:
            beat["risen"] = now
        if beat["front"] != front or front >= self.node.front:
            beat["below"] = now
        if beat["campaigns"] != campaigns:
            beat["told"] = now
        peer.beat = {**beat, "front": front, "campaigns": campaigns, "over": over}
        peer.over, self.was_led = peer.over or over, self.was_led or campaigns

    def on_frame(self, peer, wire, message):
        if peer.wire is not wire:
            return
        self.hear(peer)
        if peer.owed is not None and message[0] in (nodes.PROMISE, nodes.ACCEPTED, nodes.REFUSE):
            if message[1:3] == peer.owed[1:3]:
                peer.owed = peer.unanswered = None
        self.files.hear(peer.number, promised_in(message))
        self.aside.read(peer.number, message)
        self.backlog.append((peer.number, message, self.frame_body(peer.number, message)))

    def frame_body(self, sender, message):
        """The call of the node by a frame."""
        return lambda: self.node.call(lambda: self.node.frame(sender, message))

    def hear(self, peer):
        """Something came of a peer. No way is measured over a long silence, which is measured itself."""
        now = self.world.now
        if peer.measures.hear(peer.heard, peer.number_got, now):
            peer.probe = None
        peer.heard = peer.heard_ever = now

    # What is done by time.

    def tend(self):
        now = self.world.now
        for peer in self.peers.values():
            if peer.wire is None:
                self.dial(peer.number, self.life) if peer.number < self.number and peer.dialled is None else None
            elif now - peer.heard >= peer.measures.closing(self.silence, now):
                peer.measures.close(now - peer.heard, now)
                self.close(peer)
            elif peer.beat and peer.beat["front"] < self.node.front and now - peer.repeated >= peer.again(REPEAT):
                self.repeat(peer)
        self.forward_again()
        self.beat_if_due()

    def beat_if_due(self):
        if self.world.now >= self.next_beat:
            self.beat_all()

    def beat_all(self):
        self.next_beat = self.world.now + BEAT
        for peer in self.peers.values():
            if peer.wire is not None:
                self.beat(peer)

    def beat(self, peer):
        peer.number_sent += 1
        if peer.probe is None:
            peer.probe = peer.number_sent, self.world.now
        state = (self.node.front, self.node.state != "idle", self.is_over(), self.seats())
        peer.wire.send(self.number, ("beat", peer.number_sent, peer.number_got, *state))

    def is_over(self):
        return self.node.table.finished == self.world.match.hands

    def owes(self, peer):
        """Whether what was lost with a peer's last connection would still be answered to some use."""
        lost, node = peer.unanswered, self.node
        if lost is None or node.state == "idle" or lost[1] != node.ballot:
            return False
        return node.state == "preparing" if lost[0] == nodes.PREPARE else lost[2] + len(lost[3]) > node.front

    def known(self):
        """A line for the program."""
        node, table = self.node, self.node.table
        promised = "-" if node.promised == nodes.NONE else node.promised[1]
        words = [micros(self.world.now), self.number, node.front, micros(self.moved), promised, micros(self.promised_since)]
        words += [int(node.state != "idle"), int(self.was_led), int(self.is_over())]
        words += [int(table.runs()), int(node.pending is not None), int(node.front in node.accepted)]
        words += [micros(self.work_since or 0.0), micros(self.behind_since or 0.0)]
        words += ["-" if self.ticked is None else micros(self.ticked), self.in_vain, micros(self.calls.lately(self.world.now))]
        for peer in self.peers.values():
            words += self.known_of(peer)
        return words

    def known_of(self, peer):
        words = [peer.number, "-" if peer.accepted is None else peer.accepted]
        longest = micros(peer.measures.counted.lately(self.world.now))
        if peer.wire is None:
            return [*words, 0, micros(peer.since), 0, longest, *[0] * 8]
        words += [1, micros(peer.opened), micros(peer.heard), longest, int(self.owes(peer))]
        if peer.beat is None:
            return [*words, *[0] * 7]
        beat = peer.beat
        words += [1, beat["front"], micros(beat["below"]), int(beat["campaigns"]), micros(beat["told"]), int(beat["over"])]
        return [*words, micros(beat["risen"])]

    def tick_if_due(self):
        """Asks what is due; whether the node ticks."""
        now = self.world.now
        until, work, behind, self.replays, quorate, self.silence = self.world.clock.ask(self.known())
        is_new = (work and not behind) != (self.work_since is not None) or behind != (self.behind_since is not None)
        if is_new:
            self.work_since = (self.work_since or now) if work and not behind else None
            self.behind_since = (self.behind_since or now) if behind else None
            until, work, behind, self.replays, quorate, self.silence = self.world.clock.ask(self.known())
        self.until = until if until is not None else now
        self.hang_up(quorate)
        self.catch_up(quorate and not self.replays)
        if self.ends():
            self.end()
            return True
        if until is None:
            self.ticked, self.in_vain = now, min(255, self.in_vain + 1)
            self.was_led = True
            self.world.ticks += 1
            self.world.tell("tick", self.number, self.node.front, self.node.promised)
            self.call(lambda: self.node.call(self.node.tick))
            return True
        return self.order_if_due()

    def hang_up(self, quorate):
        """Without a quorum seats are sent elsewhere after a while."""
        if quorate:
            self.quorate_since = self.quorate_since if self.unquorate is None else self.world.now
            self.unquorate = None
            return
        self.unquorate = self.world.now if self.unquorate is None else self.unquorate
        if self.world.now - self.unquorate >= HANGUP:
            for bot in self.world.bots:
                bot.drop_at(self.number)

    def catch_up(self, is_with_others):
        """It has caught up once it has a quorum and doesn't replay, or has been up for a second and heard nobody. That it is behind
        nobody isn't enough: two of three that were started again hear of each other first."""
        is_alone = self.world.now - self.began >= ALONE and not any(peer.beat for peer in self.peers.values())
        self.has_caught_up = self.has_caught_up or is_with_others or is_alone

    # A seat that holds the table for too long is played for.

    def seat(self, seat):
        """A bot took a seat here."""
        self.seating.taken.add(seat)

    def seats(self):
        """The seats that sit here."""
        return {bot.seat for bot in self.world.bots if bot.up and bot.at == self.number}

    def order_if_due(self):
        """Asks whether the seat to act is to be played for; whether that is ordered."""
        if self.world.patience is None:
            return False
        self.seating.look(self.unquorate is None)
        if not self.node.table.runs():
            return False
        seat = to_act(self.node.table)
        until = self.seating.order(seat)
        if until is not None:
            self.until = min(self.until, until)
            return False
        self.ordered = self.world.now
        self.world.tell("order", self.number, self.node.front, "for", seat)
        self.world.order(seat)
        self.call(lambda: self.node.call(self.node.away))
        return True

    def takes_seats(self):
        return self.up and not (self.unquorate is not None and self.world.now - self.unquorate >= HANGUP)

    def ends(self):
        """The match is over here, its seats have read that, and each peer has told so too or hasn't been heard for long."""
        if not self.is_over():
            return False
        now = self.world.now
        if self.over_since is None:
            self.over_since = now
            self.world.on_end()
            self.beat_all()
        is_read = now - self.over_since >= END_READ
        return is_read and all(p.over or now - p.heard_ever >= self.world.unheard for p in self.peers.values())
