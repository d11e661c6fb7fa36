"""All of a simulated run: processes, wires, bots and faults.

When a node ticks is asked of the program `clockwork_lines`, which answers by the crate `clockwork`. Times are in
milliseconds.
"""
import heapq
import random
import subprocess
from pathlib import Path

import second_nodes as nodes
from processes_process import Process

TOP = Path(__file__).resolve().parent.parent
# How long a line's way to a bot is, in milliseconds.
LOCAL = 0.05
# Where a run doesn't say otherwise: how long bots await a line; how long nothing goes on in a run that fails; and how long a
# peer isn't heard for which nobody waits once the match is over.
BOT_PATIENCE, STUCK, UNHEARD = 2000.0, 90_000.0, 10_000.0


def until_of(answer):
    """Until when nothing is due by an answer's words; None where it is."""
    return None if answer[0] == b"tick" else int(answer[1]) / 1000


class Limits:
    """How processes keep connections, as the program says: lengths of time in milliseconds, and counts."""

    def __init__(self, times, dials, silences):
        self.connect, self.long_connect, self.greet, self.stranger, self.a_silence = times
        self.dials, self.silences = dials, silences

    def connect_wait(self, unanswered):
        """How long a dial waits behind so many that weren't answered: one of some waits long."""
        return self.long_connect if unanswered % self.dials == self.dials - 1 else self.connect


class Clock:
    """The program that answers what is due."""

    def __init__(self, program):
        self.program = subprocess.Popen([program], stdin=subprocess.PIPE, stdout=subprocess.PIPE)

    def limits(self):
        """What the program says of its connections."""
        *times, dials, silences = map(int, self.answer(["limits"]))
        return Limits([time / 1000 for time in times], dials, silences)

    def ask(self, words):
        """When to tick, None for now; whether there is work, the node is behind, replays, is quorate; how long a present peer
        is silent at most."""
        answer = self.answer(words)
        *flags, _, silence = answer[-6:]
        return until_of(answer), *(flag == b"1" for flag in flags), int(silence) / 1000

    def ask_away(self, words):
        """When to order that the seat to act is played for, None for now."""
        return until_of(self.answer(words))

    def answer(self, words):
        self.program.stdin.write((" ".join(map(str, words)) + "\n").encode())
        self.program.stdin.flush()
        return self.program.stdout.readline().split()

    def close(self):
        self.program.stdin.close()
        self.program.wait()


class Match:
    def __init__(self, count, hands):
        self.name, self.word, self.hands, self.names = "sim", "l2.game", hands, ["alice", "bob"]
        self.game = nodes.dealer.Game((TOP / "examples/l2.game").read_bytes())
        self.sources = [{"seed": 7 + number} for number in range(count)]

    header = nodes.Match.header
    deal = nodes.Match.deal


class Bot:
    """A player: it dials the nodes in turn until one takes it, and answers whenever it is to act."""

    def __init__(self, world, seat, at, stays):
        self.world, self.seat, self.at, self.stays = world, seat, at, stays
        self.up, self.life, self.answered = False, 0, 0

    def sit_at(self, number):
        """Goes to this node."""
        self.up = False
        self.life += 1
        self.dial(number)

    def dial(self, number):
        self.at = number
        process = self.world.processes[number]
        if self.world.is_done():
            return
        if not process.takes_seats():
            self.world.after(1.0, self.dial, number if self.stays and process.up else (number + 1) % self.world.count)
            return
        self.up, self.life = True, self.life + 1
        self.world.after(4 * LOCAL, self.greet, self.life)

    def is_at(self, life):
        return self.up and life == self.life and self.world.processes[self.at].up

    def give(self, body):
        """Brings something to the process that the seat is at."""
        process = self.world.processes[self.at]
        process.arrive((None, None, ("line", lambda: process.node.call(body))))

    def greet(self, life):
        if self.is_at(life):
            self.world.processes[self.at].seat(self.seat)
            self.begin(life)

    def begin(self, life):
        """It says its version; where nodes greet so, it is told nothing before the node has caught up."""
        if self.is_at(life) and self.world.greets and not self.world.processes[self.at].has_caught_up:
            self.world.after(1.0, self.begin, life)
        elif self.is_at(life):
            node, seat = self.world.processes[self.at].node, self.seat
            self.give(lambda: node.sessions.update({seat: nodes.Session(seat)}))
            self.give(lambda: node.hear(seat, b"VERSION:2.0.0\r"))

    def drop_at(self, number):
        if self.up and self.at == number:
            self.up = False
            self.world.after(LOCAL + 0.2, self.dial, (number + 1) % self.world.count)

    def told(self, number, line):
        if self.up and self.at == number:
            self.world.after(LOCAL, self.hear, self.life, line)

    def hear(self, life, line):
        if not self.is_at(life):
            return
        self.answered += 1
        _, position, hand, betting, _ = line.split(":")
        then = nodes.walked(self.world.match.game, int(hand), nodes.dealer.CARDS[:9], betting)
        if then is None or then.over or then.turn != int(position):
            return
        self.world.after(self.world.think(), self.say, life, line)

    def say(self, life, line):
        if not self.is_at(life):
            return
        session = nodes.Session(self.seat)
        session.is_ready = True
        table = self.world.processes[self.at].node.table
        text = line + ":" + self.world.random.choice("cccrf")
        if not isinstance(session.answer(table, text.encode() + b"\r"), bytes):
            text = line + ":c"
        node, seat = self.world.processes[self.at].node, self.seat
        self.world.after(LOCAL, self.put, life, lambda: node.hear(seat, text.encode() + b"\r"))

    def put(self, life, body):
        if self.is_at(life):
            self.give(body)
            if not self.stays:
                self.world.after(self.world.bot_patience, self.doubt, life, self.answered)

    def doubt(self, life, answered):
        """No line follows an answer: elsewhere."""
        if self.is_at(life) and answered == self.answered:
            number, seat = self.at, self.seat
            node = self.world.processes[number].node
            self.give(lambda: node.sessions.pop(seat, None) and None)
            self.drop_at(number)


class World:
    """All of a run. `options` are what a batch says of it, `faults` is called as the match goes on."""

    def __init__(self, clock, seed, count=3, hands=20, way=0.05, sync=0.4, think=0.05, at=(0, 0), stays=False, tells_ends=False, by_beats=False, busy=0.0, patience=None, start=600_000.0, gives_up=True, greets=False, votes=0, players=None, bot_patience=BOT_PATIENCE, stuck=STUCK, unheard=UNHEARD, verbose=False):
        self.clock, self.random, self.count = clock, random.Random(seed), count
        self.limits, self.bot_patience, self.stuck, self.unheard = clock.limits(), bot_patience, stuck, unheard
        self.now, self.queue, self.events = 0.0, [], 0
        self.way_ms, self.sync_ms, self.think_ms, self.verbose = way, sync, think, verbose
        # Each end of a campaign is told at once, so that others know of it before the next campaign begins.
        self.tells_ends = tells_ends
        # That a node campaigns is known by its beats alone, and not by its Prepares.
        self.by_beats = by_beats
        # Now and then something waits for a processor, for so many milliseconds at most.
        self.busy = busy
        # How long a seat may hold the table; without it nobody is played for, and nobody was so far. How long seats that
        # haven't come are waited for, whether a seat at which nobody is may be given up, and whether a node tells a seat nothing
        # before it has caught up.
        self.patience, self.orders = patience, 0
        self.start, self.gives_up, self.greets = start, gives_up, greets
        self.match = Match(count, hands)
        self.wires, self.cuts, self.slow, self.gone = [], set(), {}, set()
        # How much longer the ways of some ordered pairs are than others.
        self.longer = {}
        self.processes = [Process(self, number) for number in range(count)]
        self.bots = players(self) if players else [Bot(self, seat, at[seat], stays) for seat in range(2)]
        # A run may end once this holds of the world.
        self.is_enough, self.enough_at, self.why_not = (lambda: False), None, (lambda: None)
        if votes:
            self.fill(votes)
        self.applied, self.last_applied, self.longest, self.ticks = 0, 0.0, 0.0, 0
        self.fault_at, self.gaps, self.faults = None, [], 0
        # Who gives processes a processor, where each isn't given one whenever it wants one; and how long a turn and a call take of it.
        self.processors, self.turn_ms, self.call_ms = None, 0.0, 0.0
        self.on_order = lambda seat: None
        self.on_progress, self.on_end, self.writes = (lambda front: None), (lambda: None), (lambda process, receiver, message: True)
        self.held_until = 0.0
        # When commands were applied, where a run keeps that, and how soon one came once all was well.
        self.steps, self.well_after = [], None

    def fill(self, votes):
        """All nodes were killed after so many commands: each has its votes of them, and knows none as chosen."""
        cards = [nodes.number_of(card) for card in nodes.dealer.CARDS[:9]]
        commands = [nodes.deal_bytes(slot // 9, []) [:5] + bytes([9, *cards]) if slot % 9 == 0 else nodes.act_bytes(slot // 9, slot % 9 - 1, "c", 0) for slot in range(votes)]
        for process in self.processes:
            process.node.promised = (1, 0)
            process.node.accepted.update((slot, ((1, 0), command)) for slot, command in enumerate(commands))

    def is_whole_to(self, front):
        """Whether each process runs and has come so far."""
        return all(process.up and process.node.front >= front for process in self.processes)

    def way(self):
        return self.way_ms * (1 + self.random.random()) + self.waits()

    def waits(self):
        return self.busy * self.random.random() if self.busy and self.random.random() < 0.02 else 0.0

    def sync(self, number):
        """How long a sync takes now at a node."""
        return self.sync_ms

    def think(self):
        return max(self.think_ms, self.held_until - self.now)

    def slowness(self, number):
        return self.slow.get(number, 0.0) + self.waits()

    def had(self, number, need):
        """When a process has had a processor for so long."""
        return self.now + need if self.processors is None else self.processors.had(number, self.now, need)

    def began(self, number):
        """A turn of a process begins."""
        if self.processors is not None:
            self.processors.began(number, self.now)

    def cost_of_call(self, number, call, syncs):
        """How long a call takes now, with its syncs, in which no processor is needed."""
        if self.processors is None:
            return call + syncs + self.slowness(number)
        ends = self.processors.had(number, self.now, self.call_ms) + syncs
        return self.processors.had(number, ends, 0.0) - self.now

    def at(self, when, what, *arguments):
        self.events += 1
        heapq.heappush(self.queue, (max(when, self.now), self.events, what, arguments))

    def after(self, delay, what, *arguments):
        self.at(self.now + delay, what, *arguments)

    def tell(self, *words):
        if self.verbose:
            print(f"{self.now:10.2f}", *words)

    # Wires.

    def is_cut(self, a, b):
        return (a, b) in self.cuts

    def cut(self, pairs):
        """Ordered pairs are cut: nothing comes through."""
        self.cuts |= set(pairs)

    def reset(self):
        """All connections between processes end."""
        for wire in self.wires:
            wire.reset()

    def heal(self, pairs=None):
        self.cuts = set() if pairs is None else self.cuts - set(pairs)
        self.wires = [wire for wire in self.wires if len(wire.closed) < 2]
        for wire in self.wires:
            wire.heal()

    def order(self, seat):
        """It is ordered that a seat is played for."""
        self.orders += 1
        self.on_order(seat)

    # How the match goes on.

    def went_on(self):
        self.last_applied = self.now

    def progressed(self, front):
        if front > self.applied:
            self.longest = max(self.longest, self.now - self.last_applied)
            self.applied = front
            self.went_on()
            if self.fault_at is not None:
                self.gaps.append(self.now - self.fault_at)
                self.fault_at = None
            self.on_progress(front)

    def fault(self):
        """Something goes wrong now."""
        self.faults += 1
        self.fault_at = self.now

    def kill(self, number, down=None, spares=True):
        """Signal 9, and a start after a while, if ever. A process that has told that the match is over is spared: the others
        may end before it is back, and then it finds nobody."""
        if spares and self.processes[number].is_over():
            return
        self.tell("kill", number, down)
        self.processes[number].die()
        if down is None:
            self.gone.add(number)
        else:
            self.after(down, self.processes[number].start)

    def up(self):
        return [process.number for process in self.processes if process.up]

    def is_done(self):
        return all(process.ended or process.number in self.gone for process in self.processes)

    def run(self):
        """Whether each process ended with 0; else what is stuck."""
        for process in self.processes:
            process.start()
        for bot in self.bots:
            bot.dial(bot.at)
        while self.queue and not self.is_done() and not self.is_enough():
            self.now, _, what, arguments = heapq.heappop(self.queue)
            what(*arguments)
            if self.now - self.last_applied > self.stuck:
                return self.state()
        self.enough_at = self.now if self.is_enough() else None
        return None if self.is_done() or self.enough_at is not None else self.state()

    def state(self):
        texts = []
        for process in self.processes:
            node = process.node
            texts.append(f"{process.number}: up {process.up} ended {process.ended} front {node.front} {node.state} promised {node.promised} pending {node.pending is not None}")
        return f"stuck at {self.now:.0f} ms with {self.applied} commands; " + "; ".join(texts)

    def disagrees(self):
        """Whether some process in some life logged what isn't a beginning of the longest log."""
        logs = sorted((log for process in self.processes for log in process.logs), key=len)
        return any(log != logs[-1][: len(log)] for log in logs)
