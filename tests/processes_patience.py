"""Batches of tests/processes_sim in which seats hold the table, and are played for."""
from processes_batch import batch, is_whole, soon
from processes_process import to_act
from processes_world import LOCAL, Bot

# How long a seat may hold the table, and the fastest possible round of quick disks and ways, in milliseconds.
PATIENCE, FASTEST = 3000.0, 1.7


class Silent(Bot):
    """A bot that sits down and never answers, at each of these nodes for so long, again and again."""

    def __init__(self, world, seat, nodes, length):
        super().__init__(world, seat, nodes[0], True)
        self.nodes, self.length, self.moves = nodes, length, 0

    def greet(self, life):
        super().greet(life)
        if self.is_at(life) and self.length is not None:
            self.world.after(self.length, self.go_on, life)

    def go_on(self, life):
        """It stands up, and sits down again."""
        if self.is_at(life):
            self.moves += 1
            number, seat = self.at, self.seat
            node = self.world.processes[number].node
            self.give(lambda: node.sessions.pop(seat, None) and None)
            self.sit_at(self.nodes[self.moves % len(self.nodes)])

    def say(self, life, line):
        pass


def holds(name, players, least, most):
    """A batch in which both seats hold the table so: the longest that an act waits lies between these, in milliseconds."""

    def setup(world):
        def wrong():
            if world.orders > world.applied:
                return f"{world.orders} orders for {world.applied} commands"
            return None if world.longest >= least else f"played for after {world.longest:.0f} ms"

        world.why_not, world.on_progress = wrong, lambda front: world.steps.append(world.now)

    setup.__name__ = name
    batch(2, most_wait=most, fastest=FASTEST, most_rounds=None, hands=3, patience=PATIENCE, players=players)(setup)


def silent(length, nodes):
    return lambda world: [Silent(world, seat, nodes, length) for seat in (0, 1)]


def everywhere(world):
    return [Silent(world, seat, [number], None) for seat in (0, 1) for number in range(world.count)]


# The patience, once more for a seating at one node and for each further node, and 100 ms for ways, calls and steps.
holds("a_seat_that_holds_the_table", silent(None, [1]), PATIENCE, PATIENCE + 100)
holds("seats_at_all_nodes", everywhere, PATIENCE, PATIENCE + 100)
holds("a_bot_that_came_back_once", silent(2500.0, [0]), 2400 + PATIENCE, 2500 + PATIENCE + 100)
holds("a_bot_that_sits_down_each_second", silent(1000.0, [0]), PATIENCE, 2 * PATIENCE + 100)
holds("a_bot_that_goes_round_three_nodes", silent(2900.0, [0, 1, 2]), 2 * PATIENCE, 4 * PATIENCE + 100)


# A patience that is fair.


class Late(Bot):
    """A bot that sits down nowhere before this holds of the world."""

    def __init__(self, world, seat, at, may_come, **options):
        super().__init__(world, seat, at, options.get("stays", False))
        self.may_come, self.came = may_come, False

    def dial(self, number):
        self.came = self.came or self.may_come(self.world)
        if self.came:
            super().dial(number)
        else:
            self.world.after(1.0, self.dial, number)


class Mortal(Bot):
    """A bot that may be killed, and be started again."""

    is_dead = False

    def die(self):
        if self.up:
            node, seat = self.world.processes[self.at].node, self.seat
            self.give(lambda: node.sessions.pop(seat, None) and None)
        self.is_dead, self.up, self.life = True, False, self.life + 1

    def come_back(self):
        self.is_dead = False
        self.dial(self.at)

    def dial(self, number):
        if not self.is_dead:
            super().dial(number)


class Reader(Late):
    """A bot that takes one line after another, thinks about each that is its turn, and dials one node again and again."""

    def __init__(self, world, seat, at, may_come):
        super().__init__(world, seat, at, may_come, stays=True)
        self.free = 0.0

    def hear(self, life, line):
        if self.is_at(life) and self.free > self.world.now:
            self.world.at(self.free, self.hear, life, line)
            return
        before = self.world.events
        super().hear(life, line)
        if self.world.events != before:
            self.free = self.world.now + self.world.think()

    def dial(self, number):
        if self.world.processes[number].takes_seats():
            super().dial(number)
        elif not self.world.is_done():
            self.world.after(1.0, self.dial, number)

    def drop_at(self, number):
        if self.up and self.at == number:
            self.up, self.free = False, 0.0
            self.world.after(LOCAL + 0.2, self.dial, number)


def none_is_ordered(world):
    """No well bot is played for."""
    return f"{world.orders} orders, the first at {world.first_order:.0f} ms" if world.orders else None


def keep_first_order(world):
    world.first_order = None

    def ordered(seat):
        world.first_order = world.now if world.first_order is None else world.first_order

    world.on_order = ordered


def seat_to_act(world, node):
    table = world.processes[node].node.table
    return to_act(table) if table.runs() else None


def hang_under_the_seat_to_act(world, length, times):
    """Now and then the process at which the seat to act sits hangs for so long, just when its bot was told of its turn."""
    keep_first_order(world)
    hung = []

    def act(front):
        if front % 12 == 5 and len(hung) < times:
            world.after(1.0 + 0.5 * world.random.random(), hang)

    def hang():
        known = max(range(world.count), key=lambda number: world.processes[number].node.front)
        seat = seat_to_act(world, known)
        process = world.processes[world.bots[seat].at] if seat is not None else None
        if process is not None and is_whole(world) and not any(other.paused for other in world.processes):
            hung.append(world.now)
            world.fault()
            world.tell("hangs", process.number, "under seat", seat)
            process.pause(length)

    world.on_progress = act
    world.why_not = lambda: none_is_ordered(world) or (None if hung else "nothing hung")


@batch(3, hands=6, think=1500.0, at=(1, 2), patience=PATIENCE, most_wait=8000)
def a_process_that_hangs_under_a_well_bot(world):
    """The bot leaves two seconds behind its answer, which it gave to the hung process, and sits down at another: it is waited for
    anew from when that process counts as gone, and from when it sits there."""
    hang_under_the_seat_to_act(world, 8000.0, 1)


@batch(3, hands=6, think=200.0, at=(1, 2), stays=True, patience=PATIENCE, most_wait=4500)
def a_pause_longer_than_the_patience(world):
    """The bot stays, and its answer is read when the process goes on."""
    hang_under_the_seat_to_act(world, 3500.0, 3)


class Sleeper(Bot):
    """A bot on the machine of all processes: it sleeps with them, and thinks on behind that."""

    def __init__(self, world, seat, at):
        super().__init__(world, seat, at, True)
        self.heard = 0.0

    def hear(self, life, line):
        if self.world.slept_from <= self.world.now < self.world.slept_to:
            self.world.at(self.world.slept_to, self.hear, life, line)
            return
        self.heard = self.world.now
        super().hear(life, line)

    def say(self, life, line):
        if self.heard < self.world.slept_from <= self.world.now:
            self.heard = self.world.now
            self.world.after(self.world.slept_to - self.world.slept_from, self.say, life, line)
            return
        super().say(life, line)


def sleepers(world):
    return [Sleeper(world, seat, seat) for seat in (0, 1)]


@batch(3, hands=6, think=1500.0, patience=PATIENCE, players=sleepers, most_wait=7500)
def a_machine_that_sleeps_for_longer_than_the_patience(world):
    """All processes and both bots sleep, once, just when a bot was told of its turn."""
    keep_first_order(world)
    world.slept_from = world.slept_to = 1e18

    def act(front):
        if front % 12 == 5 and world.slept_from > world.now:
            world.after(1.0 + 0.5 * world.random.random(), sleep)

    def sleep():
        if is_whole(world) and world.slept_from > world.now:
            world.fault()
            world.slept_from, world.slept_to = world.now, world.now + 5000.0
            for process in world.processes:
                process.pause(5000.0)

    world.on_progress = act
    world.why_not = lambda: none_is_ordered(world) or (None if world.slept_from < world.now else "nothing slept")


OLD, NEW = 1000, 60


def readers(world):
    return [Reader(world, seat, 0, lambda world: world.applied >= OLD and world.is_whole_to(OLD)) for seat in (0, 1)]


@batch(2, hands=OLD // 9 + 20, votes=OLD, think=40.0, patience=PATIENCE, players=readers, greets=True)
def two_of_three_started_again_with_bots_that_think_for_40_ms(world):
    """Bots come once all nodes have learned a thousand commands; two of three processes are started again, at one of which both
    bots sit, who think 40 ms about each line that is their turn, one after another."""
    keep_first_order(world)

    def act(front):
        if front == OLD + 12:
            world.after(1.0, restart)

    def restart():
        world.fault()
        for number in (0, 1):
            world.kill(number, soon(world) / 5)

    world.on_progress = act
    world.is_enough = lambda: world.applied >= OLD + NEW
    world.why_not = lambda: none_is_ordered(world)


A_MINUTE = 60_000.0


def late(world):
    return [Late(world, seat, 0, lambda world: world.now >= A_MINUTE) for seat in (0, 1)]


@batch(2, hands=6, patience=PATIENCE, players=late)
def no_bot_for_a_minute(world):
    keep_first_order(world)
    world.why_not = lambda: none_is_ordered(world)


START = 10_000.0


@batch(2, hands=6, patience=PATIENCE, start=START, players=lambda world: [Bot(world, 0, 0, False)])
def a_bot_that_never_comes(world):
    """It is played for once `start` has passed, and one patience more."""
    keep_first_order(world)

    def wrong():
        if world.first_order is None or not START + PATIENCE <= world.first_order <= START + PATIENCE + 500:
            return f"first played for at {world.first_order}"
        return None

    world.why_not = wrong


def one_mortal(world):
    return [Bot(world, 0, 0, False), Mortal(world, 1, 1, False)]


def kill_bot(world, front_at, then):
    """The bot of seat 1 is killed after so many commands; what happens then is told of that moment."""
    world.killed = None

    def act(front):
        if world.killed is None and front >= front_at:
            world.killed = world.now
            world.tell("bot killed")
            world.bots[1].die()
        elif world.killed is not None:
            then(front)

    world.on_progress = act


# How much longer than its first patience a bot may take that was killed for good, with so many hands left.
COST = 25_000.0


@batch(2, hands=503, patience=PATIENCE, players=one_mortal)
def a_bot_killed_for_good_with_500_hands_left(world):
    keep_first_order(world)
    kill_bot(world, 20, lambda front: None)

    def wrong():
        cost = world.last_applied - world.killed - PATIENCE
        return f"it took {cost:.0f} ms more than one patience" if cost > COST else None

    world.is_enough = lambda: world.killed is not None and world.now - world.killed > PATIENCE + COST + 1000
    world.why_not = lambda: wrong() or ("the match isn't over" if not world.is_done() else None)


def is_given_up(world, seat):
    return any(process.up and process.seating.is_given_up(seat) for process in world.processes)


@batch(3, hands=80, patience=PATIENCE, players=one_mortal)
def a_bot_that_is_back_a_second_after_it_was_given_up(world):
    world.given_up, world.lost, world.sat = None, 0, False
    kill_bot(world, 20, lambda front: None)

    def ordered(seat):
        if world.given_up is not None and not world.sat:
            world.lost += 1
        world.sat = world.sat or world.bots[1].up
        if world.given_up is None:
            world.after(5.0, look)

    def look():
        if world.given_up is None and is_given_up(world, 1):
            world.given_up = world.now
            world.after(1000.0, world.bots[1].come_back)

    world.on_order = ordered

    def wrong():
        if world.given_up is None:
            return "it was never given up"
        return f"{world.lost} acts were lost" if world.lost > 4 else f"{world.orders} orders" if world.orders > 6 else None

    world.why_not = wrong


@batch(2, hands=200, patience=PATIENCE, players=one_mortal)
def all_started_again_while_a_seat_is_given_up(world):
    """They know it again after one patience, and wait half a second at twenty turns once more."""
    world.started, world.again = None, None

    def then(front):
        if world.orders >= 40 and world.started is None:
            world.started, world.orders_then = world.now, world.orders
            for number in range(world.count):
                world.kill(number, 60)
        elif world.started is not None and world.again is None and world.orders >= world.orders_then + 40:
            world.again = world.now - world.started

    kill_bot(world, 20, then)
    world.is_enough = lambda: world.again is not None
    world.why_not = lambda: f"{world.again} ms" if world.again is None or world.again > 2 * PATIENCE + 10_000 + 2000 else None
