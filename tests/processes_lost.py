"""Batches of tests/processes_sim in which a minority of disks is slow, and then as many quick nodes are lost as a minority may be.

A call of a slow node has two syncs. What is asked: the next command comes within five such calls and five seconds where processes ended,
and within seven and five where machines fell silent; and a slow node that runs is never further behind than two of its calls. Bots
answer at once, so that many more than 64 commands are chosen in a call of a slow one. Times are in milliseconds.
"""
from processes_batch import batch, both
from processes_slow import PATIENT, TEN_MINUTES, leaders
from processes_starved import Processors

CALLS_KILLED, CALLS_SILENT, CALLS_BEHIND, BESIDE = 5, 7, 2, 5000.0
# Each LOOK it is looked how far slow nodes are behind, once the match goes on.
LOOK, BEGUN, LITTLE = 50.0, 3000.0, 1000.0
# The match's processes end so soon once it is over somewhere, and two calls of a slow one.
ENDED = 10_000.0
# How long a peer isn't heard for which nobody waits any more, where quick ones are lost at the end.
UNHEARD = 10_000.0


class Slow:
    """Which nodes of a world have slow disks, from when on, and how far they fall behind."""

    def __init__(self, world, count, sync, since=0.0, until=1e18):
        """So many nodes are slow by such a sync, from that moment on and until that one; bots are at a quick one."""
        self.world, self.sync, self.since, self.until = world, sync, since, until
        self.numbers = world.random.sample(range(world.count), count)
        self.reached, self.longest_behind, self.campaigns = {}, 0.0, 0
        world.sync = self.sync_of
        for bot in world.bots:
            bot.at = self.quick[0]
        world.at(BEGUN, self.look)

    @property
    def quick(self):
        return [number for number in range(self.world.count) if number not in self.numbers]

    @property
    def call(self):
        return 2 * self.sync

    def sync_of(self, number):
        return self.sync if number in self.numbers and self.since <= self.world.now < self.until else self.world.sync_ms

    def progressed(self, front):
        self.reached[front] = self.world.now

    def look(self):
        """Since when the slow nodes that run are behind. What they write into files of stores that they meet doesn't count."""
        world = self.world
        for number in self.numbers:
            process = world.processes[number]
            if process.up and process.node.front < world.applied:
                first = min((at for reached, at in self.reached.items() if reached > process.node.front), default=world.now)
                self.longest_behind = max(self.longest_behind, world.now - max(first, BEGUN, process.kept_until))
        oldest = min((world.processes[number].node.front for number in self.numbers), default=0)
        self.reached = {front: at for front, at in self.reached.items() if front > oldest}
        world.after(LOOK, self.look)

    def why_behind(self, more=0.0):
        """What is wrong with how far they fell behind, if anything; they may be so much further."""
        most = CALLS_BEHIND * self.call + LITTLE + more
        return f"a slow node {self.longest_behind:.0f} ms behind" if self.longest_behind > most else None


def lost_of(world, slow):
    """As many quick nodes as a minority may be, first who leads, and not the one at which bots are."""
    able = [number for number in slow.quick if all(bot.at != number for bot in world.bots)]
    first = [number for number in able if number in leaders(world)]
    return [*first, *[number for number in able if number not in first]][: (world.count - 1) // 2]


def lose(world, slow, is_cut):
    """They are lost now: their processes end, or their machines fall silent."""
    world.lost_at, world.lost = world.now, lost_of(world, slow)
    world.tell("lost", world.lost, "fronts", [process.node.front for process in world.processes], "leaders", leaders(world))
    if is_cut:
        world.cut({pair for a in world.lost for b in range(world.count) if a != b for pair in both(a, b)})
    for number in [] if is_cut else world.lost:
        world.kill(number, spares=False)


def setup_loss(world, slow, after, is_cut):
    """Quick nodes are lost at a moment, and the match goes on."""
    world.lost_at, world.next_step, world.bound = None, None, BESIDE + slow.call * (CALLS_SILENT if is_cut else CALLS_KILLED)
    applied = []

    def went_on(front):
        slow.progressed(front)
        if world.lost_at is not None:
            applied.append(front)
            # The first may have been chosen before.
            if len(applied) == 2:
                world.next_step = world.now - world.lost_at

    def why_not():
        if world.next_step is None:
            return f"no command in {(world.now - world.lost_at) / 1000:.0f} s behind the loss, of {world.applied}"
        world.well_after = world.next_step
        if world.next_step > world.bound:
            return f"the next command {world.next_step:.0f} ms behind the loss, not {world.bound:.0f}"
        return slow.why_behind()

    world.on_progress, world.why_not = went_on, why_not
    world.is_enough = lambda: world.next_step is not None or world.lost_at is not None and world.now - world.lost_at > 4 * world.bound
    world.at(after, lose, world, slow, is_cut)


def in_name(seconds):
    return f"{seconds:g}".replace(".", "_")


def from_in_name(since):
    return f"_from_{since / 1000:g}_s_on" if since else ""


def loss(count, count_slow, sync, after=10_000.0, is_cut=False, since=0.0, is_long=True, seeds=1, **options):
    """A batch of so many nodes, some of them slow by such a sync, in which quick ones are lost after so long."""

    def setup(world):
        setup_loss(world, Slow(world, count_slow, 1000.0 * sync, since), after, is_cut)

    setup.__name__ = f"{count_slow}_of_{count}_slow_by_{in_name(sync)}_s{from_in_name(since)}_and_quick_ones_{'cut_off' if is_cut else 'killed'}_after_{after / 1000:g}_s"
    batch(seeds, most_rounds=None, is_long=is_long, **{**PATIENT, "hands": 100_000, "stays": True, "count": count, "think": 2.0, **options})(setup)


for count, count_slow in ((3, 1), (5, 2), (7, 3)):
    for sync in (0.05, 0.3, 1.2, 5):
        for is_cut in (False, True):
            loss(count, count_slow, sync, is_cut=is_cut, is_long=(count, sync, is_cut) not in ((3, 0.3, False), (3, 1.2, True)))
            loss(count, count_slow, sync, is_cut=is_cut, since=10_000.0, after=20_000.0)
            for since in (0.0, 10_000.0):
                loss(count, count_slow, sync, is_cut=is_cut, since=since, after=TEN_MINUTES, think=100.0)


def setup_end(world, slow):
    """The match is played to its end; then all processes end soon."""
    over = []

    def ends():
        if not over:
            over.append(world.now)

    def why_not():
        late = world.now - over[0]
        most = ENDED + CALLS_BEHIND * slow.call
        return f"the last process ended {late:.0f} ms behind the end" if late > most else slow.why_behind()

    world.on_end, world.on_progress, world.why_not = ends, slow.progressed, why_not


for count, count_slow in ((3, 1), (5, 1)):
    def setup(world, count_slow=count_slow):
        setup_end(world, Slow(world, count_slow, 300.0))

    setup.__name__ = f"{count_slow}_of_{count}_slow_by_0_3_s_and_the_end"
    batch(2, **{**PATIENT, "hands": 60, "stays": True, "count": count, "think": 1.0})(setup)


def in_last_hand(world):
    """Whether some process plays the last hand."""
    return any(process.up and process.node.table.finished == world.match.hands - 1 for process in world.processes)


def setup_loss_at_the_end(world, slow, is_cut, more=0.0):
    """Quick nodes are lost in the last hand: all others end by themselves. A slow one may be so much further behind."""
    world.lost_at, bound = None, BESIDE + slow.call * (CALLS_SILENT if is_cut else CALLS_KILLED)

    def lose_now():
        lose(world, slow, is_cut)
        world.gone.update(world.lost)

    def went_on(front):
        slow.progressed(front)
        if world.lost_at is None and in_last_hand(world):
            world.lost_at = world.now
            world.after(1.0, lose_now)

    def why_not():
        # Each of the last hand's nine commands may take as long as the slow ones, and then all wait for who isn't heard.
        most = bound + 9 * 2 * slow.call + 2 * ENDED + CALLS_BEHIND * slow.call
        late = world.now - world.lost_at
        return f"the last process ended {late:.0f} ms behind the loss, not {most:.0f}" if late > most else slow.why_behind(more)

    world.on_progress, world.why_not = went_on, why_not


def end_with_loss(count, count_slow, sync, is_cut, since=0.0, is_long=True, think=2.0):
    def setup(world):
        slow = Slow(world, count_slow, 1000.0 * sync, since)
        # (who became slow while bots think asks between two calls for the votes that a killed one took with it: these are three then)
        setup_loss_at_the_end(world, slow, is_cut, slow.call if since else 0.0)

    setup.__name__ = f"{count_slow}_of_{count}_slow_by_{in_name(sync)}_s{from_in_name(since)}_and_quick_ones_{'cut_off' if is_cut else 'killed'}_at_the_end"
    batch(1, is_long=is_long, **{**PATIENT, "hands": 20, "unheard": UNHEARD, "stays": True, "count": count, "think": think})(setup)


for count, count_slow in ((3, 1), (5, 2), (7, 3)):
    for sync in (0.05, 0.3, 1.2, 5):
        for is_cut in (False, True):
            end_with_loss(count, count_slow, sync, is_cut, is_long=(count, sync, is_cut) != (3, 0.3, False))
            # (bots think so that the last hand comes some seconds behind the tenth)
            end_with_loss(count, count_slow, sync, is_cut, since=10_000.0, think=100.0)


# A slow node becomes quick, or is slow and leads, and then quick ones are lost.


def quick_again(count, count_slow, sync, is_cut, is_long=True):
    def setup(world):
        setup_loss(world, Slow(world, count_slow, 1000.0 * sync, until=10_000.0), 12_000.0, is_cut)

    setup.__name__ = f"{count_slow}_of_{count}_slow_by_{in_name(sync)}_s_until_10_s_and_quick_ones_{'cut_off' if is_cut else 'killed'}_after_12_s"
    batch(1, most_rounds=None, is_long=is_long, **{**PATIENT, "hands": 100_000, "stays": True, "count": count, "think": 2.0})(setup)


def slow_leader(count, sync, is_cut, is_long=True):
    """Who leads in the fourth second is slow from then on; a quick node, which isn't the one at which bots are, is lost."""

    def setup(world):
        slow = Slow(world, 1, 1000.0 * sync, since=3000.0)
        setup_loss(world, slow, 15_000.0, is_cut)

        def look():
            found = leaders(world)
            if not found:
                world.after(50.0, look)
                return
            slow.numbers = found[:1]
            for bot in world.bots:
                bot.sit_at(next(number for number in slow.quick if number != slow.numbers[0]))

        world.at(2900.0, look)

    setup.__name__ = f"the_leader_of_{count}_slow_by_{in_name(sync)}_s_and_quick_ones_{'cut_off' if is_cut else 'killed'}"
    batch(1, most_rounds=None, is_long=is_long, **{**PATIENT, "hands": 100_000, "stays": True, "count": count, "think": 2.0})(setup)


for sync in (0.05, 0.3, 1.2, 5):
    for is_cut in (False, True):
        quick_again(3, 1, sync, is_cut, is_long=(sync, is_cut) != (0.3, False))
        quick_again(5, 2, sync, is_cut)
        quick_again(7, 3, sync, is_cut)
        slow_leader(3, sync, is_cut, is_long=(sync, is_cut) != (0.3, True))
        slow_leader(5, sync, is_cut)
        slow_leader(7, sync, is_cut)


# The ways of one node are slow in place of its disk.


class SlowWays(Slow):
    """Nodes whose ways to all others and back take so long, and whose disks are as quick as others': two ways are a call."""

    def __init__(self, world, count, way):
        super().__init__(world, count, way)
        world.longer = {pair: way for a in self.numbers for b in range(world.count) if a != b for pair in both(a, b)}

    def sync_of(self, number):
        return self.world.sync_ms

    def why_behind(self, more=0.0):
        """Nothing: who joins later asks for 64 commands by each way there and back, and many more are chosen meanwhile."""
        return None


for is_cut in (False, True):
    def setup(world, is_cut=is_cut):
        setup_loss(world, SlowWays(world, 1, 500.0), 10_000.0, is_cut)

    setup.__name__ = f"1_of_3_with_ways_of_0_5_s_and_quick_ones_{'cut_off' if is_cut else 'killed'}_after_10_s"
    batch(1, most_rounds=None, is_long=is_cut, **{**PATIENT, "hands": 100_000, "stays": True, "think": 2.0})(setup)


# One node lacks a slot that the only other one left, which is slow, knows as chosen by others' votes alone: it gets that one's vote.


def setup_lacking(world, sync):
    """What the quick node that doesn't lead says doesn't come to the leader any more; once the slow one knows more than the
    leader, that quick one is killed."""
    slow = Slow(world, 1, sync)
    setup_loss(world, slow, 1e17, False)

    def part():
        found = [number for number in leaders(world) if number in slow.quick]
        if not found:
            world.after(100.0, part)
            return
        other = next(number for number in slow.quick if number != found[0])
        for bot in world.bots:
            bot.sit_at(found[0])
        world.after(1000.0, cut, found[0], other)

    def cut(leader, other):
        world.cut({(other, leader)})
        look(leader, other)

    def look(leader, other):
        if world.processes[slow.numbers[0]].node.front > world.processes[leader].node.front:
            world.lost_at, world.lost = world.now, [other]
            world.kill(other, spares=False)
        else:
            world.after(1.0, look, leader, other)

    world.at(4000.0, part)


@batch(2, more=6, most_rounds=None, **{**PATIENT, "hands": 100_000, "stays": True, "think": 2.0})
def a_slot_that_the_only_other_one_left_knows(world):
    setup_lacking(world, 300.0)


# A slow node doesn't campaign while a quick one leads, from its start on.


def setup_calm(world, slow, until, more=0.0):
    """For so long a quick node leads, and a slow one doesn't tick behind its start; it may be so much further behind."""
    world.ticked = []
    for number in slow.numbers:
        process = world.processes[number]

        def call(body, process=process, made=process.call):
            if process.ticked == world.now and any(number in slow.quick for number in leaders(world)):
                world.ticked.append((world.now, process.number))
            made(body)

        process.call = call
    world.on_progress = slow.progressed
    world.is_enough = lambda: world.now >= until
    world.why_not = lambda: f"slow nodes campaigned while a quick one led: {world.ticked[:5]}" if world.ticked else slow.why_behind(more)


@batch(10, **{**PATIENT, "hands": 100_000, "stays": True, "think": 5.0})
def starts_with_one_of_3_slow_by_0_3_s(world):
    setup_calm(world, Slow(world, 1, 300.0), 10_000.0)


# So much later than the others a slow one begins, on machines on which a turn and a call take so much of a processor: what comes while it keeps
# files is read turn by turn, and what answers its question lies behind that.
LATER, BUSY, FILES_SYNCS = 500.0, (0.5, 3.0), 8


@batch(10, **{**PATIENT, "hands": 100_000, "stays": True, "think": 60.0})
def late_starts_of_one_of_3_slow_by_0_3_s(world):
    """Between its first turns it keeps the lives of both stores that it meets, and what they promised, by two syncs each: it reads nothing
    meanwhile, and doesn't campaign for it."""
    slow = Slow(world, 1, 300.0)
    world.processors = Processors(world)
    world.turn_ms, world.call_ms = BUSY
    setup_calm(world, slow, 8000.0, FILES_SYNCS * slow.sync)
    for number in slow.numbers:
        world.at(0.0, world.kill, number, LATER)


@batch(1, is_long=True, **{**PATIENT, "hands": 100_000, "stays": True, "think": 20.0})
def ten_minutes_with_one_of_3_slow_by_0_3_s(world):
    setup_calm(world, Slow(world, 1, 300.0), TEN_MINUTES)
