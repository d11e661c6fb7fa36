"""Batches of tests/processes_sim in which processes get little of a processor: 5 ms of each 100, all of them, two of three, or who leads
alone; and in which a node is behind. Times are in milliseconds.

What is asked: a command within eight times the longest time between two turns of a process. A turn, and a call of a node, take what
such a process takes of a processor by itself.
"""
from processes_batch import batch, both
from processes_slow import PATIENT, leaders

# So long of each so long a process has a processor.
GIVEN, OF_EACH = 5.0, 100.0
# The longest time between turns is looked at from this moment on, and the gaps between commands; and so long the run goes on.
BEGUN, LASTS = 3000.0, 23_000.0
TIMES = 8
# Moments that are so near are one, in milliseconds.
BARELY = 1e-6
# What a turn and a call take of a processor: of a program as it ships, and of one with checks inside.
TAKES = {"quick": (0.2, 0.2), "with_checks": (1.0, 1.5)}


class Processors:
    """Who is given a processor, and when: the starved ones for so long of each so long, each from a moment of its own on."""

    def __init__(self, world):
        self.world, self.offsets = world, {}
        self.turned, self.longest = {}, 0.0

    def starve(self, *numbers):
        for number in numbers:
            self.offsets[number] = self.world.now + OF_EACH * self.world.random.random()

    def had(self, number, when, need):
        """When a process has had a processor for so long from a moment on, and has it."""
        if number not in self.offsets:
            return when + need
        # The period in which the moment is, and how far it is in it; at the very end of one it is at the beginning of the next.
        period, at = divmod(when - self.offsets[number] + BARELY, OF_EACH)
        at = max(0.0, at - BARELY)
        if at < GIVEN and at + need <= GIVEN:
            return when + need
        need -= max(0.0, GIVEN - at)
        more, need = divmod(max(0.0, need), GIVEN)
        return self.offsets[number] + OF_EACH * (period + 1 + more) + need

    def began(self, number, now):
        """A turn of a process begins: the longest time since the one before."""
        if number in self.turned and self.turned[number] >= BEGUN:
            self.longest = max(self.longest, now - self.turned[number])
        self.turned[number] = now


def gap_of(world):
    """The longest time between two commands from the beginning on, and when it began."""
    steps = [at for at in world.steps if at >= BEGUN]
    moments = [BEGUN, *steps, world.now]
    return max((later - earlier, earlier) for earlier, later in zip(moments, moments[1:]))


def why_slow(world):
    gap, begun = gap_of(world)
    most = TIMES * world.processors.longest
    return f"no command for {gap:.0f} ms from {begun:.0f} on, with {world.processors.longest:.0f} ms between turns; {world.applied} commands, {world.ticks} ticks" if gap > most else None


def setup_starved(world, takes, starve):
    """Processes are starved from the beginning on, or once one leads."""
    world.processors = Processors(world)
    world.turn_ms, world.call_ms = TAKES[takes]
    world.on_progress = lambda front: world.steps.append(world.now)
    starve(world)
    world.is_enough = lambda: world.now >= LASTS
    world.why_not = lambda: why_slow(world)
    # Bots answer at once, and never stop.
    world.after(LASTS, lambda: None)


def all_of_them(world):
    world.processors.starve(*range(world.count))


def two(world):
    world.processors.starve(*world.random.sample(range(world.count), 2))


def who_leads(world):
    """Who leads in its second second is starved from then on."""
    def look():
        found = leaders(world)
        world.processors.starve(*found) if found else world.after(50.0, look)

    world.after(1500.0, look)


STARVED = {**PATIENT, "hands": 100_000, "stays": True, "think": 20.0}

ROWS = [(name, starve, takes) for name, starve in (("all", all_of_them), ("two", two), ("the_leader", who_leads)) for takes in TAKES]

for name, starve, takes in ROWS:
    def setup(world, starve=starve, takes=takes):
        setup_starved(world, takes, starve)

    setup.__name__ = f"starved_{name}_{takes}"
    batch(1, more=6, **STARVED)(setup)


# A node that is behind, and at which the bot of the seat to act sits.

SOON = 2000.0


def goes_on_soon(world, most=SOON):
    """A command comes within so long of the moment at which all was well."""
    world.mended = world.next_step = None
    began = []

    def went_on(front):
        if world.mended is not None and world.next_step is None and front > began[0]:
            world.next_step = world.now - world.mended

    def mend():
        world.mended = world.now
        began.append(max(process.node.front for process in world.processes if process.up))

    world.on_progress = went_on
    world.is_enough = lambda: world.next_step is not None or world.mended is not None and world.now - world.mended > 60_000.0

    def why_not():
        if world.mended is None:
            return "never was well again"
        if world.next_step is None or world.next_step > most:
            return f"the next command {world.next_step} ms behind"
        world.well_after = world.next_step
        return None

    world.why_not = why_not
    return mend


def around(world, number):
    return {pair for j in range(world.count) if j != number for pair in both(number, j)}


def setup_behind(world, joined):
    """The node at which seat 0 sits is cut off while the match goes on by bots at another one, until these two bots go to
    it; then it is joined with those that are named, and campaigns in vain for none of what they tell it."""
    behind = 2
    mend = goes_on_soon(world)
    begun = []

    def cut():
        world.cut(around(world, behind))
        world.after(5000.0, join)

    def join():
        world.held_until = world.now + 60.0
        world.fault()
        mend()
        world.bots[0].sit_at(behind)
        world.heal({pair for other in joined(world, behind) for pair in both(behind, other)})

    def went_on(front, earlier=world.on_progress):
        if front >= 60 and not begun:
            begun.append(front)
            world.after(0.0, cut)
        earlier(front)

    world.on_progress = went_on


@batch(3, more=12, **{**PATIENT, "hands": 100_000, "stays": True, "think": 20.0, "at": (0, 1)})
def behind_at_one_node_whose_seat_is_to_act(world):
    setup_behind(world, lambda world, behind: [number for number in range(world.count) if number != behind])


@batch(3, more=12, **{**PATIENT, "hands": 100_000, "stays": True, "think": 20.0, "at": (0, 1)})
def behind_and_joined_to_the_third_alone(world):
    """It hears who doesn't lead, and not the leader."""
    setup_behind(world, lambda world, behind: [number for number in range(world.count) if number != behind and number not in leaders(world)][:1])


# One hang, and then the leader is lost: the match goes on as soon as without the hang.
HANG, MISSED = 30_000.0, 1500.0


@batch(3, more=12, **{**PATIENT, "hands": 100_000, "think": 20.0, "at": (0, 1)})
def one_hang_of_30_s_and_then_the_leader_is_lost(world):
    mend = goes_on_soon(world, MISSED)

    def hang():
        number = world.random.choice([number for number in range(world.count) if number not in leaders(world)])
        world.processes[number].pause(HANG)
        world.after(HANG + 3000.0, lose)

    def lose():
        mend()
        world.cut({pair for number in leaders(world) for pair in around(world, number)})

    world.after(3000.0, hang)
