"""Batches of tests/processes_sim with slow disks and slow ways: nothing is lost, and nobody is killed.

Times are in milliseconds. F is the fastest possible round, from one command to the next: four syncs and two ways, and with
two slow nodes of three two syncs, since the third and one of them are a majority. Drawn syncs have a mean of their own.
"""
from processes_batch import batch, both

TEN_MINUTES, TWENTY_COMMANDS, A_MINUTE = 600_000.0, 20, 60_000.0
# How many seeds `--long` has of each, and which rows are run without it.
MORE = 6
SHORT = ("syncs_of_2_s", "syncs_of_2_s_at_two", "syncs_of_10_s_at_two", "syncs_of_half_a_to_20_s_and_the_leader_cut_off_then", "ways_that_take_800_ms")
DRAWN = (500.0, 20_000.0)
# A command comes so soon once all is well, and where the leader is cut off in that moment.
SOON, SOON_APART, CALLS_APART = 2000.0, 5000.0, 4
# What else a row of slow disks says: who waits for ever in it, and for how long a peer isn't heard that still comes.
PATIENT = {"hands": 400, "at": (0, 1), "stuck": 1e12, "unheard": 1e12}


class Disks:
    """The disks of a world's nodes: each sync takes so long until all is well."""

    def __init__(self, world, length, slow):
        """`length` draws how long a sync takes at one of the slow nodes."""
        self.world, self.length, self.slow = world, length, slow
        # When each call of two slow syncs ends, and how long it is.
        self.is_well, self.calls = False, []
        world.sync = self.sync

    def sync(self, number):
        """How long a sync takes at a node now: one of the two of a call, or half of both."""
        if self.is_well or number not in self.slow:
            return self.world.sync_ms
        length = self.length()
        self.calls.append((self.world.now + 2 * length, 2 * length))
        return length

    def slow_end(self):
        """When the last slow sync ends."""
        return max((end for end, _ in self.calls), default=0.0)

    def longest_call(self, since):
        """The longest call that didn't end before this moment."""
        return max((length for end, length in self.calls if end >= since), default=0.0)


def leaders(world):
    return [process.number for process in world.processes if process.up and process.node.state == "leading"]


def mend(world, disks, cuts):
    """All is well from now on; where the leader is cut off now, nothing comes to it or from it any more."""
    disks.is_well, world.mended = True, world.now
    if cuts:
        world.cut_off = leaders(world)
        world.cut({pair for a in world.cut_off for b in range(world.count) if a != b for pair in both(a, b)})


def goes_on(world, cuts):
    """Whether a command that comes now shows that the match goes on: where the leader was cut off, another leads by then."""
    return not cuts or any(number not in world.cut_off for number in leaders(world))


def slow(world, disks, fastest, cuts):
    """Ten minutes and twenty commands; then, where a leader is to be cut off once there is one, all is well, and one more
    command comes."""
    world.fastest, world.mended, world.next_step = fastest, None, None

    def went_on(front):
        if world.mended is None:
            world.steps.append(world.now)
        elif world.next_step is None and goes_on(world, cuts):
            world.next_step = world.now

    def is_enough():
        if world.mended is None:
            is_long = world.now >= TEN_MINUTES and (world.applied >= TWENTY_COMMANDS or world.now >= 3 * TEN_MINUTES)
            if is_long and (leaders(world) or not cuts):
                mend(world, disks, cuts)
            return False
        return world.next_step is not None or world.now - world.mended > TEN_MINUTES

    world.on_progress, world.is_enough = went_on, is_enough
    world.why_not = lambda: why_not(world, disks, cuts)


def why_not(world, disks, cuts):
    """What isn't as it is to be, if anything."""
    if world.applied < TWENTY_COMMANDS:
        return f"{world.applied} commands"
    if world.next_step is None:
        return "no command once all was well"
    world.well_after = max(0.0, world.next_step - (world.mended if cuts else max(world.mended, disks.slow_end())))
    most = SOON_APART + CALLS_APART * disks.longest_call(world.mended - A_MINUTE) if cuts else SOON
    return f"the next command {world.well_after:.0f} ms after all was well" if world.well_after > most else None


def drawn(world):
    """Half of two syncs, each drawn."""
    return (world.random.uniform(*DRAWN) + world.random.uniform(*DRAWN)) / 2


def row(name, fastest, length, count_slow, cuts=False, **options):
    """A batch in which so many nodes of three have slow disks."""

    def setup(world):
        disks = Disks(world, (lambda: length) if length is not None else (lambda: drawn(world)), world.random.sample(range(3), count_slow))
        slow(world, disks, fastest, cuts)

    setup.__name__ = name
    batch(1, more=MORE, fastest=fastest, is_long=name not in SHORT, **{**PATIENT, **options})(setup)


def rows(name, fastest, length, count_slow):
    """One whose bots stay, those whose bots leave, and one whose leader is cut off once all is well."""
    row(f"{name}", fastest, length, count_slow, stays=True)
    for seconds in (2, 5):
        row(f"{name}_and_bots_that_leave_after_{seconds}_s", fastest, length, count_slow, bot_patience=1000.0 * seconds)
    row(f"{name}_and_the_leader_cut_off_then", fastest, length, count_slow, cuts=True, stays=True)


for seconds in (0.5, 2, 5, 10):
    text = f"{seconds:g}".replace("0.5", "half_a") if seconds < 1 else f"{seconds:g}"
    rows(f"syncs_of_{text}_s", 4000.0 * seconds, 1000.0 * seconds, 3)
    rows(f"syncs_of_{text}_s_at_two", 2000.0 * seconds, 1000.0 * seconds, 2)
rows("syncs_of_half_a_to_20_s", 2 * sum(DRAWN), None, 3)


def slow_ways(world, length):
    """Each way takes so long, a tenth more or less; until twenty commands, and ten minutes."""
    world.fastest = 2 * length
    world.way = lambda: length * (0.9 + 0.2 * world.random.random())
    world.on_progress = lambda front: world.steps.append(world.now)
    world.is_enough = lambda: world.now >= TEN_MINUTES and world.applied >= TWENTY_COMMANDS
    world.why_not = lambda: f"{world.applied} commands" if world.applied < TWENTY_COMMANDS else None


for length in (250.0, 500.0, 800.0):
    def setup(world, length=length):
        slow_ways(world, length)

    setup.__name__ = f"ways_that_take_{length:.0f}_ms"
    batch(1, more=MORE, fastest=2 * length, is_long=setup.__name__ not in SHORT, **{**PATIENT, "stays": True})(setup)
