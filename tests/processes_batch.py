"""The batches of tests/processes_sim: what a batch is, and what goes wrong in many of them."""
BATCHES = {}


class Batch:
    """So many seeds of a world with these options, which the function sets up, and what each seed is to come to; with `--long`
    more seeds, where the batch has some."""

    def __init__(self, seeds, more, setup, options, bounds):
        self.seeds, self.more, self.setup, self.options, self.bounds = seeds, more, setup, options, bounds


def batch(seeds, most_ticks=None, most_gap=None, most_wait=None, most_time=None, fastest=None, most_rounds=8, is_long=False, more=None, **options):
    """A batch by the function that sets a world's faults up; in each seed at most so many ticks for each hundred commands,
    and ten, at most so long from one command to the next, and at most so long in all; and in nine of ten faults at most so
    long to the next one. Where the fastest possible round is given, the gaps between commands are told in such rounds too;
    half of them take one and a half at most, and each so many, where that is given. Long ones are run by `--long` alone, or by
    their name."""

    def taken(function):
        name = function.__name__.replace("_", "-")
        bounds = {"ticks": most_ticks, "gap": most_gap, "wait": most_wait, "time": most_time, "fastest": fastest, "rounds": most_rounds, "is_long": is_long}
        BATCHES[name] = Batch(seeds, more or seeds, function, options, bounds)
        return function

    return taken

def each(world, commands, act):
    """Does something about every so many commands, at no round moment."""

    def went_on(front):
        if front % commands == 0:
            world.after(3 * world.random.random(), act, world)

    world.on_progress = went_on


def soon(world):
    return 5 + 300 * world.random.random()


def is_whole(world):
    return len(world.up()) == world.count and not world.cuts and not world.slow


def both(a, b):
    return {(a, b), (b, a)}


def kill_some(world, count):
    """Signal 9 to so many within five milliseconds, each back within 300."""
    if not is_whole(world):
        return
    world.fault()
    for number in world.random.sample(world.up(), count):
        world.after(5 * world.random.random(), world.kill, number, soon(world))


def kill_one(world):
    kill_some(world, 1)
