"""Batches of tests/processes_sim in which a match is learned again by the nodes that kept it."""
from processes_batch import batch, is_whole
from processes_world import Bot

# A seat may hold the table for so long, in milliseconds.
PATIENCE = 300.0


def nobody(world):
    return []


def one_bot(world):
    return [Bot(world, 0, 0, False)]


def replay(world, votes):
    """All were killed after so many commands and are started within 50 ms: they learn them again by themselves, and nobody
    is played for meanwhile."""
    world.is_enough = lambda: world.is_whole_to(votes)
    world.why_not = lambda: f"{world.orders} orders while the match was learned again" if world.orders else None


def replays(seeds, votes, most_time, name, **options):
    """A batch of such a match, which is to be whole at all nodes within so many milliseconds."""

    def setup(world):
        replay(world, votes)

    setup.__name__ = f"replay_of_{votes}_{name}"
    batch(seeds, most_time=most_time, hands=votes // 9 + 9, votes=votes, patience=PATIENCE, **options)(setup)


for votes, most_time, is_long in ((2000, 500, False), (30_000, 5000, True)):
    replays(2, votes, most_time, "with_no_bot", players=nobody, is_long=is_long)
    replays(2, votes, most_time, "with_one_bot", players=one_bot, is_long=is_long)
    replays(2, votes, most_time, "with_bots_that_think_for_1_s", think=1000.0, at=(0, 1), is_long=is_long)
    replays(2, votes, most_time, "of_five", players=nobody, count=5, is_long=is_long)
    replays(2, votes, most_time, "over_ways_of_1_ms", players=nobody, way=1.0, is_long=is_long)


def leader_of(world):
    """Who leads, as far as the processes know; None where nobody does."""
    return next((process.number for process in world.processes if process.up and process.node.state == "leading"), None)


def kill_leader_of_one_behind(world):
    """Another process than the leader's is killed and started; while it still learns the match the leader is killed."""
    leader = leader_of(world)
    if leader is None or not is_whole(world) or not world.is_whole_to(world.applied - 9):
        return
    other = world.random.choice([number for number in range(world.count) if number != leader])
    world.kill(other, 60)
    world.after(60 + world.random.choice([5, 20, 60]), kill_leader_now, world, leader, other)


def kill_leader_now(world, leader, other):
    if world.processes[leader].up:
        world.fault()
        world.tell("behind", other, world.processes[other].node.front, "of", world.applied)
        world.kill(leader, 300)


@batch(2, most_gap=500, hands=400, votes=3000, think=5.0, at=(0, 1))
def leader_killed_while_another_is_behind(world):
    """Six times; by then the match has learned to go on."""
    def act(front):
        if front > 3000 and front % 40 == 0:
            world.after(3 * world.random.random(), kill_leader_of_one_behind, world)

    world.on_progress = act
    world.is_enough = lambda: world.applied >= 3300
