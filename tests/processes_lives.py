"""Tests of tests/processes: nodes tell each other lives, and processes of before don't."""
from measuring import NotMeasured, want
from processes_match import PACE, Match, test
from serving import waited


class OfBoth(Match):
    """A match some of whose nodes run the program of before, which says Hellos of the first version alone."""

    before, old = None, ()

    def start(self, *nodes, before=None):
        for node in nodes:
            self.program = self.before if node in self.old else Match.program
            super().start(node, before=before)
        self.program = Match.program


@test(seeds=2)
def both_versions(seed, is_long):
    """Processes of both versions play a whole match, each killed once; the old ones have the lesser numbers, or the greater.
    Who dials an old one meets it in its version, and no note tells of 122."""
    if OfBoth.before is None:
        raise NotMeasured("no program of before was given (--before)")
    match = OfBoth(pace=PACE)
    match.old = (0, 1) if seed == 1 else (1, 2)
    # Node 1 runs both programs, and an old one tells of 122.
    new = set(range(match.count)) - set(match.old)
    match.begin()
    for node in range(match.count):
        match.goes_on(20)
        match.kill(node)
        match.goes_on()
        match.start(node)
        for other in range(match.count):
            if other != node:
                match.await_note(node, f"peer {other}: {'joined' if node in match.old else 'connected'}")
    # One of the old ones is replaced by the new program, as by an update.
    match.kill(1)
    match.old = tuple(node for node in match.old if node != 1)
    match.start(1)
    match.goes_on(20)
    match.ends()
    for node in new:
        want(not any("122 BadHello" in note for note in match.notes(node)), f"node {node} tells of a Hello of the other version")


@test(seeds=2)
def told_by_another(seed, is_long):
    """The store of node 0 is lost, with all that tells of it on its machine, and made anew. Nodes 1 and 2 never met the old one.
    Node 2 reaches node 3, which did, before it meets the new one or behind that: so it refuses node 0, and the match goes on
    with what was played."""
    match = Match(count=5, proxied=True, pace=PACE)
    match.begin(0, 3, 4, have_met=True)
    match.goes_on(20)
    match.kill(0, 3, 4)
    for folder in ("stores", "logs"):
        for file in (match.home(0) / folder).glob("node0*"):
            file.unlink()
    match.init(0)
    parted = [(0, 3), (0, 4), (1, 3), (1, 4), (2, 4)] + ([(2, 3)] if seed == 2 else [])
    match.ways.silent |= {pair for one, other in parted for pair in ((one, other), (other, one))}
    # Each node starts before those that it dials. A proxy ends a dial of a node that isn't there, as an older node does.
    match.start(3)
    match.start(2)
    if seed == 1:
        match.start(1)
    if seed == 1:
        match.await_note(1, "peer 2: connected")
        match.await_note(2, "peer 3: connected")
    match.start(0)
    if seed == 2:
        match.await_note(2, "peer 0: connected")
        match.ways.silent -= {(2, 3), (3, 2)}
    match.await_note(2, "peer 0: 127 StoreReplaced")
    if seed == 1:
        match.await_note(1, "peer 0: 127 StoreReplaced")
    else:
        match.start(1)
    match.ways.silent.clear()
    waited(lambda: match.processes[0].poll() == 2, "the end of the process of node 0", match.last_notes)
    want(match.notes(0)[-1] == "127 StoreReplaced", f"its last note is {match.notes(0)[-1:]}")
    match.processes[0] = None
    match.goes_on(20)
    match.start(4)
    match.ends(1, 2, 3, 4)
