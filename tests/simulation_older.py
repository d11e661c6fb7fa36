"""The rule of tests/simulation on older copies of stores: where one is put back, whoever knows that the node had promised more refuses it,
and the node ends. Nobody else is refused by that."""
import collections

from simulation_trace import NO_STORE, Disk, Wrong, ballot_of
from simulation_windows import QUICK_SYNC, WELL

# Which frames show what their node has promised, by their kinds, and where the ballot begins in each.
PROMISE, REFUSE, ACCEPTED = 2, 3, 5
SHOWN_AT = {PROMISE: 0, REFUSE: 9, ACCEPTED: 0}

# What one node said to another is taken there within so long, where both are well; and a process on an older copy ends within so long where it
# meets one that knows better.
TAKEN, ENDED = WELL, 3_000_000

# By which fault an older copy is refused, and ends its process.
OLDER = "StoreOlder"


class Unknowable(Exception):
    """An older copy was put back, and none of the nodes that run is sure to have heard what it lacks: nothing holds from then on."""


def promised_of(image):
    """The ballot that a store has promised."""
    return Disk(image).store.promised


def shown_by(kind, part):
    """The ballot that a frame of one of these kinds shows."""
    return ballot_of(part[SHOWN_AT[kind] :])


class Older:
    """The rule on older copies of stores."""

    def begin_older(self):
        # What each node kept when a copy of it was made; and of each whose copy was put back which peers know better: by the moment at which
        # that was said to them, and the ballot.
        self.copies, self.aged = {}, {}
        # Of each node and each of its peers when what was said to that peer showed a greater promise than before, and which; when the last process
        # of each node was gone, and the greatest ballot that each has kept.
        self.shown_to, self.stopped, self.most_promised = collections.defaultdict(list), [0] * self.count, [(0, 0)] * self.count

    def show(self, moment, node, peer, ballot):
        """A frame shows what its node has promised."""
        shown = self.shown_to[node, peer]
        if not shown or shown[-1][1] < ballot:
            shown.append((moment, ballot))

    def put_back(self, moment, node, image):
        """A node without a process has the copy of its store again."""
        copy = self.copies.get(node)
        if copy is None or copy == image:
            return
        self.images[node] = copy
        try:
            least = promised_of(copy)
        except NO_STORE:
            raise Unknowable from None
        known = {peer: said for peer in self.up if peer != node and (said := self.last_taken(node, peer)) is not None and said[1] > least}
        if not known:
            raise Unknowable
        self.aged[node] = known
        self.see_node(moment, node)

    def last_taken(self, node, peer):
        """What a peer, as it runs now, is sure to have heard last of what a node has promised, with the moment; none where there is nothing."""
        last = [said for said in self.shown_to[node, peer] if said[0] + TAKEN < self.stopped[node] and self.has_heard_since(said[0], node, peer)]
        return last[-1] if last else None

    def has_heard_since(self, moment, node, peer):
        """Whether a peer has run since then, and was well, and so were the ways between it and a node."""
        return max(self.well[peer], self.pairs[min(node, peer), max(node, peer)]) <= moment

    def look_at_older(self, moment):
        """A process on an older copy has ended where it met one that knows better, unless it has promised as much anew."""
        for node, known in self.aged.items():
            process = self.processes.get(node)
            if process is None or process.spoilt is not None or self.syncs[node] >= QUICK_SYNC or self.paused[node] > process.began:
                continue
            for peer, (said, ballot) in known.items():
                if process.began + ENDED < moment and process.disk.store.promised < ballot and self.has_heard_since(said, node, peer):
                    raise Wrong("older", moment, f"node {node}, which began at {process.began} on an older copy of its store, goes on beside node {peer}, which knows that it promised {ballot}")

    def is_older(self, node, peer, names):
        """Whether a node may refuse another one, or itself, since one's store is an older copy."""
        return names[0] == OLDER and (node if names[1:] == ["Own"] else peer) in self.aged

    def told_promise(self, moment, node, peer, body):
        """A node tells another one what it has heard that that one promised: so it had."""
        if ballot_of(body) > self.most_promised[peer]:
            raise Wrong("older", moment, f"node {node} tells node {peer} that that one promised {ballot_of(body)}, and it never kept more than {self.most_promised[peer]}")
