"""The rule of tests/simulation on progress: wherever more than half of the nodes are well for a second, the match goes on."""
import bisect
import itertools

from simulation_trace import Wrong

# In a window the next command comes within so long, in microseconds, and four times the longest call of its last minute.
PROGRESS, MINUTE = 5_000_000, 60_000_000
# A window begins once the nodes have been well for so long: they run, each sync takes less than a millisecond, and ways between them take
# less than a tenth of a second.
WELL, QUICK_SYNC, QUICK_WAY = 1_000_000, 1_000, 100_000
# A node is well while a call of its wires takes so long at most, and a turn at least no longer than that.
QUICK_CALL, QUICK_TURN = 5, 5_000
# As long as simulated syncs and ways take before an order.
FIRST_SYNC, FIRST_WAY = 100, 100
NEVER = 1 << 62


class Windows:
    """Since when nodes are well, and what they wait for meanwhile."""

    def begin_windows(self):
        count = self.count
        # Since when each node is well, and each pair of them is joined; how long syncs and ways take.
        self.well, self.pairs = [NEVER] * count, {pair: 0 for pair in itertools.combinations(range(count), 2)}
        self.syncs, self.ways, self.cuts = [FIRST_SYNC] * count, {}, set()
        # Until when what was sent between two nodes before may be under way, and all that is sent behind it.
        self.under_way = dict(self.pairs)
        # Which run, and until when each was paused, or was in a sync that took long.
        self.up, self.paused = set(), [0] * count
        # Those whose store was lost, with the moment, and whose calls or turns take long: they aren't well any more.
        self.lost, self.costly = {}, set()
        # Since when those of each least majority are.
        self.groups = {group: NEVER for group in itertools.combinations(range(count), count // 2 + 1)}
        # Calls, pauses and ways that took long: when they ended, and how long they were.
        self.slow, self.slow_lengths = [], []
        self.last, self.gap, self.gap_of = 0, 0.0, ""
        # Syncs that take long: when each begins and ends, and of which node.
        long = ((int(row[3]), row[0], int(row[1])) for row in self.rows if row[2] == "sync" and row[1] != "-" and row[0] - int(row[3]) >= QUICK_SYNC)
        self.busy, self.busy_at = sorted(long), 0

    # What makes nodes well or not.

    def take_long(self, moment, length):
        """Something took so long until then."""
        at = bisect.bisect_right(self.slow, moment)
        self.slow.insert(at, moment)
        self.slow_lengths.insert(at, length)

    def longest_since(self, moment):
        return max(self.slow_lengths[bisect.bisect_left(self.slow, moment) :], default=0)

    def pass_busy(self, moment):
        """Long syncs that begin until then."""
        while self.busy_at < len(self.busy) and self.busy[self.busy_at][0] <= moment:
            begun, end, node = self.busy[self.busy_at]
            self.busy_at += 1
            self.look(begun)
            self.take_long(end, end - begun)
            self.paused[node] = max(self.paused[node], end)
            self.well[node] = max(self.well[node], end)
            self.group()

    def group(self):
        """Since when each group is well."""
        for group in self.groups:
            since = max(self.well[node] for node in group)
            if since < NEVER:
                since = max(since, *(self.pairs[pair] for pair in itertools.combinations(group, 2)))
            self.groups[group] = since

    def see_node(self, moment, node):
        """A node begins, ends, or its syncs take another time."""
        self.pass_busy(moment)
        self.look(moment)
        is_well = node in self.up and self.syncs[node] < QUICK_SYNC and node not in self.lost and node not in self.aged and node not in self.costly
        self.well[node] = max(moment, self.paused[node]) if is_well else NEVER
        self.group()

    def see_pair(self, moment, one, other, old=0):
        """What goes between two nodes changes: what was on its way before may take as long as it did then."""
        self.pass_busy(moment)
        self.look(moment)
        ways = ((one, other), (other, one))
        is_joined = not any(way in self.cuts or self.ways.get(way, FIRST_WAY) >= QUICK_WAY for way in ways)
        pair = min(one, other), max(one, other)
        self.under_way[pair] = max(self.under_way[pair], moment + old)
        self.pairs[pair] = self.under_way[pair] if is_joined else NEVER
        self.group()

    def order_window(self, row):
        """An order of the script, as far as nodes are well or not by it."""
        moment, word, numbers = row[0], row[2], [int(word) for word in row[3:6]]
        if word == "sync":
            self.syncs[numbers[0]] = numbers[1]
            self.see_node(moment, numbers[0])
        elif word == "cost":
            (self.costly.add if numbers[1] > QUICK_CALL or numbers[2] > QUICK_TURN else self.costly.discard)(numbers[0])
            self.see_node(moment, numbers[0])
        elif word == "pause":
            self.paused[numbers[0]] = max(self.paused[numbers[0]], moment + numbers[1])
            self.see_node(moment, numbers[0])
            self.take_long(moment + numbers[1], numbers[1])
        elif word in ("cut", "heal"):
            (self.cuts.add if word == "cut" else self.cuts.discard)(tuple(numbers[:2]))
            self.see_pair(moment, *numbers[:2])
        elif word == "delay":
            old = self.ways.get(tuple(numbers[:2]), FIRST_WAY)
            self.ways[tuple(numbers[:2])] = numbers[2]
            self.see_pair(moment, *numbers[:2], old)
            self.take_long(moment + old, old)
        elif word in ("close", "half"):
            self.see_pair(moment, *numbers[:2])

    # What is waited for in a window.

    def look(self, moment):
        """Looks in each window whether the next command is late by now, or later than in any window before."""
        soonest = moment - int(PROGRESS * self.gap)
        if self.last >= soonest or self.dealt.is_over():
            return
        for group, since in self.groups.items():
            if since + WELL < soonest:
                self.look_at(moment, group, since + WELL)

    def look_at(self, moment, group, since):
        """The same in the window of a group, which began then."""
        ready, more = self.ready(group)
        base = max(since, self.last, ready)
        if base >= moment:
            return
        limit = PROGRESS + 4 * self.longest_since(base - MINUTE) + more
        self.gap = max(self.gap, (moment - base) / limit)
        if moment - base > limit:
            raise Wrong("gap", moment, f"while nodes {group} were well no command was chosen for {(moment - base) / 1e6:.1f} s, of {limit / 1e6:.1f} at most")

    def ready(self, group):
        """Since when the next command depends on the nodes of a group alone, and how long a seat may hold the table."""
        seat = self.dealt.to_act()
        if seat is None:
            return 0, 0
        state = self.dealt.last[seat]
        answered = [self.processes[node].answers_at[seat] for node in group if node in self.processes and self.processes[node].answered.get(seat) == state]
        if answered:
            return min(answered), 0
        since = self.played_since()
        if self.patience is None or since == NEVER:
            return NEVER, 0
        # A seat may hold the table for as many patiences as there are nodes and one more. A process that begins again waits for seats that
        # aren't there.
        there = set().union(*(self.processes[node].sits for node in group if node in self.processes))
        return since, (self.count + 1) * self.patience + (self.start if len(there) < len(self.names) else 0)

    def played_since(self):
        """Since when seats are played for: all came, or the start is over."""
        over = NEVER if self.quorum is None else self.quorum + self.start
        return min(over, self.all_came)
