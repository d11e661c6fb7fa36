"""When a process of tests/processes_sim plays for a seat, by what the program `clockwork_lines` keeps and says of it.

What is kept is a list of words, as the program answered them. Times are in milliseconds here, and in whole microseconds for
the program.
"""
PLACES, SEATS = 7, 2
GONE, EMPTY, SITS, TAKEN = range(4)
PASSED, READ_ALL, BEAT, STOOD = range(4)


def micros(moment):
    return int(moment * 1000)


class Seating:
    """What a process keeps of all seats, of the opening, and of its last sleep."""

    def __init__(self, process):
        self.process, self.world = process, process.world
        self.kept = {seat: ["0", "-"] * PLACES + ["0", "-", "0", "0", "-"] for seat in range(SEATS)}
        # What was seen of each at the last look of which the program was told.
        self.seen = {seat: None for seat in range(SEATS)}
        self.since, self.turns = {seat: 0 for seat in range(SEATS)}, {seat: "-" for seat in range(SEATS)}
        self.opening, self.waking, self.is_awake, self.taken = ["-", "-"], ["0"] * 10, False, set()

    def ask(self, *words):
        """What the program answers, as words, without the name that comes first."""
        return [word.decode() for word in self.world.clock.answer(words)[1:]]

    # A sleep, and what is heard behind it.

    def happen(self, kind, what=0):
        if self.world.patience is None:
            return
        *self.waking, awake = self.ask("waking", *self.waking, kind, what, self.world.count)
        self.is_awake = awake == "1"

    def pass_by(self, length):
        self.happen(PASSED, micros(length))

    def read_all(self):
        if not self.is_awake:
            self.happen(READ_ALL)

    def hear(self, number):
        if not self.is_awake:
            self.happen(BEAT, number)

    def stand(self, stood):
        """The seat to act is waited for since then."""
        if int(self.waking[8]) != stood:
            self.happen(STOOD, stood)

    # A look at all seats.

    def is_present(self, peer):
        process = self.process
        return peer.wire is not None and peer.beat is not None and self.world.now - peer.heard < process.silence

    def at(self, seat, node):
        """How a seat is seen at a node."""
        process = self.process
        if node == process.number:
            return (TAKEN if seat in self.taken else SITS) if seat in process.seats() else EMPTY
        peer = process.peers.get(node)
        if peer is None:
            return EMPTY
        return GONE if not self.is_present(peer) else SITS if seat in peer.seats else EMPTY

    def look(self, quorate):
        """Looks at each seat; where nothing is seen of it that wasn't seen before, and no time has passed that matters, the program
        isn't asked, since it would answer the same."""
        process, world = self.process, self.world
        now = micros(world.now)
        for seat in range(SEATS):
            at = [self.at(seat, node) for node in range(PLACES)]
            seen = [*at, *map(int, process.node.acts[seat]), int(quorate and self.is_awake)]
            if seen == self.seen[seat] and TAKEN not in at and not self.is_pending(seat, now):
                continue
            self.seen[seat] = seen
            rest = [int(world.gives_up), micros(world.patience), micros(process.moved), now]
            *self.kept[seat], since, self.turns[seat] = self.ask("seat", *self.kept[seat], *seen, *rest)
            self.since[seat] = int(since)
        self.taken.clear()
        if not self.is_open():
            all_came = all(kept[14] == "1" for kept in self.kept.values())
            self.opening = self.ask("opening", *self.opening, int(quorate), int(all_came), micros(world.start), now)

    def is_pending(self, seat, now):
        """Whether it may be given up by the time that has passed alone."""
        nowhere, given_up = self.kept[seat][15], self.kept[seat][18]
        return nowhere != "-" and given_up == "-" and now - int(nowhere) >= micros(self.world.patience)

    def is_open(self):
        return self.opening[1] != "-"

    def is_given_up(self, seat):
        return self.kept[seat][18] != "-"

    def order(self, seat):
        """When to order that a seat is played for, None for now."""
        process, world = self.process, self.world
        here = self.at(seat, process.number) != EMPTY
        present = [peer.number for peer in process.peers.values() if self.is_present(peer)]
        others = [number for number in present if self.at(seat, number) == SITS]
        rank = sum(number < process.number for number in (others if here else present))
        stood = max(micros(process.moved), micros(process.quorate_since), int(self.opening[1]) if self.is_open() else 0)
        self.stand(stood)
        ordered = "-" if process.ordered is None or process.ordered < process.moved else micros(process.ordered)
        words = [micros(world.now), micros(world.patience), int(process.is_over()), int(process.node.table.runs()), int(process.unquorate is None)]
        words += [int(process.replays), int(here), int(bool(others)), rank, max(stood, self.since[seat]), ordered]
        # (nobody is ever turned away here)
        words += [int(self.is_awake), int(self.is_open()), self.turns[seat], stood, self.waking[9], world.count, 0]
        return world.clock.ask_away(["order", *words])
