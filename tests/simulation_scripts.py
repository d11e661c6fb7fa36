"""Scripts of tests/simulation, drawn from a seed. Lines: the match, and then MOMENT WORD NUMBERS, in microseconds."""
import itertools
import random

from simulation_covered import REFUSES_OLDER

GAMES = {
    2: ["examples/l2.game", "examples/n2.game", "examples/holdem.limit.2p.reverse_blinds.game", "examples/holdem.nolimit.2p.reverse_blinds.game"],
    3: ["examples/l3.game", "examples/n3.game", "examples/holdem.limit.3p.game", "examples/holdem.nolimit.3p.game"],
    4: ["examples/n4.game"],
}
NAMES = ["alice", "bob", "carol", "dave"]
# How often the status of a node is asked for in a script at most, and until when.
ASKS, ASKED = 4, 60
SECOND = 1_000_000
# How many strangers all floods of a script have at most; how many of a hundred scripts with faults lose a node's store, and in how many of
# the others an older copy of one is put back.
FLOODED, LOST, AGED = 1_200, 5, 5
# The most by which each sync of a node with a slow disk takes longer; a hundredth of that is the least. How many syncs of a node a hand
# has at most, mostly.
SLOWEST, COMMANDS = 5 * SECOND, 40
# How often all processes are started again in a match that goes on for so long with a slow disk.
AGAIN = 3
# How a bot is: it asks for all lines, or for the newest.
ALL, NEWEST = 4, 8
# What a stranger sends in place of so many bytes: that he asks for all lines, or for what is behind a line that there isn't, a line that
# is too long, an empty record, a token that no seat has. He reads nothing.
LINES, OTHER, LONG, RECORD, TOKEN = 9_995, 9_996, 9_997, 9_998, 9_999


class Drawing:
    def __init__(self, seed):
        self.random = random.Random(seed)
        self.lines = []

    def at(self, moment, word, *numbers):
        self.lines.append((int(moment), " ".join(map(str, (word, *map(int, numbers))))))

    def log_range(self, low, high):
        """A number between two whose logarithm is drawn evenly."""
        return low * (high / low) ** self.random.random()


def drawn(seed, is_calm=False, is_slow=False):
    """The lines of the script of a seed; perhaps with one node whose disk is slow, and all else as it is drawn."""
    it = Drawing(seed)
    pick = it.random
    count = pick.choice([3, 3, 3, 3, 5, 5, 7])
    players = pick.choice([2, 2, 2, 3, 3, 4])
    hands = int(it.log_range(5, 61))
    patience = pick.choice(["-", int(it.log_range(100_000, 5 * SECOND))])
    key = pick.choice(["-", "-", "-", "key"])
    game = pick.choice(GAMES[players])
    all_acts = 2 if "nolimit" in game or "/n" in game else 4
    tokens = pick.choice(["-", "-", "tokens"])
    start = pick.choice(["-", int(it.log_range(SECOND, 60 * SECOND))])
    away = pick.choice(["-", "-", "waits"])
    differs = pick.choice(["-", "-", "-", pick.randrange(count)])
    first = f"match {count} {hands} {pick.randrange(1 << 40)} {patience} {key} {game} {'|'.join(NAMES[:players])} {tokens} {start} {away} {differs}"
    for node in range(count):
        it.at(it.log_range(1, 300_000) if pick.random() < 0.5 else node, "start", node)
        it.at(0, "sync", node, it.log_range(10, 2_000))
    for seat in range(players):
        mix = pick.choice([0, 0, all_acts, all_acts, all_acts, 3])
        comes = pick.randrange(200_000) if pick.random() < 0.95 else it.log_range(SECOND, 20 * SECOND)
        if start == "-" and pick.random() < 0.01:
            comes = it.log_range(61 * SECOND, 150 * SECOND)
        it.at(comes, "bot", seat, pick.randrange(count), it.log_range(100, 30_000), mix, pick.randrange(1 << 30), pick.choice([0, 0, ALL, ALL, NEWEST]))
    if pick.random() < 0.15:
        # A second bot at a seat, at another node.
        seat = pick.randrange(players)
        it.at(pick.randrange(SECOND), "bot", seat, pick.randrange(count), it.log_range(100, 30_000), all_acts, pick.randrange(1 << 30), 1)
    storm = 0 if is_calm else pick.choice([0, 1, 3, 10, 30])
    calm = 0
    if storm:
        calm = trouble(it, (count, players, storm), lose(it, seed, count) or put_back(it, seed, count), patience != "-", tokens == "tokens")
    last = max(moment for moment, words in it.lines if words.startswith("bot "))
    ask(it, seed, count)
    more = slow_down(it, seed, count) if is_slow else 0
    for time in range(1, AGAIN + 1) if is_slow else ():
        # One that was about to begin while the others ended needs them once more.
        for node in range(count):
            it.at(max(calm, last) + 100 * time * SECOND, "start", node)
    it.at(max(calm, last) + 300 * SECOND + hands * (SECOND + COMMANDS * more), "end")
    it.lines.sort(key=lambda line: line[0])
    return [first, *(f"{moment} {words}" for moment, words in it.lines)]


def slow_down(it, seed, count):
    """Each sync of one node takes so much longer than is drawn, from the start on or from the tenth second on; by how much."""
    pick = random.Random(f"slow disk of {seed}")
    node, since = pick.randrange(count), pick.choice([0, 10 * SECOND])
    more = int(SLOWEST / 100 * 100 ** pick.random())
    it.lines.sort(key=lambda line: line[0])
    takes, lines = 0, []
    for moment, words in it.lines:
        word, *numbers = words.split(" ")
        if word == "sync" and int(numbers[0]) == node:
            takes = takes if moment > since else int(numbers[1])
            words = words if moment < since else f"sync {node} {int(numbers[1]) + more}"
        lines.append((moment, words))
    it.lines = lines
    if since:
        it.at(since, "sync", node, takes + more)
    return more


def ask(it, seed, count):
    """Somebody asks nodes for their status, whatever else is drawn."""
    pick = random.Random(f"status of {seed}")
    for _ in range(pick.randrange(ASKS + 1)):
        it.at(SECOND / 100 * (100 * ASKED) ** pick.random(), "stranger", pick.randrange(count), 255, 0, pick.randrange(256))


def lose(it, seed, count):
    """The store of a node is lost in some scripts, once all nodes have met: a new one is in its place, nothing, or another node's, or the
    node is of another match. The other faults begin later; it answers when."""
    pick = random.Random(f"store of {seed}")
    if pick.randrange(100) >= LOST:
        return 0
    node, moment = pick.randrange(count), int(pick.uniform(2, 4) * SECOND)
    it.at(moment, pick.choice(["kill", "halt"]), node, 0)
    it.at(moment + 1, "store", node, pick.choice([0, 0, 0, 1, 1, 2, 4]))
    it.at(moment + 2 + SECOND * pick.random(), "start", node)
    return moment + 2 * SECOND


def put_back(it, seed, count, is_drawn=REFUSES_OLDER):
    """In some scripts a node gets an older copy of its store, where that is refused: of the store as `init` made it, or of what it was
    before another node hung for so long that a new ballot began. The other faults begin later; it answers when."""
    pick = random.Random(f"older copy of {seed}")
    if pick.randrange(100) >= AGED or not is_drawn:
        return 0
    node, moment = pick.randrange(count), int(pick.uniform(2, 4) * SECOND)
    if pick.random() < 0.5:
        it.at(0, "store", node, 5)
    else:
        it.at(moment, pick.choice(["kill", "halt"]), node, 0)
        it.at(moment + 1, "store", node, 5)
        it.at(moment + 2, "start", node)
        it.at(moment + 1.5 * SECOND, "pause", pick.choice([other for other in range(count) if other != node]), 2.5 * SECOND)
        moment += 6 * SECOND
    it.at(moment, pick.choice(["kill", "halt"]), node, 0)
    it.at(moment + 1, "store", node, 6)
    it.at(moment + 2 + SECOND * pick.random(), "start", node)
    return moment + 6 * SECOND


def trouble(it, size, begun, may_be_gone=False, has_tokens=False):
    """So many faults, one after another from a moment on, and then calm, from the moment that is answered on."""
    (count, players, storm), pick = size, it.random
    kinds = pick.sample(["kill", "halt", "cut", "way", "close", "sync", "pause", "fail", "leave", "delay", "stranger", "silent", "all", "torn", "busy", "deaf", "mute", "wrong", "gone", "half", "hush", "slow", "lonely", "starved", "flood", "damaged"], pick.randrange(1, 6))
    if pick.random() < 0.02:
        kinds.append("far")
    gap = it.log_range(3_000, 2 * SECOND)
    now, down, until, strangers = begun + 1 + pick.random() * gap, {}, 0, FLOODED
    for _ in range(storm):
        now += gap * 2 * pick.random()
        for node in [node for node, back in down.items() if back < now]:
            del down[node]
        kind, node = pick.choice(kinds), pick.randrange(count)
        other = pick.choice([n for n in range(count) if n != node])
        lasts = it.log_range(2_000, 5 * SECOND)
        if kind in ("kill", "halt"):
            if node not in down and len(down) < count:
                it.at(now, kind, node, pick.randrange(3**6))
                it.at(now + lasts, "start", node)
                down[node] = now + lasts
        elif kind == "all":
            if not down:
                for one in range(count):
                    it.at(now + pick.random() * 5_000, "kill", one, pick.randrange(3**6))
                    it.at(now + lasts + pick.random() * 300_000, "start", one)
                    down[one] = now + lasts + 300_000
        elif kind == "cut":
            for one in range(count):
                if one != node:
                    for a, b in ((one, node), (node, one)):
                        it.at(now, "cut", a, b)
                        it.at(now + lasts, "heal", a, b)
        elif kind == "way":
            it.at(now, "cut", node, other)
            it.at(now + lasts, "heal", node, other)
        elif kind == "close":
            it.at(now, "close", node, other)
        elif kind == "half":
            # What one sends to the other ends, on all connections that they have; back they go on.
            it.at(now, "half", node, other)
        elif kind == "hush":
            it.at(now, "hush", pick.randrange(players))
        elif kind == "sync":
            it.at(now, "sync", node, it.log_range(10, pick.choice([3, 3, 3, 10]) * SECOND))
            it.at(now + lasts, "sync", node, it.log_range(10, 900))
        elif kind == "pause":
            it.at(now, "pause", node, lasts)
        elif kind == "fail":
            it.at(now, "fail", node, pick.randrange(20))
        elif kind == "leave":
            it.at(now, "leave", pick.randrange(players), lasts / 3)
        elif kind == "delay":
            slow = it.log_range(100, 3 * SECOND)
            it.at(now, "delay", node, other, slow)
            it.at(now, "delay", other, node, slow if pick.random() < 0.7 else 100)
        elif kind == "stranger":
            it.at(now, "stranger", node, pick.choice([254, 254, 255, *range(players)]), pick.choice([0, 10, 60, 500, LINES, OTHER, LONG, RECORD]), pick.randrange(256))
        elif kind == "slow":
            # All ways are slow for a while.
            for one, two in itertools.permutations(range(count), 2):
                it.at(now, "delay", one, two, it.log_range(100_000, 600_000))
                it.at(now + lasts, "delay", one, two, it.log_range(50, 20_000))
        elif kind == "lonely":
            # So many die that just more than half are left, and those don't hear the node, which hears them: its ballots come to nothing.
            if not down:
                dead = pick.sample([one for one in range(count) if one != node], count // 2)
                for one in range(count):
                    if one in dead:
                        it.at(now, "kill", one, pick.randrange(3**6))
                        it.at(now + lasts, "start", one)
                        down[one] = now + lasts
                    elif one != node:
                        it.at(now, "cut", node, one)
                        it.at(now + lasts, "heal", node, one)
        elif kind == "far":
            # A node is away for more than a minute, and the match stands meanwhile.
            if not until and node not in down:
                it.at(now, pick.choice(["halt", "kill"]), node, 0)
                for seat in range(players):
                    it.at(now, "think", seat, 70 * SECOND)
                    it.at(now + 10 * SECOND, "think", seat, 1_000)
                until = down[node] = now + 100 * SECOND
        elif kind in ("deaf", "mute"):
            # Nothing comes to a node, or nothing from it; perhaps while no bot acts.
            for one in range(count):
                if one != node:
                    a, b = (one, node) if kind == "deaf" else (node, one)
                    it.at(now, "cut", a, b)
                    it.at(now + lasts, "heal", a, b)
            if pick.random() < 0.5:
                for seat in range(players):
                    it.at(now - 1, "think", seat, lasts)
                    it.at(now + lasts, "think", seat, 1_000)
        elif kind == "wrong":
            # Somebody shows a token that isn't the seat's, or says nothing that a seat takes.
            it.at(now, "stranger", node, pick.choice([*range(players), 255]), TOKEN, pick.randrange(1 << 20))
        elif kind == "gone":
            it.at(now, "leave", pick.randrange(players), lasts * (10 if may_be_gone else 1))
        elif kind == "torn":
            # Slow syncs, and kills in them.
            if node not in down:
                slow = it.log_range(3_000, 300_000)
                it.at(now, "sync", node, slow)
                died = now + it.log_range(slow, 20 * slow)
                it.at(died, "kill", node, pick.randrange(3**6))
                it.at(died + 1, "sync", node, it.log_range(10, 900))
                it.at(died + lasts / 4, "start", node)
                down[node] = died + lasts / 4
        elif kind == "busy":
            # All syncs take a while: most kills come inside of one.
            for one in range(count):
                it.at(now, "sync", one, it.log_range(1_000, 20_000))
        elif kind == "starved":
            # One process, or each, gets a twentieth of a processor.
            period = max(it.log_range(10_000, 200_000), lasts / 50)
            for one in pick.choice([[node], range(count)]):
                begun = now + pick.random() * period
                while begun < now + lasts:
                    it.at(begun, "pause", one, period * 19 / 20)
                    begun += period
        elif kind == "flood":
            # Strangers come to a port, one after another: to one of a seat where it has a token, else he who comes first sits there.
            rate = int(it.log_range(100, 4_000))
            port = pick.choice([*range(players), *range(players), 254, 255] if has_tokens else [254, 254, 255])
            lasts = min(lasts, strangers * SECOND // rate)
            it.at(now, "flood", node, port, rate, pick.randrange(4), lasts)
            strangers -= rate * lasts // SECOND
        elif kind == "damaged":
            # A bit of a store is another one for a while, by which it is no store: the length or the kind of its first record is wrong.
            if node not in down:
                place = pick.choice([0, 2])
                it.at(now, "kill", node, 0)
                it.at(now + 1, "store", node, 3, place)
                it.at(now + 2, "start", node)
                it.at(now + lasts, "store", node, 3, place)
                down[node] = now + lasts
        elif kind == "silent":
            lasts *= pick.choice([1, 1, 3])
            seat = pick.randrange(players)
            it.at(now, "think", seat, lasts)
            it.at(now + lasts, "think", seat, 1_000)
    # A process may begin by two syncs that began slowly; where the others have ended meanwhile, all have to be started again.
    slowest = max((int(words.split(" ")[2]) for _, words in it.lines if words.startswith("sync ")), default=0)
    calm = max(now + 6 * SECOND, now + 3 * slowest, until)
    for node in range(count):
        it.at(calm, "sync", node, it.log_range(10, 900))
        it.at(calm, "fail", node, (1 << 64) - 1)
        it.at(calm, "start", node)
        for other in range(count):
            if node != other:
                it.at(calm, "delay", node, other, it.log_range(50, 20_000))
                it.at(calm, "heal", node, other)
    for seat in range(players):
        it.at(calm, "think", seat, 1_000)
    return int(calm)
