#!/usr/bin/env python3
"""Times `holdem_table serve` and prints figures beside their limits: bench/serve.py [--least] [RUNS] [FOLDER] [PROGRAM].

Build the program first (./check, or `rt run` in crates/holdem_table), and let nothing else run: all takes five to ten
minutes. Two players in C call through matches of limit hold'em over TCP. With the stores in FOLDER (the working folder by
default) and in memory, with three nodes, five and seven, such a match and a C program that makes the same disk calls in the
same order (the floor) are run in turn, RUNS times each (10 by default): printed are medians and ranges of commands a
second, and their ratio. Where a sync in FOLDER takes less than 0.3 ms the same is done once more with each sync of both
programs made as long as that, by a library that is loaded before them. Then, how long the first act at a new node waits
for its line when a node was lost, the worst of a hundred losses; and with stores in memory what the process takes at
1,000 and at 10,000 hands. The last lines are a table of the aims, of which none is for seven nodes: each is met or not,
and the status is 1 where one isn't. Where /dev/shm isn't there, what goes by memory is left out.

With --least all is done once, in matches of a few hands: it takes some seconds and shows that the bench works. It measures nothing, so
the status is 0 whatever the aims.
"""
import os
import statistics
import subprocess
import sys
import tempfile
import time
from pathlib import Path
from typing import NamedTuple, Tuple

sys.dont_write_bytecode = True
TOP = Path(__file__).resolve().parent.parent
sys.path.insert(0, str(TOP / "tests"))

from check import RUNNER
from serving import FAST, Match

# What a sync takes at least in the runs by which `serve` is compared with the floor, in seconds.
SYNC = 300e-6
# How many commands a hand has, where nobody raises or folds: a deal and eight calls.
OF_A_HAND = 9
# The limits of the aims; of so many microseconds by the count of nodes, for which alone there are aims beside the floor.
OF_THE_FLOOR = 0.85
BEYOND = {3: 250, 5: 500}
FIRST_ACT, ANY_LINE = 10.0, 40.0
A_COMMAND, SLOWER = 2048, 1.1


class Amounts(NamedTuple):
    """How much is run: of the runs beside the floor how many, with how many nodes, about how long each takes, in seconds, and the fewest and
    the most hands of it; how many losses of a node; how many hands by which it is seen what the process takes, and how many times."""

    runs: int = 10
    counts: Tuple[int, ...] = (3, 5, 7)
    run_takes: float = 2.0
    fewest: int = 80
    most: int = 1000
    losses: int = 100
    growth: Tuple[int, int] = (1000, 10000)
    growths: int = 3

    def hands(self, nodes, sync):
        """How many hands take about as long as a run is to, where each command makes two syncs at each node and some work."""
        return self.at_least(self.run_takes / (OF_A_HAND * (2 * nodes * sync + 50e-6 * nodes)))

    def at_least(self, hands):
        """So many hands, but not too few nor too many."""
        return max(self.fewest, min(self.most, int(hands)))


LEAST = Amounts(runs=1, counts=(3,), run_takes=0.0, fewest=3, losses=2, growth=(5, 10), growths=1)


# What who calls reads of a line, where nobody folds or raises.
CALLING = r"""
static long long now(void) {
    struct timespec time;
    clock_gettime(CLOCK_MONOTONIC, &time);
    return time.tv_sec * 1000000000LL + time.tv_nsec;
}
/* The number of the command after which a line shows the table, counted from 1. */
static long long command_of(const char *line) {
    char *at;
    long long hand = strtoll(line + 13, &at, 10), calls = 0;
    for (at++; *at != ':'; at++) calls += *at == 'c';
    return OF_A_HAND * hand + 1 + calls;
}
/* Whether the player who got the line is to act, where nobody folds or raises: two calls a round, the first of the first
   round by position 1, of the others by position 0. */
static int is_to_act(const char *line) {
    int position = line[11] - '0', round = 0, calls = 0;
    const char *at = strchr(line + 13, ':') + 1;
    for (; *at != ':'; at++) {
        round += *at == '/';
        calls = *at == '/' ? 0 : calls + 1;
    }
    return calls < 2 && position == ((round == 0) + calls) % 2;
}
"""

PLAYERS = r"""
/* Two players of limit hold'em who call: words are the count of nodes, and for each seat its ports, by node. Printed are
   the number of the last command whose line seat 0 got, the nanoseconds from its first line to its last, the longest time
   from an act to the lines that came of it, at either seat (of a deal, from the act before it), how many acts were the
   first at a new node and had their line there, and the longest time of one of these. */
#define _GNU_SOURCE
#include <arpa/inet.h>
#include <netinet/tcp.h>
#include <stdatomic.h>
#include <stdio.h>
#include <stdlib.h>
#include <string.h>
#include <sys/mman.h>
#include <sys/socket.h>
#include <sys/wait.h>
#include <time.h>
#include <unistd.h>
enum { SEATS = 2, COMMANDS = 1 << 17, OF_A_HAND = 9 };
static struct shared {
    _Atomic long long acted[COMMANDS];
    struct found { long long last_command, first, last, longest, moves, longest_move; } found[SEATS];
} *shared;
"""
PLAYERS += CALLING + r"""
static int dial(int port) {
    struct sockaddr_in to = {.sin_family = AF_INET, .sin_port = htons(port), .sin_addr.s_addr = htonl(INADDR_LOOPBACK)};
    int yes = 1, link = socket(AF_INET, SOCK_STREAM, 0);
    if (connect(link, (struct sockaddr *)&to, sizeof to)) {
        close(link);
        return -1;
    }
    setsockopt(link, IPPROTO_TCP, TCP_NODELAY, &yes, sizeof yes);
    return link;
}
/* Takes note of a line that came, where it is of a command that the seat hasn't had a line of. */
static void take_note(struct found *found, long long command, long long time) {
    if (command <= found->last_command || command >= COMMANDS) return;
    found->last_command = command;
    found->last = time;
    if (!found->first) found->first = time;
    long long cause = shared->acted[command] ? shared->acted[command] : shared->acted[command - 1];
    if (cause && time - cause > found->longest) found->longest = time - cause;
}
static void sit(int link, int has_moved, struct found *found) {
    char text[8192], answer[4096];
    int size = 0, got;
    /* The command that this seat's first act here comes to, and when it was sent; -1 once its line has come. */
    long long awaited = 0, acted = 0;
    if (write(link, "VERSION:2.0.0\r\n", 15) != 15) return;
    while ((got = read(link, text + size, sizeof text - 1 - size)) > 0) {
        long long time = now();
        size += got;
        text[size] = 0;
        char *line = text, *end;
        while ((end = strstr(line, "\r\n"))) {
            *end = 0;
            long long command = command_of(line);
            take_note(found, command, time);
            if (has_moved && awaited > 0 && command >= awaited) {
                found->moves++;
                if (time - acted > found->longest_move) found->longest_move = time - acted;
                awaited = -1;
            }
            if (is_to_act(line)) {
                int length = snprintf(answer, sizeof answer, "%s:c\r\n", line);
                long long begun = now();
                if (!awaited) awaited = command + 1, acted = begun;
                if (command + 1 < COMMANDS) shared->acted[command + 1] = begun;
                if (write(link, answer, length) != length) return;
            }
            line = end + 2;
        }
        size -= line - text;
        memmove(text, line, size);
    }
}
/* From node to node, until each was dialled in vain for a second. */
static void play(int nodes, char **ports, struct found *found) {
    int node = 0, has_moved = 0, link, tries = 0;
    long long refused = 0;
    while ((link = dial(atoi(ports[0]))) < 0 && tries++ < 10000) usleep(1000);
    while (!refused || now() - refused < 1000000000LL) {
        if (link < 0) {
            if (!refused) refused = now();
            usleep(1000);
        } else {
            refused = 0;
            sit(link, has_moved, found);
            close(link);
            has_moved = 1;
        }
        node = (node + 1) % nodes;
        link = dial(atoi(ports[node]));
    }
}
int main(int count, char **words) {
    int nodes = count > 1 ? atoi(words[1]) : 0;
    shared = mmap(0, sizeof *shared, PROT_READ | PROT_WRITE, MAP_SHARED | MAP_ANONYMOUS, -1, 0);
    if (shared == MAP_FAILED || count != 2 + SEATS * nodes) return 1;
    for (int seat = 0; seat < SEATS; seat++)
        if (fork() == 0) {
            play(nodes, words + 2 + seat * nodes, &shared->found[seat]);
            return 0;
        }
    for (int seat = 0; seat < SEATS; seat++) wait(0);
    struct found a = shared->found[0], b = shared->found[1];
    printf("%lld %lld %lld %lld %lld\n", a.last_command, a.last - a.first, a.longest > b.longest ? a.longest : b.longest,
        a.moves + b.moves, a.longest_move > b.longest_move ? a.longest_move : b.longest_move);
    return 0;
}
"""

# From the first deal's record on the players' lines are timed, so the calls before it aren't.
FLOOR = r"""
/* Makes the calls that wrote a match's journals again, record by record in the order of the nodes, and writes of a line
   to each node's log where a hand has ended: words are the count of nodes and the folder of the journals. It prints the
   nanoseconds from behind the first deal on, and how many of the calls in them were syncs. */
#include <fcntl.h>
#include <stdio.h>
#include <stdlib.h>
#include <time.h>
#include <unistd.h>
enum { NODES = 7, RECORDS = 1 << 18 };
static unsigned char *bytes[NODES];
static long starts[NODES][RECORDS], counts[NODES];
static long long now(void) {
    struct timespec time;
    clock_gettime(CLOCK_MONOTONIC, &time);
    return time.tv_sec * 1000000000LL + time.tv_nsec;
}
static int length(const unsigned char *record) { return record[0] << 8 | record[1]; }
/* Whether what follows a record's length is that a command was accepted which is a deal. */
static int is_deal(const unsigned char *record) { return record[2] == 4 && record[13] == 1; }
static int take(int node, const char *folder) {
    char name[4096];
    snprintf(name, sizeof name, "%s/node%d.journal", folder, node);
    FILE *file = fopen(name, "rb");
    if (!file || fseek(file, 0, SEEK_END)) return 1;
    long size = ftell(file), gate = 8;
    rewind(file);
    bytes[node] = malloc(size);
    if (fread(bytes[node], 1, size, file) != (size_t)size) return 1;
    while (bytes[node][gate] == 1 && counts[node] < RECORDS) {
        starts[node][counts[node]++] = gate + 1;
        gate += 3 + length(bytes[node] + gate + 1);
    }
    return fclose(file);
}
int main(int count, char **words) {
    static const char line[] = "STATE:1000:cc/cc/cc/cc:TdAs|8hTc/2c8c3h/9c/Kh:10|-10:alice|bob\n";
    unsigned char gate = 1;
    int nodes = count > 2 ? atoi(words[1]) : 0, stores[NODES], logs[NODES];
    for (int node = 0; node < nodes; node++) {
        char name[4096];
        if (take(node, words[2])) return 1;
        snprintf(name, sizeof name, "%s/floor%d.journal", words[2], node);
        stores[node] = open(name, O_RDWR | O_CREAT | O_TRUNC, 0666);
        snprintf(name, sizeof name, "%s/floor%d.log", words[2], node);
        logs[node] = open(name, O_WRONLY | O_CREAT | O_TRUNC, 0666);
        if (stores[node] < 0 || logs[node] < 0 || pwrite(stores[node], bytes[node], 9, 0) != 9 || fdatasync(stores[node])) return 1;
    }
    long long started = 0, syncs = 0, deals = 0;
    for (long at = 0; at < counts[0]; at++) {
        int deal = is_deal(bytes[0] + starts[0][at]);
        for (int node = 0; node < nodes && deal && deals; node++)
            if (write(logs[node], line, sizeof line - 1) < 0) return 1;
        deals += deal;
        for (int node = 0; node < nodes && at < counts[node]; node++) {
            long start = starts[node][at];
            int size = 2 + length(bytes[node] + start);
            unsigned char record[64];
            for (int place = 0; place < size; place++) record[place] = bytes[node][start + place];
            record[size] = 0;
            if (pwrite(stores[node], record, size + 1, start) != size + 1 || fdatasync(stores[node])) return 1;
            if (pwrite(stores[node], &gate, 1, start - 1) != 1 || fdatasync(stores[node])) return 1;
            syncs += started ? 2 : 0;
        }
        if (deal && !started) started = now();
    }
    printf("%lld %lld\n", now() - started, syncs);
    return 0;
}
"""

SLOW_SYNC = r"""
/* Loaded before a program, makes each of its fdatasync calls take at least as many nanoseconds as SYNC_TAKES says, the
   rest of them asleep, as where a disk is waited for; and counts the calls in the first eight bytes of the file that
   SYNC_COUNT names. */
#define _GNU_SOURCE
#include <errno.h>
#include <fcntl.h>
#include <stdlib.h>
#include <sys/mman.h>
#include <sys/prctl.h>
#include <sys/syscall.h>
#include <time.h>
#include <unistd.h>
static long long takes, none, *calls = &none;
__attribute__((constructor)) static void begin(void) {
    const char *takes_text = getenv("SYNC_TAKES"), *name = getenv("SYNC_COUNT");
    takes = takes_text ? atoll(takes_text) : 0;
    int file = name ? open(name, O_RDWR) : -1;
    void *found = file < 0 ? MAP_FAILED : mmap(0, sizeof none, PROT_READ | PROT_WRITE, MAP_SHARED, file, 0);
    if (found != MAP_FAILED) calls = found;
    if (file >= 0) close(file);
    prctl(PR_SET_TIMERSLACK, 1);
}
int fdatasync(int file) {
    struct timespec until;
    clock_gettime(CLOCK_MONOTONIC, &until);
    until.tv_nsec += takes;
    until.tv_sec += until.tv_nsec / 1000000000;
    until.tv_nsec %= 1000000000;
    int answer = syscall(SYS_fdatasync, file), why = errno;
    while (clock_nanosleep(CLOCK_MONOTONIC, TIMER_ABSTIME, &until, 0) == EINTR) {}
    ++*calls;
    errno = why;
    return answer;
}
"""


def built(name, source, folder, *more):
    """The path of what is built of a text in C."""
    path = Path(folder) / name
    path.with_suffix(".c").write_text(source)
    subprocess.run(["cc", "-O2", *more, "-o", path, path.with_suffix(".c")], check=True)
    return path


class Tools:
    """The C programs, and the library that makes syncs slow."""

    def __init__(self, folder):
        self.runner, self.players, self.floor = (
            built(name, source, folder) for name, source in (("runner", RUNNER), ("players", PLAYERS), ("floor", FLOOR))
        )
        self.slow_sync = built("slow_sync.so", SLOW_SYNC, folder, "-shared", "-fPIC")
        self.count = Path(folder) / "count"

    def slowed(self, sync):
        """The words before a program whose syncs take at least so long; none where they take what they take."""
        if sync is None:
            return []
        self.count.write_bytes(bytes(8))
        settings = [f"LD_PRELOAD={self.slow_sync}", f"SYNC_TAKES={sync * 1e9:.0f}", f"SYNC_COUNT={self.count}"]
        return ["/usr/bin/env", *settings]

    def slowed_calls(self):
        """How many syncs the last program that was to be slowed has made by the library."""
        return int.from_bytes(self.count.read_bytes(), sys.byteorder)


class Run:
    """A match from its beginning to its end, and what was measured. Times are in seconds, memory in bytes."""

    def __init__(self, tools, nodes, hands, place, outages=(), sync=None):
        self.match = Match("l2.game", hands, [f"{{seed = {seed}}}" for seed in range(nodes)], outages, place=place).init()
        self.match.starter = [tools.runner, *tools.slowed(sync)]
        self.match.start()
        ports = [str(port) for seat in (0, 1) for port in self.match.seat(seat)]
        ran = subprocess.run([tools.players, str(nodes), *ports], check=True, capture_output=True, text=True)
        self.match.process.wait()
        _, peak, status = map(int, self.match.notes()[-1].split())
        if status != 0:
            sys.exit(f"serve ended with {status}: {self.match.notes()[-4:-1]}")
        if sync is not None and tools.slowed_calls() == 0:
            sys.exit("the library that makes syncs slow isn't reached by the program")
        command, nanoseconds, longest, self.moves, longest_move = map(int, ran.stdout.split())
        if command != OF_A_HAND * hands:
            sys.exit(f"the players got lines of {command} commands, not of {OF_A_HAND * hands}")
        # The first line is that of the first deal.
        self.commands, self.seconds, self.peak = command - 1, nanoseconds / 1e9, peak * 1024
        self.longest, self.longest_move = longest / 1e6, longest_move / 1e6

    def floor(self, tools, sync=None):
        """How long the same calls take, and how long one sync of them."""
        words = [*tools.slowed(sync), tools.floor, str(self.match.nodes), self.match.folder / "stores"]
        nanoseconds, syncs = map(int, subprocess.run(words, check=True, capture_output=True, text=True).stdout.split())
        return nanoseconds / 1e9, nanoseconds / 1e9 / max(syncs, 1)

    def done(self):
        self.match.remove()
        return self


class Aims:
    """What was to be reached, and what was."""

    def __init__(self):
        self.rows = []

    def take(self, name, figure, limit, is_met):
        self.rows.append((name, figure, limit, "met" if is_met else "NOT MET"))

    def table(self):
        rows = [("aim", "figure", "limit", ""), *self.rows]
        widths = [max(len(row[column]) for row in rows) for column in range(4)]
        return "\n".join("  ".join(text.ljust(width) for text, width in zip(row, widths)).rstrip() for row in rows)


def spread(values, digits=0):
    return f"{statistics.median(values):,.{digits}f} ({min(values):,.{digits}f} to {max(values):,.{digits}f})"


def sync_of(place):
    """How long a write of some bytes and its sync take in a folder, the median of a hundred, in seconds."""
    taken = []
    with tempfile.NamedTemporaryFile(dir=place) as file:
        for _ in range(100):
            begun = time.monotonic()
            os.write(file.fileno(), b"x" * 30)
            os.fdatasync(file.fileno())
            taken.append(time.monotonic() - begun)
    return statistics.median(taken)


class Compared:
    """`serve` and the same disk calls alone, in turn."""

    def __init__(self, tools, nodes, place, amounts, sync=None):
        hands = amounts.hands(nodes, max(sync_of(place), sync or 0))
        ours, floors, syncs, beyond, longest = [], [], [], [], []
        for _ in range(amounts.runs):
            run = Run(tools, nodes, hands, place, sync=sync)
            seconds, each = run.floor(tools, sync)
            run.done()
            ours.append(run.commands / run.seconds)
            if run.seconds > 2 * amounts.run_takes:
                # The disk has become slower than it was: the runs that follow are shorter.
                hands = amounts.at_least(hands * amounts.run_takes / run.seconds)
            floors.append(run.commands / seconds)
            syncs.append(each)
            beyond.append((run.seconds - seconds) / run.commands * 1e6)
            longest.append(run.longest)
        self.sync, self.longest = statistics.median(syncs), max(longest)
        self.ratio = statistics.median(ours) / statistics.median(floors)
        self.beyond = statistics.median(beyond)
        slowed = "" if sync is None else f", each sync made to take {sync * 1e3:.1f} ms or more"
        print(f"{nodes} nodes, {run.commands:,} commands at last, stores in {place}{slowed}, {amounts.runs} runs each:")
        print(f"  serve {spread(ours)} commands a second, the floor {spread(floors)}: {self.ratio:.2f} of it")
        print(f"  a write and its sync take {self.sync * 1e3:.3f} ms; beyond the floor a command takes {spread(beyond)} microseconds")
        print(f"  the longest time from an act to a line that came of it: {spread(longest, 1)} ms", flush=True)


def compare_on_disk(tools, place, amounts, aims):
    """How near `serve` comes to the floor where a sync takes what it takes, and where it takes SYNC or more."""
    longest = []
    for nodes in amounts.counts:
        found = Compared(tools, nodes, place, amounts)
        longest.append(found.longest)
        name = f"commands a second over the floor's, {nodes} nodes"
        if found.sync < SYNC:
            slow = Compared(tools, nodes, place, amounts, SYNC)
            print(f"  (as the disk is, at {found.sync * 1e3:.3f} ms a sync: {found.ratio:.2f}; no aim holds there)")
            longest.append(slow.longest)
            name, found = name + f", syncs slowed to {slow.sync * 1e3:.2f} ms", slow
        else:
            name += f", syncs of {found.sync * 1e3:.2f} ms"
        if nodes in BEYOND:
            aims.take(name, f"{found.ratio:.3f}", f"{OF_THE_FLOOR} or more", found.ratio >= OF_THE_FLOOR)
    return max(longest)


def compare_in_memory(tools, amounts, aims):
    longest = []
    for nodes in amounts.counts:
        found = Compared(tools, nodes, FAST, amounts)
        longest.append(found.longest)
        name = f"microseconds a command beyond the floor, stores in memory, {nodes} nodes"
        if nodes in BEYOND:
            aims.take(name, f"{found.beyond:.0f}", f"{BEYOND[nodes]} at most", found.beyond <= BEYOND[nodes])
    return max(longest)


def lose_nodes(tools, place, losses, aims, sync=None):
    """Each node in turn is lost and comes back, and with it both seats go to the next one."""
    outages = [f"node = {turn % 3}\nat = {20 + 12 * turn}\nback = {26 + 12 * turn}" for turn in range(losses)]
    run = Run(tools, 3, (20 + 12 * losses) // OF_A_HAND + 3, place, outages, sync).done()
    where = f"stores in {place}" + ("" if sync is None else f", syncs of {sync * 1e3:.1f} ms or more")
    print(f"{losses} losses of a node, {where}: {run.moves} first acts at a new node,", end=" ")
    print(f"the longest time of one to its line {run.longest_move:.2f} ms", flush=True)
    is_met = run.longest_move < FIRST_ACT and run.moves >= losses
    aims.take(f"ms from a first act after a loss to its line, worst of {run.moves}, {where}", f"{run.longest_move:.2f}", f"below {FIRST_ACT:.0f}", is_met)


def grow(tools, amounts, aims):
    """What a process takes for ten times the hands, some times in turn."""
    slopes, ratios = [], []
    for _ in range(amounts.growths):
        few, many = (Run(tools, 3, hands, FAST).done() for hands in amounts.growth)
        for run in (few, many):
            each = run.seconds / run.commands * 1e6
            print(f"{run.commands:,} commands: {each:,.1f} microseconds each, peak {run.peak / 2**20:.1f} MiB, longest wait {run.longest:.2f} ms", flush=True)
        slopes.append((many.peak - few.peak) / (many.commands - few.commands))
        ratios.append((many.seconds / many.commands) / (few.seconds / few.commands))
    print(f"  {spread(slopes)} bytes a command; a command takes {spread(ratios, 2)} times as long")
    slope, ratio = statistics.median(slopes), statistics.median(ratios)
    fewer, more = (f"{hands:,}" for hands in amounts.growth)
    aims.take(f"bytes of the peak a command, {fewer} to {more} hands", f"{slope:,.0f}", f"{A_COMMAND:,} at most", slope <= A_COMMAND)
    aims.take(f"time a command at {more} hands over that at {fewer}", f"{ratio:.2f}", f"{SLOWER} at most", ratio <= SLOWER)


def wait_for_lines(longest, where, aims):
    """A line comes no later behind the last sync before it than behind the act that the sync was for."""
    name = f"ms from an act, and so from the last sync, to a line of it, worst of all, stores in {where}"
    aims.take(name, f"{longest:.1f}", f"below {ANY_LINE:.0f}", longest < ANY_LINE)


def measure(tools, place, amounts, aims):
    """All figures, those first that go by the disk."""
    longest = compare_on_disk(tools, place, amounts, aims)
    lose_nodes(tools, place, amounts.losses, aims)
    if sync_of(place) < SYNC:
        lose_nodes(tools, place, amounts.losses, aims, SYNC)
    if longest < ANY_LINE:
        wait_for_lines(longest, place, aims)
    else:
        print(f"from an act to a line of it {longest:.1f} ms went by, but syncs are among it: it tells nothing of the time behind them")
    if FAST is not None:
        longest = compare_in_memory(tools, amounts, aims)
        lose_nodes(tools, FAST, amounts.losses, aims)
        wait_for_lines(longest, FAST, aims)
        grow(tools, amounts, aims)


def main(words):
    if words[:1] in (["-h"], ["--help"]):
        print(__doc__.strip())
        return 0
    is_least = words[:1] == ["--least"]
    words = words[is_least:]
    if len(words) > 3 or not all(word.isdigit() and int(word) for word in words[:1]) or not all(map(os.path.isdir, words[1:2])):
        print(__doc__.strip(), file=sys.stderr)
        return 2
    amounts = (LEAST if is_least else Amounts())._replace(**{"runs": int(word) for word in words[:1]})
    place = Path(words[1] if len(words) > 1 else ".").resolve()
    if len(words) > 2:
        Match.program = Path(words[2]).resolve()
    aims, begun, load = Aims(), time.monotonic(), os.getloadavg()[0]
    print(f"{os.cpu_count()} processors, load {load:.1f} at the beginning" + (": NOT QUIET" if load > 0.5 else ""), flush=True)
    try:
        with tempfile.TemporaryDirectory() as folder:
            measure(Tools(folder), place, amounts, aims)
    finally:
        for match in Match.made:
            if match.folder.exists():
                match.remove()
    print(f"\nafter {(time.monotonic() - begun) / 60:.1f} minutes, {amounts.runs} runs each:\n\n{aims.table()}")
    return 0 if is_least or all(row[-1] == "met" for row in aims.rows) else 1


if __name__ == "__main__":
    sys.exit(main(sys.argv[1:]))
