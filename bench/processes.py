#!/usr/bin/env python3
"""Times nodes in processes of their own, and prints figures beside a floor: bench/processes.py [--least] [RUNS] [FOLDER] [PROGRAM].

Build the program first (./check, or `rt run` in crates/holdem_table), and let nothing else run: all takes a few minutes.
Two players in C call through matches of limit hold'em over TCP, each node of which is a `holdem_table node` of its own, with
its store in FOLDER (the working folder by default) and then in memory. Beside each match, in turn, runs a program in C that
makes the same syncs and exchanges alone (the floor): a leader who writes and syncs twice, tells its followers over TCP, each
of whom does the same and answers, and who tells a player of it once a quorum has answered, and waits for his act; and the
same match by nodes with a key. Printed are medians and ranges of RUNS runs each (10 by default) of commands a second, their
ratio, and how much longer a command takes with codes and seals; then how long a line waited behind the signal 9 to a
process that came back: of those that were killed while all others had caught up, and of those that were killed while another
was still being told what it had missed, which are two losses at once; then how long a process that was begun again on its
store took until its log was whole; and what a process takes of memory.

With --least all is done once, in matches of a few hands: it takes some seconds, shows that the bench works, and measures nothing.
"""
import os
import random
import shutil
import signal
import statistics
import subprocess
import sys
import tempfile
import time
from pathlib import Path
from typing import NamedTuple, Tuple

sys.dont_write_bytecode = True
TOP = Path(__file__).resolve().parent.parent
sys.path.insert(0, str(TOP / "tests"))

from serve import OF_A_HAND, PLAYERS, built, spread, sync_of
from serving import FAST, free_ports, waited

# Of the runs with losses: how long after the one before a process is killed, and how long each is away, in seconds.
BETWEEN, AWAY = 0.25, 0.1
# By how many bytes of its log a process may be behind the others and count as one that lacks nothing: a few hands.
LEVEL = 1000


class Amounts(NamedTuple):
    """How much is run: of the runs beside the floor how many, with how many nodes, about how long each takes, in seconds, and the fewest and
    the most hands of it; of those with losses how many processes are killed while no other lacks anything, in how many matches at most, of
    how many hands (in memory of five times as many: a process that comes back is told all of it, in some tenths of a second); and how many
    commands a process has missed that is begun again."""

    runs: int = 10
    counts: Tuple[int, ...] = (3, 5)
    run_takes: float = 2.0
    fewest: int = 60
    most: int = 1000
    losses: int = 200
    matches: int = 60
    of_losses: int = 2000
    missed: int = 10_000


LEAST = Amounts(runs=1, counts=(3,), run_takes=0.0, fewest=3, losses=1, matches=1, of_losses=300, missed=90)

FLOOR = r"""
/* The least that a match with each node in a process of its own does for a command: words are the count of nodes, a folder
   and a count of commands. Printed are the nanoseconds that they took. */
#define _GNU_SOURCE
#include <arpa/inet.h>
#include <fcntl.h>
#include <netinet/tcp.h>
#include <poll.h>
#include <stdio.h>
#include <stdlib.h>
#include <string.h>
#include <sys/socket.h>
#include <sys/wait.h>
#include <time.h>
#include <unistd.h>
enum { NODES = 7, FRAME = 60, RECORD = 40, LINE = 80 };
static long long now(void) {
    struct timespec time;
    clock_gettime(CLOCK_MONOTONIC, &time);
    return time.tv_sec * 1000000000LL + time.tv_nsec;
}
/* A connection over loopback, both of its ends. */
static void join(int ends[2]) {
    struct sockaddr_in at = {.sin_family = AF_INET, .sin_addr.s_addr = htonl(INADDR_LOOPBACK)};
    socklen_t size = sizeof at;
    int yes = 1, port = socket(AF_INET, SOCK_STREAM, 0);
    if (bind(port, (struct sockaddr *)&at, sizeof at) || listen(port, 1) || getsockname(port, (struct sockaddr *)&at, &size)) exit(1);
    ends[0] = socket(AF_INET, SOCK_STREAM, 0);
    if (connect(ends[0], (struct sockaddr *)&at, sizeof at) || (ends[1] = accept(port, 0, 0)) < 0) exit(1);
    for (int end = 0; end < 2; end++) setsockopt(ends[end], IPPROTO_TCP, TCP_NODELAY, &yes, sizeof yes);
    close(port);
}
static void take(int link, char *bytes, int count) {
    for (int had = 0, got; had < count; had += got)
        if ((got = read(link, bytes + had, count - had)) <= 0) exit(0);
}
static void tell(int link, const char *bytes, int count) {
    if (write(link, bytes, count) != count) exit(1);
}
/* A record, and then the byte in front of it by which it counts, each on the disk. */
static void store(int file, long at) {
    static const char record[RECORD], gate = 1;
    if (pwrite(file, record, RECORD, at * RECORD + 1) != RECORD || fdatasync(file)) exit(1);
    if (pwrite(file, &gate, 1, at * RECORD) != 1 || fdatasync(file)) exit(1);
}
static int opened(const char *folder, int node) {
    char name[4096];
    snprintf(name, sizeof name, "%s/floor%d", folder, node);
    int file = open(name, O_RDWR | O_CREAT | O_TRUNC, 0666);
    if (file < 0) exit(1);
    return file;
}
/* How many of these links have something. */
static int answers(struct pollfd *links, int count) {
    int had = 0;
    char frame[FRAME];
    if (poll(links, count, -1) < 0) exit(1);
    for (int at = 0; at < count; at++)
        if (links[at].revents & POLLIN) take(links[at].fd, frame, FRAME), had++;
    return had;
}
int main(int count, char **words) {
    int nodes = count > 3 ? atoi(words[1]) : 0, player[2];
    long commands = count > 3 ? atol(words[3]) : 0;
    struct pollfd links[NODES] = {0};
    char frame[FRAME] = {0}, line[LINE] = {0};
    join(player);
    if (fork() == 0) {
        close(player[0]);
        for (;;) take(player[1], line, LINE), tell(player[1], line, LINE);
    }
    for (int node = 1; node < nodes; node++) {
        int ends[2];
        join(ends);
        if (fork() == 0) {
            close(ends[0]), close(player[0]);
            int file = opened(words[2], node);
            for (long at = 0;; at++) take(ends[1], frame, FRAME), store(file, at), tell(ends[1], frame, FRAME);
        }
        close(ends[1]);
        links[node - 1] = (struct pollfd){.fd = ends[0], .events = POLLIN};
    }
    int file = opened(words[2], 0), late = 0;
    long long begun = now();
    for (long at = 0; at < commands; at++) {
        store(file, at);
        for (int node = 1; node < nodes; node++) tell(links[node - 1].fd, frame, FRAME);
        int had = -late, most = nodes - 1;
        late = 0;
        while (had < nodes / 2) had += answers(links, most);
        late = most - had;
        tell(player[0], line, LINE);
        take(player[0], line, LINE);
    }
    printf("%lld\n", now() - begun);
    return 0;
}
"""


class Processes:
    """A match's files in a folder, and the processes of its nodes."""

    program = TOP / "crates/holdem_table/out/holdem_table"

    def __init__(self, nodes, hands, place, has_key=False):
        self.folder, self.nodes, self.running = Path(tempfile.mkdtemp(prefix="processes.", dir=place)), nodes, {}
        first = free_ports(3 * nodes)
        self.ports = [[first + 3 * node + 1 + seat for node in range(nodes)] for seat in (0, 1)]
        shutil.copy(TOP / "examples/l2.game", self.folder)
        tables = [
            f'{{seed = {node}, peers = "127.0.0.1:{first + 3 * node}", seats = "127.0.0.1:{first + 3 * node + 1}"}}'
            for node in range(nodes)
        ]
        (self.folder / "m.toml").write_text("\n".join([
            'name = "m1"', 'game = "l2.game"', f"hands = {hands}", 'names = ["alice", "bob"]',
            'stores = "stores"', 'logs = "logs"', *(['key = "match.key"'] if has_key else []), f"node = [{', '.join(tables)}]", "",
        ]))
        for name in ("stores", "logs"):
            (self.folder / name).mkdir()
        for words in [["--key", "match.key"]] * has_key + [[str(node)] for node in range(nodes)]:
            subprocess.run([self.program, "init", "m.toml", *words], cwd=self.folder, check=True, capture_output=True)

    def starter(self, node):
        """The words before the program where a node's process starts."""
        return []

    def begin(self, node):
        """Starts the process of a node."""
        with open(self.folder / f"notes{node}", "ab") as notes:
            self.running[node] = subprocess.Popen(
                [*self.starter(node), self.program, "node", "m.toml", str(node)], cwd=self.folder, stdin=subprocess.DEVNULL,
                stdout=subprocess.DEVNULL, stderr=notes,
            )

    def kill(self, node):
        self.running[node].kill()
        self.running.pop(node).wait()

    def log(self, node):
        path = self.folder / f"logs/node{node}.log"
        return path.read_bytes() if path.exists() else b""

    def ended(self):
        """Each process has ended with 0, and all logs are the same."""
        for node, process in self.running.items():
            if process.wait() != 0:
                sys.exit(f"node {node} ended with {process.returncode}: {(self.folder / f'notes{node}').read_text()[-400:]}")
        if len({self.log(node) for node in range(self.nodes)}) != 1:
            sys.exit("the logs of the nodes differ")

    def memory(self, node):
        """What a process has taken at most, in bytes."""
        for line in Path(f"/proc/{self.running[node].pid}/status").read_text().splitlines():
            if line.startswith("VmHWM"):
                return int(line.split()[1]) * 1024
        return 0

    def remove(self):
        for process in self.running.values():
            process.kill()
            process.wait()
        shutil.rmtree(self.folder)


class Players:
    """The players of a match, in a process of their own."""

    def __init__(self, program, match):
        ports = [str(port) for seat in match.ports for port in seat]
        self.process = subprocess.Popen([program, str(match.nodes), *ports], stdout=subprocess.PIPE, text=True)

    def found(self):
        """How many commands they saw behind the first deal, and in how many seconds; and the longest wait for a line, in milliseconds."""
        command, nanoseconds, longest, _, _ = map(int, self.process.communicate()[0].split())
        return command - 1, nanoseconds / 1e9, longest / 1e6


def played(program, nodes, hands, place, has_key=False):
    """The commands of a match that nothing happens to, the seconds that they took, and the longest wait."""
    match = Processes(nodes, hands, place, has_key)
    try:
        for node in range(nodes):
            match.begin(node)
        commands, seconds, longest = Players(program, match).found()
        if commands != OF_A_HAND * hands - 1:
            sys.exit(f"the players saw {commands} commands, not {OF_A_HAND * hands - 1}")
        match.ended()
        return commands, seconds, longest
    finally:
        match.remove()


def floor(program, nodes, commands, place):
    """The seconds that the same syncs and exchanges take alone."""
    with tempfile.TemporaryDirectory(dir=place) as folder:
        ran = subprocess.run([program, str(nodes), folder, str(commands)], check=True, capture_output=True, text=True)
        return int(ran.stdout) / 1e9


def compare(programs, nodes, place, amounts):
    """Matches without a key, with one, and the floor in turn."""
    sync, ours, keyed, floors, waits = sync_of(place), [], [], [], []
    hands = max(amounts.fewest, min(amounts.most, int(amounts.run_takes / (OF_A_HAND * (4 * sync + 150e-6)))))
    for _ in range(amounts.runs):
        commands, seconds, longest = played(programs["players"], nodes, hands, place)
        ours.append(commands / seconds)
        waits.append(longest)
        keyed.append(commands / played(programs["players"], nodes, hands, place, has_key=True)[1])
        floors.append(commands / floor(programs["floor"], nodes, commands, place))
    ratio, cost = statistics.median(ours) / statistics.median(floors), statistics.median(ours) / statistics.median(keyed) - 1
    print(f"{nodes} processes, {hands * OF_A_HAND:,} commands, stores in {place} ({sync * 1e3:.3f} ms a sync), {amounts.runs} runs each:")
    print(f"  {spread(ours)} commands a second, the floor {spread(floors)}: {ratio:.2f} of it")
    print(f"  with a key {spread(keyed)}: a command takes {100 * cost:+.0f} %")
    print(f"  the longest time from an act to a line that came of it: {spread(waits, 1)} ms", flush=True)


def line_after(match, node, longest=10.0):
    """The seconds until one of the logs has grown by a line, the killed node's left out; none where none has."""
    others = [match.folder / f"logs/node{other}.log" for other in range(match.nodes) if other != node]
    sizes, begun = [path.stat().st_size for path in others], time.monotonic()
    while time.monotonic() - begun < longest:
        if any(path.stat().st_size > size for path, size in zip(others, sizes)):
            return time.monotonic() - begun
        time.sleep(0.0002)
    return longest


def is_alone(match, node):
    """Whether every other process has all that any process has, or nearly: so that the loss of this one is the only one."""
    sizes = [(match.folder / f"logs/node{other}.log").stat().st_size for other in range(match.nodes)]
    return all(max(sizes) - size <= LEVEL for other, size in enumerate(sizes) if other != node)


def losses(programs, nodes, place, most, of_losses, chance):
    """One process after another of a match is killed, and begun again, until so many were alone in it at most. How long the next
    line of a log then waited, in milliseconds: of the losses that were alone, and of those that met others still behind."""
    hands = 5 * of_losses if str(place) == FAST else of_losses
    match, alone, together = Processes(nodes, hands, place), [], []

    def is_near_its_end():
        return max(match.log(node).count(b"\n") for node in range(nodes)) > 0.8 * hands

    try:
        for node in range(nodes):
            match.begin(node)
        players = Players(programs["players"], match)
        waited(lambda: match.log(0), "the first line of a log")
        while len(alone) < most:
            time.sleep(BETWEEN * (0.5 + chance.random()))
            # Whoever comes back behind the end finds nobody who could tell it the match.
            if is_near_its_end():
                break
            node = chance.randrange(nodes)
            waits = alone if is_alone(match, node) else together
            match.kill(node)
            waits.append(line_after(match, node) * 1e3)
            time.sleep(AWAY * chance.random())
            match.begin(node)
        players.found()
        match.ended()
    finally:
        match.remove()
    return alone, together


def told_waits(waits):
    """Waits in milliseconds, in words."""
    waits = sorted(waits)
    return f"median {waits[len(waits) // 2]:.1f} ms, 9 of 10 {waits[9 * len(waits) // 10]:.1f} ms, worst {waits[-1]:.1f} ms" if waits else "none"


def lose_processes(programs, nodes, place, amounts):
    """Matches one after another, until so many processes were lost."""
    alone, together, matches, chance = [], [], 0, random.Random(1)
    while len(alone) < amounts.losses and matches < amounts.matches:
        found = losses(programs, nodes, place, amounts.losses - len(alone), amounts.of_losses, chance)
        alone, together, matches = alone + found[0], together + found[1], matches + 1
    print(f"losses by signal 9 of one of {nodes} processes in {matches} matches, stores in {place}: to the next line of a log (one a hand)")
    print(f"  {len(alone)} while all others had caught up: {told_waits(alone)}")
    print(f"  {len(together)} while another was still behind: {told_waits(together)}", flush=True)


def begin_again(programs, place, missed):
    """A process that was away from the beginning on is begun once all is played; what it takes until its log is whole."""
    match = Processes(3, missed // OF_A_HAND + 1, place)
    try:
        match.begin(0)
        match.begin(1)
        players = Players(programs["players"], match)
        waited(lambda: match.log(0).count(b"\n") >= missed // OF_A_HAND, "the hands before it")
        peak = match.memory(0)
        begun = time.monotonic()
        match.begin(2)
        waited(lambda: match.log(2).count(b"\n") >= missed // OF_A_HAND, "the log of the process that was begun again")
        took = time.monotonic() - begun
        players.found()
        match.ended()
        print(f"a process on a new store after {missed:,} commands, stores in {place}: its log was whole after {took:.2f} s;", end=" ")
        print(f"the one that led had taken {peak / 2**20:.1f} MiB", flush=True)
    finally:
        match.remove()


def main(words):
    if words[:1] in (["-h"], ["--help"]):
        print(__doc__.strip())
        return 0
    is_least = words[:1] == ["--least"]
    words = words[is_least:]
    if len(words) > 3 or not all(word.isdigit() and int(word) for word in words[:1]) or not all(map(os.path.isdir, words[1:2])):
        print(__doc__.strip(), file=sys.stderr)
        return 2
    amounts = (LEAST if is_least else Amounts())._replace(**{"runs": int(word) for word in words[:1]})
    place = Path(words[1] if len(words) > 1 else ".").resolve()
    if len(words) > 2:
        Processes.program = Path(words[2]).resolve()
    load = os.getloadavg()[0]
    print(f"{os.cpu_count()} processors, load {load:.1f} at the beginning" + (": NOT QUIET" if load > 0.5 else ""), flush=True)
    with tempfile.TemporaryDirectory() as folder:
        programs = {name: built(name, source, folder) for name, source in (("players", PLAYERS), ("floor", FLOOR))}
        for where in [place] + [Path(FAST)] * (FAST is not None):
            for nodes in amounts.counts:
                compare(programs, nodes, where, amounts)
            for nodes in amounts.counts:
                lose_processes(programs, nodes, where, amounts)
            begin_again(programs, where, amounts.missed)
    return 0


if __name__ == "__main__":
    sys.exit(main(sys.argv[1:]))
