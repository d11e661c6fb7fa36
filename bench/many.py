#!/usr/bin/env python3
"""What many matches of `node` at once take of one machine: bench/many.py [OPTIONS].

So many matches of limit hold'em run at once, each of three processes, at addresses of 127.0.0.0/8 of its own. For each count of matches, on
files and in memory, without a key and with one, it prints

  idle    what a process takes while nobody plays: its part of a processor, its memory (PSS: what it shares with others counts by parts),
          its descriptors, and how many system calls it makes a second. One more match is run for the latter, with the library bench/moved.c
  play    how many commands a second all matches make together while one of them plays, 10, 100 and all, each with two players who call; what
          its processes and the players take of the processors; the longest time from an act to a line that came of it
  kills   one process of one match after another gets signal 9 and comes back, while all play: the longest pause between two lines of that
          match in the two seconds behind the kill

All players are one program in C. The least numbers, `--matches 1 --playing 1 --idle 0.5 --seconds 0.5 --kills 1`, show in some seconds that
the bench works. Behind each count all logs of a match have to be beginnings of one log.

Exit status: 0 if all was measured; 1 if a match failed; 2 if the command line is wrong, the program or `cc` is missing, or this machine has
too little memory or too few descriptors for so many matches.
"""
import argparse
import bisect
import os
import random
import resource
import shutil
import statistics
import subprocess
import sys
import tempfile
import time
from pathlib import Path

sys.dont_write_bytecode = True
TOP = Path(__file__).resolve().parent.parent
sys.path.insert(0, str(TOP / "tests"))

import moved
from moved import Failed, preloaded
from processes import LEVEL, Processes, told_waits
from serve import CALLING, OF_A_HAND, built
from serving import FAST, Wrong, free_ports, waited

NODES = 3
# As many hands as a match may have: none is to be over while it is measured.
HANDS = 10_000
# The matches of a machine are at 127.FIRST.a.b, with so many at most.
FIRST, ROOM = 40, 200 * 250
# How much memory is to be there for each process, in bytes, and how many descriptors the players need beside one for each seat.
A_PROCESS, OTHERS = 5 << 20, 100
# How long all is let alone before it is measured, how long each killed process is away, and what is looked at behind a kill, in seconds.
SETTLE, AWAY, BEHIND = 1.0, 0.3, 2.0

CROWD = r"""
/* Players of limit hold'em who call, two in each of many matches: words are the count of nodes, the first port of a match, and the address of
   each match. Once each has a line it prints a line; once its input ends it prints how many commands came to lines since then, the nanoseconds
   of that time and those that it ran on a processor in it, the longest time from an act to a line that came of it, and how many matches got no
   line; and behind these numbers when each command of the first match came to a line. */
#define _GNU_SOURCE
#include <arpa/inet.h>
#include <netinet/tcp.h>
#include <stdio.h>
#include <stdlib.h>
#include <string.h>
#include <sys/epoll.h>
#include <sys/socket.h>
#include <time.h>
#include <unistd.h>
enum { SEATS = 2, OF_A_HAND = 9, TEXT = 8192, SEEN = 1 << 17, EVENTS = 256 };
""" + CALLING + r"""
static struct player { int match, seat, node, link, size, has_line; long long again; char text[TEXT]; } *players;
static struct match { struct in_addr address; long long last, acted, came; } *matches;
static int nodes, first_port, crowd, count, away, lacking;
static long long begun, commands, longest, sees, seen[SEEN];
static long long ran(void) {
    struct timespec time;
    clock_gettime(CLOCK_PROCESS_CPUTIME_ID, &time);
    return time.tv_sec * 1000000000LL + time.tv_nsec;
}
static void hang_up(struct player *player) {
    close(player->link);
    player->link = -1, player->node = (player->node + 1) % nodes, player->again = now() + 1000000, away++;
}
static void dial(struct player *player) {
    struct sockaddr_in to = {.sin_family = AF_INET, .sin_addr = matches[player->match].address};
    struct epoll_event event = {.events = EPOLLIN, .data.ptr = player};
    int yes = 1;
    to.sin_port = htons(first_port + 3 * player->node + 1 + player->seat);
    player->link = socket(AF_INET, SOCK_STREAM, 0), player->size = 0, away--;
    if (player->link < 0) exit(2);
    setsockopt(player->link, IPPROTO_TCP, TCP_NODELAY, &yes, sizeof yes);
    if (connect(player->link, (struct sockaddr *)&to, sizeof to) || write(player->link, "VERSION:2.0.0\r\n", 15) != 15) hang_up(player);
    else if (epoll_ctl(crowd, EPOLL_CTL_ADD, player->link, &event)) exit(2);
}
/* A line that came; false where the answer can't be written. */
static int take_line(struct player *player, const char *line, long long time) {
    struct match *match = matches + player->match;
    char answer[TEXT];
    if (strncmp(line, "MATCHSTATE:", 11)) return 1;
    long long command = command_of(line);
    lacking -= !player->has_line;
    player->has_line = 1;
    if (command > match->last) {
        if (begun) {
            commands += command - match->last, match->came = 1;
            if (match->acted && time - match->acted > longest) longest = time - match->acted;
            if (!player->match && sees < SEEN) seen[sees++] = time;
        }
        match->last = command, match->acted = 0;
    }
    if (command < match->last || !is_to_act(line)) return 1;
    int length = snprintf(answer, sizeof answer, "%s:c\r\n", line);
    match->acted = now();
    return write(player->link, answer, length) == length;
}
static void hear(struct player *player) {
    int got = read(player->link, player->text + player->size, TEXT - 1 - player->size);
    long long time = now();
    char *line = player->text, *end;
    if (got <= 0) {
        hang_up(player);
        return;
    }
    player->size += got;
    player->text[player->size] = 0;
    while ((end = strstr(line, "\r\n"))) {
        *end = 0;
        if (!take_line(player, line, time)) {
            hang_up(player);
            return;
        }
        line = end + 2;
    }
    player->size -= line - player->text;
    memmove(player->text, line, player->size);
}
static void dial_again(void) {
    long long time = now();
    for (int at = 0; at < count && away; at++)
        if (players[at].link < 0 && players[at].again <= time) dial(players + at);
}
int main(int many, char **words) {
    struct epoll_event events[EVENTS], input = {.events = EPOLLIN};
    int is_over = 0, idle = 0, all = many - 3;
    long long ran_before = 0;
    if (all < 1) return 1;
    nodes = atoi(words[1]), first_port = atoi(words[2]), crowd = epoll_create1(0), count = away = lacking = SEATS * all;
    players = calloc(count, sizeof *players), matches = calloc(all, sizeof *matches);
    if (!players || !matches || epoll_ctl(crowd, EPOLL_CTL_ADD, 0, &input)) return 2;
    for (int at = 0; at < count; at++) players[at].match = at / SEATS, players[at].seat = at % SEATS, players[at].link = -1;
    for (int at = 0; at < all; at++)
        if (!inet_aton(words[3 + at], &matches[at].address)) return 1;
    while (!is_over) {
        if (away) dial_again();
        int came = epoll_wait(crowd, events, EVENTS, away ? 1 : -1);
        for (int at = 0; at < came; at++)
            if (!events[at].data.ptr) is_over = 1;
            else hear(events[at].data.ptr);
        if (!lacking && !begun) {
            begun = now(), ran_before = ran();
            puts("all have a line"), fflush(stdout);
        }
    }
    for (int at = 0; at < all; at++) idle += !matches[at].came;
    printf("%lld %lld %lld %lld %d\n", commands, begun ? now() - begun : 0, ran() - ran_before, longest, idle);
    for (int at = 0; at < sees; at++) printf("%lld\n", seen[at]);
    return 0;
}
"""


class Match(Processes):
    """One of many matches: its files, which are those of a template, its address and its processes."""

    def __init__(self, template, folder, number, port):
        self.folder, self.nodes, self.running, self.library = folder, NODES, {}, None
        self.address = f"127.{FIRST + number // 250 // 200}.{number // 250 % 200}.{number % 250 + 1}"
        shutil.copytree(template, folder)
        (folder / "m.toml").write_text(match_file(self.address, port, (folder / "match.key").exists()))
        (folder / "logs").mkdir()

    def starter(self, node):
        return [] if self.library is None else preloaded(self.library, self.folder / f"counts{node}")

    def begin_all(self):
        for node in range(NODES):
            self.begin(node)

    def is_together(self):
        """Each process is connected to each other one. One that has ended fails."""
        for node, process in self.running.items():
            notes = (self.folder / f"notes{node}").read_text()
            if process.poll() is not None:
                raise Failed(f"node {node} at {self.address} ended with {process.returncode}: {notes[-400:]}")
            if not all(f"peer {other}: connected" in notes for other in range(NODES) if other != node):
                return False
        return True

    def look(self):
        """No process has ended, and all logs are beginnings of the longest one."""
        for node, process in self.running.items():
            if process.poll() is not None:
                raise Failed(f"node {node} at {self.address} ended with {process.returncode}: {(self.folder / f'notes{node}').read_text()[-400:]}")
        logs = sorted((self.log(node) for node in range(NODES)), key=len)
        if not all(logs[-1].startswith(log) for log in logs):
            raise Failed(f"the logs of the match at {self.address} differ")


def match_file(address, port, has_key):
    """The match file of a match at an address."""
    tables = [
        f'{{seed = {node}, peers = "{address}:{port + 3 * node}", seats = "{address}:{port + 3 * node + 1}", from = "{address}"}}' for node in range(NODES)
    ]
    return "\n".join([
        'name = "m1"', 'game = "l2.game"', f"hands = {HANDS}", 'names = ["alice", "bob"]', 'stores = "stores"', 'logs = "logs"',
        *(['key = "match.key"'] if has_key else []), f"node = [{', '.join(tables)}]", "",
    ])


def template_in(folder, port, has_key, program):
    """A folder with the stores of a match, and its key, as `init` makes them. Each match gets a copy: they never meet."""
    (folder / "stores").mkdir(parents=True)
    shutil.copy(TOP / "examples/l2.game", folder)
    (folder / "m.toml").write_text(match_file("127.0.0.1", port, has_key))
    for words in [["--key", "match.key"]] * has_key + [[str(node)] for node in range(NODES)]:
        subprocess.run([program, "init", "m.toml", *words], cwd=folder, check=True, capture_output=True)
    return folder


def tell(text):
    """Shows how far it is: over the last line on a terminal, else as a line of its own."""
    if sys.stderr.isatty():
        print(f"\r{text:78}", end="" if text else "\r", file=sys.stderr, flush=True)
    elif text:
        print(f"many: {text}", file=sys.stderr, flush=True)


class Used:
    """What processes have used so far of a processor, in seconds, and when that was."""

    def __init__(self, processes):
        self.moment, self.ran = time.monotonic(), {it: self.ran_of(it) for it in processes}

    @staticmethod
    def ran_of(process):
        return int(Path(f"/proc/{process}/schedstat").read_text().split()[0]) / 1e9

    def shares(self):
        """Which part of a processor each has used since then."""
        now = Used(self.ran)
        return [(now.ran[it] - ran) / (now.moment - self.moment) for it, ran in self.ran.items()]


def memory_of(process):
    """What a process has of the memory, with its part of what it shares, in bytes."""
    lines = Path(f"/proc/{process}/smaps_rollup").read_text().splitlines()
    return next(int(line.split()[1]) for line in lines if line.startswith("Pss:")) * 1024


def spread(values, form):
    """The mean of values, and the greatest."""
    return f"{statistics.mean(values):{form}} (at most {max(values):{form}})"


class Many:
    """So many matches in a folder, which run at once."""

    def __init__(self, tools, words, count, place, has_key):
        self.tools, self.words, self.port = tools, words, free_ports(3 * NODES)
        self.folder = Path(tempfile.mkdtemp(prefix="many.", dir=place))
        self.name = f"{count:,} {'match' if count == 1 else 'matches'} {'in memory' if str(place) == FAST else 'on files'} {'with' if has_key else 'without'} a key"
        template = template_in(self.folder / "template", self.port, has_key, words.program)
        self.matches = [Match(template, self.folder / f"match{number}", number, self.port) for number in range(count)]
        self.counted = Match(template, self.folder / "counted", count, self.port)
        self.turn = 0

    def processes(self):
        return [process.pid for match in self.matches for process in match.running.values()]

    def remove(self):
        for match in [*self.matches, self.counted]:
            for process in match.running.values():
                process.kill()
            for process in match.running.values():
                process.wait()
        shutil.rmtree(self.folder)

    def begin(self):
        """All processes begin, and come together."""
        for at, match in enumerate(self.matches):
            match.begin_all()
            if at % 50 == 49:
                tell(f"{self.name}: {at + 1} have begun")
        left = [*self.matches]

        def is_done():
            left[:] = [match for match in left if not match.is_together()]
            return not left

        waited(is_done, "all processes to be connected", lambda: f"{len(left)} matches aren't", lambda: len(left))

    def idle(self):
        """What a process takes while nobody plays, in words."""
        self.counted.library = self.tools["library"]
        self.counted.begin_all()
        waited(self.counted.is_together, "the processes of which calls are counted")
        time.sleep(SETTLE)
        calls, used = self.calls(), Used(self.processes())
        time.sleep(self.words.idle)
        shares, calls = used.shares(), (self.calls() - calls) / (time.monotonic() - used.moment) / NODES
        self.counted.look()
        for node in range(NODES):
            self.counted.kill(node)
        processes = self.processes()
        memory, descriptors = [memory_of(it) / 2**20 for it in processes], [len(os.listdir(f"/proc/{it}/fd")) for it in processes]
        return (f"  idle: a process takes {spread([100 * it for it in shares], '.2f')} % of a processor, {spread(memory, '.2f')} MiB of memory, {spread(descriptors, '.0f')}"
                f" descriptors, and makes {calls:.0f} system calls a second; all take {sum(shares):.2f} processors and {sum(memory) / 1024:.2f} GiB")

    def calls(self):
        """How many system calls the processes have made so far that are counted."""
        found = (moved.Counts.read(self.counted.folder / f"counts{node}", self.tools["program"]) for node in range(NODES))
        return sum(count for counts in found for (_, function, what), count in counts.items() if function is None and what == "calls")

    def crowd(self, matches):
        """The players of some matches, each of whom has a line."""
        words = [self.tools["crowd"], str(NODES), str(self.port), *(match.address for match in matches)]
        crowd = subprocess.Popen(words, stdin=subprocess.PIPE, stdout=subprocess.PIPE, text=True)
        if not crowd.stdout.readline():
            raise Failed(f"the players of {len(matches)} matches ended with {crowd.wait()}")
        return crowd

    def play(self, count):
        """What so many matches do at once, in words. Others play than the last time, so that none comes to its end."""
        matches = [self.matches[(self.turn + at) % len(self.matches)] for at in range(count)]
        self.turn += count
        crowd = self.crowd(matches)
        used = Used(self.processes())
        time.sleep(self.words.seconds)
        shares = used.shares()
        commands, nanoseconds, ran, longest, silent = map(int, crowd.communicate()[0].split()[:5])
        seconds = nanoseconds / 1e9
        rate = commands / seconds
        return (f"  {count:,} play: {rate:,.0f} commands a second, {rate / count:,.1f} each ({silent} matches without one), the longest wait for a line {longest / 1e6:.1f} ms;"
                f" all processes take {sum(shares):.2f} processors, the players {ran / nanoseconds:.2f}")

    def kills(self):
        """How long the lines of a match pause where one process after another of it is killed and comes back, in words."""
        match, chance, moments = self.matches[0], random.Random(1), []
        crowd = self.crowd(self.matches)
        for at in range(self.words.kills):
            time.sleep(chance.uniform(0.5, 1.0))
            node = chance.randrange(NODES)
            moments.append(time.monotonic_ns())
            match.kill(node)
            time.sleep(AWAY)
            match.begin(node)
            time.sleep(BEHIND - AWAY)
            waited(lambda: self.is_level(match), "a process that came back to catch up")
            if at % 10 == 9:
                tell(f"{self.name}: {at + 1} kills")
        seen = [*map(int, crowd.communicate()[0].split()[5:])]
        return f"  {len(moments)} kills in one of them, while {len(self.matches):,} play: the pause between two lines {told_waits([pause_behind(it, seen) for it in moments])}"

    @staticmethod
    def is_level(match):
        """Whether all processes of a match have nearly all that any of them has."""
        sizes = [len(match.log(node)) for node in range(NODES)]
        return max(sizes) - min(sizes) <= LEVEL

    def measure(self):
        """Runs all, and prints what was measured."""
        tell(f"{self.name}: it begins")
        self.begin()
        print(f"{self.name}, {NODES * len(self.matches):,} processes:", flush=True)
        tell(f"{self.name}: idle")
        print(self.idle(), flush=True)
        for count in sorted({min(it, len(self.matches)) for it in self.words.playing} | {len(self.matches)}):
            tell(f"{self.name}: {count} play")
            print(self.play(count), flush=True)
        if self.words.kills:
            tell(f"{self.name}: kills")
            print(self.kills(), flush=True)
        for match in self.matches:
            match.look()


def pause_behind(moment, seen):
    """The longest pause between lines of a match behind a kill, from that on, in milliseconds."""
    first, last = bisect.bisect_right(seen, moment), bisect.bisect_right(seen, moment + int(BEHIND * 1e9))
    times = [moment, *seen[first : last + 1]]
    if len(times) < 2:
        raise Failed("behind a kill no line came any more")
    return max(later - earlier for earlier, later in zip(times, times[1:])) / 1e6


def lacking(words):
    """What this machine lacks for so many matches, in words; none if nothing."""
    most = max(words.matches)
    if most > ROOM:
        return f"no more than {ROOM:,} matches have addresses of their own"
    if words.folder is None and FAST is None:
        return "/dev/shm isn't there: name a --folder"
    for tool, is_there in (("the program; ./check or tools/build builds it", words.program.is_file()), ("the C compiler cc", shutil.which("cc"))):
        if not is_there:
            return f"there isn't {tool}"
    _, hard = resource.getrlimit(resource.RLIMIT_NOFILE)
    if hard != resource.RLIM_INFINITY and hard < 2 * most + OTHERS:
        return f"{2 * most + OTHERS} descriptors are wanted for {most:,} matches, and {hard} allowed (ulimit -Hn)"
    free = next(int(line.split()[1]) * 1024 for line in Path("/proc/meminfo").read_text().splitlines() if line.startswith("MemAvailable:"))
    if free < NODES * most * A_PROCESS:
        return f"{most:,} matches want {NODES * most * A_PROCESS / 2**30:.1f} GiB of memory, and {free / 2**30:.1f} are free: give --matches fewer"
    return None


def from_one(word):
    if not word.isdecimal() or int(word) < 1:
        raise argparse.ArgumentTypeError(f"a number from 1 on, not {word!r}")
    return int(word)


def seconds(most):
    """What reads seconds of an option, up to so many."""

    def read(word):
        if not 0.1 <= float(word) <= most:
            raise argparse.ArgumentTypeError(f"seconds from 0.1 to {most}, not {word!r}")
        return float(word)

    return read


def arguments(words):
    parser = argparse.ArgumentParser(description=__doc__, formatter_class=argparse.RawDescriptionHelpFormatter)
    parser.add_argument("--program", type=Path, default=Processes.program, help="the program; by default the one that is built here")
    parser.add_argument("--matches", type=from_one, nargs="+", default=[10, 100, 1000], metavar="N", help="how many matches run at once (10 100 1000)")
    parser.add_argument("--playing", type=from_one, nargs="+", default=[1, 10, 100], metavar="N", help="how many of them play; all at last (1 10 100)")
    parser.add_argument("--idle", type=seconds(3600), default=10.0, metavar="S", help="seconds in which nobody plays (10)")
    parser.add_argument("--seconds", type=seconds(6), default=5.0, metavar="S", help="seconds of each play, 6 at most: a match has an end (5)")
    parser.add_argument("--kills", type=int, default=20, metavar="N", help="how many processes are killed; with 0 none is (20)")
    parser.add_argument("--key", choices=["no", "yes"], help="measures without a key alone, or with one")
    parser.add_argument("--folder", type=Path, help="measures with files in this folder alone; by default in the working folder, and in memory")
    return parser.parse_args(words)


def main(words):
    words = arguments(words)
    words.program = words.program.resolve()
    lacks = lacking(words)
    if lacks:
        print(f"bench/many.py: {lacks}", file=sys.stderr)
        return 2
    _, hard = resource.getrlimit(resource.RLIMIT_NOFILE)
    resource.setrlimit(resource.RLIMIT_NOFILE, (hard, hard))
    Processes.program = words.program
    places = [words.folder.resolve()] if words.folder else [Path.cwd(), FAST]
    print(f"{os.cpu_count()} processors, load {os.getloadavg()[0]:.1f} at the beginning; limit hold'em for two, {OF_A_HAND} commands a hand", flush=True)
    try:
        with tempfile.TemporaryDirectory() as folder:
            tools = {"crowd": built("crowd", CROWD, folder), "library": built("moved.so", moved.LIBRARY.read_text(), folder, *moved.FLAGS)}
            tools["program"] = moved.Program(words.program)
            for count in words.matches:
                for place in places:
                    for has_key in {"no": [False], "yes": [True], None: [False, True]}[words.key]:
                        many = Many(tools, words, count, place, has_key)
                        try:
                            many.measure()
                        finally:
                            many.remove()
                            tell("")
        return 0
    except (Failed, Wrong, OSError, subprocess.CalledProcessError) as why:
        print(f"bench/many.py: {why}", file=sys.stderr)
        return 1


if __name__ == "__main__":
    sys.exit(main(sys.argv[1:]))
