#!/usr/bin/env python3
"""Times `holdem_table check` on long logs and prints figures: bench/check.py [HANDS].

Build the program first (./check, or `rt run` in crates/holdem_table). For 2, 6 and 10 players a seeded
script of HANDS hands (10000 by default) is played by `hand --log`, and the log that it prints is checked.
Printed are megabytes and hands a second, the peak of memory and what it is above the log's size, the ratio
of the time to that of a small C program that reads the same lines and takes them apart, and what the time
grows by from a tenth of the hands to all of them.
"""
import os
import subprocess
import sys
import tempfile
from pathlib import Path

from hand import PROGRAM, game_file, write_script

# The least of so many runs counts.
RUNS = 3

# Runs the words and writes how many nanoseconds they took, their peak of memory in KiB, and their status. (The
# peak that a child of this script itself would have holds this script's own.)
RUNNER = r"""
#include <signal.h>
#include <stdio.h>
#include <sys/prctl.h>
#include <sys/resource.h>
#include <sys/wait.h>
#include <time.h>
#include <unistd.h>
int main(int argc, char **argv) {
    struct timespec before, after;
    struct rusage used;
    int status;
    clock_gettime(CLOCK_MONOTONIC, &before);
    pid_t child = fork();
    if (child == 0) {
        /* Who ends the runner ends what it runs. */
        prctl(PR_SET_PDEATHSIG, SIGKILL);
        execv(argv[1], argv + 1);
        _exit(127);
    }
    if (child < 0 || wait4(child, &status, 0, &used) != child) return 1;
    clock_gettime(CLOCK_MONOTONIC, &after);
    long long nanoseconds = (after.tv_sec - before.tv_sec) * 1000000000LL + (after.tv_nsec - before.tv_nsec);
    fprintf(stderr, "%lld %ld %d\n", nanoseconds, used.ru_maxrss, WIFEXITED(status) ? WEXITSTATUS(status) : 128);
    return 0;
}
"""

# Reads the file and takes its lines apart: fields at `:`, parts at `|` and `/`, numbers.
READER = r"""
#include <stdio.h>
#include <stdlib.h>
#include <string.h>
static unsigned long parts, letters, chips;
static void take_field(const char *at, const char *end) {
    while (at <= end) {
        const char *next = at;
        while (next < end && *next != '|' && *next != '/') next++;
        if (next > at && (*at == '-' || (*at >= '0' && *at <= '9'))) chips += (unsigned long)strtol(at, NULL, 10);
        letters += next - at;
        parts++;
        at = next + 1;
    }
}
int main(int argc, char **argv) {
    FILE *file = argc > 1 ? fopen(argv[1], "rb") : NULL;
    if (!file) return 1;
    fseek(file, 0, SEEK_END);
    long size = ftell(file);
    rewind(file);
    char *text = malloc(size + 1), *at = text, *end = text + size;
    if (fread(text, 1, size, file) != (size_t)size) return 1;
    *end = 0;
    unsigned long hands = 0;
    while (at < end) {
        char *stop = memchr(at, '\n', end - at);
        if (!stop) return 1;
        if (!strncmp(at, "STATE:", 6) && strtoul(at + 6, NULL, 10) != hands++) return 1;
        while (at <= stop) {
            char *next = memchr(at, ':', stop - at);
            if (!next) next = stop;
            take_field(at, next);
            at = next + 1;
        }
    }
    printf("%lu hands, %lu parts, %lu letters, %lu\n", hands, parts, letters, chips);
    return 0;
}
"""


def write_log(folder, game, players, hands):
    """The log that `hand --log` prints of a seeded script; the program runs where the game file lies."""
    script, output, log = (folder / name for name in ("script", "output", f"log{hands}"))
    write_script(script, players, hands)
    with open(script, "rb") as source, open(output, "wb") as sink:
        words = [PROGRAM, "hand", "--log", "--hands", str(hands), game.name]
        subprocess.run(words, stdin=source, stdout=sink, cwd=folder, check=True)
    with open(output, "rb") as lines, open(log, "wb") as sink:
        sink.writelines(line[2:] for line in lines if line.startswith(b"L "))
    return log


def run(runner, words):
    """How many seconds the words ran, their peak of memory in bytes, and what they printed."""
    ran = subprocess.run([runner, *words], stdin=subprocess.DEVNULL, capture_output=True, text=True, check=True)
    nanoseconds, kibibytes, status = map(int, ran.stderr.splitlines()[-1].split())
    if status != 0:
        sys.exit(f"{words[0]} ended with status {status}")
    return nanoseconds / 1e9, kibibytes * 1024, ran.stdout


def best(runner, words):
    """The least time of several runs, the greatest peak of memory, and what was printed."""
    runs = [run(runner, words) for _ in range(RUNS)]
    return min(ran[0] for ran in runs), max(ran[1] for ran in runs), runs[0][2]


def measure(folder, players, hands):
    game = folder / "game"
    game.write_text(game_file(players))
    log = write_log(folder, game, players, hands)
    seconds, peak, verdict = best(folder / "runner", [PROGRAM, "check", game, log])
    if verdict != "yes\n":
        sys.exit(f"check said {verdict!r} of a right log")
    in_c, _, _ = best(folder / "runner", [folder / "reader", log])
    return seconds, peak, in_c, log.stat().st_size


def compile_c(folder, name, text):
    source = folder / f"{name}.c"
    source.write_text(text)
    subprocess.run([os.environ.get("CC", "cc"), "-O2", "-o", folder / name, source], check=True)


def main(words):
    if len(words) > 1 or not all(word.isdigit() for word in words):
        print(__doc__.strip())
        return 0 if words in (["-h"], ["--help"]) else 2
    hands = int(words[0]) if words else 10_000
    with tempfile.TemporaryDirectory() as name:
        folder = Path(name)
        compile_c(folder, "runner", RUNNER)
        compile_c(folder, "reader", READER)
        for players in (2, 6, 10):
            few = max(hands // 10, 1)
            few_seconds, _, _, few_size = measure(folder, players, few)
            seconds, peak, in_c, size = measure(folder, players, hands)
            print(
                f"{players} players, {hands:,} hands: {size / 1e6:.2f} MB in {seconds:.3f} s, "
                f"{size / 1e6 / seconds:.1f} MB and {hands / seconds:,.0f} hands a second, "
                f"{seconds / in_c:.1f} times the C program's {in_c:.3f} s"
            )
            print(
                f"  peak {peak / 1e6:.2f} MB, {(peak - size) / 1e6:.2f} MB above the log's size; "
                f"from {few:,} hands on {seconds / few_seconds:.1f} times the time for {size / few_size:.1f} times the bytes"
            )


if __name__ == "__main__":
    sys.exit(main(sys.argv[1:]))
