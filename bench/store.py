#!/usr/bin/env python3
"""Times stores on a real file through the program `workload`: bench/store.py [RUNS] [FOLDER].

Build it first (./check, or `rt run` in crates/workload). In FOLDER (a new one in the working folder by default)
it times 2,000 appends beside a C program that makes the same calls on the same disk, in turn, RUNS times each (5
by default; the fastest counts), and opens journals of 10,000 and 1,000,000 records that are in memory. It prints
appends a second and their ratio, bytes a second of opening, and bytes of memory for each slot.
"""
import subprocess
import sys
import tempfile
import time
from pathlib import Path

PROGRAM = Path(__file__).resolve().parent.parent / "crates/workload/out/workload"
APPENDS = 2000
JOURNALS = [("short", 10_000), ("long", 1_000_000)]

SAME_CALLS = r"""
#include <fcntl.h>
#include <stdio.h>
#include <unistd.h>
int main(void) {
    unsigned char head[9] = {'H', 'D', 'J', '1', 0, 3, 0, 0, 0}, open_gate = 1;
    int file = open("calls.journal", O_RDWR | O_CREAT | O_TRUNC | O_CLOEXEC, 0666);
    long gate = 8, stored = 0;
    if (file < 0 || pwrite(file, head, 9, 0) != 9 || fdatasync(file)) return 1;
    for (unsigned round = 1; round <= 2000; round++) {
        unsigned char record[9] = {0, 6, 1, round >> 24, round >> 16, round >> 8, round, 0, 0};
        if (pwrite(file, record, 9, gate + 1) != 9 || fdatasync(file)) return 1;
        if (pwrite(file, &open_gate, 1, gate) != 1 || fdatasync(file)) return 1;
        gate += 9;
        stored++;
    }
    printf("appends: %ld stored\n", stored);
    return 0;
}
"""

MOST_MEMORY = r"""
#include <fcntl.h>
#include <stdio.h>
#include <sys/resource.h>
#include <sys/wait.h>
#include <unistd.h>
int main(int count, char **words) {
    struct rusage used;
    int status;
    pid_t child = fork();
    if (child == 0) {
        dup2(open("/dev/null", O_WRONLY), 1);
        execv(words[1], words + 1);
        _exit(127);
    }
    if (count < 2 || wait4(child, &status, 0, &used) != child || status) return 1;
    printf("%ld\n", used.ru_maxrss);
    return 0;
}
"""


def timed(words, folder):
    started = time.perf_counter()
    ran = subprocess.run(words, cwd=folder, capture_output=True, check=True, stdin=subprocess.DEVNULL)
    return time.perf_counter() - started, ran.stdout.decode().strip()


def built(name, source, folder):
    """The path of a C program, built of this text."""
    path = Path(folder) / name
    path.with_suffix(".c").write_text(source)
    subprocess.run(["cc", "-O2", "-o", path, path.with_suffix(".c")], check=True)
    return path


def most_memory(words, folder):
    """The most memory that a run had, in bytes. A process begins with the memory of the one that started it, so a small one does."""
    starter = built("most_memory", MOST_MEMORY, folder)
    return 1024 * int(subprocess.run([starter, *words], cwd=folder, capture_output=True, check=True).stdout)


def compare_appends(folder, runs):
    calls = built("calls", SAME_CALLS, folder)
    ours, theirs = [], []
    for _ in range(runs):
        ours.append(timed([PROGRAM, "store-appends"], folder)[0])
        theirs.append(timed([calls], folder)[0])
    ours, theirs = min(ours), min(theirs)
    print(f"appends: {APPENDS / ours:,.0f} a second, the same calls in C {APPENDS / theirs:,.0f}: {theirs / ours:.2f} of it")


def time_opening(folder, runs):
    memory = {}
    for name, slots in JOURNALS:
        output = timed([PROGRAM, f"store-{name}"], folder)[1]
        length = (Path(folder) / "workload.journal").stat().st_size
        words = [str(PROGRAM), f"store-open-{name}"]
        nothing = min(timed([PROGRAM], folder)[0] for _ in range(runs))
        seconds = min(timed(words, folder)[0] for _ in range(runs)) - nothing
        memory[name] = most_memory(words, folder)
        print(f"open: {output}: {seconds:.4f} s, {length / seconds / 1e6:,.0f} MB a second")
    more = JOURNALS[1][1] - JOURNALS[0][1]
    print(f"memory: {(memory['long'] - memory['short']) / more:.1f} bytes a slot")


def main(words):
    if len(words) > 2 or not all(word.isdigit() for word in words[:1]) or not all(Path(word).is_dir() for word in words[1:]):
        print(__doc__.strip())
        return 0 if words in (["-h"], ["--help"]) else 2
    runs = int(words[0]) if words else 5
    with tempfile.TemporaryDirectory(dir=Path(words[1] if len(words) > 1 else ".").resolve()) as folder:
        compare_appends(folder, runs)
        time_opening(folder, runs)


if __name__ == "__main__":
    sys.exit(main(sys.argv[1:]))
