#!/usr/bin/env python3
"""Times `holdem_table hand` on long scripts and prints figures: bench/hand.py [HANDS].

Build the program first (./check, or `rt run` in crates/holdem_table). For 2, 6 and 10 players a seeded
script of HANDS hands (10000 by default) is written to a file and run. Printed are the seats' lines a
second, the peak of memory, the ratio of the time to that of a small C program that writes the same output
with one `write` a script line, and what time and memory grow by from a tenth of the hands to all of them.
"""
import os
import random
import subprocess
import sys
import tempfile
import time
from pathlib import Path

PROGRAM = Path(__file__).resolve().parent.parent / "crates/holdem_table/out/holdem_table"
CARDS = [rank + suit for rank in "23456789TJQKA" for suit in "cdhs"]
NAMES = ["alice", "bob", "carol", "dave", "erin", "frank", "grace", "heidi", "ivan", "judy"]

# Writes the file's lines to standard output, so many lines with each `write`.
WRITER = r"""
#include <stdio.h>
#include <stdlib.h>
#include <string.h>
#include <unistd.h>
int main(int argc, char **argv) {
    FILE *file = fopen(argv[1], "rb");
    int lines = argc > 2 ? atoi(argv[2]) : 1;
    fseek(file, 0, SEEK_END);
    long size = ftell(file);
    rewind(file);
    char *text = malloc(size + 1), *at = text, *end = text + size;
    if (fread(text, 1, size, file) != (size_t)size) return 1;
    while (at < end) {
        char *next = at;
        for (int line = 0; line < lines && next < end; line++) next = (char *)memchr(next, '\n', end - next) + 1;
        if (write(1, at, next - at) != next - at) return 1;
        at = next;
    }
    return 0;
}
"""


def game_file(players):
    """A limit game with blinds of 5 and 10."""
    blinds = ["10", "5"] if players == 2 else ["5", "10"] + ["0"] * (players - 2)
    first = "2 1 1 1" if players == 2 else "3 1 1 1"
    return (
        f"GAMEDEF\nlimit\nnumPlayers = {players}\nnumRounds = 4\nblind = {' '.join(blinds)}\n"
        f"raiseSize = 10 10 20 20\nfirstPlayer = {first}\nmaxRaises = 3 4 4 4\nnumSuits = 4\n"
        "numRanks = 13\nnumHoleCards = 2\nnumBoardCards = 0 3 1 1\nEND GAMEDEF\n"
    )


def deal(dice, players):
    cards = dice.sample(CARDS, 2 * players + 5)
    holes = "|".join(cards[2 * p] + cards[2 * p + 1] for p in range(players))
    flop, turn, river = "".join(cards[-5:-2]), cards[-2], cards[-1]
    return f"deal {holes}/{flop}/{turn}/{river}"


def actions(dice, players):
    """Three hands of four end by folds before the flop, the fourth is called down; each action is legal."""
    if dice.random() < 0.75:
        raised = dice.random() < 0.5
        return (["r"] if raised else []) + ["f"] * (players - 1)
    rounds = []
    for _ in range(4):
        rounds += [dice.choice("cr")] + ["c"] * (players - 1)
    return rounds


def write_script(file, players, hands):
    dice = random.Random(f"{players} players")
    lines = ["names " + "|".join(NAMES[:players])]
    for _ in range(hands):
        lines.append(deal(dice, players))
        lines += actions(dice, players)
    file.write_text("\n".join(lines) + "\n")


def run(words, stdin, stdout):
    """How many seconds the words ran, and their peak of memory in bytes."""
    with open(stdin, "rb") as source, open(stdout, "wb") as sink:
        started = time.perf_counter()
        process = subprocess.Popen(words, stdin=source, stdout=sink)
        _, status, used = os.wait4(process.pid, 0)
        seconds = time.perf_counter() - started
        process.returncode = os.waitstatus_to_exitcode(status)
    if process.returncode != 0:
        sys.exit(f"{words[0]} ended with status {process.returncode}")
    return seconds, used.ru_maxrss * 1024


def measure(folder, writer, players, hands):
    game, script, output, again = (folder / name for name in ("game", "script", "output", "again"))
    game.write_text(game_file(players))
    write_script(script, players, hands)
    seconds, peak = run([PROGRAM, "hand", "--hands", str(hands), game], script, output)
    in_c, _ = run([writer, output, str(players)], os.devnull, again)
    with open(output, "rb") as file:
        lines = sum(chunk.count(b"\n") for chunk in iter(lambda: file.read(1 << 20), b""))
    return seconds, peak, in_c, lines


def main(words):
    if len(words) > 1 or not all(word.isdigit() for word in words):
        print(__doc__.strip())
        return 0 if words in (["-h"], ["--help"]) else 2
    hands = int(words[0]) if words else 10_000
    with tempfile.TemporaryDirectory() as name:
        folder = Path(name)
        (folder / "writer.c").write_text(WRITER)
        writer = folder / "writer"
        subprocess.run([os.environ.get("CC", "cc"), "-O2", "-o", writer, folder / "writer.c"], check=True)
        for players in (2, 6, 10):
            few = max(hands // 10, 1)
            few_seconds, few_peak, _, _ = measure(folder, writer, players, few)
            seconds, peak, in_c, lines = measure(folder, writer, players, hands)
            print(
                f"{players} players, {hands:,} hands: {lines / seconds:,.0f} lines a second ({lines:,} in {seconds:.2f} s), "
                f"peak {peak / 2**20:.1f} MiB, {seconds / in_c:.1f} times the C program's {in_c:.2f} s"
            )
            print(
                f"  from {few:,} hands on: {seconds / few_seconds:.1f} times the time, "
                f"{(peak - few_peak) / max(hands - few, 1):,.0f} bytes a hand"
            )


if __name__ == "__main__":
    sys.exit(main(sys.argv[1:]))
