#!/usr/bin/env python3
"""Times `holdem_table luck` and prints figures: bench/luck.py [HANDS].

Build the program first (tools/build). For 2, 3, 6 and 10 players two matches of HANDS hands (1000 by default) are drawn: in
the first nobody bets, so all streets are dealt with the same chips in; in the second players bet and fold by chance. Printed
are hands a second of a processor, by the least time of three runs, of all hands and of those with a flop.
"""
import resource
import subprocess
import sys
import tempfile
from pathlib import Path

TOP = Path(__file__).resolve().parent.parent
sys.dont_write_bytecode = True
sys.path.insert(0, str(TOP / "tests"))

from luck_hands import calls, log_of, wild
from luck_reader import Game

PROGRAM = TOP / "crates/holdem_table/out/holdem_table"
RUNS = 3


def game_text(players):
    stacks, blinds = " ".join(["20000"] * players), " ".join(["50", "100"] + ["0"] * (players - 2))
    first = "2 1 1 1" if players == 2 else "3 1 1 1"
    return (f"GAMEDEF\nnolimit\nnumPlayers = {players}\nnumRounds = 4\nstack = {stacks}\nblind = {blinds}\nfirstPlayer = {first}\n"
            "numSuits = 4\nnumRanks = 13\nnumHoleCards = 2\nnumBoardCards = 0 3 1 1\nEND GAMEDEF\n")


def used():
    """The processor seconds that ended programs took."""
    found = resource.getrusage(resource.RUSAGE_CHILDREN)
    return found.ru_utime + found.ru_stime


def seconds(words):
    took = []
    for _ in range(RUNS):
        start = used()
        subprocess.run(words, stdout=subprocess.DEVNULL, check=True)
        took.append(used() - start)
    return min(took)


def main(words):
    if len(words) > 1 or not all(word.isdigit() for word in words):
        print(__doc__.strip())
        return 0 if words in (["-h"], ["--help"]) else 2
    hands = int(words[0]) if words else 1000
    for players in (2, 3, 6, 10):
        for style, name in ((calls, "without a bet"), (wild, "with bets and folds")):
            with tempfile.TemporaryDirectory() as folder:
                game, log = Path(folder) / "game", Path(folder) / "log"
                game.write_text(game_text(players))
                log.write_bytes(log_of(Game(game.read_text()), hands, [style] * players, f"bench {players}"))
                flops = sum("/" in line.split(":")[2] for line in log.read_text().splitlines() if line.startswith("STATE"))
                took = seconds([PROGRAM, "luck", game, log])
            print(f"{players} players {name}: {hands / took:.0f} hands a second, {flops / took:.0f} with a flop", flush=True)
    return 0


if __name__ == "__main__":
    sys.exit(main(sys.argv[1:]))
