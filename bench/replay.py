#!/usr/bin/env python3
"""Times tools/replay and its page, and prints figures: bench/replay.py [HANDS].

Build the program first (tools/build). For 2, 6 and 10 players a seeded match of HANDS hands (3000 by default) is dealt by
the second dealer (tests/second_dealer.py). Printed are how long the tool takes to make the page (the least of three runs), the page's
size, and how long a Chromium takes from the page's address to the first hand on the table, where one is here.
"""
import subprocess
import sys
import tempfile
import time
from pathlib import Path

TOP = Path(__file__).resolve().parent.parent
sys.dont_write_bytecode = True
sys.path.insert(0, str(TOP / "tests"))

import second_dealer as dealer
from replay_browser import Browser, program

RUNS = 3
# Milliseconds from the beginning of the page's load until its script has run.
SHOWN = "performance.getEntriesByType('navigation')[0].domContentLoadedEventEnd"


def match(folder, players, hands):
    """Writes a game and its log into a folder; their paths."""
    game, script = dealer.seeded_match(players, hands, 1)
    lines = dealer.play(game.encode(), script.encode(), hands, "bench.game").decode().splitlines()
    paths = folder / f"{players}.game", folder / f"{players}.log"
    paths[0].write_text(game)
    paths[1].write_text("".join(line[2:] + "\n" for line in lines if line.startswith("L ")))
    return paths


def seconds(words):
    """How long a run of the tool takes: the least of some."""
    took = []
    for _ in range(RUNS):
        begun = time.monotonic()
        subprocess.run([TOP / "tools/replay", *words], check=True)
        took.append(time.monotonic() - begun)
    return min(took)


def shown(page):
    """How long the browser takes to show a page, in milliseconds: the least of some."""
    with Browser(program()) as browser:
        took = []
        for _ in range(RUNS):
            browser.open(page.as_uri())
            took.append(browser.value(SHOWN))
        return min(took)


def main(words):
    if len(words) > 1 or not all(word.isdigit() for word in words):
        print(__doc__.strip())
        return 0 if words in (["-h"], ["--help"]) else 2
    hands = int(words[0]) if words else 3000
    with tempfile.TemporaryDirectory() as name:
        for players in (2, 6, 10):
            game, log = match(Path(name), players, hands)
            page = Path(name) / f"{players}.html"
            took = seconds([game, log, "-o", page])
            sizes = [path.stat().st_size / 1000 for path in (page, log)]
            line = f"{players} players, {hands} hands: made in {took:.2f} s, {sizes[0]:.0f} kB of a log of {sizes[1]:.0f}"
            print(line + (f", shown in {shown(page):.0f} ms" if program() else "; no Chromium is here to show it"), flush=True)
    return 0


if __name__ == "__main__":
    sys.exit(main(sys.argv[1:]))
