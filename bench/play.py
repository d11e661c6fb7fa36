#!/usr/bin/env python3
"""Times `holdem_table play` on long scripts and prints figures: bench/play.py [LINES].

Build the program first (./check, or `rt run` in crates/holdem_table). Three scripts of LINES lines (100000 by
default) are played by three nodes, and of each a tenth as well:

    deliver   a match of limit hold'em for two, each hand folded at once, each frame delivered by a line of its own
    flush     the same, each frame by a line `flush 1`
    line      lines of a seat that say no action, each answered by a fault

Printed are the script's lines and the frames sent a second, the peak of memory, and what time and memory grow by from
a tenth of the lines to all of them. Each script runs three times, and the fastest run counts, less an empty script's.
"""
import os
import subprocess
import sys
import tempfile
import time
from pathlib import Path

PROGRAM = Path(__file__).resolve().parent.parent / "crates/holdem_table/out/holdem_table"
GAME = (
    "GAMEDEF\nlimit\nnumPlayers = 2\nnumRounds = 4\nblind = 10 5\nraiseSize = 10 10 20 20\nfirstPlayer = 2 1 1 1\n"
    "maxRaises = 3 4 4 4\nnumSuits = 4\nnumRanks = 13\nnumHoleCards = 2\nnumBoardCards = 0 3 1 1\nEND GAMEDEF\n"
)
DEAL, SECOND = "TdAs|8hTc/2c8c3h/9c/Kh", "8hTc"
MOST_HANDS = 10_000
RUNS = 3
# A command's frames among three nodes: two Accepts, and two votes of each node. A ballot's before it: two Prepares
# and two Promises.
FRAMES, BEGIN = 8, 4
# A ballot is for so many commands; a deal and a fold are two.
WINDOW = 64
# The lines of a hand: the fold, and the deliveries of two commands.
HAND = 1 + 2 * FRAMES
BEGINNING = ["connect 0 0", "line 0 0 VERSION:2.0.0", "connect 0 1", "line 0 1 VERSION:2.0.0", "tick 0"]


def match_file(hands):
    deals = ", ".join([f'"{DEAL}"'] * hands)
    node = f"\n[[node]]\ndeals = [{deals}]\n"
    return f'name = "long"\ngame = "long.game"\nhands = {hands}\nnames = ["alice", "bob"]\n' + 3 * node


def hands_of(lines):
    """More hands than so many lines play."""
    return lines // HAND + 2


def hands_script(lines, deliver):
    """Hands that are dealt and folded, cut after so many lines; each frame is delivered by what `deliver` makes of it."""
    script, frame = list(BEGINNING), 0

    def go_on(frames):
        nonlocal frame
        script.extend(deliver(number) for number in range(frame, frame + frames))
        frame += frames

    go_on(BEGIN + FRAMES)
    for hand in range(hands_of(lines)):
        if len(script) >= lines:
            break
        script.append(f"line 0 {(1 + hand) % 2} MATCHSTATE:1:{hand}::|{SECOND}:f")
        go_on(FRAMES)
        if 2 * (hand + 1) % WINDOW == 0:
            script.append("tick 0")
            go_on(BEGIN)
        go_on(FRAMES)
    return script[:lines]


def seat_script(lines):
    """Lines of a seat that say no action."""
    script = [*BEGINNING, "flush 12"]
    return script + [f"line 0 1 MATCHSTATE:1:0::|{SECOND}:x"] * (lines - len(script))


SCRIPTS = {
    "deliver": lambda lines: hands_script(lines, "deliver {}".format),
    "flush": lambda lines: hands_script(lines, lambda _: "flush 1"),
    "line": seat_script,
}


def run(folder):
    """How many seconds the script of a folder ran, and its peak of memory in bytes."""
    with open(folder / "script", "rb") as source, open(folder / "output", "wb") as sink:
        started = time.perf_counter()
        process = subprocess.Popen([PROGRAM, "play", "long.toml"], stdin=source, stdout=sink, cwd=folder)
        _, status, used = os.wait4(process.pid, 0)
        seconds = time.perf_counter() - started
        process.returncode = os.waitstatus_to_exitcode(status)
    if process.returncode != 0:
        sys.exit(f"{PROGRAM.name} ended with status {process.returncode}")
    return seconds, used.ru_maxrss * 1024


def fastest(folder, script):
    (folder / "script").write_text("".join(line + "\n" for line in script))
    return min(run(folder) for _ in range(RUNS))


def measure(folder, script):
    """The seconds of a script beyond an empty one's, the peak of memory, and the count of frames."""
    wanted = sum(line.endswith(":x") for line in script)
    (folder / "long.toml").write_text(match_file(hands_of(len(script))))
    start, _ = fastest(folder, [])
    seconds, peak = fastest(folder, script)
    with open(folder / "output", "rb") as output:
        frames = faults = 0
        for line in output:
            frames += line.startswith(b"frame ")
            faults += b" E " in line or line.startswith(b"E ")
    if faults != wanted:
        sys.exit(f"{faults} faults were printed, not {wanted}: the script isn't played as meant")
    return max(seconds - start, 1e-9), peak, frames


def main(words):
    if len(words) > 1 or not all(word.isdigit() for word in words):
        print(__doc__.strip())
        return 0 if words in (["-h"], ["--help"]) else 2
    lines = int(words[0]) if words else 100_000
    few = lines // 10
    if few < 100 or hands_of(lines) > MOST_HANDS:
        sys.exit(f"bench/play.py: from 1,000 lines on, and no more than {MOST_HANDS:,} hands, of {HAND} lines each")
    with tempfile.TemporaryDirectory() as name:
        folder = Path(name)
        (folder / "long.game").write_text(GAME)
        for name, script_of in SCRIPTS.items():
            few_seconds, few_peak, _ = measure(folder, script_of(few))
            seconds, peak, frames = measure(folder, script_of(lines))
            print(
                f"{name}, {lines:,} lines: {lines / seconds:,.0f} lines a second, {frames / seconds:,.0f} frames a second "
                f"({frames:,} in {seconds:.2f} s), peak {peak / 2**20:.1f} MiB"
            )
            print(
                f"  from {few:,} lines on: {seconds / few_seconds:.1f} times the time, "
                f"{(peak - few_peak) / max(lines - few, 1):,.0f} bytes a line"
            )


if __name__ == "__main__":
    sys.exit(main(sys.argv[1:]))
