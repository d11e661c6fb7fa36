"""The lines that each seat gets of a log's match, by the second dealer (second_dealer.py)."""
import sys

import second_dealer as dealer
from serving import TOP

sys.path.insert(0, str(TOP / "tools"))
from log_script import script_of


def lines_of(match, log, seat):
    """Each line that a seat gets of a log's match, by a dealer of the tests."""
    script = "".join(line + "\n" for line in script_of(log.splitlines()))
    hands = int(log.split("\n")[0].split(" ")[-1])
    printed = dealer.play(match.game.encode(), script.encode(), hands).decode()
    return [line[2:] for line in printed.splitlines() if line.startswith(f"{seat} ")]
