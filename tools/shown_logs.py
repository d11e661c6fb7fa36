"""Logs as tools read them that show a match's hands (tools/replay, tools/hands, tools/league, tools/watch): `holdem_table check` reads
a log first, and a hand's line loses the cards that the table wasn't shown."""
import os
import re
import subprocess
import sys
from pathlib import Path

MOST_CHIPS = 2147483647
# What `check` answers of a log with a fault, and the fault of one that ends early, at the line after its last.
REFUSED = re.compile(rb"no (\d+) (.*)\n")
ENDS_EARLY = b"49 WrongScore"
# So many bytes of a line at fault are shown.
MOST_SHOWN = 200
STATE = re.compile(r"STATE:(\d+):([^:]*):([^:/]*)([^:]*):([^:]*):([^:]*)")


class Stopped(Exception):
    """Why nothing is written: an exit status, and the words for standard error."""

    def __init__(self, status, text):
        super().__init__(text)
        self.status = status


class Game:
    """The values of a game file that `check` accepted, as far as they say whose turn it is."""

    def __init__(self, text):
        keys = {}
        for line in text.lower().split("\n"):
            words = line.split("#")[0].replace("=", " ").split()
            if words[:1] == ["end"]:
                break
            if words and words[0] != "gamedef":
                keys[words[0]] = [int(word) for word in words[1:]]
        self.players = keys["numplayers"][0]
        self.stacks = keys.get("stack", [MOST_CHIPS] * self.players)
        self.blinds = keys.get("blind", [0] * self.players)
        self.sizes = keys.get("raisesize", [])
        self.first = [place - 1 for place in keys.get("firstplayer", [1] * 4)]

    def unfolded(self, betting):
        """The positions that haven't folded at the end of a hand with this betting text."""
        spent, folded = list(self.blinds), set()
        for street, text in enumerate(betting.split("/")):
            turn = self.first[street]
            for word in re.findall(r"[fc]|r\d*", text):
                while turn in folded or spent[turn] == self.stacks[turn]:
                    turn = (turn + 1) % self.players
                if word == "f":
                    folded.add(turn)
                elif word == "c":
                    spent[turn] = min(max(spent), self.stacks[turn])
                else:
                    spent[turn] = int(word[1:] or min(max(spent) + self.sizes[street], self.stacks[turn]))
                turn = (turn + 1) % self.players
        return set(range(self.players)) - folded

    def without_hidden(self, line, seat):
        """A STATE line without the hole cards that neither the whole table was shown nor the player of that name."""
        number, betting, holes, board, values, names = STATE.fullmatch(line).groups()
        showing = self.unfolded(betting)
        if len(showing) == 1:
            showing = set()
        cards = zip(holes.split("|"), names.split("|"))
        seen = [hole if place in showing or name == seat else "" for place, (hole, name) in enumerate(cards)]
        return f"STATE:{number}:{betting}:{'|'.join(seen)}{board}:{values}:{names}"


def printable(text):
    """A text that does nothing to a terminal."""
    return "".join(letter if letter.isprintable() or letter == "\n" else f"\\x{ord(letter):02x}" for letter in text)


def read(path, what):
    try:
        return Path(path).read_bytes()
    except OSError as why:
        raise Stopped(2, f"the {what} {path} can't be read: {why.strerror or why}")


def checked(program, game, path, log):
    """Has the program check a log's bytes. Nothing where they are right, or the beginning of a right log."""
    try:
        ran = subprocess.run([program, "check", game, "/dev/stdin"], input=log, stdout=subprocess.PIPE, stderr=subprocess.PIPE)
    except OSError as why:
        raise Stopped(2, f"{program} can't be run: {why.strerror}")
    found = REFUSED.fullmatch(ran.stdout)
    if ran.stdout != b"yes\n" and not found:
        raise Stopped(2, f"no answer on {path} with the game {game}: {ran.stderr.decode(errors='replace').strip()}")
    lines = log.split(b"\n")
    if not found or found[2] == ENDS_EARLY and int(found[1]) == len(lines) and lines[-1] == b"":
        return
    number, text = int(found[1]), lines[int(found[1]) - 1 : int(found[1])]
    shown = b"".join(text)[:MOST_SHOWN].decode(errors="replace")
    raise Stopped(1, f"{path}: line {number} is refused, {found[2].decode()}: {shown or 'it is empty'}")


def names_in(lines):
    """The players' names in seat order: those of the first hand."""
    return lines[1].split(":")[5].split("|")


def write(page, path):
    """Writes the page. A file is replaced in one step, so that nobody reads half of it."""
    if path is None:
        sys.stdout.buffer.write(page.encode())
        return
    made = Path(f"{path}.{os.getpid()}.part")
    try:
        made.write_bytes(page.encode())
        os.replace(made, path)
    except OSError as why:
        raise Stopped(2, f"the page {path} can't be written: {why.strerror or why}")
