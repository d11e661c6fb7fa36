"""The program's part of a match: `holdem_table hand` deals and knows the rules, `holdem_table play` draws the cards."""
import ctypes
import json
import os
import re
import signal
import subprocess
import sys
from pathlib import Path

from .faults import MatchFault

TOP = Path(__file__).resolve().parent.parent.parent
sys.path.insert(0, str(TOP / "examples/bots"))

from table import Betting, Game

RANKS, SUITS = "23456789TJQKA", "cdhs"
CARDS = [rank + suit for rank in RANKS for suit in SUITS]
# What `hand` and `play` answer to a line that says nothing: so a caller of `play` sees where an answer ends.
NOTHING, SAID_NOTHING = "x", "E 110 BadScript"
# The first node's Accept of a deal, as `play` prints it: behind the frame's length come version and kind, ballot and
# slot, one command, its kind (a deal), the hand's number, and the cards behind their count (docs/FORMATS.md).
DEAL_FRAME = re.compile(r"frame \d+ 0>1 [0-9a-f]{8}0204[0-9a-f]{18}0101([0-9a-f]{8})[0-9a-f]{2}([0-9a-f]*)")
# So many rounds of absent players end any hand: they check in four rounds where nobody faces a bet.
ROUNDS = 10
# How long the end of a process that was killed is waited for, in seconds.
KILLED = 5.0
# Of prctl: the signal that a process gets when the thread ends that started it.
PR_SET_PDEATHSIG = 1
LIBRARY = ctypes.CDLL(None)


def end_with(parent):
    """Lets the process that calls it end with its parent, however that one ends."""
    LIBRARY.prctl(PR_SET_PDEATHSIG, signal.SIGKILL)
    if os.getppid() != parent:
        os._exit(1)


def kill(process):
    """Ends a process, and waits for it, but not without end: where an interrupt came in the midst of a look at it, it stays locked."""
    process.kill()
    try:
        process.wait(KILLED)
    except subprocess.TimeoutExpired:
        pass


def file_in_memory(name, text):
    """A file that has no name in any folder: its descriptor, which a child may be given."""
    descriptor = os.memfd_create(name)
    with os.fdopen(os.dup(descriptor), "wb") as file:
        file.write(text)
    return descriptor


def deal_text(cards):
    """A deal as a script has it: two cards for each position, and the board."""
    holes = ["".join(cards[place : place + 2]) for place in range(0, len(cards) - 5, 2)]
    return f"{'|'.join(holes)}/{''.join(cards[-5:-2])}/{cards[-2]}/{cards[-1]}"


def path_of(descriptor):
    return f"/proc/self/fd/{descriptor}"


class Child:
    """A run of the program that answers each line of its script before it reads the next one."""

    def __init__(self, program, words, descriptors):
        parent = os.getpid()
        try:
            self.process = subprocess.Popen(
                [program, *words], stdin=subprocess.PIPE, stdout=subprocess.PIPE, stderr=subprocess.PIPE,
                pass_fds=descriptors, preexec_fn=lambda: end_with(parent),
            )
        except OSError as why:
            raise MatchFault(f"the program {program} can't be started: {why.strerror}") from why
        self.words = words

    def say(self, *lines):
        try:
            self.process.stdin.write("".join(line + "\n" for line in lines).encode())
            self.process.stdin.flush()
        except OSError as why:
            raise self.fault() from why

    def line(self):
        """The next line of its answer, without its end."""
        line = self.process.stdout.readline()
        if not line.endswith(b"\n"):
            raise self.fault()
        return line.decode("ascii")[:-1]

    def fault(self):
        """Why it doesn't answer any more, by what it says itself."""
        self.process.kill()
        said = self.process.stderr.read().decode(errors="replace").strip()
        status = self.process.wait()
        return MatchFault(said or f"holdem_table {self.words[0]} ended in the middle of the match (status {status})")

    def close(self):
        kill(self.process)
        for pipe in (self.process.stdin, self.process.stdout, self.process.stderr):
            try:
                pipe.close()
            except OSError:
                pass


class Dealer:
    """The sequential dealer of a match. `turn` is the seat that is to act, none where no hand runs; `lines` is what each
    seat sees, `hand` the number of the newest hand, -1 before the first deal."""

    def __init__(self, program, path, game, hands, names):
        """`game` is the bytes of the game file at a path. Where it is refused, the MatchFault has the refusal's number, name
        and line."""
        descriptor = file_in_memory("game", game)
        try:
            self.child = Child(program, ["hand", "--log", "--hands", str(hands), path_of(descriptor)], [descriptor])
        finally:
            os.close(descriptor)
        self.hands, self.players = hands, len(names)
        self.hand, self.turn, self.lines = -1, None, []
        try:
            self.take_names(path, game, names)
        except MatchFault:
            self.close()
            raise

    def take_names(self, path, game, names):
        try:
            self.child.say("names " + "|".join(names))
            answer = self.child.line()
        except MatchFault as why:
            raise MatchFault(f"the game {path} is refused: {why}") from why
        self.game = Game(game.decode("latin-1"))
        if self.game.players != self.players:
            raise MatchFault(f"{path} is for {self.game.players} players, and {self.players} are named")
        if answer.startswith("E "):
            raise MatchFault(f"the names {' '.join(names)} are refused: {answer[2:]}")

    def is_over(self):
        return self.turn is None and self.hand + 1 == self.hands

    def deal(self, cards):
        """Deals the next hand; a text that isn't a deal's is a MatchFault."""
        self.child.say(f"deal {cards}")
        first = self.child.line()
        if first.startswith("E "):
            raise MatchFault(f"hand {self.hand + 1} can't be dealt as {cards!r}: {first[2:]}")
        self.hand += 1
        self.see(first)

    def act(self, action):
        """Has the seat whose turn it is act. The refusal of an action that isn't legal (`24 RaiseTooSmall 200`), or
        nothing and the lines that came to the log: the hand's where it ended, and the score behind the last hand's."""
        self.child.say(action)
        first = self.child.line()
        if first.startswith("E "):
            return first[2:], []
        self.see(first)
        count = 0 if self.turn is not None else 2 if self.is_over() else 1
        return None, [self.child.line()[2:] for _ in range(count)]

    def see(self, first):
        """Reads what each seat sees after a deal or an action, of which the first line was read already."""
        answer = [first] + [self.child.line() for _ in range(self.players - 1)]
        self.lines = [line.partition(" ")[2] for line in answer]
        position = Betting(self.game, self.lines[0].split(":")[3]).to_act()
        self.turn = None if position is None else (position + self.hand) % self.players

    def close(self):
        self.child.close()


class Draw:
    """The deals that nodes draw from a seed, hand after hand, as texts of a script.

    `play` shows them: its nodes have no bots here, and all players are away, so that each hand ends soon."""

    def __init__(self, program, game, hands, players, seed):
        text = "".join(f"{key} = {value}\n" for key, value in (
            ("name", '"draw"'), ("hands", hands), ("names", json.dumps([f"seat{seat}" for seat in range(players)])),
            ("stores", '"none"'), ("logs", '"none"'), ("port", 7000), ("node", f"[{', '.join(3 * [f'{{ seed = {seed} }}'])}]"),
        ))
        cards = file_in_memory("game", game)
        match = file_in_memory("match", f'game = "{path_of(cards)}"\n{text}'.encode())
        try:
            self.child = Child(program, ["play", path_of(match)], [cards, match])
        finally:
            os.close(cards)
            os.close(match)
        self.players, self.hand, self.found = players, 0, {}

    def __iter__(self):
        return self

    def __next__(self):
        """The next hand's deal."""
        for _ in range(ROUNDS):
            if self.hand in self.found:
                self.hand += 1
                return self.found.pop(self.hand - 1)
            self.go_on()
        raise MatchFault(f"holdem_table play shows no deal of hand {self.hand}")

    def go_on(self):
        """Has so many players be away as end a hand in most games, and begins a ballot, since one is good for 64 commands
        alone. Keeps the deals that this shows."""
        absent = (self.players - 1) * ["away 0", "flush 999"] if self.hand else []
        self.child.say(*absent, "tick 0", "flush 999", NOTHING)
        for frame in map(DEAL_FRAME.fullmatch, iter(self.child.line, SAID_NOTHING)):
            if frame:
                self.found[int(frame[1], 16)] = deal_text([CARDS[number] for number in bytes.fromhex(frame[2])])

    def close(self):
        self.child.close()
