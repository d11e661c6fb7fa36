#!/usr/bin/env python3
"""A table for training: `holdem_table hand` deals hand after hand, and judges each action. examples/table_env.py GAME [OPTIONS]

    table = Table("examples/l2.game", seed=1)
    seen = table.reset()
    while seen is not None:
        seen = table.step(random.choice(table.legal_actions()))
    print(table.payoffs)

As a command it lets random players play, and prints how fast that is:

  GAME             the game file
  --hands N        how many hands in all (100000)
  --tables N       how many tables at once, each over a process of its own (4)
  --seed N         what decks and actions are drawn from (1)
  --program PATH   the program that deals; else the one that HOLDEM_TABLE names, else the proved one

docs/TRAINING.md says what a player sees, how to let several tables run at once, and how Gymnasium and PettingZoo are served.
Exit status: 0 if all was played; 1 if the program refuses the game or ends; 2 if the command line is wrong. It needs Python 3.8.
"""
import argparse
import os
import random
import subprocess
import sys
import time
from pathlib import Path
from typing import NamedTuple, Optional, Sequence

sys.dont_write_bytecode = True
HERE = Path(__file__).resolve().parent
sys.path[:0] = [str(HERE / "bots"), str(HERE.parent / "tools")]

import newer_python

newer_python.want("table_env", newer_python.LEAST)

import which_program
from table import Betting, Game

RANKS = "23456789TJQKA"
CARDS = [rank + suit for rank in RANKS for suit in "cdhs"]
BOARD_CARDS = [0, 3, 4, 5]
# How many hands one process deals: a match has no more.
HANDS = 10000
SECONDS_BETWEEN_NOTES = 2
# The actions that a learner chooses from, by their places. Raises that come to the same amount are there once; in a limit game
# there is the first one alone.
ACTIONS = ["fold", "check or call", "least raise", "raise by half the pot", "raise by the pot", "all-in"]


class TableFault(Exception):
    """The program can't be started, refuses the game, or has ended."""


class NotLegal(ValueError):
    """An action that the dealer refuses, by number and name of the fault. The table is as it was."""


class Observation(NamedTuple):
    """What the player to act sees: the cards of nobody else. Amounts are whole chips over the whole hand, by position."""

    seat: int
    position: int  # from 0, the first player behind the button
    hole: str
    board: str
    betting: str
    spent: Sequence[int]
    folded: Sequence[bool]
    to_call: int
    raise_range: Optional[Sequence[int]]  # the least and the greatest amount to which he may raise
    actions: Sequence[Optional[str]]  # what each of ACTIONS is called here; None where it isn't legal


def actions_of(betting):
    """What each of ACTIONS is for the player to act, in the words of a script of `hand`."""
    most, spent = max(betting.spent), betting.spent[betting.turn]
    fold, bounds = "f" if spent < most else None, betting.raise_range()
    if bounds is None or betting.game.is_limit:
        return (fold, "c", None if bounds is None else "r", None, None, None)
    pot = sum(betting.spent) + most - spent
    amounts = [min(max(amount, bounds[0]), bounds[1]) for amount in (bounds[0], most + pot // 2, most + pot, bounds[1])]
    return (fold, "c", *(f"r{it}" if it not in amounts[:place] else None for place, it in enumerate(amounts)))


class Table:
    """One table: hand after hand of a game, over one process. Seats count from 0; the button moves on by one with each hand."""

    def __init__(self, path, seed, program=None):
        self.program, self.path, self.dice = program or which_program.chosen(), path, random.Random(seed)
        try:
            self.text = Path(path).read_bytes()
        except OSError as why:
            raise TableFault(f"the game {path} can't be read: {why.strerror}") from why
        self.process, self.game, self.seen, self.payoffs = None, None, None, None
        self.start()

    def start(self):
        """Starts a process of the program, which reads the game from memory."""
        self.close()
        game = os.memfd_create("game")
        with os.fdopen(os.dup(game), "wb") as file:
            file.write(self.text)
        words = [self.program, "hand", "--log", "--hands", str(HANDS), f"/proc/self/fd/{game}"]
        try:
            self.process = subprocess.Popen(words, stdin=subprocess.PIPE, stdout=subprocess.PIPE, stderr=subprocess.PIPE, pass_fds=[game])
        except OSError as why:
            raise TableFault(f"the program {self.program} can't be started: {why.strerror}") from why
        finally:
            os.close(game)
        self.take_names()

    def take_names(self):
        """Names the seats. A game that the program refuses is a TableFault with the refusal's number, name and line."""
        try:
            self.game = Game(self.text.decode("latin-1"))
        except (KeyError, IndexError):
            # (the program says what is wrong with it)
            self.line()
        self.say("names " + "|".join(f"seat{seat}" for seat in range(self.game.players)))
        self.line()
        self.hand, self.betting = -1, None

    def close(self):
        """Ends its process."""
        if self.process is not None:
            self.process.kill()
            self.process.wait()
            for pipe in (self.process.stdin, self.process.stdout, self.process.stderr):
                pipe.close()
            self.process = None

    def say(self, text):
        try:
            self.process.stdin.write(text.encode() + b"\n")
            self.process.stdin.flush()
        except OSError:
            raise self.fault() from None

    def line(self):
        text = self.process.stdout.readline()
        if not text.endswith(b"\n"):
            raise self.fault()
        return text.decode("ascii")[:-1]

    def fault(self):
        self.process.kill()
        said = self.process.stderr.read().decode(errors="replace").strip()
        return TableFault(f"{self.path}: {said or 'the program has ended'}")

    def reset(self):
        """Deals the next hand. What the player to act sees. A hand that isn't over yet is ended by default actions."""
        while self.seen is not None:
            self.step("away")
        self.begin_deal()
        return self.end_deal()

    def begin_deal(self):
        """Tells the program to deal, and doesn't wait for its answer, which `end_deal` takes."""
        if self.hand + 1 == HANDS:
            self.start()
        players = self.game.players
        cards = self.dice.sample(CARDS, 2 * players + 5)
        self.holes = [cards[2 * p] + cards[2 * p + 1] for p in range(players)]
        self.cards = cards[-5:]
        self.say(f"deal {'|'.join(self.holes)}/{''.join(cards[-5:-2])}/{cards[-2]}/{cards[-1]}")

    def end_deal(self):
        self.hand, self.payoffs, self.betting = self.hand + 1, None, Betting(self.game, "")
        self.text_of_betting = ""
        return self.see(self.line())

    def step(self, action):
        """The player to act does something: one of `legal_actions`, or a raise to another amount, as `r300`. What the next one sees;
        None if the hand is over, and `payoffs` then has what each seat won or lost."""
        self.begin_step(action)
        return self.end_step()

    def begin_step(self, action):
        """Tells the program of an action, and doesn't wait for its answer, which `end_step` takes."""
        if self.seen is None:
            raise NotLegal("no hand runs")
        self.say(action)

    def end_step(self):
        first = self.line()
        if first.startswith("E "):
            raise NotLegal(first[2:])
        return self.see(first)

    def see(self, first):
        """Reads the lines that the seats get, and the log's if the hand is over. The first line is at hand."""
        for _ in range(self.game.players - 1):
            self.line()
        text = first.split(":")[3]
        for word in new_words(text[len(self.text_of_betting) :]):
            if word == "/":
                self.betting.begin_round(self.betting.round + 1)
            else:
                self.betting.take(word)
        self.text_of_betting = text
        position = self.betting.to_act()
        self.seen = None if position is None else self.seen_by(position)
        if position is None:
            self.take_payoffs(self.line())
        return self.seen

    def take_payoffs(self, line):
        """Takes the line of the hand in the log, whose values are by position. The score is behind the last one."""
        values = [int(value) for value in line.split(":")[-2].split("|")]
        players = self.game.players
        self.payoffs = [values[(seat - self.hand) % players] for seat in range(players)]
        if self.hand + 1 == HANDS:
            self.line()

    def seen_by(self, position):
        betting = self.betting
        return Observation(
            (position + self.hand) % self.game.players, position, self.holes[position], "".join(self.cards[: BOARD_CARDS[betting.round]]),
            self.text_of_betting, tuple(betting.spent), tuple(betting.folded), max(betting.spent) - betting.spent[position],
            betting.raise_range(), actions_of(betting),
        )

    def observation(self):
        """What the player to act sees; None if no hand runs."""
        return self.seen

    def legal_actions(self):
        """What the player to act may do, of ACTIONS; the observation's `raise_range` has all amounts of raises."""
        return [] if self.seen is None else [action for action in self.seen.actions if action]


class Tables:
    """Several tables that go on together: their processes work while Python reads the first one's answer."""

    def __init__(self, path, seeds, program=None):
        self.tables = [Table(path, seed, program) for seed in seeds]

    def reset(self):
        """Deals the next hand at each table where none runs. What the player to act sees, by table."""
        waiting = [table for table in self.tables if table.seen is None]
        for table in waiting:
            table.begin_deal()
        for table in waiting:
            table.end_deal()
        return [table.seen for table in self.tables]

    def step(self, actions):
        """Takes one action at each table, None where no hand runs. What the next player to act sees, by table."""
        acting = [(table, action) for table, action in zip(self.tables, actions) if action is not None]
        for table, action in acting:
            table.begin_step(action)
        for table, _ in acting:
            table.end_step()
        return [table.seen for table in self.tables]

    def close(self):
        for table in self.tables:
            table.close()


def new_words(text):
    """The actions and the slashes of a betting text."""
    words = []
    for letter in text:
        if letter in "fcr/":
            words.append(letter)
        else:
            words[-1] += letter
    return words


def vector(seen, game):
    """An observation as numbers from 0 to 1: 52 for the own cards, 52 for the board, one for each round, then for each position from
    the own one on what it has put in, as a part of its stack, and whether it has folded."""
    places = [(seen.position + step) % game.players for step in range(game.players)]
    held = [float(card in seen.hole) for card in CARDS] + [float(card in seen.board) for card in CARDS]
    rounds = [float(len(seen.board) == 2 * count) for count in BOARD_CARDS]
    return held + rounds + [it for p in places for it in (seen.spent[p] / game.stacks[p], float(seen.folded[p]))]


def play_at_random(words, tables, dice):
    """Plays so many hands at all tables together; the chips that each seat won."""
    won, left, told = [0] * tables.tables[0].game.players, words.hands, time.monotonic()
    while left > 0:
        seen = tables.reset()
        while any(it is not None for it in seen):
            seen = tables.step([None if it is None else dice.choice([action for action in it.actions if action]) for it in seen])
        for table in tables.tables[:left]:
            won = [chips + more for chips, more in zip(won, table.payoffs)]
        left -= len(tables.tables)
        if time.monotonic() > told + SECONDS_BETWEEN_NOTES:
            told = time.monotonic()
            print(f"table_env: {words.hands - max(left, 0)} of {words.hands} hands", file=sys.stderr)
    return won


def number_from_one(word):
    if not word.isdecimal() or int(word) < 1:
        raise argparse.ArgumentTypeError(f"a number from 1 on, not {word!r}")
    return int(word)


def main(words):
    if "-h" in words or "--help" in words:
        print(__doc__.strip())
        return 0
    parser = argparse.ArgumentParser(prog="examples/table_env.py", usage="examples/table_env.py GAME [OPTIONS]; --help says more", add_help=False)
    parser.add_argument("game")
    parser.add_argument("--hands", type=number_from_one, default=100000)
    parser.add_argument("--tables", type=number_from_one, default=4)
    parser.add_argument("--seed", type=int, default=1)
    option, words = which_program.split(words)
    words = parser.parse_args(words)
    try:
        program, begun = which_program.chosen(option), time.monotonic()
        tables = Tables(words.game, [f"{words.seed} {number}" for number in range(words.tables)], program)
        won = play_at_random(words, tables, random.Random(words.seed))
    except which_program.NoProgram as why:
        print(f"table_env: {why}", file=sys.stderr)
        return 2
    except TableFault as why:
        print(f"table_env: {why}", file=sys.stderr)
        return 1
    seconds = time.monotonic() - begun
    tables.close()
    chips = " ".join(f"{it / words.hands:+.1f}" for it in won)
    print(f"{words.hands} hands at {words.tables} tables in {seconds:.1f} s, {words.hands / seconds:.0f} a second; chips a hand by seat: {chips}")
    return 0


if __name__ == "__main__":
    sys.exit(main(sys.argv[1:]))
