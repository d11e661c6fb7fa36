#!/usr/bin/env python3
"""A bot that does what a test asks: tests/league_bot.py HOW GAME HOST PORT [FOLDER]

  calls     calls
  raises    raises to 300 where it begins to bet, and else calls
  quits     folds where it faces a bet and else calls; whenever it has folded it ends with status 1
  noisy     calls, and writes 20 MiB first
  slow      calls, a quarter of a second after each line
  stubborn  never comes; it and a process that it starts don't end when they are asked to
  silent    comes, answers nothing, and doesn't end when it is asked to
  wrong     calls, but answers its first turn with an action that nobody can read
  returns   comes, answers nothing, comes again when its connection ends, and doesn't end when it is asked to; in the same folder
            its next process calls
  varies    folds, calls and raises by the name of its folder and the line alone; its raises are of any amount. Where FOLDER is
            there, it makes a file in it at its first turn of every fourth hand, whose name is the number of its process, and
            waits until that is taken away
"""
import contextlib
import os
import signal
import socket
import sys
import time
import zlib
from pathlib import Path

sys.dont_write_bytecode = True

from serving import Game, turn_of

# Who waits for a test does so in the last of each so many hands, for so many seconds at most.
EACH, MOST = 4, 300


def acts(how, betting, turn, line):
    """The action at a turn, of which `turn` is the number."""
    if how == "varies":
        return varied(zlib.crc32(f"{Path.cwd().name} {line.rstrip()}".encode()))
    if how == "raises" and not betting.raises:
        return "r300"
    if how == "quits" and betting.may_fold():
        return "f"
    return "x" if how == "wrong" and turn == 0 else "c"


def varied(number):
    """An action by a number: one of eight folds, two raise."""
    amount = number // 8 % (900 if number % 5 else 30000)
    return "f" if number % 8 == 0 else f"r{amount}" if number % 8 < 3 else "c"


def wait_for_test(folder):
    """Tells a test that this bot waits, until it is told that it may go on."""
    file, until = Path(folder, str(os.getpid())), time.monotonic() + MOST
    # (where the folder isn't there, or goes in this moment, no test waits)
    with contextlib.suppress(FileNotFoundError):
        file.touch()
    while file.exists() and time.monotonic() < until:
        time.sleep(0.002)


def play(how, game, host, port, folder=None):
    turn, waited_in = 0, -1
    # (a match that stands still is waited for)
    with socket.create_connection((host, int(port)), timeout=None) as connection:
        connection.sendall(b"# a comment may come first\r\nVERSION:2.0.0\r\n")
        for line in connection.makefile("r", encoding="ascii", newline="\r\n"):
            betting = turn_of(game, line.rstrip("\r\n"))
            if betting is None or how == "silent":
                continue
            if how == "slow":
                time.sleep(0.25)
            hand = int(line.split(":")[2])
            if folder and hand % EACH == EACH - 1 and hand != waited_in:
                waited_in = hand
                wait_for_test(folder)
            action = acts(how, betting, turn, line)
            turn += 1
            connection.sendall(f"{line.rstrip()}:{action}\r\n".encode())
            if how == "quits" and action == "f":
                sys.exit(1)


def is_first():
    """Whether no process of this bot was here before."""
    try:
        os.close(os.open("came", os.O_CREAT | os.O_EXCL))
    except FileExistsError:
        return False
    return True


def be_stubborn():
    signal.signal(signal.SIGTERM, signal.SIG_IGN)
    if os.fork() == 0:
        os.close(1)
    time.sleep(600)


def main(how, path, host, port, folder=None):
    if how == "stubborn":
        be_stubborn()
    if how == "noisy":
        for _ in range(20):
            os.write(1, 1024 * (1023 * b"x" + b"\n"))
    if how in ("silent", "returns"):
        signal.signal(signal.SIGTERM, signal.SIG_IGN)
    with open(path, encoding="ascii") as file:
        game = Game(file.read())
    if how == "returns" and is_first():
        play("silent", game, host, port)
    play("calls" if how == "returns" else how, game, host, port, folder)


if __name__ == "__main__":
    main(*sys.argv[1:])
