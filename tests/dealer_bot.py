#!/usr/bin/env python3
"""A bot as the competition has them: tests/dealer_bot.py GAME SEED HOST PORT. It dials once, plays as examples/bots/raiser
does, by the line alone, and ends with the connection. The status is 0 where that ended after a line had come."""
import socket
import sys

sys.dont_write_bytecode = True

from serving import Game

from raising import choice


def main(path, seed, host, port):
    with open(path, encoding="ascii") as file:
        game = Game(file.read())
    count = 0
    with socket.create_connection((host, int(port))) as connection:
        connection.settimeout(None)
        connection.sendall(b"VERSION:2.0.0\r\n")
        for line in connection.makefile("r", encoding="ascii", newline="\r\n"):
            count += 1
            action = choice(game, seed, line.rstrip("\r\n"))
            if action is not None:
                connection.sendall(f"{line.rstrip()}:{action}\r\n".encode())
    return 0 if count else 1


if __name__ == "__main__":
    sys.exit(main(*sys.argv[1:]))
