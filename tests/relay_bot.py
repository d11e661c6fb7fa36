#!/usr/bin/env python3
"""A stock bot: tests/relay_bot.py GAME SEED HOST PORT RECORD [MICROSECONDS]. It dials once, thinks so long at its turn, plays
as examples/bots/raiser does, by the line alone, keeps each line that it gets in RECORD, and ends with the connection."""
import socket
import sys
import time

sys.dont_write_bytecode = True

from serving import Game

from raising import choice


def main(path, seed, host, port, record, pause="0"):
    with open(path, encoding="ascii") as file:
        game = Game(file.read())
    with socket.create_connection((host, int(port))) as connection, open(record, "wb", buffering=0) as kept:
        connection.settimeout(None)
        connection.setsockopt(socket.IPPROTO_TCP, socket.TCP_NODELAY, 1)
        connection.sendall(b"VERSION:2.0.0\r\n")
        for line in connection.makefile("rb"):
            kept.write(line)
            text = line.decode("ascii").rstrip("\r\n")
            action = choice(game, seed, text)
            if action is not None:
                time.sleep(int(pause) / 1_000_000)
                connection.sendall(f"{text}:{action}\r\n".encode())


if __name__ == "__main__":
    main(*sys.argv[1:])
