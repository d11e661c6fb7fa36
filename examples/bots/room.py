"""A bot's way into a room of tools/room: it says who it is, plays one match, and dials again as long as that isn't over.

The room's own words are comment lines that begin with #ROOM; docs/ROOM.md has them.
"""
import select
import sys
import time

from player import LINE, REACHED, dial, send

# How long a bot pauses before it dials again, in seconds: its seat is kept for a minute, or as long as the room's file says.
PAUSE = 1.0
ROOM, OVER, REFUSED, DROPPED = "#ROOM", "over", "refused", "dropped"


def play_in_room(address, asked, token, choose, see, give_up, record):
    """Plays a match of a room. `asked` is the bot's name, and what more it asks for: 'alice against house'. Returns whether any line
    came. It gives up where no line came for so many seconds, if there is such a bound."""
    name, _, more = asked.partition(" ")
    line = f"{ROOM} {name} {token}" + (f" {more}" if more else "")
    came, since = False, time.monotonic()
    while give_up is None or time.monotonic() - since < give_up:
        connection = dial(address, REACHED)
        if connection is not None:
            with connection:
                send(connection, "VERSION:2.0.0", line)
                for lines, word in told(connection):
                    came, since = came or bool(lines), time.monotonic()
                    answer(connection, lines, choose, see, record)
                    if word in (OVER, REFUSED, DROPPED):
                        return came
        time.sleep(PAUSE)
    return came


def answer(connection, lines, choose, see, record):
    """Answers the newest of some lines, if the bot is to act there."""
    for line in lines:
        record.keep("TO", line)
        see(line)
    action = choose(lines[-1]) if lines else None
    if action is not None:
        record.keep("FROM", f"{lines[-1]}:{action}")
        send(connection, f"{lines[-1]}:{action}")


def told(connection):
    """Yields the dealer's lines that have come, all of them at a time, and the room's last word beside them, if there is one. The room's
    words are shown too."""
    rest, lines = b"", []
    while True:
        try:
            piece = connection.recv(65536)
        except OSError:
            piece = b""
        *whole, rest = (rest + piece).split(b"\n")
        words = [line.decode(errors="replace").strip() for line in whole]
        lines += [word for word in words if LINE.fullmatch(word.encode())]
        said = [word for word in words if word.startswith(ROOM + " ")]
        for word in said:
            print("".join(letter if letter.isprintable() else "?" for letter in word), file=sys.stderr)
        if not piece or said or not (rest or select.select([connection], [], [], 0)[0]):
            yield lines, said[-1].split(" ")[1].rstrip(":") if said else None
            lines = []
        if not piece:
            return
