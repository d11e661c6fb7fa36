#!/usr/bin/env python3
"""How the nodes of a match are, whose nodes run in processes of their own: tools/status MATCH

Asks each node at its `status` address, all at once, and prints a table with a row for each. Behind a tunnel the address
in this machine's match file is the tunnel's near end. A node is asked again until three seconds are over, since one lost
packet can cost a second; then it is `not reached`. One without such an address is told too. Behind the table stands who is
far behind the node that leads, as that has heard. The status is 0 where all answered, else 1, and 2 where there is no right
match file.
"""
import re
import socket
import sys
import time
from concurrent.futures import ThreadPoolExecutor

# How long a node may take for one answer, how long it is asked in all, and the pause between two tries, in seconds.
LIMIT, IN_ALL, PAUSE = 1.0, 3.0, 0.2
# A node is far behind from so many commands on: more than one ballot proposes ahead.
FAR = 65
# The most bytes of a line.
MOST = 1 << 16
COLUMNS = ["node", "front", "hand", "over", "replaying", "promised", "leads", "quorum", "peers", "seats", "pending", "backlog", "commands"]
TABLE = re.compile(r"^[ \t]*\[\[[ \t]*node[ \t]*\]\](.*?)(?=^[ \t]*\[|\Z)", re.M | re.S)
INLINE = re.compile(r"^[ \t]*node[ \t]*=[ \t]*\[(.*?)\][ \t]*$", re.M | re.S)
STATUS = re.compile(r"""(?:^|[{,])\s*status\s*=\s*["']([^"']*)["']""", re.M)
COMMENT = re.compile(r"^[ \t]*#.*$", re.M)


def addresses(text):
    """Where each node is asked, by its number; none of one that has no `status`."""
    text = COMMENT.sub("", text)
    inline = INLINE.search(text)
    tables = re.findall(r"\{.*?\}", inline[1], re.S) if inline else TABLE.findall(text)
    return [found and found[1] for found in map(STATUS.search, tables)]


def place(address):
    """The host and the port of an address, which is PORT or HOST:PORT."""
    host, _, port = address.rpartition(":")
    return host.strip("[]") or "127.0.0.1", int(port)


def answer_at(address, limit=LIMIT):
    """The line that is said at an address within so many seconds."""
    until, line = time.monotonic() + limit, b""
    with socket.create_connection(place(address), timeout=limit) as connection:
        while not line.endswith(b"\n") and len(line) < MOST:
            connection.settimeout(max(0.001, until - time.monotonic()))
            piece = connection.recv(4096)
            if not piece:
                break
            line += piece
    if not line:
        raise ConnectionError("it was closed without a word")
    return line.decode("ascii")


def answer_in_time(address):
    """The same; where a try fails it is asked again, until the time is over."""
    until = time.monotonic() + IN_ALL
    while True:
        try:
            return answer_at(address, min(LIMIT, max(0.001, until - time.monotonic())))
        except OSError:
            if time.monotonic() + PAUSE >= until:
                raise
        time.sleep(PAUSE)


def row(number, address):
    """What is told of a node: a word for each column; else why there are none. Nothing that a terminal obeys is taken from it."""
    if address is None:
        return "no status in the match file"
    try:
        words = answer_in_time(address).split()
    except (OSError, ValueError, OverflowError):
        return "not reached"
    if words[::2] != COLUMNS or not all(word.isprintable() for word in words):
        return "something else answers there"
    if words[1] != str(number):
        return f"node {words[1]} answers there"
    return words[1::2]


def printed(rows):
    """The table; one node's row that has no words stands as a remark behind its number."""
    known = [COLUMNS, *(row for row in rows if not isinstance(row, str))]
    widths = [max(len(words[column]) for words in known) for column in range(len(COLUMNS))]
    for number, words in enumerate([COLUMNS, *rows], -1):
        if isinstance(words, str):
            words = [str(number), words]
        yield "  ".join(word.ljust(width) for word, width in zip(words, widths)).rstrip()


def far_behind(rows):
    """Who is far behind, as a node that leads tells it of its peers: one that answers late would seem ahead of those that answered at once."""
    for told in (dict(zip(COLUMNS, row)) for row in rows if not isinstance(row, str)):
        for number, front in re.findall(r"(\d+):(\d+)", told["peers"]) if told["leads"] == "yes" and told["front"].isdigit() else []:
            if int(told["front"]) - int(front) >= FAR:
                yield f"node {number} is {int(told['front']) - int(front)} commands behind"


def main(words):
    if "-h" in words or "--help" in words:
        print(__doc__.strip())
        return 0
    if len(words) != 1:
        print("usage: tools/status MATCH", file=sys.stderr)
        return 2
    try:
        with open(words[0], encoding="utf-8") as file:
            asked = addresses(file.read())
    except (OSError, ValueError) as why:
        print(f"tools/status: {words[0]}: {why}", file=sys.stderr)
        return 2
    if not asked:
        print(f"tools/status: {words[0]}: no nodes", file=sys.stderr)
        return 2
    with ThreadPoolExecutor(len(asked)) as pool:
        rows = list(pool.map(row, range(len(asked)), asked))
    print("\n".join([*printed(rows), *far_behind(rows)]))
    return 1 if any(isinstance(row, str) for row in rows) else 0


if __name__ == "__main__":
    sys.exit(main(sys.argv[1:]))
