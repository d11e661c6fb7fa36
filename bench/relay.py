#!/usr/bin/env python3
"""What a relay adds to each line and each answer: bench/relay.py [--lines N] [--program FILE].

A node of the bench sends lines over a relay to a bot of the bench, which answers each; then the same over one connection
without a relay. One thread does both, so a way is measured from the call that sends to the call that has all of it. It
prints the medians in microseconds, and what the relay adds: below 50 is wanted on a machine that does nothing else.
"""
import argparse
import socket
import statistics
import struct
import subprocess
import sys
import time
from pathlib import Path

TOP = Path(__file__).resolve().parent.parent
VERSION = b"VERSION:2.0.0\r\n"
# What nobody sends within so long doesn't come, in seconds.
LONGEST = 30


def ready(connection):
    """A connection that sends at once, and over which nothing is waited for too long. (A timeout of Python's own would cost a call more.)"""
    connection.settimeout(None)
    connection.setsockopt(socket.IPPROTO_TCP, socket.TCP_NODELAY, 1)
    connection.setsockopt(socket.SOL_SOCKET, socket.SO_RCVTIMEO, struct.pack("ll", LONGEST, 0))
    return connection


def piece_of(connection):
    """What comes next over a connection."""
    try:
        piece = connection.recv(65536)
    except BlockingIOError:
        sys.exit(f"bench/relay.py: nothing came within {LONGEST} seconds")
    if not piece:
        sys.exit("bench/relay.py: a connection ended")
    return piece


def received(connection, count):
    """So many bytes of a connection."""
    got = b""
    while len(got) < count:
        got += piece_of(connection)
    return got


def received_to(connection, end):
    """What comes over a connection up to these bytes, behind which nothing follows by itself."""
    got = b""
    while not got.endswith(end):
        got += piece_of(connection)
    return got


def timed(sender, receiver, text):
    """How many microseconds a text takes from one end to the other."""
    begun = time.perf_counter_ns()
    sender.sendall(text)
    received(receiver, len(text))
    return (time.perf_counter_ns() - begun) / 1000


def ways(node, bot, count):
    """The times of so many lines, and of the answers to them."""
    lines, answers = [], []
    for hand in range(count):
        line = b"MATCHSTATE:0:%d:cr300:5d5c|" % hand
        lines.append(timed(node, bot, line + b"\r\n"))
        answers.append(timed(bot, node, line + b":c\r\n"))
    return lines, answers


def relayed(program, count):
    """The times over a relay."""
    with socket.create_server(("127.0.0.1", 0)) as listener:
        listener.settimeout(LONGEST)
        # (the lines of the bench begin anywhere, so the relay isn't to wait for the match's first)
        words = [program, "relay", "--newest", f"127.0.0.1:{listener.getsockname()[1]}"]
        process = subprocess.Popen(words, stdout=subprocess.PIPE, stderr=subprocess.DEVNULL)
        try:
            bot = ready(socket.create_connection(("127.0.0.1", int(process.stdout.readline()))))
            bot.sendall(VERSION)
            node = ready(listener.accept()[0])
            received_to(node, VERSION)
            return ways(node, bot, count)
        finally:
            process.kill()
            process.wait()


def direct(count):
    """The times over one connection."""
    with socket.create_server(("127.0.0.1", 0)) as listener:
        bot = ready(socket.create_connection(listener.getsockname()))
        return ways(ready(listener.accept()[0]), bot, count)


def main():
    parser = argparse.ArgumentParser(description=__doc__, formatter_class=argparse.RawDescriptionHelpFormatter)
    parser.add_argument("--lines", type=int, default=20000, help="how many lines go each way (20000)")
    parser.add_argument("--program", default=TOP / "crates/holdem_table/out/holdem_table")
    words = parser.parse_args()
    if words.lines < 1:
        parser.error("a bench has one line at least")
    if not Path(words.program).is_file():
        sys.exit("bench/relay.py: the program isn't built; ./check or ./demo builds it")
    over, beside = relayed(words.program, words.lines), direct(words.lines)
    for name, long, short in zip(("line", "answer"), over, beside):
        slow, fast = statistics.median(long), statistics.median(short)
        most = sorted(long)[len(long) * 99 // 100]
        print(f"{name}: {slow:.1f} us over the relay (99 of 100 below {most:.1f}), {fast:.1f} us without it: it adds {slow - fast:.1f} us")


if __name__ == "__main__":
    main()
