"""Tests of tests/processes: bots that ask for their lines from one on, and are told the end of their match."""
import random
import socket
import threading
import time

from log_lines import lines_of
from measuring import pause, want
from processes_match import Match, test
from serving import NAMES, QUIET, REACHED, patience, reached, waited

VERSION = b"VERSION:2.0.0\r\n"
# What has come to this process is read within so long, in seconds.
AT_HAND = 0.01


class Resumer(threading.Thread):
    """A player who asks for all lines of his seat at first, and then for those from his last one on. He goes to the next node
    after a few lines, and ends at #OVER."""

    def __init__(self, match, seat, most, seed):
        super().__init__(daemon=True)
        self.match, self.seat, self.most, self.dice = match, seat, most, random.Random(seed * 100 + seat)
        self.lines, self.is_over, self.faults, self.sittings = [], False, [], 0
        self.start()

    def run(self):
        node = self.dice.randrange(self.match.count)
        while not self.is_over and not self.match.has_ended.is_set():
            try:
                with socket.create_connection((self.match.address(node), self.match.seats[node] + self.seat), REACHED) as connection:
                    self.sit(connection)
            except OSError:
                pass
            node = (node + 1) % self.match.count
            time.sleep(0.02)

    def sit(self, connection):
        """Answers lines until the connection ends, nothing comes for some seconds, or so many came."""
        connection.settimeout(3)
        last = self.lines[-1] if self.lines else None
        connection.sendall(f"#RESUME {last or 'FIRST'}\r\n".encode() + VERSION)
        self.sittings += 1
        left, file = self.dice.randrange(3, self.most), connection.makefile(newline="\n")
        for line in file:
            line = line.removesuffix("\n").removesuffix("\r")
            if line == "#OVER":
                self.is_over = True
                return
            if last is None:
                self.lines.append(line)
            elif line != last:
                self.faults.append(f"{line} came where {last} was asked for")
            last, left = None, left - 1
            if line.startswith("#"):
                return
            self.match.see(line)
            if self.match.choice(self.seat, line):
                connection.sendall(f"{line}:c\r\n".encode())
            if left == 0:
                return


@test(seeds=2, long_seeds=20)
def lines_from_the_last(seed, is_long):
    """Bots go from node to node after a few lines each, and a random process is killed again and again: each bot gets all lines
    of its seat from the first deal on, each once and in order, and then #OVER."""
    dice, match = random.Random(seed), Match(hands=100 if is_long else 60)
    match.set_up()
    bots, kills = [Resumer(match, seat, 40 + 20 * seat, seed) for seat in range(match.players)], 0
    while match.hand < match.hands - 3:
        goal, node = len(match.seen) + dice.randint(20, 80), dice.randrange(match.count)
        waited(lambda: match.is_alive() and (len(match.seen) >= goal or match.hand >= match.hands - 3), "commands", match.last_notes, seen=match.played)
        match.kill(node)
        match.start(node)
        kills += 1
    waited(lambda: all(bot.is_over for bot in bots), "#OVER at each seat", match.last_notes, seen=lambda: [len(bot.lines) for bot in bots])
    match.ends()
    for bot in bots:
        want(not bot.faults, f"{NAMES[bot.seat]}: {bot.faults[:3]}")
        want(bot.lines == lines_of(match, match.log(0), bot.seat), f"{NAMES[bot.seat]} got {len(bot.lines)} lines, which aren't those of the match")
    return f"{kills} kills, {[bot.sittings for bot in bots]} sittings"


def told(match, node, seat, words, count, ends=False, is_slow=False):
    """What the bot of a seat is told that says this before its version, once so many lines came, and the connection has ended if
    it is to; and whether it has. A slow one sends a byte at a time."""
    with reached((match.address(node), match.seats[node] + seat), match.last_notes) as connection:
        said = b"".join(b"#" + word + b"\r\n" for word in words) + VERSION
        for piece in [said[place : place + 1] for place in range(len(said))] if is_slow else [said]:
            connection.sendall(piece)
        got, has_ended, until = b"", False, time.monotonic() + patience()
        try:
            while not has_ended and time.monotonic() < until:
                is_all = got.count(b"\n") >= count and not ends
                if is_all:
                    pause(QUIET)
                connection.settimeout(AT_HAND if is_all else patience())
                more = connection.recv(1 << 16)
                got, has_ended = got + more, not more
        except socket.timeout:
            pass
        except ConnectionResetError:
            has_ended = True
        return got.split(b"\r\n")[:-1], has_ended


def is_told(match, node, seat, words, lines, ends=False, **how):
    """A bot is told these lines, and whether its connection ends then. A node without a quorum closes it before: a bot comes
    again once the node has one."""
    quorums = lambda: [sum(note.startswith(start) for note in match.notes(node)) for start in ("quorum:", "quorum lost")]
    while True:
        waited(lambda: (lambda had, lost: had > lost)(*quorums()), f"a quorum of node {node}", match.last_notes)
        before, got = quorums(), told(match, node, seat, words, len(lines), ends, **how)
        if got == (lines, ends):
            return
        # (its note may come a moment later)
        pause(QUIET)
        want(quorums() != before, f"who says {words} at node {node} is told {got}, not {(lines, ends)}: {match.last_notes()}")


def answered(match, node, seat, line):
    """The line that follows a call in answer to this one; none where the connection ends before."""
    with reached((match.address(node), match.seats[node] + seat), match.last_notes) as connection:
        connection.settimeout(patience())
        connection.sendall(VERSION)
        for newest in map(bytes.strip, connection.makefile("rb")):
            if newest != line:
                return newest
            connection.sendall(line + b":c\r\n")
    return None


@test()
def words_before_the_version(seed, is_long):
    """A bot is told the lines for which it asks; #OTHER where the line that it names is none of its seat; and nothing where the
    match hasn't come to that line yet."""
    match = Match(hands=6)
    match.set_up()
    seats = range(match.players)
    first = [waited(lambda: told(match, 0, seat, [], 1)[0], "a first line", match.last_notes)[0] for seat in seats]
    actor = next(seat for seat in seats if match.choice(seat, first[seat].decode()))
    is_told(match, 1, actor, [], [first[actor]])
    second = waited(lambda: answered(match, 1, actor, first[actor]), "the line behind the answer", match.last_notes)
    both = [first[actor], second]
    # What is asked, and what comes: lines, and whether the connection ends.
    asked = [
        ([], [second], False),
        ([b"RESUME NEWEST"], [second], False),
        ([b"TOKEN x", b"RESUME NEWEST"], [second], False),
        ([b"RESUME FIRST"], both, False),
        ([b" FIRST", b"RESUME " + first[actor]], both, False),
        ([b"RESUME " + second], [second], False),
        ([b"RESUME " + first[actor].replace(b":0::", b":4::")], [], False),
        ([b"RESUME " + first[actor].replace(b":0::", b":6::")], [b"#OTHER"], True),
        ([b"RESUME " + first[1 - actor]], [b"#OTHER"], True),
        ([b"RESUME MATCHSTATE"], [b"#OTHER"], True),
        ([b"RESUME "], [b"#OTHER"], True),
        ([b"RESUME FIRST", b"RESUME FIRST"], [b"#OTHER"], True),
        ([b"RESUME " + b"M" * 5000], [], True),
    ]
    for node in range(match.count):
        # (a node that is behind tells the second line once it has it)
        is_told(match, node, actor, [b"RESUME " + second], [second])
        for words, lines, ends in asked:
            is_told(match, node, actor, words, lines, ends)
        match.await_note(node, "86 OtherLine")
    is_told(match, 0, actor, [b"RESUME FIRST"], both, is_slow=True)
    match.let_bots_come()
    match.ends()
