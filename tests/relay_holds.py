"""What tests/relay tries of how long a relay dials nobody, by clients in place of nodes that turn it away or have no quorum."""
import re
import socket
import time

from measuring import in_time, pause, want
from serving import waited

from relay_lines import END, LINE, relayed
from relay_match import FIRST_LINES, VERSION, Dialler, Node, test

# How often nodes are looked at while they mustn't be dialled, at least.
LEAST_LOOKS = 10


@test()
def turned_away(folder, seed, is_long):
    """Nodes that close before any line: a note, and none is dialled for five seconds, then ten."""
    nodes = [Node(stays=False) for _ in range(3)]
    relay = relayed(folder, nodes)
    bot = Dialler(relay)
    relay.await_note("turned away: a wrong token? dials again in 5 s")
    # (the file was written when the note was: a busy machine may have it read late)
    told, counts = relay.notes_file.stat().st_mtime, []
    while time.time() < told + 4.5:
        time.sleep(0.1)
        count = [len(node.connections) for node in nodes]
        if told + 1 < time.time() < told + 4.5:
            counts.append(count)
    # (a test that had no processor meanwhile has seen nothing)
    in_time(len(counts) >= LEAST_LOOKS, f"the nodes were looked at {len(counts)} times")
    # (and one that was dialled before may take the connection meanwhile)
    in_time(counts[:1] * len(counts) == counts, f"nodes are dialled meanwhile: {counts}")
    relay.await_note("turned away: a wrong token? dials again in 10 s")
    bot.close()
    relay.ends(1)


@test()
def another_client(folder, seed, is_long):
    """Nodes that close as soon as they have told a line: another has the seat. One that closes alone says nothing of that."""
    nodes = [Node(LINE + END, stays=False) for _ in range(3)]
    relay = relayed(folder, nodes)
    bot = Dialler(relay)
    want(bot.line() == LINE + END, "the line")
    relay.await_note("another client has this seat: dials again in 5 s")
    bot.close()
    relay.ends(1)
    nodes = [Node(LINE + END, stays=False), Node(LINE + END), Node(LINE + END)]
    relay = relayed(folder, nodes, name="other")
    bot = Dialler(relay)
    pause(3)
    waited(lambda: len(nodes[0].connections) > 5, "it is dialled again and again")
    want(not [note for note in relay.notes() if "another client" in note], f"{relay.notes()}")
    bot.close()
    relay.ends(1)


def held_back(relay):
    """For how many seconds a relay dialled nobody, by its notes in order."""
    return [int(found[1]) for note in relay.notes() if (found := re.search(r"dials again in (\d+) s$", note))]


@test()
def one_round_of_hang_ups(folder, seed, is_long):
    """Seven nodes close as soon as they have told a line, at once: that is one pause of five seconds. They seat the bot behind it:
    no further pause, and the next lines come."""
    nodes = [Node(LINE + END, stays=False) for _ in range(7)]
    relay = relayed(folder, nodes)
    bot = Dialler(relay)
    want(bot.line() == LINE + END, "the line")
    relay.await_note("another client has this seat: dials again in 5 s")
    for node in nodes:
        node.stays = True
    for number in range(7):
        relay.await_note(f"node {number}: seated")
    waited(lambda: all(len(node.got) > 1 and node.got[-1] == VERSION for node in nodes), "the connections behind the pause")
    pause(1.5)
    want(held_back(relay) == [5], f"the pauses are {held_back(relay)} s: {relay.notes()}")
    further = b"MATCHSTATE:0:0:cc/:5d5c|"
    nodes[6].say(further + END)
    want(bot.line() == further + END, "the next line")
    bot.close()
    relay.ends(1)


class QuorumNode(Node):
    """A listener in place of a node that may have no quorum: then it says #WAIT to who asked for lines, and closes."""

    def __init__(self, said=b""):
        self.has_quorum = False
        super().__init__(said)

    def speak(self, connection, place):
        if self.has_quorum:
            super().speak(connection, place)
            return
        raw = b""
        while not FIRST_LINES.fullmatch(raw) and (piece := connection.recv(4096)):
            raw += piece
        self.let_go(connection)

    def let_go(self, connection):
        """Says over a connection that it has no quorum, and ends it."""
        try:
            connection.sendall(b"#WAIT\r\n")
            connection.shutdown(socket.SHUT_RDWR)
        except OSError:
            pass

    def lose_quorum(self):
        """The bot that sits loses its seat."""
        self.has_quorum = False
        self.let_go(self.connections[-1])


@test()
def nodes_without_a_quorum(folder, seed, is_long):
    """Nodes that say #WAIT are dialled again each half second, and that is no reason to hold back: once they have a quorum the
    line comes. So it is of a bot that sat, however soon the quorum is lost again; its answer isn't lost with it."""
    nodes = [QuorumNode(LINE + END) for _ in range(3)]
    relay = relayed(folder, nodes)
    begun, bot = time.monotonic(), Dialler(relay)
    for number in range(3):
        relay.await_note(f"node {number}: it has no quorum (dialled again each half second)")
    pause(6)
    for node in nodes:
        # (not from the first that was seen on: who is seen late seems to come sooner behind it)
        count, passed = len(node.connections), time.monotonic() - begun
        want((count - 1) * 0.5 <= passed, f"{count} connections within {passed:.1f} s")
        in_time(count >= 9, f"only {count} connections within {passed:.1f} s")
    bot.gets_nothing()
    lines = [LINE] + [b"MATCHSTATE:0:%d::5d5c|" % hand for hand in range(1, 9)]
    for number, line in enumerate(lines):
        begun = time.monotonic()
        for node in nodes:
            node.said, node.has_quorum = END.join(lines[max(0, number - 1) : number + 1]) + END, True
        want(bot.line() == line + END, f"{line} comes next")
        took = time.monotonic() - begun
        in_time(took < 1.5, f"the line came {took:.1f} s behind the quorum")
        for node in nodes:
            waited(lambda: node.got[-1:] == [VERSION] or node.connections[-1].fileno() < 0, "the node to be dialled")
            node.lose_quorum()
    want(held_back(relay) == [], f"the pauses are {held_back(relay)} s: {relay.notes()}")
    want(sum("no quorum" in note for note in relay.notes()) <= 3 * (1 + len(lines)), f"{relay.notes()}")
    bot.close()
    relay.ends(1)
