"""What tests/relay tries of a relay by clients in place of nodes and bots, which say what they like."""
import contextlib
import os
import re
import resource
import socket
import subprocess
import time
from pathlib import Path

import measuring
from measuring import clock, in_time, measured, pause, want
from refuser import refuser_in
from serving import TOP, WAIT, free_ports, is_free, patience, waited

from processes_match import Match
from relay_match import GAME, OTHER_TIME, VERSION, Dialler, Node, Relay, test

# The button's first line of a hand, and the line behind his call: the big blind, at position 0, faces nothing.
LINE = b"MATCHSTATE:0:0:c:5d5c|"
BEFORE = b"MATCHSTATE:0:0::5d5c|"
END = b"\r\n"
TRACED = re.compile(rb"([0-9]+\.[0-9]{6}) (TO|FROM) (.*)\n")


def relayed(folder, nodes, *options, name="relay"):
    """A relay for these nodes, whose lines may begin anywhere."""
    return Relay(folder, name, *(node.address for node in nodes), options=["--newest", *options])


def got_by(nodes, place=0):
    """What each node got behind the version over its connection of this number."""
    return [node.got[place][len(VERSION) :] if len(node.got) > place else None for node in nodes]


@test()
def any_bytes_of_nodes(folder, seed, is_long):
    """A node that says what is no dealer's line, or a line above 4096 bytes, is hung up with a note; of the others each line
    comes once. Comments aren't passed on."""
    longest = b"MATCHSTATE:0:1::5d5c|" + b"x" * (4096 - 21)
    right = Node(b"# a comment\r\n;another\r\n" + BEFORE + b"\n" + BEFORE + END + longest + END + BEFORE + END)
    wrong = {
        "it sent what is no dealer's line": [bytes(range(256)) * 40, b"\r\n", b"MATCHSTATE:0:0:" + END, b"MATCHSTATE:0:01::|" + END],
        "it sent a line of more than 4096 bytes": [b"x" * 10000, longest + b"x" + END],
    }
    for note, texts in wrong.items():
        for number, text in enumerate(texts):
            nodes = [Node(text), right]
            relay = relayed(folder, nodes, name=f"relay{number}")
            bot = Dialler(relay)
            want([bot.line(), bot.line()] == [BEFORE + END, longest + END], f"beside {text[:40]!r} come not the lines")
            bot.gets_nothing()
            relay.await_note(f"node 0: disconnected, {note}")
            waited(lambda: len(nodes[0].got) > 1 and VERSION in nodes[0].got, "another dial", lambda: str(nodes[0].got))
            want(set(nodes[0].got) - {b""} == {VERSION}, f"the wrong node got {nodes[0].got}")
            want(len(right.connections) == number + 1 + (len(wrong["it sent what is no dealer's line"]) if "4096" in note else 0), "the right node's connection lasts")
            bot.close()
            relay.ends(1, "the bot ended its connection")


@test()
def lines_once_and_in_order(folder, seed, is_long):
    """Lines of several nodes, one of which tells 30,000 old ones, come once each, in order."""
    lines = [b"MATCHSTATE:0:%d:%s:5d5c|" % (hand, betting) for hand in range(7500) for betting in (b"", b"r300", b"r300c/", b"r300c/c")]
    nodes = [Node() for _ in range(3)]
    relay = relayed(folder, nodes)
    bot = Dialler(relay)
    waited(lambda: all(node.connections for node in nodes), "all nodes to be dialled")
    nodes[0].say(END.join(lines[:20000]) + END)
    for line in lines[:20000]:
        want(bot.line() == line + END, f"{line} comes next")
    nodes[1].say(END.join(lines[:20001]) + END)
    want(bot.line() == lines[20000] + END, "the first line that is new")
    nodes[0].say(lines[20001] + END)
    want(bot.line() == lines[20001] + END, "the next one, of another node")
    nodes[2].say(END.join(lines) + END)
    for line in lines[20002:]:
        want(bot.line() == line + END, f"{line} comes next")
    nodes[1].say(END.join(lines[20001:]) + END)
    bot.gets_nothing()
    bot.close()
    relay.ends(1)
    want(relay.shares() == [20001, 1, len(lines) - 20002], f"of each node came {relay.shares()}")


@test()
def a_node_that_is_back_ahead(folder, seed, is_long):
    """A node whose connection was lost begins with a line that is ahead of the others: the bot gets the lines between of
    these. Where they tell nothing the line comes a fifth of a second later."""
    lines = [b"MATCHSTATE:0:%d::5d5c|" % hand for hand in range(40)]
    nodes = [Node(lines[0] + END) for _ in range(3)]
    relay = relayed(folder, nodes)
    bot = Dialler(relay)
    want(bot.line() == lines[0] + END, "the first line")
    for node in range(3):
        relay.await_note(f"node {node}: seated")
    newest, tries = 0, 0
    while newest < 3 and tries < 10:
        connections = len(nodes[2].got)
        nodes[2].said = b""
        nodes[2].hang_up()
        waited(lambda: len(nodes[2].got) > connections and nodes[2].got[-1] == VERSION, "the next connection")
        begun, connections, first, tries = time.monotonic(), len(nodes[2].got), 3 * tries + 1, tries + 1
        nodes[2].say(lines[first + 2] + END)
        time.sleep(0.03)
        for node in nodes[:2]:
            node.say(END.join(lines[first : first + 3]) + END)
        is_soon = time.monotonic() - begun < 0.1
        for line in lines[first : first + 3]:
            want(bot.line() == line + END, f"{line} comes next")
        # (on a busy machine the lines between may come too late)
        want(len(nodes[2].got) == connections or not is_soon or time.monotonic() - begun > 0.15, "its connection lasts where the lines between come soon")
        time.sleep(1.1)
        newest += 1
    connections = len(nodes[2].got)
    nodes[2].hang_up()
    waited(lambda: len(nodes[2].got) > connections and nodes[2].got[-1] == VERSION, "the next connection")
    alone, connections, last = time.monotonic(), len(nodes[2].got), nodes[2].asked[-1]
    nodes[2].say(lines[-1] + END)
    # Nobody tells the lines between: it is dialled anew, and asked for the bot's last line again.
    waited(lambda: len(nodes[2].got) > connections and nodes[2].got[-1] == VERSION, "another connection")
    took = time.monotonic() - alone
    want(took >= 0.2, f"a line that is ahead waited {took:.2f} s")
    want(last is not None and nodes[2].asked[-1] == last, f"asked for are {nodes[2].asked[-2:]}")
    relay.await_note("node 2: disconnected, it began with a line that wasn't asked for")
    bot.gets_nothing()
    nodes[2].say(END.join(lines[lines.index(last) :]) + END)
    for line in lines[lines.index(last) + 1 :]:
        want(bot.line() == line + END, f"{line} comes next")
    bot.close()
    relay.ends(1)


@test()
def all_lines_from_the_first(folder, seed, is_long):
    """Without --newest each node is asked for the first line, and one that begins with another is left. From then on each
    connection asks for the bot's last line, and no line is missing where all end at once."""
    lines = [b"MATCHSTATE:0:%d::5d5c|" % hand for hand in range(200)]
    nodes = [Node() for _ in range(3)]
    relay = Relay(folder, "relay", *(node.address for node in nodes))
    bot = Dialler(relay)
    waited(lambda: all(node.got == [VERSION] for node in nodes), "all nodes to be dialled")
    want([node.asked for node in nodes] == [[b"FIRST"]] * 3, f"asked for are {[node.asked for node in nodes]}")
    nodes[0].say(lines[1] + END)
    relay.await_note("node 0: disconnected, it began with a line that wasn't asked for")
    bot.gets_nothing()
    waited(lambda: len(nodes[0].got) > 1 and nodes[0].got[-1] == VERSION, "another dial")
    told = 0
    for count in range(10, 60, 10):
        dialled = [len(node.got) for node in nodes]
        teller = nodes[1 + (count // 10) % 2]
        teller.say(END.join(lines[told:count]) + END)
        for line in lines[told:count]:
            want(bot.line() == line + END, f"{line} comes next")
        # (where connections end sooner another client has the seat, and the relay holds back)
        time.sleep(1.2)
        for node in nodes:
            node.hang_up()
        for node, before in zip(nodes, dialled):
            waited(lambda: len(node.got) > before and node.got[-1] == VERSION, "the next connection")
        want([node.asked[-1] for node in nodes] == [lines[count - 1]] * 3, f"asked for are {[node.asked[-1] for node in nodes]}, not {lines[count - 1]}")
        told = count - 1
        # (the line that was asked for comes first, and only its followers are told)
        for node in nodes:
            node.say(lines[told] + END)
        told += 1
    bot.close()
    relay.ends(1)


@test()
def the_match_is_over(folder, seed, is_long):
    """#OVER behind the bot's last line ends the relay with status 0, once the bot has all lines, and whatever other nodes do;
    behind an earlier line it doesn't. The bot isn't told it."""
    lines = [b"MATCHSTATE:0:%d::5d5c|" % hand for hand in range(3000)]
    nodes = [Node(), Node()]
    relay = relayed(folder, nodes)
    bot = Dialler(relay, room=4096)
    waited(lambda: all(node.got == [VERSION] for node in nodes), "all nodes to be dialled")
    nodes[0].say(END.join(lines[:2000]) + END)
    nodes[1].say(lines[0] + END + b"#OVER\r\n")
    relay.await_note("node 1: the match is over")
    for line in lines[:2000]:
        want(bot.line() == line + END, f"{line} comes next")
    bot.gets_nothing()
    nodes[0].say(END.join(lines[2000:]) + END + b"#OVER\r\n")
    waited(lambda: sum("the match is over" in note for note in relay.notes()) >= 2, "the note of the end", lambda: str(relay.notes()))
    for line in lines[2000:]:
        want(bot.line() == line + END, f"a bot that reads late: {line} comes next")
    want(bot.line() == b"", "the connection ends behind the last line")
    relay.ends(0, "the match is over")
    # A connection that the relay ends itself isn't lost.
    want(not any("connection lost" in note for note in relay.notes()), f"{relay.notes()}")


@test()
def another_match(folder, seed, is_long):
    """Each node says #OTHER for ten seconds: the relay ends with status 1. One that tells lines, or lasts, keeps it."""
    nodes = [Node(LINE + END), Node(LINE + END)]
    relay = relayed(folder, nodes)
    bot = Dialler(relay)
    want(bot.line() == LINE + END, "the line")
    for node in range(2):
        relay.await_note(f"node {node}: seated")
    nodes[0].said, nodes[0].stays = b"#OTHER\r\n", False
    nodes[0].hang_up()
    relay.await_note("node 0: it has another match: the bot's last line isn't one of it")
    pause(OTHER_TIME + 2)
    want(relay.process.poll() is None, f"the relay goes on: {relay.notes()}")
    want(nodes[0].asked[0] == b"NEWEST", f"asked for are {nodes[0].asked}")
    begun = time.monotonic()
    nodes[1].said, nodes[1].stays = b"#OTHER\r\n", False
    nodes[1].hang_up()
    relay.ends(1, "the nodes have another match: the bot's last line isn't theirs")
    took = time.monotonic() - begun
    want(bot.line() == b"", "the connection ends")
    want(OTHER_TIME - 0.5 <= took, f"the connection ended after {took:.1f} s")
    in_time(took < OTHER_TIME + 15, f"the connection ended after {took:.1f} s")


@test()
def answers_go_to_one_node(folder, seed, is_long):
    """An answer goes to the node that told its line first, to others where no line comes in 0.5, then 1 and 2 seconds, and
    to each once. What isn't an answer to the newest line goes nowhere."""
    nodes = [Node(), Node(), Node(), Node()]
    relay = relayed(folder, nodes)
    bot = Dialler(relay)
    waited(lambda: all(node.connections for node in nodes), "all nodes to be dialled")
    nodes[2].say(LINE + END)
    want(bot.line() == LINE + END, "the line")
    for node in (nodes[0], nodes[3]):
        node.say(LINE + END)
    pause(0.2)
    bot.say(b"x\r\n;comment\r\n#comment\n" + BEFORE + b":c\r\n" + LINE + b"\r\n" + b"y" * 9000 + END)
    begun, until = time.monotonic(), clock() + WAIT
    bot.say(LINE + b":c\r\n")
    answer, times = LINE + b":c" + END, {}
    while len(times) < 3:
        want(clock() < until, f"the answer went to {times}")
        # (what is seen at once, by a test that didn't run itself meanwhile, has one time)
        all_got, took = got_by(nodes), time.monotonic() - begun
        for number, got in enumerate(all_got):
            want(got in (b"", answer), f"node {number} got {got!r}")
            if got:
                times.setdefault(number, took)
        time.sleep(0.002)
    want(times.get(2, 11) <= times.get(3, 10) <= times.get(0, 9), f"nodes were told at {times}")
    for number, due in ((2, 0), (3, 0.5), (0, 1.5)):
        # (a busy machine may be late, and never early)
        want(due - 0.01 <= times[number], f"node {number} was told after {times[number]:.2f} s, not {due}")
        in_time(times[number] < due + 3, f"node {number} was told after {times[number]:.2f} s, not {due}")
    pause(4.5)
    want(got_by(nodes) == [answer, b"", answer, answer], f"nodes got {got_by(nodes)}")
    # The line comes of the node that hadn't told it yet: now it is told the answer too.
    nodes[1].say(LINE + END)
    waited(lambda: got_by(nodes)[1] == answer, "the answer at the last node")
    bot.say(LINE + b":r300" + END)
    waited(lambda: got_by(nodes)[2] == answer + LINE + b":r300" + END, "another answer")
    further = b"MATCHSTATE:0:0:cr300:5d5c|"
    nodes[0].say(further + END)
    want(bot.line() == further + END, "the next line")
    # (what a busy machine had said to others before that line came is with them by then)
    pause(0.5)
    before = got_by(nodes)
    pause(2.5)
    want(got_by(nodes) == before, f"an answer is said once there is a further line: {before}, {got_by(nodes)}")
    bot.close()
    relay.ends(1, "the bot ended its connection")
    want("bot: disconnected (3 lines were no answers to the newest line, 1 too long)" in relay.notes(), f"{relay.notes()}")
    want([note for note in relay.notes() if "said again" in note][:3] == [f"node {number}: answer said again" for number in (3, 0, 1)], f"{relay.notes()}")


# How often what is to come at once is tried, since on a busy machine it may be late.
TRIES = 5


def is_at_once(once, most):
    """Of so many tries, each of which says how long it took, one took less than so many seconds."""
    times = []
    while len(times) < TRIES and (not times or times[-1] >= most):
        times.append(once(len(times)))
    in_time(times[-1] < most, f"what is to come at once came after {', '.join(f'{it:.2f}' for it in times)} s")


@test()
def answers_of_lost_connections(folder, seed, is_long):
    """Where a connection ends over which an answer was said it is said to another node at once, and over the next one again
    once that tells the line."""
    answer = LINE + b":c" + END

    def once(number):
        nodes = [Node(LINE + END), Node(LINE + END)]
        relay = relayed(folder, nodes, name=f"relay{number}")
        bot = Dialler(relay)
        want(bot.line() == LINE + END, "the line")
        for node in range(2):
            relay.await_note(f"node {node}: seated")
        begun = time.monotonic()
        bot.say(answer)
        waited(lambda: answer in got_by(nodes), "the answer at a node")
        first = got_by(nodes).index(answer)
        nodes[first].hang_up()
        waited(lambda: got_by(nodes)[1 - first] == answer, "the answer at the other node")
        took = time.monotonic() - begun
        waited(lambda: len(nodes[first].got) > 1 and nodes[first].got[1] == VERSION + answer, "the answer over the next connection")
        bot.close()
        relay.ends(1)
        return took

    # (where no connection ends the other is told half a second later)
    is_at_once(once, 0.45)


@test()
def only_node_with_the_line_hangs(folder, seed, is_long):
    """The only node that has told the newest line hangs with the answer: once another tells the line, that is told it."""
    answer = LINE + b":c" + END

    def once(number):
        nodes = [Node(), Node()]
        relay = relayed(folder, nodes, name=f"relay{number}")
        bot = Dialler(relay)
        waited(lambda: all(node.connections for node in nodes), "all nodes to be dialled")
        nodes[0].say(LINE + END)
        want(bot.line() == LINE + END, "the line")
        bot.say(answer)
        waited(lambda: got_by(nodes)[0] == answer, "the answer at the node")
        pause(1.2)
        want(got_by(nodes)[1] == b"", "who hasn't told the line isn't told the answer")
        told = time.monotonic()
        nodes[1].say(LINE + END)
        waited(lambda: got_by(nodes)[1] == answer, "the answer at the other")
        took = time.monotonic() - told
        bot.close()
        relay.ends(1)
        return took

    is_at_once(once, 0.3)


# Each kind of the table of docs/BOTS.md, by game: the betting before it, what the bot says, and what is said for it.
MENDED = {
    GAME: {
        "c": {"f": "c", "r1": "r200", "r199": "r200", "r20001": "r20000", "r99999": "r20000", "r" + "9" * 60: "r20000", "r": "c", "x": "c", "": "c", "C": "c", "r-5": "c", "c ": "c", "r300 chips": "r300", "r0300": "r300", "fold": "c", "call": "c", "f": "c"},
        "r300c/r20000": {"r20000": "c", "r30000": "c", "fold": "f"},
    },
    "l2.game": {"c": {"f": "c", "r100": "r", "R": "c", "x": "c"}, "crrr": {"r": "c"}},
}
# Who is to act behind these, by position.
TO_ACT = {"c": 0, "r300c/r20000": 1, "crrr": 1}
# What is right goes as it was said.
RIGHT = {GAME: {"c": ["c", "r200", "r20000", "r300"], "r300c/r20000": ["c", "f"]}, "l2.game": {"c": ["c", "r"], "crrr": ["c", "f"]}}


def said_for(folder, game, line, said):
    """What a node is told where a bot says something to a line, and whether a note says that it was mended."""
    node = Node(line + END)
    relay = relayed(folder, [node], "--mend", TOP / "examples" / game)
    bot = Dialler(relay)
    want(bot.line() == line + END, "the line")
    bot.say(line + b":" + said + END)
    waited(lambda: got_by([node])[0], f"an answer for {said!r}")
    got = got_by([node])[0]
    bot.close()
    relay.ends(1)
    return got, any("mended to" in note for note in relay.notes()), relay.notes()


@test()
def mended_actions(folder, seed, is_long):
    """With --mend each kind of a wrong action goes as the competition's dealer mends it, with a note; a right one as it is."""
    for game, bettings in MENDED.items():
        for betting, rows in bettings.items():
            line = b"MATCHSTATE:%d:0:%s:|" % (TO_ACT[betting], betting.encode())
            for said, meant in [*rows.items(), *((right, right) for right in RIGHT[game].get(betting, []))]:
                got, is_mended, notes = said_for(folder, game, line, said.encode())
                want(got == line + b":" + meant.encode() + END, f"{game}, {betting}: for {said!r} the node got {got!r}")
                want(is_mended == (said != meant), f"{said!r}: {notes}")
    # Bytes that can't be printed are question marks in the note.
    _, _, notes = said_for(folder, GAME, LINE, b"\x1b[2J\xff\x00")
    want(f"bot: {LINE.decode()}:?[2J??: mended to {LINE.decode()}:c" in notes, f"{notes}")


@test()
def wrong_actions_without_mending(folder, seed, is_long):
    """Without --mend an answer goes as it was said, whatever stands behind its colon."""
    node = Node(LINE + END)
    relay = relayed(folder, [node])
    bot = Dialler(relay)
    want(bot.line() == LINE + END, "the line")
    for said in (b":f", b":r1", b":", b":\x00\xff", b"::", b":c:c"):
        bot.say(LINE + said + b"\n")
    waited(lambda: got_by([node])[0].endswith(LINE + b":c:c" + END), "the last answer", lambda: str(node.got))
    answers = got_by([node])[0].split(END)[:-1]
    want(set(answers) <= {LINE + said for said in (b":f", b":r1", b":", b":\x00\xff", b"::", b":c:c")}, f"{answers}")
    bot.close()
    relay.ends(1)


def wanted_in_a_second():
    """For how many seconds of the next one the relay has a processor, or waits for one."""
    with measured() as window:
        time.sleep(1)
    return sum(window.of(Match.program))


def most_memory(relay):
    """How many KiB a relay had at most so far."""
    return int(re.search(r"VmHWM:\s+(\d+) kB", Path(f"/proc/{relay.process.pid}/status").read_text())[1])


# A bot that took nothing for so long has lost its relay (docs/NOTES.md), in seconds.
TOOK_NOTHING = 30


def taken(bot, count):
    """So many bytes that a bot takes, or those before the end of its connection; and the longest time in which it took nothing meanwhile."""
    got, last, longest = bytearray(), time.monotonic(), 0.0
    with contextlib.suppress(ConnectionResetError):
        while len(got) < count and (piece := bot.connection.recv(1 << 16)):
            got += piece
            longest, last = max(longest, time.monotonic() - last), time.monotonic()
    return bytes(got), max(longest, time.monotonic() - last)


@test()
def a_bot_that_does_not_read(folder, seed, is_long):
    """What waits for it is bounded, the nodes are held up, and it gets all lines in order once it reads."""
    lines = b"".join(b"MATCHSTATE:0:%d::5d5c|\r\n" % hand for hand in range(300000))
    nodes = [Node(lines), Node(lines)]
    relay = relayed(folder, nodes)
    bot, begun = Dialler(relay, room=4096), time.monotonic()
    pause(2)
    # (on a busy machine it takes longer until it waits)
    waited(lambda: wanted_in_a_second() <= 0.1, "a relay that waits for its bot, and isn't busy for more than a tenth of a second")
    before = time.monotonic() - begun
    got, longest = taken(bot, len(lines))
    want(lines.startswith(got), "lines in order")
    if len(got) < len(lines):
        # (a busy machine may give it no processor for so long)
        silent = max(before, longest)
        want(silent >= TOOK_NOTHING, f"the connection ended after {len(got)} bytes of {len(lines)}")
        in_time(False, f"the bot took nothing for {silent:.0f} s, and then its relay took it for lost")
        return relay.ends(1)
    bot.gets_nothing()
    kibibytes = most_memory(relay)
    want(kibibytes < 16384, f"the relay had {kibibytes} KiB")
    bot.close()
    relay.ends(1)
    return f"{kibibytes} KiB"


@test()
def lines_without_an_end(folder, seed, is_long):
    """A bot that says 10,000 lines without a line feed is heard behind them, and they cost nothing."""
    node = Node(LINE + END)
    relay = relayed(folder, [node])
    bot = Dialler(relay)
    bot.line()
    for _ in range(100):
        bot.say((LINE + b":c\r") * 100)
    bot.say(b"\n" + LINE + b":c" + END)
    waited(lambda: got_by([node])[0], "the answer")
    want(got_by([node])[0] == LINE + b":c" + END, f"the node got {got_by([node])[0][:200]!r}")
    bot.close()
    relay.ends(1)
    want("bot: disconnected (0 lines were no answers to the newest line, 1 too long)" in relay.notes(), f"{relay.notes()}")


@test()
def a_node_that_does_not_read(folder, seed, is_long):
    """A node that takes nothing holds up itself alone: answers go to the other."""
    lines = [b"MATCHSTATE:0:%d::%s|" % (hand, b"x" * 3000) for hand in range(4000)]
    deaf, node = socket.create_server(("127.0.0.1", 0)), Node()
    deaf.setsockopt(socket.SOL_SOCKET, socket.SO_RCVBUF, 4096)
    relay = Relay(folder, "relay", f"127.0.0.1:{deaf.getsockname()[1]}", node.address)
    bot = Dialler(relay)
    connection, _ = deaf.accept()
    waited(lambda: node.connections, "the node to be dialled")
    try:
        for line in lines[: 4000 if is_long else 400]:
            connection.sendall(line + END)
            node.say(line + END)
            want(bot.line() == line + END, "the line")
            bot.say(line + b":c" + END)
            waited(lambda: node.got[0].endswith(line + b":c" + END) or True, "")
        kibibytes = int(Path(f"/proc/{relay.process.pid}/statm").read_text().split()[1]) * resource.getpagesize() // 1024
        want(kibibytes < 16384, f"the relay has {kibibytes} KiB")
    finally:
        connection.close()
        deaf.close()
    bot.close()
    relay.ends(1)


@test()
def versions(folder, seed, is_long):
    """A bot that names no version 2.0 is turned away, and no node is dialled. Comments may stand before the version."""
    for said in (b"VERSION:1.0.0\r\n", b"VERSION:2.0.\r\n", b"VERSION:2.0.1234567890\r\n", LINE + b":c\r\n", b"\n"):
        node = Node()
        relay = relayed(folder, [node])
        bot = Dialler(relay, said)
        want(bot.line() == b"", f"the connection ends behind {said!r}")
        relay.ends(1, "the bot's first line isn't VERSION:2.0.0")
        want(not node.connections, "a node was dialled")
    for said in (b"VERSION:2.0.0\n", b"VERSION:2.0.123456789\r\n", b"#comment\r\n;another\nVERSION:2.0.7\r\n"):
        node = Node(LINE + END)
        relay = relayed(folder, [node])
        bot = Dialler(relay, said)
        want(bot.line() == LINE + END, f"a line comes behind {said!r}")
        waited(lambda: node.got == [VERSION], "the node to get the first lines", lambda: str(node.got))
        bot.close()
        relay.ends(1)


@test()
def one_bot_at_a_time(folder, seed, is_long):
    """A second client waits while the first bot lives. A note names who came. With --stay it is served once that has left."""
    node = Node(LINE + END)
    relay = relayed(folder, [node], "--stay")
    first = Dialler(relay)
    want(first.line() == LINE + END, "the line")
    relay.await_note("bot: connected from 127.0.0.1")
    second = Dialler(relay)
    second.gets_nothing()
    want(len(node.connections) == 1, "one connection to the node")
    first.close()
    want(second.line() == LINE + END, "the line")
    waited(lambda: node.got == [VERSION, VERSION], "the node to get the first lines", lambda: str(node.got))
    second.close()
    waited(lambda: sum("bot: disconnected" in note for note in relay.notes()) == 2, "the second bot's end")
    want(relay.process.poll() is None, "the relay stays")


def status_of(*words):
    """The status of a relay that is started so, and what it printed."""
    ran = measuring.run([Match.program, "relay", *map(str, words)], stdin=subprocess.DEVNULL, capture_output=True)
    return ran.returncode, ran.stdout, ran.stderr


@test()
def ports_and_words(folder, seed, is_long):
    """The local port and address that are asked for; wrong words and files, and a port that another has."""
    port, node = free_ports(1), Node(LINE + END)
    for listen, address in (("127.0.0.1", "127.0.0.1"), ("127.0.0.2", "127.0.0.2"), ("[::1]", "::1")):
        relay = relayed(folder, [node], "--port", port, "--listen", listen)
        want(relay.port == port, f"its port is {relay.port}, not {port}")
        with socket.create_connection((address, port)) as bot:
            bot.sendall(VERSION)
            want(bot.recv(100) == LINE + END, f"a line comes at {listen}")
            status, printed, told = status_of("--port", port, "--listen", listen, node.address)
            said = f"{listen}:{port}: in use\n105 LinkFailed: the local port can't be had\n".encode()
            want((status, printed, told) == (1, b"", said), f"a port that another has: {status, printed, told}")
        relay.ends(1)
        waited(lambda: is_free(port), "the port")
    files = {"none": None, "empty": b"", "long": b"x" * 201, "space": b" x"}
    for name, text in files.items():
        if text is not None:
            (folder / name).write_bytes(text)
    for words in (
        [], ["--newest"], ["host:1"], ["127.0.0.1"], ["127.0.0.1:70000"], ["127.0.0.1:1"] * 8, ["--port", "70000", node.address], ["--listen", "host", node.address],
        ["--give-up", "0", node.address], ["--mend", folder / "none", node.address], ["--mend", folder / "empty", node.address],
        ["--trace", folder / "none/none", node.address], *(["--token-file", folder / name, node.address] for name in files),
    ):
        status, printed, told = status_of(*words)
        want((status, printed) == (2, b"") and told, f"{words}: {status, printed, told}")


@test()
def token_of_a_file(folder, seed, is_long):
    """The token stands before the version, over each connection, and nothing else of the file."""
    (folder / "token").write_text("abc.~!\r\nmore\n")
    node = Node(LINE + END)
    relay = relayed(folder, [node], "--token-file", folder / "token")
    bot = Dialler(relay)
    bot.line()
    waited(lambda: node.got == [b"#TOKEN abc.~!\r\n" + VERSION] and node.asked == [b"NEWEST"], "the node to get the first lines", lambda: str(node.got))
    time.sleep(1.2)
    node.hang_up()
    waited(lambda: len(node.got) > 1 and node.got[1], "another dial")
    waited(lambda: node.got[1] == b"#TOKEN abc.~!\r\n" + VERSION, "the node to get the first lines", lambda: str(node.got))
    want("abc" not in "".join(relay.notes()), "the token stands in no note")
    bot.close()
    relay.ends(1)


def is_right_trace(rows, wanted):
    """Whether a trace has these ways and lines, at times that are about now and never go back."""
    found = [TRACED.fullmatch(row) for row in rows]
    times = [float(row[1]) for row in found if row]
    return all(found) and [(row[2], row[3]) for row in found] == wanted and times == sorted(times) and all(abs(at - time.time()) < 60 for at in times)


@test()
def traces(folder, seed, is_long):
    """--trace has each line to and from the bot with its time, in a file or behind the port's line."""
    for where in ("-", folder / "trace"):
        node = Node(LINE + END + LINE + END)
        relay = relayed(folder, [node], "--trace", where)
        bot = Dialler(relay)
        bot.line()
        bot.say(b"nothing\r\n" + LINE + b":c" + END)
        waited(lambda: got_by([node])[0], "the answer")
        bot.close()
        relay.ends(1)
        rows = (relay.output if where == "-" else where.read_bytes()).splitlines(keepends=True)
        wanted = [(b"FROM", VERSION[:-2]), (b"TO", LINE), (b"FROM", b"nothing"), (b"FROM", LINE + b":c")]
        want(is_right_trace(rows, wanted), f"the trace is {rows}")


@test()
def traces_that_cannot_be_written(folder, seed, is_long):
    """What of the trace can't be written is dropped and counted: the bot gets its lines all the same."""
    count = 30000
    lines = [b"MATCHSTATE:0:%d::5d5c|" % hand for hand in range(count)]
    for where in ("full disk", "nobody reads", "closed"):
        node = Node(END.join(lines) + END)
        relay = relayed(folder, [node], "--trace", "/dev/full" if where == "full disk" else "-", name=where.split()[0])
        if where == "closed":
            relay.process.stdout.close()
        bot = Dialler(relay)
        for line in lines:
            want(bot.line() == line + END, f"{where}: {line} comes next")
        bot.close()
        if where == "closed":
            waited(lambda: relay.process.poll() is not None, "its end")
        else:
            relay.ends(1)
        found = re.findall(r"; (\d+) lines left out of the trace", " ".join(relay.notes()))
        dropped = int(found[0]) if found else 0
        rows = relay.output.count(b"\n")
        want(dropped > 0 and dropped + rows == count + 1, f"{where}: {rows} lines are in the trace, {dropped} are counted, of {count + 1}: {relay.notes()[-3:]}")


@test()
def times_of_notes(folder, seed, is_long):
    """With --times each note begins with its time."""
    node = Node(LINE + END)
    relay = relayed(folder, [node], "--times")
    Dialler(relay).line()
    relay.process.terminate()
    relay.await_note("bot: connected")
    want(all(re.match(r"\d{4}-\d\d-\d\dT\d\d:\d\d:\d\d\.\d{3}Z ", note) for note in relay.notes()), f"{relay.notes()}")


@test()
def no_node_is_reached(folder, seed, is_long):
    """Where no node is reached for --give-up seconds it ends with status 1. The time begins when the bot has come."""
    port = free_ports(1)
    relay = Relay(folder, "relay", f"127.0.0.1:{port}", options=["--give-up", 2])
    pause(2.5)
    want(relay.process.poll() is None, "no bot came yet")
    begun, bot = time.monotonic(), Dialler(relay)
    want(bot.line() == b"", "the connection ends")
    took = time.monotonic() - begun
    relay.ends(1, "no node was reached")
    # (a busy machine may be late, and never early)
    want(2 <= took, f"it gave up after {took:.1f} s")
    in_time(took < 9, f"it gave up after {took:.1f} s")


@test()
def nodes_that_are_away(folder, seed, is_long):
    """While each node refuses a relay waits, longer than ten seconds, and goes on where its bot was. With --give-up that is its
    end, with status 1."""
    lines = [b"MATCHSTATE:0:%d::5d5c|" % hand for hand in range(10)]
    node = Node(END.join(lines[:5]) + END)
    port = int(node.address.split(":")[1])
    relay, other = relayed(folder, [node]), relayed(folder, [node], "--give-up", "12", name="other")
    bot, late = Dialler(relay), Dialler(other)
    for line in lines[:5]:
        want([bot.line(), late.line()] == [line + END] * 2, f"{line} comes next")
    time.sleep(1.2)
    begun = time.monotonic()
    node.remove()
    want(late.line() == b"", "the connection ends")
    took = time.monotonic() - begun
    other.ends(1, "no node was reached")
    want(11.5 <= took, f"the connection ended after {took:.1f} s")
    in_time(took < 30, f"the connection ended after {took:.1f} s")
    again = Node(END.join(lines[4:]) + END, port=port)
    for line in lines[5:]:
        want(bot.line() == line + END, f"{line} comes next")
    waited(lambda: again.asked[0] == lines[4], "the bot's last line to be asked for", lambda: str(again.asked))
    bot.close()
    relay.ends(1, "the bot ended its connection")


@test()
def an_answer_before_the_end(folder, seed, is_long):
    """A bot that answers and ends its connection at once is heard."""
    for number in range(20):
        node = Node(LINE + END)
        relay = relayed(folder, [node], name=f"relay{number}")
        bot = Dialler(relay)
        want(bot.line() == LINE + END, "the line")
        bot.say(LINE + b":c" + END)
        bot.close()
        relay.ends(1, "the bot ended its connection")
        waited(lambda: got_by([node])[0] == LINE + b":c" + END, f"the answer; the node got {node.got}")


def with_refusal(folder, library, number):
    """A relay of whose growths one is refused, and what came of it: the status, the notes, what the node and the bot got."""
    node, said, got = Node(LINE + END), LINE + b":r1" + END, b""
    words = [Match.program, "relay", "--newest", "--mend", TOP / "examples" / GAME, "--trace", folder / "trace", node.address]
    environment = {**os.environ, "LD_PRELOAD": str(library), "REFUSED_GROWTH": str(number)}
    process = subprocess.Popen(words, stdin=subprocess.DEVNULL, stdout=subprocess.PIPE, stderr=subprocess.PIPE, env=environment)
    try:
        port = process.stdout.readline()
        if port.strip():
            try:
                # (it may end as the bot comes)
                with socket.create_connection(("127.0.0.1", int(port))) as bot:
                    bot.sendall(VERSION)
                    while not got.endswith(END) and (piece := bot.recv(4096)):
                        got += piece
                    bot.sendall(said)
                    waited(lambda: node.got and node.got[-1].endswith(b":r200" + END) or process.poll() is not None, "an answer or the end")
            except OSError:
                pass
        notes = process.communicate(timeout=patience())[1].decode(errors="replace").splitlines()
        return process.returncode, notes, node.got, got
    finally:
        process.kill()
        process.wait()
        process.stdout.close()
        process.stderr.close()
        node.remove()


@test()
def growths(folder, seed, is_long):
    """Each growth of a relay is refused once: it ends with 92 OutOfMemory, or goes on without a note or a line of the trace; to
    node and bot goes nothing but what would go anyway."""
    library, counts = refuser_in(folder), [0, 0]
    whole = VERSION + LINE + b":r200" + END
    for number in range(1, 1000):
        status, notes, at_node, at_bot = with_refusal(folder, library, number)
        if "a growth was refused" not in " ".join(notes):
            break
        is_ended = at_node[-1:] != [whole]
        counts[is_ended] += 1
        want(all(whole.startswith(got) for got in at_node), f"growth {number}: the node got {at_node}")
        want((LINE + END).startswith(at_bot), f"growth {number}: the bot got {at_bot}")
        told = [note for note in notes if "a growth was refused" not in note]
        want(status in (1, 2), f"growth {number}: status {status}, {notes}")
        if is_ended:
            want(told[-1:] == ["92 OutOfMemory"], f"growth {number}: {status}, {notes}")
    want(counts[0] > 0 and counts[1] > 0, f"the counts are {counts}")
    return f"{counts[1]} refusals ended it, {counts[0]} didn't"
