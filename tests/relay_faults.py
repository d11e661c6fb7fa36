"""What tests/relay tries of matches whose nodes are lost, while stock bots sit behind relays."""
import os
import signal
import socket
import subprocess
import threading
import time

from log_lines import lines_of
from measuring import NotMeasured, in_time, pause, want
from processes_keys import League
from processes_match import Match
from processes_ways import NoHosts
from relay_match import GAME, Dialler, Relay, RelayMatch, StockBot, in_words, test
from serving import TOP, free_ports, patience, waited

# How long a stock bot thinks where nodes are lost meanwhile, in seconds: a quick machine plays no match before they are.
PACE = 0.003
# How often a test loses nodes at least, however quick a machine is.
LEAST_LOST = 1


@test(long_seeds=3)
def calm(folder, seed, is_long):
    """Nothing is lost: the relays end with the match, and not by the loss of its nodes."""
    match = RelayMatch(60, seed, count=(3, 5, 7)[seed % 3]).begin()
    match.ends()
    match.are_whole()
    for relay in match.relays:
        over = next(place for place, note in enumerate(relay.notes()) if "the match is over" in note)
        match.calmly(not any("connection lost" in note for note in relay.notes()[:over]), f"{relay.notes()}")


def lost_every_second(match, lose, last, lives=0.0):
    """Loses a node each second until a hand is reached, the next one only where a further hand has come, and no sooner than so
    many seconds behind the last one's return. How often it did."""
    match.await_hand(0)
    count, due = 0, time.monotonic()
    while (hand := match.newest_hand()) < last:
        due = max(due + 1, time.monotonic() + lives)
        is_due = lambda: match.newest_hand() >= last or (match.newest_hand() > hand and time.monotonic() >= due)
        waited(lambda: match.is_alive() and is_due(), "a further hand", match.last_notes, seen=match.newest_hand)
        if match.newest_hand() < last:
            lose(match.dice.randrange(match.count))
            count += 1
    match.ends()
    in_time(count >= LEAST_LOST, f"nodes were lost {count} times, which is too few")
    return count


@test(seeds=2, long_seeds=10)
def kills(folder, seed, is_long):
    """A random node is killed each second, and started a moment later."""
    hands = 1000 if is_long else 250
    match = RelayMatch(hands, seed, pace=PACE).begin()

    def lose(node):
        match.kill(node)
        time.sleep(match.dice.random() * 0.3)
        match.start(node)

    count = lost_every_second(match, lose, hands - 10)
    match.are_whole()
    match.are_shared()
    return f"{count} kills; from a kill to the next line at a bot: {in_words(match.gaps(), 0.01, 1)}"


@test(long_seeds=10)
def stops(folder, seed, is_long):
    """A random node hangs (SIGSTOP), for a tenth of a second to three, in the long form to thirty."""
    hands, most = (1000, 30.0) if is_long else (150, 3.0)
    match, hung = RelayMatch(hands, seed, pace=PACE).begin(), []

    def lose(node):
        match.kills.append(time.time())
        os.kill(match.processes[node].pid, signal.SIGSTOP)
        hung.append(node)
        time.sleep(0.1 * (most / 0.1) ** match.dice.random())
        os.kill(match.processes[node].pid, signal.SIGCONT)
        # (who hung for more than ten seconds at the end learns it from nobody, until all are started again)
        match.start(*[other for other in range(match.count) if match.processes[other].poll() is not None])

    count = lost_every_second(match, lose, hands - 10)
    match.are_whole()
    match.are_shared()
    return f"{count} stops; from a stop to the next line at a bot: {in_words(match.gaps(), 1.5, 3)}"


@test(long_seeds=5)
def all_killed(folder, seed, is_long):
    """All nodes are killed at once, and started: no line is missing, from the first deal on."""
    hands = 1000 if is_long else 150
    match = RelayMatch(hands, seed, pace=PACE).begin()

    def lose(_):
        match.kill(*range(match.count))
        time.sleep(match.dice.random() * 0.5)
        match.start(*range(match.count))

    # Where each connection to each node ends within a second, a relay that is starved takes it that it is turned away.
    count = lost_every_second(match, lose, hands - 10, lives=1.5)
    match.are_whole()
    match.are_shared()
    return f"{count} times"


class CutMatch(RelayMatch):
    """A match whose relays reach the nodes through doors that can be shut. A seat that is nowhere is played for soon."""

    doors = []

    def entries(self):
        return ["patience = 1"]

    def places(self, seat):
        doors = [Door(self.address(node), self.seats[node] + seat) for node in range(self.count)]
        self.doors = [*self.doors, *doors]
        return [f"127.0.0.1:{door.port}" for door in doors]

    def begin(self):
        super().begin()
        for door in self.doors:
            door.open()
        return self

    def cut(self):
        """All connections end at once, and none begins until a further hand is over."""
        for door in self.doors:
            door.shut()
        hands = lambda: self.longest_log().count("STATE:")
        before = hands()
        waited(lambda: self.is_alive() and hands() > before + 1, "the match to go on meanwhile", self.last_notes)
        for door in self.doors:
            door.open()

    def remove(self):
        for door in self.doors:
            door.shut()
        super().remove()


class Door:
    """Hands on what comes from a relay to a node and back. While it is shut it refuses connections."""

    def __init__(self, host, port):
        self.place, self.sockets, self.listener, self.port = (host, port), [], None, free_ports(1)

    def open(self):
        waited(self.is_reached, "a node")
        self.listener = socket.create_server(("127.0.0.1", self.port))
        self.listener.settimeout(None)
        threading.Thread(target=self.run, args=(self.listener,), daemon=True).start()

    def is_reached(self):
        """Whether the node takes connections."""
        try:
            socket.create_connection(self.place, timeout=5).close()
        except OSError:
            return False
        return True

    def run(self, listener):
        while True:
            try:
                near, _ = listener.accept()
            except OSError:
                return
            try:
                far = socket.create_connection(self.place, timeout=5)
            except OSError:
                near.close()
                continue
            for one, other in ((near, far), (far, near)):
                one.settimeout(None)
                self.sockets.append(one)
                threading.Thread(target=self.hand_on, args=(one, other), daemon=True).start()

    def hand_on(self, one, other):
        try:
            while piece := one.recv(65536):
                other.sendall(piece)
        except OSError:
            pass
        for end in (one, other):
            try:
                end.shutdown(socket.SHUT_RDWR)
            except OSError:
                pass

    def shut(self):
        """Ends all connections."""
        listener, self.listener = self.listener, None
        for one in [listener, *self.sockets]:
            try:
                one.shutdown(socket.SHUT_RDWR)
            except (OSError, AttributeError):
                pass
        if listener is not None:
            listener.close()
        self.sockets = []


@test(long_seeds=5)
def all_connections_cut(folder, seed, is_long):
    """All connections of both relays are cut at once, again and again, and the match goes on meanwhile, since absent seats are
    played for: no line is missing, from the first deal on."""
    match = CutMatch(400 if is_long else 40, seed, pace=0.005).begin()
    match.await_hand(2)
    for _ in range(20 if is_long else 4):
        match.cut()
        hand = match.newest_hand()
        match.await_hand(min(hand + 2, match.hands - 1))
    match.ends()
    match.are_whole()


@test()
def all_nodes_away(folder, seed, is_long):
    """All nodes are away for longer than ten seconds, in the long form for a minute: the relays wait, and no line is missing."""
    match = RelayMatch(60, seed, pace=PACE).begin()
    match.await_hand(20)
    match.kill(*range(match.count))
    time.sleep(60 if is_long else 13)
    match.start(*range(match.count))
    match.ends()
    match.are_whole()


@test()
def a_match_in_the_place_of_another(folder, seed, is_long):
    """All nodes are killed, and another match is begun under the same ports and played beyond the bots' last lines: these are none
    of it, so each relay ends with status 1."""
    match = RelayMatch(2000, seed).begin()
    match.await_hand(10)
    for relay in match.relays:
        relay.process.send_signal(signal.SIGSTOP)
    match.kill(*range(match.count))
    match.init_again()
    match.start(*range(match.count))
    hand = match.newest_hand()
    match.let_bots_come()
    waited(lambda: match.hand > hand + 5, "the other match to come so far", match.last_notes)
    match.has_ended.set()
    match.kill(*range(match.count))
    match.send_bots_away()
    match.start(*range(match.count))
    for relay in match.relays:
        relay.process.send_signal(signal.SIGCONT)
    for relay in match.relays:
        relay.ends(1, "the nodes have another match: the bot's last line isn't theirs")
    for bot in match.stock:
        bot.ends()


class AskedMatch(RelayMatch):
    """A match whose nodes can be asked how they are."""

    def node_entries(self, node):
        return [f'status = "{self.address(node)}:{self.statuses[node]}"']

    def told(self, word):
        """What each node tells by a word, a tenth of a second later; nothing of those that can't be asked."""
        time.sleep(0.1)
        return [League.asked(self, node).get(word) for node in range(self.count)]

    def await_commands(self, count):
        """Waits until some node has so many commands."""
        has = lambda: max(int(front or 0) for front in self.told("front"))
        while (before := has()) < count:
            waited(lambda: self.is_alive() and has() > before, "a further command", self.last_notes)
            time.sleep(0.5)

    def bots_think(self, pause):
        """Other bots come in place of those that are there, which think for so long."""
        for bot in self.stock:
            bot.remove()
        place = self.folder / "later"
        place.mkdir()
        self.stock = [StockBot(place, seat, relay.port, self.seed, pause) for seat, relay in enumerate(self.relays)]

    def await_all(self):
        """Waits until all nodes have the match, but for what is chosen meanwhile."""
        fronts = lambda: [int(front or 0) for front in self.told("front")]
        waited(lambda: (lambda found: max(found) - min(found) < 64)(fronts()), "all to have the match", self.last_notes)


@test(seeds=0, long_seeds=1)
def leaders_killed(folder, seed, is_long):
    """Sixty times the leader of a match of 25,000 commands is killed, each time half a second after another process was started,
    which still learns the match. Tried with --long, or with --seed."""
    match = AskedMatch(10_000, seed, options=["--stay"]).begin()
    match.await_commands(25_000)
    match.bots_think(0.02)
    for _ in range(60):
        leader = waited(lambda: "yes" in (found := match.told("leads")) and [found.index("yes")], "a leader", match.last_notes)[0]
        other = match.dice.choice([node for node in range(match.count) if node != leader])
        Match.kill(match, other)
        match.start(other)
        time.sleep(0.5)
        match.kill(leader)
        time.sleep(0.5)
        match.start(leader)
        match.await_all()
    Match.kill(match, *range(match.count))
    return f"from a kill to the next line at a bot: {in_words(match.gaps(), 0.05, 0.5)}"


@test()
def hung_while_another_thinks(folder, seed, is_long):
    """A node hangs while a player thinks, and until some hands later."""
    match = RelayMatch(60, seed, pace=0.02).begin()
    match.await_hand(2)
    for _ in range(3):
        hand, node = match.newest_hand(), match.dice.randrange(match.count)
        os.kill(match.processes[node].pid, signal.SIGSTOP)
        match.await_hand(hand + 3)
        os.kill(match.processes[node].pid, signal.SIGCONT)
        match.await_hand(hand + 5)
    match.ends()
    match.are_whole()


@test()
def refused_answer(folder, seed, is_long):
    """An answer that the dealer refuses comes to each node once, and no connection ends; a legal one behind it is taken."""
    match = RelayMatch(1, seed)
    relays = [Relay(match.folder, f"relay{seat}", *match.places(seat)) for seat in range(2)]
    match.set_up()
    bots = [Dialler(relay) for relay in relays]
    # Alice is position 0 of hand 0, which is the big blind: bob acts first.
    lines = [bot.line() for bot in bots]
    bots[1].say(lines[1].rstrip() + b":c\r\n")
    want(bots[1].line().split(b":")[3] == b"c", "the call is told to bob")
    line = bots[0].line()
    want(line.split(b":")[3] == b"c", "the call is told to alice")
    bots[0].say(line.rstrip() + b":f\r\n")
    refusals = lambda: [sum(note.endswith(f"at node {node}, hand 0: 85 Illegal 21 FoldNotFacing") for note in match.notes(node)) for node in range(3)]
    waited(lambda: all(refusals()), "a refusal of each node", match.last_notes)
    pause(4.5)
    match.calmly(refusals() == [1, 1, 1], f"so many refusals are told: {refusals()}")
    match.calmly(not any("lost" in note for note in relays[0].notes()), f"a connection ended: {relays[0].notes()}")
    bots[0].say(line.rstrip() + b":c\r\n")
    want(bots[0].line().split(b":")[3] == b"cc/", "the legal answer is taken")
    for bot in bots:
        bot.close()
    for relay in relays:
        relay.ends(1)


@test()
def wrong_actions_with_nodes(folder, seed, is_long):
    """A bot that was written for the competition's dealer, which mends, plays a match with --mend."""
    match = RelayMatch(60, seed, options=["--mend", TOP / "examples" / GAME])
    bot = match.folder / "dealer_bot"
    subprocess.run([os.environ.get("CC", "cc"), "-O1", "-o", bot, TOP / "tests/dealer_bot.c"], check=True)
    relays = [Relay(match.folder, f"relay{seat}", *match.places(seat), options=match.options) for seat in range(2)]
    bots = [subprocess.Popen([bot, str(seat), "127.0.0.1", str(relay.port)]) for seat, relay in enumerate(relays)]
    try:
        match.set_up()
        Match.ends(match)
        for relay in relays:
            relay.ends(0)
        want([one.wait(patience()) for one in bots] == [0, 0], "the bots end with 0")
    finally:
        for one in bots:
            one.kill()
            one.wait()
    mended = sum("mended to" in note for relay in relays for note in relay.notes())
    want(mended > 0, "nothing was mended")
    return f"{mended} answers mended"


@test()
def two_relays(folder, seed, is_long):
    """Two relays at one seat of a match with tokens, where the one who comes last has it, turn each other away. One notices, and
    holds back; once one has ended the other has the seat."""
    match = League(hands=5, game=GAME)
    tokens = [match.folder / f"token{seat}" for seat in range(2)]
    for seat in range(2):
        tokens[seat].write_text(match.token(seat) + "\n")
    places = [f"127.0.0.1:{match.seats[node]}" for node in range(3)]
    other = [f"127.0.0.1:{match.seats[node] + 1}" for node in range(3)]
    match.set_up()
    bob = Relay(folder, "bob", *other, options=["--token-file", tokens[1]])
    bob_bot = Dialler(bob)
    relays = [Relay(folder, f"alice{number}", *places, options=["--token-file", tokens[0]]) for number in range(2)]
    bots = [Dialler(relay) for relay in relays]
    waited(lambda: any("another client has this seat: dials again in" in note for relay in relays for note in relay.notes()), "the note of another client", lambda: str([relay.notes() for relay in relays]))
    bots[0].close()
    relays[0].ends(1)
    want(bob_bot.line().startswith(b"MATCHSTATE:1:0::"), "bob is told the deal")
    want(bots[1].line().startswith(b"MATCHSTATE:0:0::"), "alice is told the deal")
    count = sum(note.endswith("seated") for note in relays[1].notes())
    waited(lambda: sum(note.endswith("seated") for note in relays[1].notes()) >= min(count + 1, 3), "a seat", lambda: str(relays[1].notes()))
    bots[1].close()
    bob_bot.close()


@test()
def tokens(folder, seed, is_long):
    """A relay shows the token of its file; with a wrong one it is turned away, and says so."""
    match = League(hands=20, game=GAME)
    match.set_up()
    files = []
    for seat in range(2):
        files.append(match.folder / f"token{seat}")
        files[seat].write_text(match.token(seat) + "\n")
    places = [[f"127.0.0.1:{match.seats[node] + seat}" for node in range(3)] for seat in range(2)]
    wrong = Relay(folder, "wrong", *places[0], options=["--token-file", files[1]])
    bot = Dialler(wrong)
    wrong.await_note("turned away: a wrong token? dials again in 5 s")
    bot.close()
    wrong.ends(1, "the bot ended its connection")
    relays = [Relay(folder, f"relay{seat}", *places[seat], options=["--token-file", files[seat]]) for seat in range(2)]
    stock = [StockBot(match.folder, seat, relay.port, seed, is_in_c=seat == 0) for seat, relay in enumerate(relays)]
    match.ends()
    for seat, relay in enumerate(relays):
        relay.ends(0)
        stock[seat].ends()
        lines = b"".join(line.encode() + b"\r\n" for line in lines_of(match, match.log(0), seat))
        want(stock[seat].record() == lines, f"bot {seat} got {stock[seat].record().count(10)} lines")
    want(not [fault for fault in match.faults() if "seat 1" in fault], f"faults are told: {match.faults()[:4]}")


@test()
def stays(folder, seed, is_long):
    """With --stay a relay hangs up at all nodes once its bot left, and serves the next one from the newest line on."""
    match = League(hands=5, game=GAME)
    match.set_up()
    for seat in range(2):
        (match.folder / f"token{seat}").write_text(match.token(seat))
    relays = []
    for seat in range(2):
        places = [f"127.0.0.1:{match.seats[node] + seat}" for node in range(3)]
        options = ["--token-file", match.folder / f"token{seat}", *(["--stay"] if seat == 1 else [])]
        relays.append(Relay(folder, f"relay{seat}", *places, options=options))
    alice, bob = (Dialler(relay) for relay in relays)
    line = bob.line()
    want(line.startswith(b"MATCHSTATE:1:0::"), f"bob is told {line!r}")
    for node in range(3):
        match.await_told(node, "seats", "alice:seated", "bob:seated")
    bob.close()
    for node in range(3):
        waited(lambda: "bob:seated" not in match.asked(node).get("seats", "bob:seated"), f"node {node} to have bob no more", lambda: str(match.asked(node)))
    bob = Dialler(relays[1])
    want(bob.line() == line, "the next bot is told the newest line")
    bob.say(line.rstrip() + b":c\r\n")
    want(bob.line().split(b":")[3] == b"c", "and heard")
    want(relays[1].process.poll() is None, "the relay stays")
    bob.close()
    alice.close()
    relays[0].ends(1, "the bot ended its connection")


@test()
def links_that_are_cut(folder, seed, is_long):
    """The host of a relay is cut off for good: within half a minute its seat is free at each node. And a node's host is cut
    off: the relay's connection to it ends as soon."""
    try:
        match = League(hands=5, game=GAME, on_hosts=True)
    except NoHosts as why:
        raise NotMeasured(str(why))
    match.set_up()
    for seat in range(2):
        (match.folder / f"token{seat}").write_text(match.token(seat))
    places = [[f"{match.address(node)}:{match.seats[node] + seat}" for node in range(3)] for seat in range(2)]
    relays, bots = [], []
    # Alice's relay is here, at the switch. Bob's is on the host of node 2, with his bot.
    for seat in range(2):
        starter = match.hosts.starter(2) if seat == 1 else ()
        relays.append(Relay(folder, f"relay{seat}", *places[seat], options=["--token-file", match.folder / f"token{seat}"], starter=starter))
        bots.append(StockBot(match.folder, seat, relays[seat].port, seed, pause=0.05, starter=starter))
    for node in range(3):
        match.await_told(node, "seats", "alice:seated", "bob:seated")
    # The relay notes the end of a connection only where a line had come over it.
    relays[0].await_note("node 2: seated")
    cut = time.monotonic()
    match.hosts.cut_off(2)
    free = waited(lambda: time.monotonic() - cut if "bob:seated" not in match.asked(0).get("seats", "bob:seated") else None, "bob's seat to be free", lambda: str(match.asked(0)))
    # (what a node that is cut off sends may still reach the switch itself, where its port has the address of the bridge: then it says that
    # it has no quorum, and no line comes over a further connection)
    is_noted = lambda *texts: any(text in note for note in relays[0].notes() for text in texts)
    waited(lambda: is_noted("node 2: connection lost", "node 2: it has no quorum"), "the end of alice's connection to node 2", lambda: str(relays[0].notes()[-5:]))
    took = time.monotonic() - cut
    ends = [("alice's connection to node 2 ended", took)] if is_noted("node 2: connection lost") else []
    for what, seconds in [("bob's seat was free", free), *ends]:
        want(seconds > 5, f"{what} after {seconds:.1f} s")
        in_time(seconds < 45, f"{what} after {seconds:.1f} s")
    return f"the seat was free after {free:.1f} s, the relay's connection ended after {took:.1f} s"
