"""Tests of stock bots behind --join, and of the sample bots, which dial a room themselves."""
import select
import shutil
import socket
import subprocess
import sys
import threading

sys.dont_write_bytecode = True

import measuring
from room_runs import CALLER, TOOL, TOP, WAIT, Bots, Room, calls, children, test, token
from serving import waited, want


def ended(process, status=0):
    """What a bot behind --join printed and said, once it has ended with a status."""
    printed, said = measuring.communicate(process, WAIT)
    want(process.returncode == status, f"it ended with {process.returncode}: {printed}{said}")
    return printed, said


@test
def stock_bots_play_three_matches():
    """Each of --join's lines has a match's score, and the log is right."""
    room = Room(hands=20).open()
    both = [room.join(name, Bots.command(seed), "--matches", "3") for seed, name in enumerate(("alice", "bob"))]
    printed = [ended(it)[0].splitlines() for it in both]
    want(printed[0] == printed[1] and len(printed[0]) == 3, f"they print {printed}")
    for meeting, line in enumerate(printed[0], start=1):
        result, _ = room.over(f"alice.bob.{meeting}.{(meeting - 1) % 2}")
        want(line == f"{result['match']} {result['score']}" and result["restarts"] == [0, 0], f"it printed {line}, and it is {result}")


@test
def stock_bots_with_nodes_and_a_house_bot():
    room = Room("alice bob", {"hal": CALLER}, hands=10, nodes=3).open()
    printed, _ = ended(room.join("alice", Bots.command(3), "--against", "house"))
    result, _ = room.over("alice.hal.1.0")
    want(printed == f"alice.hal.1.0 {result['score']}\n" and result["nodes"] == 3, f"it printed {printed}")


class Cut(threading.Thread):
    """Stands between a bot and its room, and cuts its connection when it is asked to."""

    def __init__(self, port):
        super().__init__(daemon=True)
        self.port, self.listener, self.pairs, self.is_open = port, socket.create_server(("127.0.0.1", 0)), [], True
        self.listener.settimeout(None)
        self.own = self.listener.getsockname()[1]
        self.start()

    def run(self):
        while True:
            below, _ = self.listener.accept()
            if not self.is_open:
                below.close()
                continue
            try:
                above = socket.create_connection(("127.0.0.1", self.port))
            except OSError:
                below.close()
                continue
            self.pairs.append((below, above))
            threading.Thread(target=self.copy, args=(below, above), daemon=True).start()

    @staticmethod
    def copy(below, above):
        other = {below: above, above: below}
        try:
            while True:
                for source in select.select([below, above], [], [])[0]:
                    piece = source.recv(65536)
                    if not piece:
                        raise OSError
                    other[source].sendall(piece)
        except (OSError, ValueError):
            for it in (below, above):
                it.close()

    def cut(self):
        for pair in self.pairs:
            for it in pair:
                try:
                    it.shutdown(socket.SHUT_RDWR)
                except OSError:
                    pass


@test
def a_stock_bot_keeps_its_connection_while_the_way_to_the_room_is_lost():
    """The connection is cut in the middle and behind a restart of the room; the bot's process stays the same, and the match is whole."""
    room = Room(hands=60, port=0, wait=60).open()
    cut = Cut(room.port)
    alice = room.join("alice", Bots.command(1), port=cut.own)
    bob = room.dial("bob")
    bob.plays(calls, lambda hand: hand >= 10)
    bob.ends()
    before = {number for number, _ in children(alice.pid)}
    cut.cut()
    room.noted("alice is away, the seat is kept")
    line = bob.stopped
    bob.send(f"{line}:c")
    bob.plays(calls)
    printed, said = ended(alice)
    want(len(before) == 1 and "started again" not in said, f"it said {said}")
    result, _ = room.over("alice.bob.1.0")
    want(result["restarts"] == [1, 0] and result["defaults"] == [0, 0] and printed.startswith("alice.bob.1.0 SCORE:"), f"it is {result}: {said}")


# A bot that keeps what it sees, calls, and thinks for a while at its first turn in hand 1.
THINKS = """
import socket, sys, time
sys.path.insert(0, {bots!r})
from table import Game, turn_of
game, seen, thought = Game(open({game!r}).read()), open({seen!r}, "w", buffering=1), False
found = socket.create_connection((sys.argv[1], int(sys.argv[2])))
found.sendall(b"VERSION:2.0.0\\r\\n")
for line in found.makefile("r", newline="\\r\\n"):
    seen.write(line.rstrip() + "\\n")
    if turn_of(game, line.rstrip()) is not None:
        if line.split(":")[2] == "1" and not thought:
            thought = True
            print("it thinks", file=open({seen!r} + ".thinks", "w"))
            time.sleep(5)
        found.sendall((line.rstrip() + ":c\\r\\n").encode())
"""


def thinking(wait):
    """A room in which alice's bot thinks in hand 1, behind what can be cut; the room, that, the bot, bob, and what the bot has seen."""
    room = Room(hands=4, wait=wait).open()
    cut, seen = Cut(room.port), room.folder / "seen"
    game = TOP / "examples/holdem.nolimit.2p.reverse_blinds.game"
    words = THINKS.format(bots=str(TOP / "examples/bots"), game=str(game), seen=str(seen))
    alice = room.join("alice", [sys.executable, "-c", words, "{host}", "{port}"], port=cut.own)
    bob = room.dial("bob").plays(calls)
    waited(lambda: seen.with_suffix(".thinks").exists(), "the bot's turn in hand 1", room.notes)
    return room, cut, alice, bob, seen


@test
def a_stock_bot_whose_seat_was_given_up_meanwhile():
    """Its match is over for it: --join plays no other one than was asked for."""
    room, cut, alice, bob, _ = thinking(wait=1)
    cut.is_open = False
    cut.cut()
    room.noted("the seat of alice is given up")
    cut.is_open = True
    printed, said = ended(alice)
    want("alice.bob.1.0 is played to its end without this player" in said and printed == "", f"it said {said}")
    bob.is_over()
    result, _ = room.over("alice.bob.1.0")
    want(result["defaults"][0] > 0 == result["defaults"][1] and "alice.bob.2.1" not in room.notes(), f"it is {result}")


@test
def a_stock_bot_that_thinks_while_the_room_is_lost():
    """It sees each line once, though the room tells the newest one again, and what it answers meanwhile counts."""
    room, cut, alice, bob, seen = thinking(wait=60)
    cut.cut()
    room.noted("alice (127.0.0.1): goes on in alice.bob.1.0")
    printed, said = ended(alice)
    bob.is_over()
    lines = seen.read_text().splitlines()
    want(len(set(lines)) == len(lines), f"it saw a line twice: {lines}")
    result, _ = room.over("alice.bob.1.0")
    want((result["restarts"], result["passed"], result["defaults"]) == ([1, 0], [0, 0], [0, 0]), f"it is {result}: {said}")


@test
def what_join_refuses():
    """A wrong token and a wish that can't be met end it with status 1, a wrong command line with status 2. It has the files of an
    author alone."""
    room = Room().open()
    tool = room.folder / "tools/room"
    shutil.copytree(TOP / "tools/room_parts", tool.parent / "room_parts", ignore=shutil.ignore_patterns("__pycache__"))
    shutil.copy(TOOL, tool)
    path = room.folder / "wrong.token"
    path.write_text("0123456789abcdef\n")
    words = [tool, "--join", f"127.0.0.1:{room.port}", "alice", "--token-file", path]
    ran = measuring.run([*words, "--", *Bots.command(1)], capture_output=True, text=True, timeout=WAIT)
    want(ran.returncode == 1 and "refused: no player of this name and token" in ran.stderr, f"it said {ran.stderr}")
    ended_words = measuring.run([*words, "--", "true", "{port}"], capture_output=True, text=True, timeout=WAIT)
    want(ended_words.returncode == 1 and "the bot ended with status 0 before it dialled" in ended_words.stderr, f"it said {ended_words.stderr}")
    for more in (["--", "true"], ["--matches", "x", "--", "true", "{port}"], ["--matches", "-1", "--", "true", "{port}"]):
        want(measuring.run([*words, *more], capture_output=True, timeout=WAIT).returncode == 2, f"{more} is taken")
    room.close()
    words = [*words, "--give-up", "1", "--", *Bots.command(1)]
    ran = measuring.run(words, capture_output=True, text=True, timeout=WAIT)
    want(ran.returncode == 1 and "no seat was had in the room for 1 s" in ran.stderr, f"it said {ran.stderr}")


@test
def a_stock_bot_that_ends_is_started_again():
    """It plays one line and ends: three times it is started again in one match, and then --join gives up."""
    room = Room(hands=4, wait=60).open()
    script = (
        "import socket, sys; found = socket.create_connection((sys.argv[1], int(sys.argv[2]))); "
        "found.sendall(b'VERSION:2.0.0\\r\\n'); found.recv(100)"
    )
    alice = room.join("alice", [sys.executable, "-c", script, "{host}", "{port}"])
    bob = room.dial("bob").plays(calls)
    printed, said = ended(alice, status=1)
    want(said.count("it is started again") == 3 and "4 times in one match" in said, f"it said {said}")
    bob.is_over()
    result, _ = room.over("alice.bob.1.0")
    want(result["defaults"][0] > 0 == result["defaults"][1], f"it is {result}")


@test
def sample_bots_dial_a_room_themselves():
    room = Room(hands=10).open()
    game = TOP / "examples/holdem.nolimit.2p.reverse_blinds.game"
    started = []
    for name, bot in (("alice", ["caller", game]), ("bob", ["raiser", game, "7"])):
        path = room.folder / f"{name}.token"
        path.write_text(token(name) + "\n")
        words = [TOP / "examples/bots" / bot[0], *bot[1:], f"127.0.0.1:{room.port}", "--room", name, "--token-file", path]
        started.append(subprocess.Popen(words, stdin=subprocess.DEVNULL, stdout=subprocess.PIPE, stderr=subprocess.PIPE, text=True))
    for it in started:
        ended(it)
    result, _ = room.over("alice.bob.1.0")
    want(result["restarts"] == result["defaults"] == result["mended"] == [0, 0], f"it is {result}")
