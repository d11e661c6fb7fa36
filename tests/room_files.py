"""Tests of a room's file, of what the room keeps, and of what tools/league makes of it."""
import hashlib
import json
import stat
import sys
import tomllib

sys.dont_write_bytecode = True

import measuring
from room_runs import CALLER, PROGRAM, TOOL, WAIT, Room, calls, digest, test, token
from serving import TOP, free_ports, want

sys.path.insert(0, str(TOP / "tools"))

from league_parts.faults import Wrong
from room_parts import room_file
from which_program import MARK


def wrong(room):
    """Why a room's file is refused, which the reader says without a process."""
    try:
        return f"it is taken: {room_file.read(room.file)}"
    except Wrong as why:
        return str(why)


@test
def files_that_are_refused():
    """By a sentence that names the file and the key."""
    player = {"name": "alice", "token": digest("alice")}
    for entries, players, text in (
        ({"hands": 0}, None, "hands is a number from 1 to 10000, not 0"),
        ({"hands": [10, 10]}, None, "hands is a number from 1 to 10000, or a list of different ones, not [10, 10]"),
        ({"hands": []}, None, "hands is a number from 1 to 10000, or a list of different ones, not []"),
        ({"meetings": 3}, None, "no key is called 'meetings'"),
        ({"nodes": 4}, None, "nodes is 0, 3 or 5, not 4"),
        ({"port": 70000}, None, "port is a number from 0 to 65535, not 70000"),
        ({"wait": -1}, None, "wait is a number from 0 to 86400, not -1"),
        ({"at_once": 0}, None, "at_once is a number from 1 to 1000000, not 0"),
        ({"game": "none.game"}, None, "the game "),
        ({"folder": "."}, None, "folder is one that the room has to itself, and not one in which its file lies"),
        ({}, [player], "a match of this game has 2 players, and the file names 1"),
        ({}, [player, player], "two players are called alice"),
        ({}, [player, {**player, "name": "bob"}], "bob has the token of another player"),
        ({}, [player, {"name": "bob", "token": "secret"}], "the token of bob is its SHA-256, as 64 digits of hexadecimal"),
        ({}, [player, {"name": "bob"}], "token is missing"),
        ({}, [player, {"name": "b.b", "token": digest("b")}], "the name of a player is 1 to 32 letters, digits, _ and -, not 'b.b'"),
        ({}, [player, {"name": "house", "token": digest("b")}], "house is the word for any house bot: take another name"),
        ({}, [player, {"name": "bob", "token": digest("b"), "command": "x"}], "no key is called 'command' in the table of bob"),
    ):
        room = Room()
        room.entries.update(entries)
        room.write()
        if players is not None:
            room.names = []
            room.write()
            tables = "".join("[[player]]\n" + "".join(f"{key} = {json.dumps(value)}\n" for key, value in it.items()) for it in players)
            room.write(room.file.read_text() + tables)
        want(text in wrong(room), f"{entries} {players}: {wrong(room)}")
    for houses, text in (
        ({"alice": "true {port}"}, "alice is a player and a house bot: take another name"),
        ({"hal": "true"}, "the command of hal has no {port}, so nobody would come to it"),
        ({"house": "true {port}"}, "house is the word for any house bot"),
    ):
        want(text in wrong(Room(houses=houses)), f"{houses}: {wrong(Room(houses=houses))}")
    room = Room(waiting=0)
    room.refuses(2, "r.toml: waiting is a number from 1 to 1000000, not 0")
    room = Room()
    room.write("name = ")
    room.refuses(2, "isn't a TOML file")
    room.file.unlink()
    room.refuses(2, "can't be read: No such file or directory")


@test
def tokens_of_an_example_are_told():
    """A room says which of its players have the tokens of examples/room.toml, which everybody knows."""
    sample = tomllib.loads((TOP / "examples/room.toml").read_text())["player"][0]["token"]
    room, told = Room(), "everybody knows the tokens of an example"
    room.write(room.file.read_text().replace(digest("bob"), sample))
    room.open().noted(f" bob: {told}")
    room.close()
    other = Room().open()
    other.close()
    want(told not in other.notes(), f"of other tokens: {other.notes()}")


@test
def a_room_is_open_once():
    """A second process gets neither folder nor port, and what is there stays as it is."""
    port = free_ports(1)
    room = Room(port=port).open()
    room.refuses(4, "another process has the room r open")
    Room(port=port).refuses(1, f"port {port} at 127.0.0.1 can't be had: Address already in use")
    room.close()
    room.open()
    room.close()
    Room(bind="192.0.2.1").refuses(1, "port 0 at 192.0.2.1 can't be had")


@test
def the_program_is_the_one_that_is_named():
    """Of one that is unproved the notes and each result say so; without one the room isn't opened."""
    room = Room(hands=2)
    unproved = room.folder / "unproved"
    unproved.write_bytes(PROGRAM.read_bytes().replace(MARK, b"") + MARK)
    unproved.chmod(0o755)
    room.open("--program", unproved)
    alice, bob = room.dial("alice").plays(calls), room.dial("bob").plays(calls)
    alice.is_over(), bob.is_over()
    result, _ = room.over("alice.bob.1.0")
    want(result["versions"]["unproved"] is True and room.notes().count("is unproved") == 1, f"it is {result}")
    room.close()
    room.refuses(2, "isn't a program that can be run", "--program", room.folder / "none")


@test
def another_game_in_the_same_folder():
    room = Room().open()
    room.close()
    other = room.folder / "holdem.nolimit.2p.reverse_blinds.game"
    other.write_text((TOP / "examples/holdem.nolimit.2p.reverse_blinds.game").read_text().replace("20000", "10000"))
    room.entries["game"] = str(other)
    room.write()
    room.refuses(2, "game was another one when the room began")


@test
def what_a_room_keeps():
    """Its owner alone may look into it. tools/league takes a league's file for table, page and plan, and plays nothing of it; who isn't
    in the room's file any more stays in the table."""
    room = Room("alice bob carol", {"hal": CALLER}, hands=[4, 6], house_after=0).open()
    alice, bob = room.dial("alice", "against bob"), room.dial("bob", "against alice")
    alice.plays(calls), bob.plays(calls)
    alice.is_over(), bob.is_over()
    carol = room.dial("carol", "against house hands 6").plays(calls)
    want(carol.is_over().startswith("carol.hal.1.0 SCORE:"), f"it heard {carol.said}")
    room.over("alice.bob.1.0", hands=4), room.over("carol.hal.1.0", hands=6)
    want(stat.S_IMODE(room.kept.stat().st_mode) == 0o700, "others may enter the room's folder")
    text = room.does("table", hands=4)
    want("1 of 1 match and 1 of 1 group are finished" in text and "4 hands a match, no duplicates" in text, f"the table is {text}")
    want("alice" in text and "bob" in text, f"the table is {text}")
    want("1 of 1 match and 1 of 1 group are finished" in room.does("table", hands=6), "the table of 6 hands")
    room.does("page", "--public", str(room.folder / "public"), hands=4)
    want((room.folder / "public/index.html").exists(), "no page is published")
    room.does("plan", hands=4)
    for words in (("run",), ("match", "1"), ("try",)):
        want("is of a room, whose matches tools/room plays" in room.does(*words, hands=4, status=2), f"{words} is done")
    room.close()
    room.names.remove("alice")
    room.write()
    room.open()
    room.dial("alice").is_closed("refused", "no player of this name and token")
    want("alice" in room.does("table", hands=4), "who left isn't in the table any more")
    want(not [path for path in room.kept.rglob("*") if path.is_file() and token("bob").encode() in path.read_bytes()], "a token is kept")


@test
def ranks_say_who_met_different_opponents():
    """alice met bob and carol, who haven't met: they are neighbours whose means say nothing."""
    room = Room("alice bob carol", hands=3).open()
    for other in ("bob", "carol"):
        guests = [room.dial("alice", f"against {other}").plays(calls), room.dial(other, "against alice").plays(calls)]
        [it.is_over() for it in guests]
        room.over(f"alice.{other}.1.0")
    want("met different opponents" in room.does("table"), "the table tells bob and carol apart")


@test
def the_sample_file_is_right():
    """Its tokens are those of sixty-four ones and twos."""
    found = room_file.read(TOP / "examples/room.toml")
    shown = {name: hashlib.sha256(64 * digit).hexdigest() for name, digit in (("alice", b"1"), ("bob", b"2"))}
    want(found.tokens == shown and found.hands == (100, 1000) and list(found.houses) == ["hal"], f"it is {found}")


@test
def a_new_token():
    """The line's digest is that of the file's first line, which its owner alone may read; a file that is there stays."""
    room = Room()
    path = room.folder / "new.token"
    ran = measuring.run([TOOL, "--new-token", path], capture_output=True, text=True, timeout=WAIT)
    shown = path.read_text()
    want(ran.stdout == f'token = "{hashlib.sha256(shown.strip().encode()).hexdigest()}"\n', f"it prints {ran.stdout}")
    want(len(shown) == 65 and shown.endswith("\n") and stat.S_IMODE(path.stat().st_mode) == 0o600, "another file")
    again = measuring.run([TOOL, "--new-token", path], capture_output=True, text=True, timeout=WAIT)
    want(again.returncode == 1 and path.read_text() == shown and again.stderr == f"room: {path}: File exists\n", f"it says {again.stderr}")
