"""Tests of matches in a room: who plays whom, who goes away, and who doesn't answer."""
import os
import socket
import struct
import sys
import time

sys.dont_write_bytecode = True

from room_runs import CALLER, TOP, Room, at_hand, calls, folds, kill, test, token, words_of
from serving import in_time, waited, want

sys.path.insert(0, str(TOP / "tools"))

from room_parts.pairing import Candidate, tables

NODES = {"nodes": 3}


def both(function):
    """A test of it without nodes, and one with three."""
    def with_nodes():
        function(**NODES)

    with_nodes.__name__ = f"with_nodes_{function.__name__}"
    test(function)
    test(with_nodes)
    return function


def drawn(waiting, seats=2, houses=(), met=None):
    """The names at the tables that are drawn."""
    often = {frozenset(pair): count for pair, count in (met or {}).items()}
    found = tables(
        [Candidate(*it) for it in waiting], [Candidate(name, is_house=True) for name in houses], seats,
        lambda hands, one, other: often.get(frozenset((one, other)), 0),
    )
    return [[it.name for it in table] for table in found]


@test
def who_sits_down_with_whom():
    """Whoever came first plays who met him least, of those whose wishes fit; hands must be the same. By hand, row by row."""
    for waiting, more, wanted in (
        (["a", "b", "c", "d"], {}, [["a", "b"], ["c", "d"]]),
        (["a", "b", "c"], {"met": {("a", "b"): 1}}, [["a", "c"]]),
        (["a", "b", "c"], {"met": {("a", "b"): 1, ("a", "c"): 1}}, [["a", "b"]]),
        ([("a", "c"), "b", "c"], {}, [["a", "c"]]),
        ([("a", "d"), "b", "c"], {}, [["b", "c"]]),
        ([("a", "b"), ("b", "c"), "c"], {}, [["b", "c"]]),
        ([("a", "b"), ("b", "a")], {}, [["a", "b"]]),
        ([("a", None, 10), ("b", None, 20), ("c", None, 10)], {}, [["a", "c"]]),
        ([("a", "house")], {"houses": ["h", "i"], "met": {("a", "h"): 2}}, [["a", "i"]]),
        ([("a", "i"), "b"], {"houses": ["h", "i"]}, [["a", "i"]]),
        ([("a", "house"), "b", "c"], {"houses": ["h"]}, [["a", "h"], ["b", "c"]]),
        (["a"], {"houses": ["h"]}, []),
        ([("a", None, 0, True)], {"houses": ["h"]}, [["a", "h"]]),
        ([("a", None, 0, True), "b"], {"houses": ["h"]}, [["a", "b"]]),
        ([("a", "b", 0, True)], {"houses": ["h"]}, []),
        (["a", "b", "c", "d"], {"seats": 3}, [["a", "b", "c"]]),
        (["a", "b"], {"seats": 3, "houses": ["h"]}, []),
        ([("a", None, 0, True), "b"], {"seats": 3, "houses": ["h", "i"]}, [["a", "b", "h"]]),
        ([("a", "house"), "b", "c"], {"seats": 3, "houses": ["h"]}, [["a", "b", "h"]]),
        ([("a", "c"), "b", "c"], {"seats": 3}, [["a", "b", "c"]]),
        ([("a", "d"), ("b", "e"), "c", "d", "e"], {"seats": 3}, [["a", "c", "d"]]),
    ):
        words = [it if isinstance(it, tuple) else (it,) for it in waiting]
        found = drawn(words, **more)
        want(found == wanted, f"{waiting} {more}: {found}, not {wanted}")


@both
def two_play_and_meet_again(**entries):
    """Seats change with each meeting, results are the logs', and no cards come again."""
    room = Room(hands=6, **entries).open()
    cards = []
    for meeting, seats in ((1, "alice|bob"), (2, "bob|alice")):
        alice, bob = room.dial("alice"), room.dial("bob")
        alice.plays(calls), bob.plays(folds)
        name = f"alice.bob.{meeting}.{meeting - 1}"
        over = alice.is_over()
        want(over == bob.is_over() and over.startswith(f"{name} SCORE:") and over.endswith(f":{seats}"), f"it ended with {over}")
        result, log = room.over(name)
        want(result["score"] == over.split(" ")[1] and result["nodes"] == entries.get("nodes", 0), f"it is {result}")
        want(sum(result["restarts"] + result["defaults"] + result["mended"] + result["passed"]) == 0, f"it is {result}")
        cards += [line.split(":")[3] for line in log.splitlines()[1:-1]]
    want(len(set(cards)) == 12, "the same cards were dealt twice")
    want(alice.said[0].startswith("#ROOM waiting: ") or alice.said[0].startswith("#ROOM match: "), f"it heard {alice.said}")
    want("#ROOM match: alice.bob.2.1 seat 1 names bob|alice hands 6" in alice.said, f"it heard {alice.said}")


@test
def three_at_a_table_with_a_house_bot():
    command = f"{sys.executable} {TOP / 'examples/bots/caller'} {TOP / 'examples/holdem.nolimit.3p.game'} {{port}}"
    room = Room("alice bob", {"hal": command}, game="holdem.nolimit.3p.game", hands=4, house_after=1).open()
    alice, bob = room.dial("alice").plays(calls), room.dial("bob").plays(calls)
    want(alice.is_over() == bob.is_over() and "alice.bob.hal.1.0 SCORE:" in alice.said[-1], f"it heard {alice.said}")
    room.over("alice.bob.hal.1.0")


@test
def a_house_bot_that_fails():
    """It is started again as often as a league does it, then it folds or calls; the guest sees the match's end."""
    room = Room("alice bob", {"bad": "false {port}"}, hands=3, restarts=1).open()
    alice = room.dial("alice", "against bad").plays(calls)
    alice.is_over()
    result, _ = room.over("alice.bad.1.0")
    want(result["restarts"] == [0, 1] and result["defaults"][1] > 0 == result["defaults"][0], f"it is {result}")


@both
def who_goes_away_and_comes_again_in_time(**entries):
    """He goes on from the newest line, behind a hand that the other sees him at. A wrong token doesn't have his seat."""
    room = Room(hands=6, wait=60, **entries).open()
    alice, bob = room.dial("alice"), room.dial("bob").plays(calls)
    alice.plays(calls, at_hand(2))
    line = alice.ends()
    alice.close()
    room.noted("alice.bob.1.0: alice is away, the seat is kept")
    room.dial("alice", shows=token("bob")).is_closed("refused", "no player of this name and token")
    again = room.dial("alice")
    want("alice.bob.1.0 seat 0 names alice|bob hands 6" in again.hears("match"), f"it heard {again.said}")
    again.plays(calls)
    want(again.is_over() == bob.is_over(), "another end")
    want(again.lines[0] == line, f"it began with {again.lines[0]}, and not with {line}")
    result, _ = room.over("alice.bob.1.0")
    want((result["restarts"], result["defaults"]) == ([1, 0], [0, 0]), f"it is {result}")


@test
def who_is_reset_and_comes_again():
    """A machine that restarts resets the connection, in which lines may stand that nobody read."""
    room = Room(hands=3).open()
    alice, bob = room.dial("alice"), room.dial("bob").plays(calls)
    alice.plays(calls, at_hand(1))
    alice.ends()
    alice.connection.setsockopt(socket.SOL_SOCKET, socket.SO_LINGER, struct.pack("ii", 1, 0))
    alice.close()
    room.noted("alice.bob.1.0: alice is away, the seat is kept")
    again = room.dial("alice").plays(calls)
    want(again.is_over() == bob.is_over(), "another end")
    want(room.over("alice.bob.1.0")[0]["restarts"] == [1, 0], "it didn't come again")


@both
def who_stays_away_loses_by_defaults(**entries):
    """alice has put chips in and goes away: behind `wait` seconds her seat folds where it faces a bet. bob, who raises, wins each blind
    of hers. She may play others meanwhile, and the match counts."""
    room = Room("alice bob carol", hands=5, wait=2, **entries).open()
    alice, bob = room.dial("alice", "against bob"), room.dial("bob", "against alice")
    alice.hears("match"), bob.hears("match")
    alice.plays(calls, at_hand(0)), bob.plays(lambda betting, line: "r300" if not betting.raises else "c")
    alice.ends()
    alice.close()
    want(bob.is_over().startswith("alice.bob.1.0 SCORE:-"), f"bob heard {bob.said}")
    result, _ = room.over("alice.bob.1.0")
    # By reverse blinds: seat 0 has the big blind in hands 0, 2 and 4, and the small one in 1 and 3.
    want(result["chips"][0] < 0 and result["defaults"][0] >= 4 and result["defaults"][1] == 0, f"it is {result}")
    want("the seat of alice is given up" in room.notes(), "nothing is noted")
    again, carol = room.dial("alice"), room.dial("carol")
    want("alice.carol.1.0" in again.hears("match") and "alice.carol.1.0" in carol.hears("match"), "alice plays nobody")


@test
def who_comes_when_his_seat_is_given_up_plays_others():
    """The match in which alice's seat was given up still runs, by bob, who stands still: she waits for carol."""
    room = Room("alice bob carol", hands=5, wait=1).open()
    alice, bob = room.dial("alice", "against bob"), room.dial("bob", "against alice")
    alice.hears("match")
    alice.close()
    bob.plays(calls, at_hand(1))
    bob.ends()
    room.noted("the seat of alice is given up")
    again = room.dial("alice")
    again.hears("waiting")
    room.dial("carol")
    want("alice.carol.1.0" in again.hears("match"), "alice plays nobody")


@both
def who_never_answers(**entries):
    """Late by t_response: his connection ends, and he may come again, as often as `restarts` says. Then his seat folds or calls."""
    room = Room(hands=3, t_response=4000, restarts=1, wait=30, **entries).open()
    alice, bob = room.dial("alice"), room.dial("bob").plays(calls)
    text = alice.hears("again")
    want("out of time: no response came within 4.000 s; the seat is kept for 30 s (1 of 1), dial again" in text, f"it heard {text}")
    alice.close()
    again = room.dial("alice")
    again.is_closed("dropped", "your seat folds or calls to the end of alice.bob.1.0")
    bob.is_over()
    result, _ = room.over("alice.bob.1.0")
    want(result["restarts"] == [1, 0] and result["defaults"][0] > 0 == result["defaults"][1], f"it is {result}")


@test
def an_action_that_is_not_allowed_is_mended():
    room = Room(hands=3).open()
    alice, bob = room.dial("alice").plays(lambda betting, line: "r1"), room.dial("bob").plays(calls)
    alice.is_over(), bob.is_over()
    result, _ = room.over("alice.bob.1.0")
    want(result["mended"][0] > 0 == result["mended"][1], f"it is {result}")


@both
def a_match_that_is_killed_goes_on(**entries):
    """Its process is killed, and no other match's. Both dial again, and it goes on behind what its transaction file tells."""
    room = Room("alice bob carol dave", hands=8, **entries).open()
    pairs = [("alice", "bob"), ("carol", "dave")]
    guests = {name: room.dial(name, f"against {other}") for pair in pairs for name, other in (pair, pair[::-1])}
    [guest.hears("match") for guest in guests.values()]
    for name in ("alice", "carol"):
        guests[name].plays(calls, at_hand(3))
    for name in ("bob", "dave"):
        guests[name].plays(calls)
    guests["alice"].ends(), guests["carol"].ends()
    before = room.running_log("alice.bob.1.0", 3)
    process = next(number for number, _ in room.matches() if words_of(number)[-3:-1] == [str(room.kept / "hands8.toml"), "1"])
    kill(process)
    room.noted("alice.bob.1.0: ended with status -9; it goes on when its players are here again")
    alice, bob = room.dial("alice"), room.dial("bob")
    alice.plays(calls), bob.plays(calls)
    want(alice.is_over() == bob.is_over(), "another end")
    result, log = room.over("alice.bob.1.0")
    want(log.startswith(before), "what was played is lost")
    want(result["restarts"] == result["defaults"] == [0, 0], f"it is {result}")
    last = guests["carol"].stopped
    guests["carol"].send(f"{last}:c")
    guests["carol"].plays(calls)
    guests["carol"].is_over()
    want(room.over("carol.dave.1.0")[0]["restarts"] == [0, 0], "the other match was touched")


@test
def with_nodes_a_killed_node_costs_nothing():
    room = Room(hands=8, nodes=3).open()
    alice, bob = room.dial("alice"), room.dial("bob").plays(calls)
    alice.plays(calls, at_hand(2))
    line = alice.ends()
    nodes = [number for number in filter(str.isdigit, os.listdir("/proc")) if words_of(number)[1:4] == ["node", "alice.bob.1.0.toml", "1"]]
    mine = [number for number in nodes if is_below(int(number), room.process.pid)]
    want(len(mine) == 1, f"the nodes are {mine} of {nodes}")
    kill(mine[0])
    alice.send(f"{line}:c")
    alice.plays(calls)
    alice.is_over(), bob.is_over()
    result, _ = room.over("alice.bob.1.0")
    want(result["restarts"] == result["defaults"] == [0, 0], f"it is {result}")
    waited(lambda: "node 1 was ended by SIGKILL, and is started again" in room.told("alice.bob.1.0"), "the note of the node", room.notes)


def is_below(process, root):
    """Whether a process was started by another one, or by one that this one started."""
    while process > 1 and process != root:
        try:
            with open(f"/proc/{process}/stat", encoding="latin-1") as file:
                process = int(file.read().rpartition(")")[2].split()[1])
        except OSError:
            return False
    return process == root


@test
def a_disk_that_is_full_stops_no_other():
    """A match whose folder can't be written to fails, and goes on when it can be and its players are here again."""
    room = Room(hands=3).open()
    blocked = room.league() / "running/alice.bob.1.0"
    blocked.write_text("")
    alice, bob = room.dial("alice"), room.dial("bob")
    alice.hears("match"), bob.hears("match")
    room.noted("it goes on when its players are here again")
    blocked.unlink()
    begun = time.monotonic()
    alice, bob = room.dial("alice").plays(calls), room.dial("bob").plays(calls)
    alice.is_over(), bob.is_over()
    room.over("alice.bob.1.0")
    in_time(time.monotonic() - begun < 30, "it was put off for long")


@test
def a_bound_of_the_hands_is_the_house_bots_too():
    """A room for two with a house bot alone: whoever comes plays it after house_after seconds, and no earlier."""
    room = Room("alice bob", {"hal": CALLER}, hands=2, house_after=2).open()
    begun = time.monotonic()
    alice = room.dial("alice")
    alice.hears("match")
    want(time.monotonic() - begun > 1.9, "it didn't wait")
    alice.plays(calls)
    want("alice.hal.1.0" in alice.is_over(), f"it heard {alice.said}")
