"""Tests of a room that ends and is opened again."""
import sys
import time

sys.dont_write_bytecode = True

from room_matches import both
from room_runs import CALLER, Room, at_hand, calls, test
from serving import in_time, want


def begun(hands=8, **entries):
    """A room in which alice and bob play, and alice stands still in hand 3; the room and what its log has."""
    room = Room("alice bob carol", hands=hands, **entries).open()
    alice, bob = room.dial("alice", "against bob"), room.dial("bob", "against alice").plays(calls)
    alice.plays(calls, at_hand(3))
    alice.ends()
    return room, alice, bob, room.running_log("alice.bob.1.0", 3)


@both
def a_room_that_ends_in_order_goes_on(**entries):
    """Bots are told to dial again. The match goes on when both are here, whomever they ask for; that isn't counted as coming again."""
    room, alice, bob, before = begun(**entries)
    room.close()
    want("alice.bob.1.0 was interrupted, dial again" in alice.hears("again"), f"it heard {alice.said}")
    room.open()
    room.noted("alice.bob.1.0: goes on when its players are here")
    alice = room.dial("alice", "against carol")
    want("alice.bob.1.0 goes on when bob is here" in alice.hears("waiting"), f"it heard {alice.said}")
    carol = room.dial("carol")
    carol.hears("waiting")
    bob = room.dial("bob")
    alice.plays(calls), bob.plays(calls)
    want(alice.is_over() == bob.is_over(), "another end")
    result, log = room.over("alice.bob.1.0")
    want(log.startswith(before) and result["restarts"] == result["defaults"] == [0, 0], f"it is {result}")


@both
def a_room_that_is_killed_goes_on(**entries):
    room, alice, bob, before = begun(**entries)
    matches = room.matches()
    room.kill()
    want(alice.line() is None or alice.said[-1].startswith("#ROOM again"), f"alice is still connected to {matches}")
    room.open()
    alice, bob = room.dial("alice").plays(calls), room.dial("bob").plays(calls)
    want(alice.is_over() == bob.is_over(), "another end")
    result, log = room.over("alice.bob.1.0")
    want(log.startswith(before) and result["restarts"] == result["defaults"] == [0, 0], f"it is {result}")
    want("1 of 1 match " in room.does("table"), "the table lacks it")


@both
def who_does_not_come_again_has_defaults(**entries):
    """bob waits `resume` seconds for alice, and no longer; her seat was hers before, so she pays for it."""
    room, alice, bob, before = begun(resume=4, **entries)
    room.close()
    since = time.monotonic()
    room.open()
    bob = room.dial("bob")
    bob.hears("match")
    want(time.monotonic() - since > 2, "alice wasn't awaited")
    bob.plays(calls)
    bob.is_over()
    in_time(time.monotonic() - since < 60, "alice was awaited for long")
    result, log = room.over("alice.bob.1.0")
    want(log.startswith(before) and result["defaults"][0] > 0 == result["defaults"][1], f"it is {result}")
    want("the seat of alice is given up" in room.notes(), "nothing is noted")


@test
def a_match_to_which_nobody_comes_again_is_played_out():
    room, alice, bob, before = begun(resume=2)
    room.close()
    room.open()
    result, log = room.over("alice.bob.1.0")
    want(log.startswith(before) and min(result["defaults"]) > 0, f"it is {result}")


@test
def a_seat_that_was_given_up_stays_so():
    """alice's seat was given up before the room was killed. Behind that bob alone is awaited, and alice plays others."""
    room = Room("alice bob carol", hands=6, wait=1).open()
    alice, bob = room.dial("alice", "against bob"), room.dial("bob", "against alice")
    alice.plays(calls, at_hand(1))
    bob.plays(calls, at_hand(3))
    alice.ends()
    alice.close()
    bob.ends()
    room.noted("the seat of alice is given up")
    room.kill()
    room.open()
    again = room.dial("alice")
    again.hears("waiting")
    want("goes on" not in again.said[-1], f"it heard {again.said}")
    bob = room.dial("bob")
    want("alice.bob.1.0" in bob.hears("match"), f"it heard {bob.said}")
    bob.plays(calls)
    bob.is_over()
    result, _ = room.over("alice.bob.1.0")
    want(result["defaults"][0] > 0 == result["defaults"][1] and result["restarts"][1] == 0, f"it is {result}")


@test
def who_waits_to_go_on_and_leaves_may_come_again():
    room, alice, bob, before = begun()
    room.close()
    room.open()
    alice = room.dial("alice")
    alice.hears("waiting")
    alice.close()
    room.noted("alice (127.0.0.1): left before a match")
    alice, bob = room.dial("alice").plays(calls), room.dial("bob").plays(calls)
    want(alice.is_over() == bob.is_over(), "another end")
    want(room.over("alice.bob.1.0")[1].startswith(before), "another log")


@test
def a_match_with_a_house_bot_goes_on_when_its_player_is_here():
    room = Room("alice bob", {"hal": CALLER}, hands=8).open()
    alice = room.dial("alice", "against house")
    alice.plays(calls, at_hand(3))
    alice.ends()
    before = room.running_log("alice.hal.1.0", 3)
    room.kill()
    room.open()
    alice = room.dial("alice").plays(calls)
    want("alice.hal.1.0 SCORE:" in alice.is_over(), f"it heard {alice.said}")
    want(room.over("alice.hal.1.0")[1].startswith(before), "another log")
