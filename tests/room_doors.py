"""Tests of who comes to a room's door: what he says, where he waits, and when he is closed."""
import sys
import time

sys.dont_write_bytecode = True

from room_runs import Room, calls, test, token
from serving import Wrong, in_time, want


@test
def who_says_nothing_is_closed_after_ten_seconds():
    """Bytes that drip in don't lengthen the time, and a version alone isn't enough. Who has said all waits on."""
    room = Room().open()
    alice = room.dial("alice")
    alice.hears("waiting")
    silent, dripping = room.connect(), room.connect()
    begun = time.monotonic()
    silent.send("VERSION:2.0.0")
    for _ in range(6):
        dripping.connection.sendall(b"#")
        time.sleep(1)
    silent.is_closed("refused", "it didn't say who it is within ten seconds: say #ROOM NAME TOKEN [against NAME|house] [hands N] behind VERSION:2.0.0")
    seconds = time.monotonic() - begun
    want(seconds > 8, f"it was closed after {seconds:.1f} s")
    in_time(seconds < 16, f"it was closed after {seconds:.1f} s")
    dripping.is_closed("refused", "it didn't say who it is within ten seconds")
    want(room.dial("bob").hears("match") == alice.hears("match").replace("seat 0", "seat 1"), f"they don't play: {room.notes()}")


@test
def a_ninth_waiting_connection_of_an_address():
    """Eight of one address may wait, whatever they have said; one of another address too. Where one leaves, another may come."""
    room = Room().open()
    waiting = [room.connect() for _ in range(8)]
    room.connect().is_closed("later", "8 connections of 127.0.0.1 wait already")
    other = room.dial("bob", host="127.0.0.2")
    other.hears("waiting")
    waiting.pop().close()
    found = None
    for _ in range(50):
        found = room.dial("alice")
        if found.line() is not None and "wait already" not in found.said[-1]:
            break
        found.close()
        time.sleep(0.1)
    want("wait already" not in found.said[-1] and "bob" in other.hears("match"), f"nobody comes for who has left: {room.notes()}")


@test
def who_plays_does_not_count_as_waiting():
    """With one waiting connection of an address two still play: the second one comes when the first plays, by a house bot."""
    room = Room("alice bob", {"hal": "sleep 600 {port}"}, waiting=1, house_after=0, wait=5).open()
    alice = room.dial("alice")
    alice.hears("match")
    bob = room.dial("bob")
    bob.hears("match")


@test
def lines_that_are_refused():
    """A wrong token and a name that nobody has get the same answer."""
    room = Room("alice bob", {"hal": "true {port}"}, hands=[10, 20]).open()
    form = "say #ROOM NAME TOKEN [against NAME|house] [hands N] behind VERSION:2.0.0"
    right = f"#ROOM alice {token('alice')}"
    for lines, text in (
        ([f"#ROOM alice {token('bob')}"], "no player of this name and token"),
        ([f"#ROOM nobody {token('alice')}"], "no player of this name and token"),
        (["#ROOM hal x"], "no player of this name and token"),
        (["#ROOM alice"], form),
        (["#ROOM"], form),
        ([f"{right} against"], form),
        ([f"{right} hands 10 hands 10"], form),
        ([f"{right} with bob"], form),
        ([f"{right}  against bob"], form),
        ([f"{right} hands ten"], f"hands is a number: {form}"),
        ([f"{right} hands -1"], f"hands is a number: {form}"),
        ([f"{right} hands 30"], "hands 30: here a match has 10 or 20"),
        ([f"{right} against alice"], "against alice: nobody else is called so here"),
        ([f"{right} against carol"], "against carol: nobody else is called so here"),
        (["MATCHSTATE:0:0::AsKs|:c"], form),
        (["x" * 5000], "more than 4096 bytes came before a match"),
    ):
        guest = room.connect()
        guest.send("VERSION:2.0.0", *lines)
        guest.is_closed("refused", text)
    guest = room.connect()
    guest.send("VERSION:1.0.0", right)
    guest.is_closed("refused", "the first line isn't VERSION:2.0.0")
    want(token("alice") not in room.notes() and token("bob") not in room.notes(), "the notes tell tokens")


@test
def comments_before_the_line_are_passed_over():
    room = Room().open()
    alice = room.connect()
    alice.send("# a bot", "VERSION:2.0.0", "; of mine", f"#ROOM alice {token('alice')} against bob")
    alice.hears("waiting")
    room.dial("bob").hears("match")
    alice.hears("match")


@test
def what_a_guest_says_does_nothing_to_a_terminal():
    room = Room().open()
    guest = room.connect()
    guest.connection.sendall(b"VERSION:2.0.0\r\n#ROOM \x1b[2Jalice \x07\x1b]0;x\r\n")
    guest.is_closed("refused", "no player of this name and token")
    room.dial("alice", f"against {chr(27)}[2J").is_closed("refused", "nobody else is called so here")
    want("\x1b" not in room.notes() and "\x07" not in room.notes(), "a terminal would obey the notes")


@test
def the_same_name_twice():
    """The second connection waits. When the first one plays it is held and refused; once that has ended it has the seat."""
    room = Room("alice bob").open()
    first, second = room.dial("alice"), room.dial("alice")
    first.hears("waiting")
    second.hears("waiting")
    bob = room.dial("bob")
    bob.hears("match")
    first.hears("match")
    third = room.dial("alice")
    begun = time.monotonic()
    third.is_closed("later", "alice plays alice.bob.1.0 over another connection")
    in_time(time.monotonic() - begun < 20, "it was held for long")
    first.close()
    want("alice.bob.1.0 seat 0" in second.hears("match"), f"who waited has no seat: {room.notes()}")
    second.plays(calls)
    bob.plays(calls)
    want(second.is_over() == bob.is_over(), "another end")
    result, _ = room.over("alice.bob.1.0")
    want(result["restarts"] == [1, 0] and result["defaults"] == [0, 0], f"it is {result}")


@test
def who_leaves_while_he_waits_is_not_paired():
    room = Room("alice bob carol").open()
    alice = room.dial("alice")
    alice.hears("waiting")
    alice.close()
    room.noted("alice (127.0.0.1): left before a match")
    bob = room.dial("bob")
    bob.hears("waiting")
    carol = room.dial("carol")
    want("names bob|carol" in bob.hears("match") and "names bob|carol" in carol.hears("match"), "another pair")


@test
def who_says_too_much_while_he_waits_is_closed():
    room = Room().open()
    alice = room.dial("alice")
    alice.hears("waiting")
    alice.connection.sendall(5000 * b"x")
    alice.is_closed("refused", "more than 4096 bytes came before a match")


@test
def bounds_of_a_day_and_of_players_at_once():
    """Two play at once, so the second pair waits for the first one. After two matches alice and bob have played enough today, also
    behind a restart of the room; carol and dave have not. Where a day of UTC ends meanwhile it is tried once more."""
    day = time.gmtime().tm_yday
    try:
        play_for_a_day()
    except Wrong:
        if time.gmtime().tm_yday == day:
            raise
        play_for_a_day()


def play_for_a_day():
    room = Room("alice bob carol dave", hands=2, at_once=2, a_day=2).open()
    alice, bob = room.dial("alice"), room.dial("bob")
    alice.hears("match"), bob.hears("match")
    carol, dave = room.dial("carol"), room.dial("dave")
    carol.hears("waiting"), dave.hears("waiting")
    time.sleep(2)
    want("carol.dave.1.0" not in room.notes(), "four play at once")
    alice.plays(calls), bob.plays(calls)
    alice.is_over(), bob.is_over()
    carol.hears("match"), dave.hears("match")
    carol.plays(calls), dave.plays(calls)
    carol.is_over(), dave.is_over()
    alice, bob = room.dial("alice").plays(calls), room.dial("bob").plays(calls)
    alice.is_over(), bob.is_over()
    room.over("alice.bob.2.1")
    room.dial("alice").is_closed("refused", "alice has begun 2 matches today, which ends at 24:00 UTC")
    room.close()
    room.open()
    room.dial("bob").is_closed("refused", "bob has begun 2 matches today")
    room.dial("carol").hears("waiting")
