"""Wrong traces of tests/simulation: who is served too late or wrongly, what a promise leaves out, and what is proposed in spite of one."""
from simulation_edits import FRAME, NEVER, NoPlace, prepare, promise, wrong
from simulation_list import ACT
from simulation_seats import FIRST_SEAT, KINDS_OF_PLACES
from simulation_served import token_of
from simulation_trace import bytes_of
from simulation_wrong_seats import is_said_by_bot, ordered, taken_answer

SECOND = 1_000_000
# What a beat begins with, in hexadecimal, and how long it is; where its front and its seats are.
BEAT, SIZE, FRONT, SEATS = "0000001003", 40, slice(26, 34), slice(36, 40)


def beats(it, node):
    """Where a node tells a beat and nothing else."""
    return it.places(lambda row: row[1] == node and row[2] == "say" and row[4].startswith(BEAT) and len(row[4]) == SIZE)


def with_beat(it, place, part, value):
    words = it.rows[place][4]
    it.rows[place][4] = words[: part.start] + f"{value:0{part.stop - part.start}x}" + words[part.stop :]


# Seats.


@wrong("heard")
def an_answer_that_is_not_read(it):
    """A node reads an answer two seconds after its bot said it."""
    place, line = taken_answer(it)
    it.move(it.first(lambda row: row[2] == "read" and line.hex() in row[4], place), 2 * SECOND)


@wrong("heard", "silent")
def an_answer_in_vain(it):
    """A bot answers in time, its node reads nothing of that, and the seat is played for."""
    place = ordered(it, ordered(it))
    last = max(line for line in it.lines(1) if line < place)
    row = it.rows[last]
    bot = next(other[1] for other in it.rows if other[1].startswith("b") and other[2] == "dial" and other[3] == row[3])
    it.insert(last, bot, "say", row[3], (bytes_of(row[4]).strip() + b":c\r\n").hex())


@wrong("answered", "late")
def an_answer_at_another_node(it):
    """A seat is played for, and another node has had its answer for most of its patience."""
    log = it.first(lambda row: row[2] == "log" and bytes_of(row[3]).startswith(b"STATE"))
    cards = bytes_of(it.rows[log][3]).split(b":")[3].split(b"|")[1]
    line = (b"MATCHSTATE:1:0::|" + cards + b":c\r\n").hex()
    told, number = it.lines(0)[0], str(1 + max(int(row[3]) for row in it.rows if row[2] == "dial"))
    for words in (("1", "read", number, line), ("b9", "say", number, line), ("1", "take", number, FIRST_SEAT + 1), ("b9", "dial", number, "1", "1")):
        it.insert(told, *words)


@wrong("shown", "silent")
def lines_that_are_not_told(it):
    """A node tells a seat that is silent no line behind its second, and the seat is played for."""
    for place in reversed(it.lines(1)[2:]):
        del it.rows[place]


@wrong("shown")
def a_line_too_late(it):
    """A node that has logged a hand tells a seat the line of its last act two seconds later."""
    place = it.first(lambda row: row[2] == "log" and bytes_of(row[3]).startswith(b"STATE") and row[1] == "1")
    it.move(it.first(lambda row: int(row[0]) > int(it.rows[place][0]), place), 2 * SECOND)


@wrong("seated", "late")
def a_seat_that_nobody_took(it):
    """A node tells that a seat sits there to which nobody came."""
    it.insert(it.first(lambda row: row[2:4] == ["note", "Quorum"] and row[1] == "1"), "1", "note", "Seated", "{", "seat:", "1", "}")


@wrong("taken", "late")
def a_bot_that_is_not_taken_in(it):
    """A bot dials a node that is well, waits for half a second, and dials another one."""
    number = 1 + max(int(row[3]) for row in it.rows if row[2] == "dial")
    for moment, node in ((3_000_000, 1), (3_500_000, 2)):
        it.insert(it.first(lambda row: int(row[0]) > moment), "b9", "dial", number + node, node, "1")


def guest(it, moment, *rows):
    """A bot comes to the seat 1 of the node 1, which has tokens, shows that of the seat and is a guest there; and rows of its connection at
    later moments."""
    number = it.new_connection()
    it.add(moment, "b9", "dial", number, "1", "1")
    it.add(moment + 200, "b9", "say", number, f"#TOKEN {token_of(1)}\n".encode().hex())
    it.add(moment + 300, "1", "take", number, KINDS_OF_PLACES.index("guest"))
    for later, who, word, *words in rows:
        it.add(later, who, word, number, *words)


@wrong("taken", "tokens")
def a_guest_that_does_not_sit(it):
    """A bot shows its token to a node that is well, which lets it wait for half a second."""
    guest(it, 1_500_000)
    it.add(2_000_200, "b9", "dial", it.new_connection(), "2", "1")


@wrong("taken", "tokens")
def a_guest_that_is_turned_away(it):
    """A bot shows its token to a node that is well, which closes its connection at once."""
    guest(it, 1_500_000, (1_500_400, "1", "shut"))


@wrong("late", "tokens")
def played_for_where_it_was_turned_away(it):
    """A seat is played for one second behind the moment at which its bot was turned away there, before it said anything."""
    row = it.rows[ordered(it)]
    moment, number = int(row[0]) - SECOND, it.new_connection()
    it.add(moment, "b9", "dial", number, row[1], "1")
    it.add(moment + 110, row[1], "shut", number)


@wrong("waits", "apart")
def nobody_is_told_to_wait(it):
    """A node that has lost its quorum closes the connection of a bot that asked, without a word."""
    del it.rows[it.first(lambda row: row[2] == "say" and b"#WAIT" in bytes_of(row[4]))]


@wrong("waits", "apart")
def closed_before_it_has_asked(it):
    """A node without a quorum closes a connection as soon as it has taken it in."""
    lost = it.first(lambda row: row[2:4] == ["note", "QuorumLost"])
    place, number = it.first(lambda row: row[1] == it.rows[lost][1] and row[0] != it.rows[lost][0], lost), it.new_connection()
    for words in ((it.rows[lost][1], "shut", number), (it.rows[lost][1], "take", number, FIRST_SEAT), ("b9", "dial", number, it.rows[lost][1], 0)):
        it.insert(place, *words)


@wrong("waits")
def told_to_wait_with_a_quorum(it):
    """A bot is told to wait where it is to be told that the match is over."""
    place = it.first(lambda row: row[2] == "say" and b"#OVER" in bytes_of(row[4]))
    it.replace(b"#OVER\r\n", b"#WAIT\r\n", place, place + 1)


@wrong("word", "silent")
def told_to_wait_who_did_not_ask(it):
    """A bot that asked for no line is told to wait."""
    place = it.lines(0)[-1]
    it.insert(place, it.rows[place][1], "say", it.rows[place][3], b"#WAIT\r\n".hex())


@wrong("word")
def a_line_behind_the_end(it):
    """A bot is told a line once more behind the word by which its node parts with it."""
    place, last = it.first(lambda row: row[2] == "say" and b"#OVER" in bytes_of(row[4])), it.lines(0)[1]
    it.insert(place, it.rows[place][1], "say", it.rows[place][3], it.rows[last][4])


@wrong("kept")
def a_seat_that_is_closed(it):
    """A node that is well closes the connection of a bot that does nothing else than before."""
    place = it.first(lambda row: row[1] == "-" and row[2] == "stranger")
    it.insert(place, "0", "shut", it.rows[it.lines(0)[0]][3])


@wrong("token", "split")
def a_seat_without_its_token(it):
    """A bot is told lines that showed the other seat's token."""
    place = it.first(lambda row: is_said_by_bot(row, b"#TOKEN 0"))
    read = it.first(lambda row: row[2:4] == ["read", it.rows[place][3]], place)
    for at in (place, read):
        it.replace(b"0" * 64, b"1" * 64, at, at + 1)


@wrong("token", "split")
def a_line_to_a_stranger(it):
    """Somebody who shows a wrong token is told a line."""
    asked = it.first(lambda row: row[1] == "-" and row[2] == "stranger")
    taken = it.first(lambda row: row[2] == "take" and row[1] == it.rows[asked][3], asked)
    line = bytes_of(it.rows[it.lines(0)[0]][4])
    it.insert(taken, it.rows[taken][1], "say", it.rows[taken][3], line.hex())


# Nodes.


@wrong("replaced", "lost")
def a_new_store_is_taken_in(it):
    """A node that knew a store tells that the one is there which came in its place."""
    begun = it.last(lambda row: row[1:3] == ["2", "begin"])
    it.insert(begun, "0", "note", "Joined", "{", "peer:", "2,", "life:", "None", "}")


@wrong("older")
def a_right_node_is_refused_as_older(it):
    """A node refuses another one by the promise of its store, which is what it was."""
    place = it.first(lambda row: row[2:4] == ["note", "Joined"])
    it.insert(place, it.rows[place][1], "note", "Refused", "{", "peer:", "2,", "fault:", "StoreOlder(Other),", "source:", "None", "}")


@wrong("older", "killed")
def a_right_node_ends_as_older(it):
    """A process ends by the promise of its store, which is what it was."""
    it.insert(it.first(lambda row: row[1:3] == ["2", "begin"] and row[0] != "0"), "2", "ended", "StoreOlder")


@wrong("older", "lost")
def an_older_copy_that_goes_on(it):
    """In place of a new store a node has its own again as it was at first, and isn't refused: it says nothing and doesn't end."""
    begun = it.last(lambda row: row[1:3] == ["2", "begin"])
    is_left_out = lambda row: row[1] == "2" and row[2] in ("say", "write", "sync", "note", "ended") or row[2:4] == ["note", "Refused"]
    it.rows[begun + 1 :] = [row for row in it.rows[begun + 1 :] if not is_left_out(row)]
    order = it.first(lambda row: row[1:4] == ["-", "store", "2"])
    it.rows[order][4] = "6"
    it.rows.insert(0, ["0", "-", "store", "2", "5", "0"])


@wrong("older")
def more_than_was_promised(it):
    """A node tells another one that that one promised a ballot that it never did."""
    place = it.last(lambda row: int(row[0]) < 1_000_000)
    it.insert(place, "1", "say", it.connection_between("1", "0", place), (bytes([0, 0, 0, 6, 6]) + (9).to_bytes(4, "big") + bytes([0])).hex())


@wrong("store", "damaged")
def no_store_that_is_written(it):
    """A process goes on by a store that is none."""
    begun = it.first(lambda row: row[1:3] == ["2", "begin"] and row[0] != "0")
    it.insert(begun, "2", "write", "9", "00")


@wrong("ends", "killed")
def a_store_that_nobody_replaced(it):
    """A process ends since its store was replaced, which it wasn't."""
    place = it.first(lambda row: row[1] == "-" and row[2] == "fail" and row[4] == str(NEVER))
    it.insert(place + 5, it.rows[place][3], "ended", "StoreReplaced")


@wrong("taught", "lost")
def a_ballot_of_one_who_is_taught(it):
    """A node begins a ballot while that of the leader, whose front it is told, goes on."""
    place = it.last(lambda row: int(row[0]) < 2_400_000)
    number, ballot = it.connection_between("1", "0", place), (9, 1)
    it.append(place, 1, promise(ballot))
    it.insert(place + 4, "1", "say", number, prepare(ballot, 0).hex())


@wrong("behind", "late")
def a_node_that_learns_nothing(it):
    """A node tells by its beats that it has no commands, and logs no hand before the last."""
    logs = it.places(lambda row: row[1] == "2" and row[2] == "log")
    for place in beats(it, "2"):
        if place < logs[-1]:
            with_beat(it, place, FRONT, 0)
    moment = it.rows[logs[-1]][0]
    rows = [it.rows[place] for place in logs[1:-1]]
    for row in rows:
        it.rows.remove(row)
        row[0] = moment
    at = it.first(lambda row: row[1] == "2" and row[2] == "log" and row[0] == moment)
    it.rows[at:at] = rows


@wrong("beat")
def seats_that_nobody_took(it):
    """A node tells by its beats that other seats sit there than do."""
    for place in beats(it, "0"):
        with_beat(it, place, SEATS, int(it.rows[place][4][SEATS], 16) ^ 2)


def told_vote(it):
    """A promise that tells one vote, of an act: its place, and the bytes of its row."""
    for place, begin, end in it.frames("Promise"):
        data = bytes_of(it.rows[place][4])
        if data[begin + 9] == 1 and data[begin + 19] == ACT:
            return place, begin, end, data
    raise NoPlace


@wrong("told", "split")
def a_vote_that_is_not_told(it):
    """A promise tells none of the votes of its node."""
    place, begin, end, data = told_vote(it)
    frame = data[begin - 2 : begin + 9] + bytes(1)
    record = bytes([FRAME]) + len(frame).to_bytes(4, "big") + frame
    it.rows[place][4] = (data[: begin - 11] + len(record).to_bytes(4, "big") + record + data[end:]).hex()


@wrong("value", "split")
def another_command_than_was_told(it):
    """A leader proposes another act than the one that was voted for and told to it."""
    place, begin, _, data = told_vote(it)
    act = data[begin + 19 : begin + 31]
    it.replace(act, act[:7] + bytes([act[7] ^ 1]) + act[8:], 0, place + 1)
