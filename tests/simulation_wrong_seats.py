"""Wrong traces of tests/simulation: what bots say and are told, and when they are played for."""
from simulation_edits import NoPlace, wrong
from simulation_trace import bytes_of


def is_said_by_bot(row, text=b"MATCHSTATE"):
    return row[1].startswith("b") and row[2] == "say" and text in bytes_of(row[4])


def taken_answer(it, action=b""):
    """An answer of a bot that comes into the list: where it is said, and the line."""
    told = b"".join(bytes_of(it.rows[place][4]) for place in it.lines())
    for place in it.places(is_said_by_bot):
        line = bytes_of(it.rows[place][4]).partition(b"\r\n")[0]
        words = line.split(b":")
        if words[0] == b"MATCHSTATE" and words[5].startswith(action) and b":".join([b"", words[2], words[3] + words[5]]) in told:
            return place, line
    raise NoPlace


# What bots say.


@wrong("said")
def another_amount(it):
    """An act has another amount than its bot said."""
    place, line = taken_answer(it, b"r")
    amount = int(line.rpartition(b":r")[2])
    it.replace(line, line.rpartition(b"r")[0] + b"r%d" % (amount - 1), place)


@wrong("said")
def another_letter(it):
    """A call is a fold in what its bot said."""
    place, line = taken_answer(it, b"c")
    it.replace(line + b"\r", line[:-1] + b"f\r", place)


@wrong("said")
def said_by_nobody(it):
    """What a bot said and was read is left out."""
    place, line = taken_answer(it)
    it.rows = [row for row in it.rows if line.hex() not in row[-1] or row[2] not in ("say", "read")]


@wrong("said")
def said_by_another_seat(it):
    """An answer is said at the other seat, in that seat's own words."""
    place, line = taken_answer(it)
    words = line.split(b":")
    words[1] = b"1" if words[1] == b"0" else b"0"
    it.replace(line, b":".join(words), place)


@wrong("wire")
def read_otherwise(it):
    """A node reads something else than a bot said."""
    place, line = taken_answer(it, b"c")
    read = it.first(lambda row: row[2] == "read" and line.hex() in row[4], place)
    it.change(read, bytes_of(it.rows[read][4]).index(line) + len(line) - 1, b"f")


@wrong("queue")
def too_much_is_read(it):
    """A process reads more than a piece of a bot in a turn."""
    row = it.rows[it.first(lambda row: row[2] == "most")]
    row[4] = "513"


# What seats are told.


def told_line(it, is_it, seat=None):
    """Where a node tells a seat one line that is so, and nothing else."""
    for place in it.lines(seat):
        text = bytes_of(it.rows[place][4])
        if text.count(b"\r\n") == 1 and text.startswith(b"MATCHSTATE") and is_it(text):
            return place, text
    raise NoPlace


@wrong("one-list")
def another_card(it):
    """A seat is told another hole card."""
    place, text = told_line(it, lambda text: True)
    at = text.rindex(b":") + 1 if text.split(b":")[1] == b"0" else text.index(b"|") + 1
    it.change(place, at, b"2c" if text[at : at + 2] != b"2c" else b"2d")


@wrong("one-list")
def an_early_card(it):
    """A seat is told the flop in the round before."""
    place, text = told_line(it, lambda text: text.count(b"/") == 0)
    flop = next(bytes_of(it.rows[at][4]) for at in it.lines() if bytes_of(it.rows[at][4]).split(b":")[2] == text.split(b":")[2] and b"/" in bytes_of(it.rows[at][4]).rpartition(b":")[2])
    board = b"/" + flop.rpartition(b":")[2].split(b"/")[1].rstrip(b"\r\n")
    it.rows[place][4] = (text[:-2] + board + b"\r\n").hex()


@wrong("one-list")
def a_card_of_another(it):
    """A seat is shown the other's cards, though the hand isn't over."""
    place, text = told_line(it, lambda text: text.split(b":")[1] == b"0" and text.rpartition(b":")[2].startswith((b"2", b"3", b"4", b"5", b"6", b"7", b"8", b"9", b"T", b"J", b"Q", b"K", b"A")))
    it.rows[place][4] = text.replace(b"|", b"|2c3c", 1).hex()


@wrong("one-list")
def two_lines_change_places(it):
    """A seat is told two lines in the wrong order: one before it is there."""
    first, second = it.lines(0)[2:4]
    it.rows[first][4], it.rows[second][4] = it.rows[second][4], it.rows[first][4]


@wrong("no-gap", "killed")
def two_old_lines_change_places(it):
    """A bot that comes again is told its second line before its first."""
    for place in it.lines(0):
        first, second, *rest = bytes_of(it.rows[place][4]).split(b"\r\n")
        if second.startswith(b"MATCHSTATE"):
            it.rows[place][4] = b"\r\n".join([second, first, *rest]).hex()
            return
    raise NoPlace


@wrong("no-gap")
def a_line_is_left_out(it):
    del it.rows[it.lines(0)[3]]


@wrong("no-gap")
def a_line_is_told_twice(it):
    place = it.lines(1)[2]
    it.insert(place, *it.rows[place][1:])


@wrong("no-gap", "killed")
def an_old_line_as_the_newest(it):
    """A bot that asked for the newest line, and comes again, is told the seat's first line."""
    asked = it.last(lambda row: row[1].startswith("b") and b"#RESUME NEWEST" in bytes_of(row[-1]) if row[2] == "say" else False)
    first = it.rows[it.lines(1)[0]][4].partition("0d0a")[0] + "0d0a"
    place = it.first(lambda row: row[2] == "say" and row[1].isdigit() and row[3] == it.rows[asked][3], asked)
    it.rows[place][4] = first


@wrong("word")
def the_end_too_early(it):
    """A bot is told that the match is over behind its third line."""
    place = it.lines(0)[2]
    it.insert(place, it.rows[place][1], "say", it.rows[place][3], b"#OVER\r\n".hex())


@wrong("word", "killed")
def another_match_too_early(it):
    """A bot that names a line is told at once that it is none."""
    asked = it.first(lambda row: is_said_by_bot(row, b"#RESUME MATCHSTATE"))
    place = it.first(lambda row: row[2] == "say" and row[1].isdigit() and row[3] == it.rows[asked][3], asked)
    it.rows[place][4] = b"#OTHER\r\n".hex()


@wrong("word", "silent")
def the_end_to_who_did_not_ask(it):
    """A bot that asked for no line is told that the match is over."""
    place = it.lines(0)[-1]
    it.insert(place, it.rows[place][1], "say", it.rows[place][3], b"#OVER\r\n".hex())


# Default actions.


def ordered(it, behind=-1):
    """Where a node tells that it ordered a default action."""
    return it.first(lambda row: row[2:4] == ["note", "Ordered"], behind)


def from_order(it):
    """The first row of the turn in which a node ordered a default action."""
    place = ordered(it)
    node, moment = it.rows[place][1], int(it.rows[place][0])
    return it.first(lambda row: row[1] == node and int(row[0]) > moment - 2_000)


@wrong("late", "silent")
def played_for_too_early(it):
    """All from the first order on is so much earlier that the patience isn't over."""
    it.move(from_order(it), -100_000)


@wrong("late", "late")
def given_up_though_all_wait(it):
    """A seat is given up in a match whose file says that none is."""
    it.script[0] += " waits"


@wrong("ordered", "silent")
def ordered_by_nobody(it):
    """No node tells that it ordered the second default action."""
    del it.rows[ordered(it, ordered(it))]


@wrong("ordered", "silent")
def played_for_where_all_wait(it):
    """A default action in a match without a patience."""
    words = it.script[0].split(" ")
    words[4] = "-"
    it.script[0] = " ".join(words)


@wrong("answered")
def played_for_though_it_answered(it):
    """A node that has read the answer of a seat orders that it is played for."""
    place, line = taken_answer(it)
    read = it.first(lambda row: row[2] == "read" and line.hex() in row[4], place)
    it.insert(read, it.rows[read][1], "note", "Ordered", "{", "seat:", it.seats()[it.rows[read][3]], "}")


@wrong("early", "late")
def played_for_before_all_came(it):
    """A seat that never came is played for, though the start isn't over by far."""
    it.script[0] = it.script[0].replace(" 3000000", " 9000000")
