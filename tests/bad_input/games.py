"""Game files, read by docs/RULES.md."""
import functools
import re

from random_scripts import game_text

from .damage import DRAWN, changes, cuts, drawn
from .faults import Fault
from .models import GAMES, MOST_CHIPS, NAMES, dealer
from .running import AT_ONCE, PROGRAM, Tally, run


BOUNDS = {"stack": (0, MOST_CHIPS), "blind": (0, MOST_CHIPS), "raisesize": (0, MOST_CHIPS), "firstplayer": (1, 10), "maxraises": (0, 255)}
SINGLE = {"numplayers", "numrounds", "numsuits", "numranks", "numholecards"}
FIXED = {"numrounds": [4], "numsuits": [4], "numranks": [13], "numholecards": [2], "numboardcards": [0, 3, 1, 1]}
# Texts, each with the fault that the rules' words give it: lines at fault, and files that lack something or say what no game has.
TOLD = [
    (b"", "10 NoGamedef 0"),
    (b"\n# GAMEDEF", "10 NoGamedef 2"),
    (b"GAMEDEF x\n", "10 NoGamedef 1"),
    (b"\nlimit\nGAMEDEF\n", "10 NoGamedef 2"),
    (b"GAMEDEF\nlimit\n\n", "11 NoEnd 3"),
    (b"GAMEDEF\nlimit\nnumPlayers = 2", "11 NoEnd 3"),
    (b"GAMEDEF\nEND\n", "12 UnknownKey 2"),
    (b"GAMEDEF\nEND GAMEDEF x\n", "12 UnknownKey 2"),
    (b"GAMEDEF\n= 5\n", "12 UnknownKey 2"),
    (b"GAMEDEF\nlimit\nGAMEDEF\n", "12 UnknownKey 3"),
    (b"GAMEDEF\nstack5\nlimit x\n", "12 UnknownKey 2"),
    (b"GAMEDEF\nlimit\nNOLIMIT x\n", "19 RepeatedKey 3"),
    (b"GAMEDEF\nstack 1\nblind 1\nStack 1 2\n", "19 RepeatedKey 4"),
    (b"GAMEDEF\nlimit x\n", "13 BadNumber 2"),
    (b"GAMEDEF\nstack 2147483648\n", "13 BadNumber 2"),
    (b"GAMEDEF\nnumPlayers 12345678901\n", "13 BadNumber 2"),
    (b"GAMEDEF\nfirstPlayer 0\n", "13 BadNumber 2"),
    (b"GAMEDEF\nfirstPlayer 11\n", "13 BadNumber 2"),
    (b"GAMEDEF\nmaxRaises 256\n", "13 BadNumber 2"),
    (b"GAMEDEF\nblind = 10=5\n", "13 BadNumber 2"),
    (b"GAMEDEF\nnumPlayers 2\r", "13 BadNumber 2"),
    (b"GAMEDEF\nblind 1 1 1 1 1 1 1 1 1 1 1 x\n", "13 BadNumber 2"),
    (b"GAMEDEF\nlimit 1\n", "14 WrongCount 2"),
    (b"GAMEDEF\nstack =\n", "14 WrongCount 2"),
    (b"GAMEDEF\nnumPlayers = 2 2\n", "14 WrongCount 2"),
    (b"GAMEDEF\nblind 1 1 1 1 1 1 1 1 1 1 1\nx\n", "14 WrongCount 2"),
    (b"GAMEDEF\nEND GAMEDEF", "15 Unsupported 2"),
    (b"GAMEDEF\nnumPlayers 11\n\nEND GAMEDEF", "15 Unsupported 2"),
    (b"GAMEDEF\nnumRounds 3\nnumPlayers 1\nEND GAMEDEF", "15 Unsupported 3"),
    (b"GAMEDEF\nnumRounds 3\nnumPlayers 10\nEND GAMEDEF", "15 Unsupported 2"),
    (b"GAMEDEF\nnumPlayers 2\nnumRounds 4\nnumSuits 1\nEND GAMEDEF", "15 Unsupported 4"),
    (b"GAMEDEF\nnumPlayers 2\nnumRounds 4\nnumSuits 4\nnumRanks 12\nEND GAMEDEF", "15 Unsupported 5"),
    (b"GAMEDEF\nnumPlayers 2\nnumRounds 4\nnumSuits 4\nnumRanks 13\nnumHoleCards 4\nEND GAMEDEF", "15 Unsupported 6"),
    (b"GAMEDEF\nnumPlayers 2\nnumRounds 4\nnumSuits 4\nnumRanks 13\nnumHoleCards 2\nnumBoardCards 0 3 1\nEND GAMEDEF", "15 Unsupported 7"),
]  # fmt: skip
# Lines in front of what every game of two players needs, with what is told of the file that they make.
FRONTS = [
    (b"nolimit\nblind 2 1\n", None),
    (b"nolimit\nstack 100 100 100\nblind 2 1\n", "14 WrongCount 3"),
    (b"blind 2 1 0\n", "14 WrongCount 2"),
    (b"nolimit\nblind 2 1\nraiseSize 1 2 3\n", "14 WrongCount 4"),
    (b"nolimit\nfirstPlayer 1 1 1\nblind 2 1\n", "14 WrongCount 3"),
    (b"nolimit\nblind 2 1\nmaxRaises 1\n", "14 WrongCount 4"),
    (b"nolimit\nfirstPlayer 3 1 1 1\n", "15 Unsupported 3"),
    (b"nolimit\nblind 0 0\n", "16 NoBlind 3"),
    (b"nolimit\n", "16 NoBlind 9"),
    (b"nolimit\nstack 100 100\nblind 100 50\n", "17 StackBelowBlind 3"),
    (b"nolimit\nblind 2147483647 1\n", "17 StackBelowBlind 10"),
    (b"blind 2 1\n", "18 NoRaiseSize 9"),
    (b"blind 2 1\nraiseSize 2 2 0 4\n", "18 NoRaiseSize 3"),
]  # fmt: skip
REST = b"numPlayers 2\nnumRounds 4\nnumSuits 4\nnumRanks 13\nnumHoleCards 2\nnumBoardCards 0 3 1 1\nEND GAMEDEF\n"
# The game l2 in capitals, with tabs, CR, blank lines and comments, and without any `=`.
LOUD = b"""# heads-up

 \t
GAMEDEF # here it begins\r
LIMIT
NUMPLAYERS 2
NUMROUNDS\t4
BLIND\t10\t5

RAISESIZE 10 10 20 20
FIRSTPLAYER 02 01 1 1\r
MAXRAISES 3 4 4 4
  NUMSUITS 4
NUMRANKS 13
NUMHOLECARDS 2
NUMBOARDCARDS 0 3 1 1 # flop, turn, river
END \t GAMEDEF
and so on"""



def lines_of(text):
    """A text's lines; the last may lack its LF, and a CR right before an LF is dropped."""
    *whole, rest = text.decode("latin-1").split("\n")
    return [line[:-1] if line.endswith("\r") else line for line in whole] + [rest] * bool(rest)


def words_of(line):
    return re.findall(r"=|[^ \t=]+", line.split("#")[0])


def read_game(text):
    """The number of players of a right game file; else its first fault."""
    lines = lines_of(text)
    numbered = [(number, words) for number, words in enumerate(map(words_of, lines), 1) if words]
    if not numbered or [word.lower() for word in numbered[0][1]] != ["gamedef"]:
        raise Fault("10 NoGamedef", numbered[0][0] if numbered else len(lines))
    values, places = {}, {}
    for number, words in numbered[1:]:
        if [word.lower() for word in words] == ["end", "gamedef"]:
            test_game(values, places, number)
            return values["numplayers"][0]
        key = words[0].lower()
        values[key] = read_line(key, words[1:], places, number)
        places["limit" if key == "nolimit" else key] = number
    raise Fault("11 NoEnd", len(lines))


def read_line(key, words, places, number):
    """The values of a key's line."""
    if key not in ("limit", "nolimit") and key not in SINGLE | BOUNDS.keys() | FIXED.keys():
        raise Fault("12 UnknownKey", number)
    if ("limit" if key == "nolimit" else key) in places:
        raise Fault("19 RepeatedKey", number)
    words = words[1:] if words[:1] == ["="] else words
    least, most = BOUNDS.get(key, (0, 10**10))
    if not all(re.fullmatch("[0-9]{1,10}", word) and least <= int(word) <= most for word in words):
        raise Fault("13 BadNumber", number)
    counts = [0] if key in ("limit", "nolimit") else [1] if key in SINGLE else range(1, 11)
    if len(words) not in counts:
        raise Fault("14 WrongCount", number)
    return list(map(int, words))


def test_game(values, places, foot):
    """Looks for the first fault of a file whose lines have none."""
    players = values.get("numplayers", [0])[0]
    if not 2 <= players <= 10:
        raise Fault("15 Unsupported", places.get("numplayers", foot))
    for key, wanted in FIXED.items():
        if values.get(key) != wanted:
            raise Fault("15 Unsupported", places.get(key, foot))
    for key in ("stack", "blind", "raisesize", "firstplayer", "maxraises"):
        if key in values and len(values[key]) != (players if key in ("stack", "blind") else 4):
            raise Fault("14 WrongCount", places[key])
    if max(values.get("firstplayer", [1])) > players:
        raise Fault("15 Unsupported", places["firstplayer"])
    greatest = max(values.get("blind", [0]))
    if greatest == 0:
        raise Fault("16 NoBlind", places.get("blind", foot))
    if min(values.get("stack", [MOST_CHIPS])) <= greatest:
        raise Fault("17 StackBelowBlind", places.get("stack", foot))
    if "nolimit" not in values and min(values.get("raisesize", [0])) == 0:
        raise Fault("18 NoRaiseSize", places.get("raisesize", foot))


def game_words():
    words = "GAMEDEF END limit nolimit numPlayers numRounds stack blind raiseSize firstPlayer maxRaises numSuits numRanks"
    words += " numHoleCards numBoardCards NUMPLAYERS 0 1 2 3 4 5 9 10 11 13 25 100 255 256 0000000004 00000000004 2147483647"
    words += " 2147483648 4294967296 9999999999 99999999999999999999 -1 = # x"
    return [*map(str.encode, words.split()), b" ", b"\t", b"\r", b"\r\n", b"\n", b"\x0b", b"\0", b"\x7f", b"\xa0", b"\xff", b"= ="]


def long_games(text):
    """A game file made too long: by its lines, its values, and what stands before it and behind it."""
    lines = text.splitlines(keepends=True)
    for place, line in enumerate(lines):
        for more in (b" 1" * 11, b" 1" * 50000, b"1" * 11, b"0" * 9 + b"1", b"1" * 100000, b" " * 100000, b"#" * 100000, b"\n" * 5000):
            yield b"".join(lines[:place]) + line.rstrip(b"\n") + more + b"\n" + b"".join(lines[place + 1 :])
        yield b"".join(lines[:place]) + line * 1000 + b"".join(lines[place + 1 :])
    yield from (text + b"x" * (1 << 20), b"\n" * 20000 + text, b"# x\n" * 20000 + text, b"x" * (1 << 20), b"")


def other_values(dice, text):
    """A game file without one of its lines, and with some other numbers in place of each of its own."""
    lines = text.splitlines(keepends=True)
    yield from (b"".join(lines[:place] + lines[place + 1 :]) for place in range(len(lines)))
    for found in re.finditer(rb"\d+", text):
        for number in dice.sample([b"0", b"1", b"10", b"11", b"255", b"256", b"2147483647", b"2147483648"], 4):
            yield text[: found.start()] + number + text[found.end() :]


def fault_of(text):
    """The first fault of a game file; none of a right one."""
    try:
        read_game(text)
    except Fault as why:
        return str(why)
    return None


def rows(tally):
    """The game files whose faults are written down above, which those must be that are read here."""
    for text, fault in TOLD + [(b"GAMEDEF\n" + lines + REST, fault) for lines, fault in FRONTS]:
        tally.take(text, fault_of(text), fault, [fault] if fault else [])
        yield text
    script = hand_script(2)
    tally.take(LOUD, dealer.play(LOUD, script, 2, "l2"), dealer.play(GAMES["l2"], script, 2, "l2"), [])
    yield LOUD


def game_files(dice, folder, pool):
    """Game files, and the hands that are played by those that are read."""
    tally = Tally("game files")
    right = lambda: game_text(dice, dice.choice([2, 2, 3, 6, 10])).encode()
    inputs = [*rows(tally)]
    inputs += [one for text in GAMES.values() for one in [*cuts(text), *long_games(text), *other_values(dice, text), *changes(dice, text)]]
    inputs += [drawn(dice, right, game_words()) for _ in range(DRAWN)]
    for data, got, wanted, fault in pool.map(functools.partial(one_game, folder), range(len(inputs)), inputs, chunksize=AT_ONCE):
        tally.take(data, got, wanted, fault)
    tally.want("10 NoGamedef,11 NoEnd,12 UnknownKey,13 BadNumber,14 WrongCount,15 Unsupported,16 NoBlind".split(","))
    tally.want("17 StackBelowBlind,18 NoRaiseSize,19 RepeatedKey,read".split(","))
    return tally


def one_game(folder, number, data):
    word = f"{number}.game"
    fault = fault_of(data)
    players = 2 if fault else read_game(data)
    script = hand_script(players)
    (folder / word).write_bytes(data)
    got = run([PROGRAM, "hand", "--hands", "2", "--log", word], folder, script)
    (folder / word).unlink()
    if fault:
        return data, got, (2, b"", f"{fault}\n".encode()), [fault]
    return data, got, (0, dealer.play(data, script, 2, word), b""), []


def hand_script(players):
    """Two hands with raises, which tell what a game's values are."""
    cards = dealer.CARDS[: 2 * players + 5]
    holes = "|".join(cards[2 * p] + cards[2 * p + 1] for p in range(players))
    deal = f"deal {holes}/{''.join(cards[-5:-2])}/{cards[-2]}/{cards[-1]}"
    raises = ["r", "r0", "r", "r4294967295", "r", "r", "r", "c"] + players * ["c"] + ["f", "r", "r1"] + (4 * players) * ["c"]
    return "".join(f"{line}\n" for line in ["names " + "|".join(NAMES[:players]), deal, *raises, deal, *(players * ["f"])]).encode()
