"""A match of twelve hands, and what its page must show: counted by hand from the lines, in the tables below.

The game is examples/n3.game: blinds of 50, 100 and none at positions 0, 1 and 2, stacks of 1000, 150 and 5000; position 2
is first before the flop. Alice (A), bob (B) and carol (C) sit at positions 0, 1, 2 in hands 0, 3, 6, 9; at 2, 0, 1 in
hands 1, 4, 7, 10; at 1, 2, 0 in hands 2, 5, 8, 11. At a showdown aces win before kings, kings before queens.

hand  betting                  pot   before the flop      later: bets and raises / actions but checks   showdown  wins
 0    ff                       100   C f, A f, B no turn  -                                             -         B
 1    cfc/r150f                250   A c, B f, C check    C 1/1 (bet), A 0/1 (fold)                     -         C
 2    r300cf/cr600c/cc/r1000c  2100  B r, C c, A f        B 1/2 (bet, call), C 1/2 (call, bet)          B C       C
 3    r1000cc///               2150  C r, A c, B c        -                                             A B C     A both pots
 4    r500fc///                350   A r, B f, C c        -                                             A C       C
 5    cfc/cc/cc/cc             250   B c, C f, A check    -                                             A B       both
 6    ccc/ccr200r400fc/cc/cc   900   C c, A c, B check    A 1/1 (raise), B 0/1 (fold), C 1/2 (bet, c)   A C       A
 7    fr200c///                300   A f, B r, C c        -                                             B C       B
 8    fcc/cc/cc/cr150f         200   B f, C c, A check    A 1/1 (bet), C 0/1 (fold)                     -         A
 9    r1000cc///               2150  C r, A c, B c        -                                             A B C     B main, C side
10    ff                       100   A f, B f, C no turn  -                                             -         C
11    r200ff                   250   B r, C f, A f        -                                             -         B

The pot is without what nobody called: 50 of B in hand 0, 50 of C in 1, 350 of A in 4, 50 of B in 7, 50 of A in 8, 50 of C in
10, 100 of B in 11. So A, whom C beats in hand 4, gets no chips of a pot there.
"""

GAME = "examples/n3.game"
ACES = "AsAd|KsKd|QsQd"
BOARD = "2c3c7h", "8h", "Jd"
NAMES = ["alice|bob|carol", "bob|carol|alice", "carol|alice|bob"]


def line(number, betting, values, holes=ACES):
    """A STATE line: the board has a part for each slash of the betting."""
    board = "".join("/" + cards for cards in BOARD[: betting.count("/")])
    return f"STATE:{number}:{betting}:{holes}{board}:{values}:{NAMES[number % 3]}"


HANDS = [
    line(0, "ff", "-50|50|0"),
    line(1, "cfc/r150f", "-50|150|-100"),
    line(2, "r300cf/cr600c/cc/r1000c", "1100|-100|-1000"),
    line(3, "r1000cc///", "1150|-150|-1000"),
    line(4, "r500fc///", "-50|200|-150"),
    line(5, "cfc/cc/cc/cc", "-50|25|25", "QsQd|AsKd|AhKc"),
    line(6, "ccc/ccr200r400fc/cc/cc", "500|-100|-400"),
    line(7, "fr200c///", "150|-150|0"),
    line(8, "fcc/cc/cc/cr150f", "-100|100|0"),
    line(9, "r1000cc///", "-1000|300|700", "QsQd|AsAd|KsKd"),
    line(10, "ff", "-50|50|0"),
    line(11, "r200ff", "-50|-100|150"),
]
LOG = ["# name/game/hands twelve n3.game 12", *HANDS, "SCORE:275|-725|450:alice|bob|carol"]

# The chips of each hand, by name.
CHIPS = {
    "alice": [-50, -100, -100, 1150, -150, 25, 500, 0, 100, -1000, 0, -100],
    "bob": [50, -50, -1000, -150, -50, 25, -100, 150, 0, 300, -50, 150],
    "carol": [0, 150, 1100, -1000, 200, -50, -400, -150, -100, 700, 50, -50],
}
# How often, and of how many. The numbers in brackets are the hands that count.
FIGURES = {
    "alice": {
        "vpip": (5, 12),  # 1, 3, 4, 6, 9; of all
        "pfr": (1, 12),  # 4
        "aggression": (2, 3),  # 6, 8; and the fold of 1
        "went": (5, 7),  # 3, 4, 5, 6, 9; of these and 1, 8
        "won": (3, 5),  # 3, 5, 6
        "worst": (-1000, 9),
    },
    "bob": {
        "vpip": (6, 11),  # 2, 3, 5, 7, 9, 11; of all but 0
        "pfr": (3, 11),  # 2, 7, 11
        "aggression": (1, 3),  # the bet of 2; its call, and the fold of 6
        "went": (5, 6),  # 2, 3, 5, 7, 9; of these and 6
        "won": (3, 5),  # 5, 7, 9
        "worst": (-1000, 2),
    },
    "carol": {
        "vpip": (7, 11),  # 2, 3, 4, 6, 7, 8, 9; of all but 10
        "pfr": (2, 11),  # 3, 9
        "aggression": (3, 6),  # 1, 2, 6; the calls of 2 and 6, the fold of 8
        "went": (6, 8),  # 2, 3, 4, 6, 7, 9; of these and 1, 8
        "won": (3, 6),  # 2, 4, 9
        "worst": (-1000, 3),
    },
}
# Of alice alone, by position: chips, VPIP and PFR. Position 0 in hands 0, 3, 6, 9; 1 in 2, 5, 8, 11; 2 in 1, 4, 7, 10.
ALICE = [
    {"hands": 4, "chips": 600, "vpip": (3, 4), "pfr": (0, 4)},
    {"hands": 4, "chips": -75, "vpip": (0, 4), "pfr": (0, 4)},
    {"hands": 4, "chips": -250, "vpip": (2, 4), "pfr": (1, 4)},
]
# Which hands the list has, by what is asked for, in their order.
LISTS = [
    ({}, [0, 1, 2, 3, 4, 5, 6, 7, 8, 9, 10, 11]),
    ({"showdown": True}, [2, 3, 4, 5, 6, 7, 9]),
    ({"player": "bob", "showdown": True}, [2, 3, 5, 7, 9]),
    ({"all-in": True}, [1, 2, 3, 4, 7, 8, 9]),
    ({"player": "alice", "all-in": True}, [3, 8, 9]),
    ({"lost": "100"}, [2, 3, 4, 6, 7, 9]),
    ({"player": "bob", "lost": "100"}, [2, 3]),
    ({"player": "bob", "lost": "150"}, [2]),
    ({"player": "bob", "order": "lost"}, [2, 3, 6, 1, 4, 10, 8, 5, 0, 7, 11, 9]),
    ({"player": "bob", "order": "won"}, [9, 7, 11, 0, 5, 8, 1, 4, 10, 6, 3, 2]),
    ({"order": "pot"}, [3, 9, 2, 6, 4, 7, 1, 5, 11, 8, 0, 10]),
    ({"order": "last"}, [11, 10, 9, 8, 7, 6, 5, 4, 3, 2, 1, 0]),
    ({"player": "carol", "all-in": True, "showdown": True, "order": "lost"}, [7, 4, 2]),
]
# The positions whose cards the whole table was shown, by hand.
SHOWN = {2: [0, 2], 3: [0, 1, 2], 4: [1, 2], 5: [1, 2], 6: [0, 2], 7: [0, 1], 9: [0, 1, 2]}


def shown_lines(seat=None):
    """The log as a page has it that shows what the whole table was shown, and a player's own cards."""
    lines = [LOG[0]]
    for number, text in enumerate(HANDS):
        fields = text.split(":")
        holes, *board = fields[3].split("/")
        is_shown = [p in SHOWN.get(number, []) or name == seat for p, name in enumerate(fields[5].split("|"))]
        left = [hole if is_seen else "" for hole, is_seen in zip(holes.split("|"), is_shown)]
        lines.append(":".join([*fields[:3], "/".join(["|".join(left), *board]), *fields[4:]]))
    return lines + LOG[-1:]
