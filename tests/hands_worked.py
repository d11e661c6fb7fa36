"""Hands that were written out by hand in both formats, from tests/replay_match.py's match of twelve and from docs/BOTS.md's session."""

# Hand 3 of the match of twelve: all three are all-in before the flop, alice (1000) and bob (150) for less than carol bet.
THREE_PHH = """\
[4]
variant = "NT"
antes = [0, 0, 0]
blinds_or_straddles = [50, 100, 0]
min_bet = 100
starting_stacks = [1000, 150, 5000]
actions = ["d dh p1 AsAd", "d dh p2 KsKd", "d dh p3 QsQd", "p3 cbr 1000", "p1 cc", "p2 cc", "p3 sm QsQd", "p1 sm AsAd", "p2 sm KsKd", "d db 2c3c7h", "d db 8h", "d db Jd"]
event = "twelve"
hand = 3
seats = [1, 2, 3]
seat_count = 3
table = "twelve"
players = ["alice", "bob", "carol"]
finishing_stacks = [2150, 0, 4000]
"""
# Carol's bet goes to 1000, 900 above the big blind. Alice's 950 and bob's 50 are all that they have left. The main pot has 150
# of each, the side pot 850 of alice and carol.
THREE_POKERSTARS = """\
PokerStars Hand #N:  Hold'em No Limit (50/100) - 2000/01/01 00:00:03 ET
Table 'twelve' 6-max (Play Money) Seat #3 is the button
Seat 1: alice (1000 in chips)
Seat 2: bob (150 in chips)
Seat 3: carol (5000 in chips)
alice: posts small blind 50
bob: posts big blind 100
*** HOLE CARDS ***
Dealt to alice [As Ad]
Dealt to bob [Ks Kd]
Dealt to carol [Qs Qd]
carol: raises 900 to 1000
alice: calls 950 and is all-in
bob: calls 50 and is all-in
*** FLOP *** [2c 3c 7h]
*** TURN *** [2c 3c 7h] [8h]
*** RIVER *** [2c 3c 7h 8h] [Jd]
*** SHOW DOWN ***
carol: shows [Qs Qd] (a pair of Queens)
alice: shows [As Ad] (a pair of Aces)
bob: shows [Ks Kd] (a pair of Kings)
alice collected 1700 from side pot
alice collected 450 from main pot
*** SUMMARY ***
Total pot 2150 Main pot 450. Side pot 1700. | Rake 0
Board [2c 3c 7h 8h Jd]
Seat 1: alice (small blind) showed [As Ad] and won (2150) with a pair of Aces
Seat 2: bob (big blind) showed [Ks Kd] and lost with a pair of Kings
Seat 3: carol (button) showed [Qs Qd] and lost with a pair of Queens
"""
# Hand 7: alice has the button, bob (1000) raises to 200, and carol, who has 150, calls with all. 50 of bob's go back.
SEVEN_POKERSTARS = """\
PokerStars Hand #N:  Hold'em No Limit (50/100) - 2000/01/01 00:00:07 ET
Table 'twelve' 6-max (Play Money) Seat #1 is the button
Seat 1: alice (5000 in chips)
Seat 2: bob (1000 in chips)
Seat 3: carol (150 in chips)
bob: posts small blind 50
carol: posts big blind 100
*** HOLE CARDS ***
Dealt to bob [As Ad]
alice: folds
bob: raises 100 to 200
carol: calls 50 and is all-in
Uncalled bet (50) returned to bob
*** FLOP *** [2c 3c 7h]
*** TURN *** [2c 3c 7h] [8h]
*** RIVER *** [2c 3c 7h 8h] [Jd]
*** SHOW DOWN ***
bob: shows [As Ad] (a pair of Aces)
carol: shows [Ks Kd] (a pair of Kings)
bob collected 300 from pot
*** SUMMARY ***
Total pot 300 | Rake 0
Board [2c 3c 7h 8h Jd]
Seat 1: alice (button) folded before Flop (didn't bet)
Seat 2: bob (small blind) showed [As Ad] and won (300) with a pair of Aces
Seat 3: carol (big blind) showed [Ks Kd] and lost with a pair of Kings
"""

# The session of docs/BOTS.md, in limit for two: bob has the button and the small blind. He raises, and bets the flop.
SESSION_GAME = "examples/l2.game"
SESSION_LOG = """\
# name/game/hands session l2.game 2
STATE:0:rc/crf:TdAs|8hTc/2c8c3h:-20|20:alice|bob
STATE:1:f:2d2h|3d3s:5|-5:bob|alice
SCORE:-25|25:alice|bob
"""
SESSION_PHH = """\
[1]
variant = "FT"
antes = [0, 0]
blinds_or_straddles = [5, 10]
small_bet = 10
big_bet = 20
starting_stacks = [2147483647, 2147483647]
actions = ["d dh p1 TdAs", "d dh p2 8hTc", "p2 cbr 20", "p1 cc", "d db 2c8c3h", "p1 cc", "p2 cbr 10", "p1 f"]
event = "session"
hand = 0
seats = [1, 2]
seat_count = 2
table = "session"
players = ["alice", "bob"]
finishing_stacks = [2147483627, 2147483667]
"""
SESSION_POKERSTARS = """\
PokerStars Hand #N:  Hold'em Limit (10/20) - 2026/11/30 00:00:00 ET
Table 'session' 2-max (Play Money) Seat #2 is the button
Seat 1: alice (2147483647 in chips)
Seat 2: bob (2147483647 in chips)
bob: posts small blind 5
alice: posts big blind 10
*** HOLE CARDS ***
Dealt to alice [Td As]
Dealt to bob [8h Tc]
bob: raises 10 to 20
alice: calls 10
*** FLOP *** [2c 8c 3h]
alice: checks
bob: bets 10
alice: folds
Uncalled bet (10) returned to bob
bob collected 40 from pot
bob: doesn't show hand
*** SUMMARY ***
Total pot 40 | Rake 0
Board [2c 8c 3h]
Seat 1: alice (big blind) folded on the Flop
Seat 2: bob (button) (small blind) collected (40)
"""
