#!/usr/bin/env python3
"""A learner of fifty lines that plays against who always calls: examples/learner.py GAME [LEARNED [PLAYED]]

It learns in LEARNED hands (100000), and then plays PLAYED further ones (10000) as well as it can. It keeps the mean of what each
action brought by the end of a hand, for what it sees: its own ranks before the flop, later what its cards make of the board.
It is seat 0 of a game for two. The last line is what it won a hand, with its standard error. docs/TRAINING.md has figures.
"""
import random
import statistics
import sys

from table_env import RANKS, TableFault, Tables

# How often the learner tries what isn't the best so far; at how many tables it plays at once.
EXPLORING, TABLES = 0.2, 20
LEARNER = 0


def made(seen):
    """What a player's cards make of the board: 4 for trips or a flush and more, 3 two pairs, 2 the top pair, 1 a lower one, 0 none."""
    own, board = [RANKS.index(rank) for rank in seen.hole[::2]], [RANKS.index(rank) for rank in seen.board[::2]]
    if any((seen.hole + seen.board)[1::2].count(suit) >= 5 for suit in seen.hole[1::2]):
        return 4
    counts = sorted(((own + board).count(rank), rank) for rank in {*own})
    if counts[-1][0] >= 3:
        return 4
    if [count for count, _ in counts] == [2, 2]:
        return 3
    return 0 if counts[-1][0] < 2 else 2 if counts[-1][1] >= max(board) else 1


def state(seen):
    """What the learner tells apart: the round, and what it holds."""
    own = sorted((RANKS.index(rank) for rank in seen.hole[::2]), reverse=True)
    return (len(seen.board), *own) if not seen.board else (len(seen.board), made(seen), own[0])


def chosen(seen, values, dice, exploring, course):
    """What is done at a turn. The learner's own actions are kept in the course of the hand."""
    if seen.seat != LEARNER:
        return "c"
    at, legal = state(seen), [action for action in seen.actions if action]
    best = max(legal, key=lambda action: values.get((at, action), (0, 0.0))[1])
    action = dice.choice(legal) if dice.random() < exploring else best
    course.append((at, action))
    return action


def play(tables, values, dice, exploring):
    """Plays a hand at each table, and learns what each action brought. The learner's chips, by table."""
    seen, courses = tables.reset(), [[] for _ in tables.tables]
    while any(seen):
        seen = tables.step([it and chosen(it, values, dice, exploring, course) for it, course in zip(seen, courses)])
    won = [table.payoffs[LEARNER] for table in tables.tables]
    for chips, course in zip(won, courses):
        for key in course:
            count, mean = values.get(key, (0, 0.0))
            values[key] = count + 1, mean + (chips - mean) / (count + 1)
    return won


def main(game, learned=100000, played=10000):
    tables, values, dice = Tables(game, seeds=range(TABLES)), {}, random.Random(1)
    for number in range(0, int(learned), TABLES):
        play(tables, values, dice, EXPLORING)
        if number % 10000 < TABLES:
            print(f"learner: {number} hands", file=sys.stderr)
    won = [chips for _ in range(0, int(played), TABLES) for chips in play(tables, values, dice, 0.0)]
    error = statistics.stdev(won) / len(won) ** 0.5
    print(f"{len(won)} hands: {statistics.mean(won):+.2f} chips a hand, standard error {error:.2f}")
    tables.close()


if __name__ == "__main__":
    words = sys.argv[1:]
    if {"-h", "--help"} & {*words}:
        sys.exit(print(__doc__.strip()))
    if not 1 <= len(words) <= 3 or not all(word.isdecimal() for word in words[1:]):
        sys.exit("learner.py: it takes GAME [LEARNED [PLAYED]], and --help says what they are")
    try:
        main(*words)
    except TableFault as fault:
        sys.exit(f"learner.py: {fault}")
