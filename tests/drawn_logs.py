"""Logs of drawn hands, by the second dealer (second_dealer.py)."""
import random

import second_dealer as dealer
from serving import NAMES


def drawn_log(text, hands, seed):
    """A log of drawn hands by the second dealer: in some all players put in all, in others nobody bets."""
    dice = random.Random(seed)
    match = dealer.Match(dealer.Game(text.encode()), hands, "drawn.game")
    players = match.game.players
    lines = match.answer("names " + "|".join(NAMES[:players]))
    while match.finished < hands:
        cards = dice.sample(dealer.CARDS, 2 * players + 5)
        holes = "|".join(cards[2 * p] + cards[2 * p + 1] for p in range(players))
        match.answer(f"deal {holes}/{''.join(cards[-5:-2])}/{cards[-2]}/{cards[-1]}")
        weights = dice.choice([[2, 5, 2], [1, 5, 5], [0, 6, 1]])
        while not match.hand.over:
            stack, least = match.game.stacks[match.hand.turn], match.hand.least
            amount = dice.choice([min(least, stack), stack, dice.randint(min(least, stack), min(3 * least, stack))])
            word = dice.choices(["f", "c", "r" if match.game.limit else f"r{amount}"], weights)[0]
            lines += [answer for answer in match.answer(word) if answer.startswith("L ")]
    return "".join(line[2:] + "\n" for line in lines)
