"""What a bot does that acts at random, and likes to raise (raiser)."""
import random

from table import turn_of


def choice(game, seed, line):
    """The action at a line, which depends on the seed and the line alone; none if the bot isn't to act there."""
    betting = turn_of(game, line)
    if betting is None:
        return None
    dice = random.Random(f"{seed} {line}")
    amounts = betting.raise_range()
    if amounts is not None and dice.random() < 0.45:
        least, most = amounts
        amount = dice.choices([least, dice.randint(least, min(3 * least, most)), most], [6, 3, 1])[0]
        return "r" if game.is_limit else f"r{amount}"
    return "f" if betting.may_fold() and dice.random() < 0.25 else "c"
