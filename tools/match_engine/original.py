"""Decks as the competition's dealer is believed to draw them: written from memory, and compared by nobody with the original.

Its generator is the Mersenne twister MT19937 begun with one number (`init_genrand`). Each hand has a pack in order, suit by
suit from clubs to spades and in each from the two to the ace. A card is the one at a number drawn below those that are left,
whose place the last of them takes. Players get their cards by position, two at a time, and then the board comes.
"""
import random

from .program import RANKS, SUITS, deal_text

PACK = [rank + suit for suit in SUITS for rank in RANKS]
# How many words the generator's state has, and the greatest seed that begins it.
WORDS, SEED = 624, 2**32 - 1


def generator(seed):
    """The Mersenne twister begun with a seed of 32 bits. Python's own is that one, begun in another way."""
    words = [seed]
    for place in range(1, WORDS):
        words.append((1812433253 * (words[-1] ^ words[-1] >> 30) + place) & SEED)
    begun = random.Random()
    begun.setstate((3, (*words, WORDS), None))
    return begun


def deals(seed, players):
    """A deal's text for each hand, without end."""
    numbers = generator(seed)
    while True:
        pack, cards = list(PACK), []
        for _ in range(2 * players + 5):
            place = numbers.getrandbits(32) % len(pack)
            cards.append(pack[place])
            pack[place] = pack[-1]
            pack.pop()
        yield deal_text(cards)
