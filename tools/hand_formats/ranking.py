"""What a player's cards are worth at a showdown, and in words. docs/RULES.md has the order of hands."""
from collections import Counter

RANKS, SUITS = "23456789TJQKA", "cdhs"
WORDS = "Deuce Three Four Five Six Seven Eight Nine Ten Jack Queen King Ace".split()
HIGH_CARD, PAIR, TWO_PAIRS, THREE, STRAIGHT, FLUSH, FULL_HOUSE, FOUR, STRAIGHT_FLUSH = range(9)
ACE = 12
# How many further cards count beside those of equal ranks.
KICKERS = {HIGH_CARD: 4, PAIR: 3, TWO_PAIRS: 1, THREE: 2}


def top_of_straight(ranks):
    """The top rank of the best straight among ranks, from 0 for a two; none where there is none. An ace is also below a two."""
    tops = (top for top in range(ACE, 2, -1) if all((top - step) % 13 in ranks for step in range(5)))
    return next(tops, None)


def of_equals(ranks):
    """The best value of seven ranks without straights: the category, and the ranks that count."""
    counts = Counter(ranks)
    first, second = sorted(counts, key=lambda rank: (-counts[rank], -rank))[:2]
    if counts[first] == 4:
        return FOUR, (first, max(rank for rank in ranks if rank != first))
    if counts[first] == 3 and counts[second] > 1:
        return FULL_HOUSE, (first, second)
    category = THREE if counts[first] == 3 else TWO_PAIRS if counts[second] == 2 else PAIR if counts[first] == 2 else HIGH_CARD
    heads = [first, second] if category == TWO_PAIRS else [first]
    rest = sorted({*ranks}.difference(heads), reverse=True)
    return category, (*heads, *rest[: KICKERS[category]])


def value(cards):
    """The value of the best five of seven cards; the greater value wins. It is a category, and the ranks that count."""
    ranks = [RANKS.index(card[0]) for card in cards]
    suits = Counter(card[1] for card in cards)
    suit = next((suit for suit, count in suits.items() if count >= 5), None)
    suited = sorted((rank for rank, card in zip(ranks, cards) if card[1] == suit), reverse=True)
    top = top_of_straight(suited)
    if top is not None:
        return STRAIGHT_FLUSH, (top,)
    category, heads = of_equals(ranks)
    if category >= FULL_HOUSE:
        return category, heads
    if suited:
        return FLUSH, tuple(suited[:5])
    top = top_of_straight(ranks)
    return (category, heads) if top is None else (STRAIGHT, (top,))


def many(rank):
    """The word for several cards of a rank."""
    return WORDS[rank] + ("es" if WORDS[rank] == "Six" else "s")


def span(top):
    return f"{WORDS[(top - 4) % 13]} to {WORDS[top]}"


def words(category, ranks):
    """A value in the words that PokerStars has for it."""
    first, second = ranks[0], ranks[-1]
    if category == STRAIGHT_FLUSH:
        return "a Royal Flush" if first == ACE else f"a straight flush, {span(first)}"
    return {
        HIGH_CARD: lambda: f"high card {WORDS[first]}",
        PAIR: lambda: f"a pair of {many(first)}",
        TWO_PAIRS: lambda: f"two pair, {many(first)} and {many(ranks[1])}",
        THREE: lambda: f"three of a kind, {many(first)}",
        STRAIGHT: lambda: f"a straight, {span(first)}",
        FLUSH: lambda: f"a flush, {WORDS[first]} high",
        FULL_HOUSE: lambda: f"a full house, {many(first)} full of {many(second)}",
        FOUR: lambda: f"four of a kind, {many(first)}",
    }[category]()
