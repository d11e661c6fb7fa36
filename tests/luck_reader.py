"""Luck by the log, read a second time: what `holdem_table luck` prints, from docs/RULES.md and docs/FORMATS.md alone.

`lines_of(game, log)` gives the lines. `Luck(game, log, knows_folds=False)` is the planted reader that leaves the cards of
players who have folded in the deck.
"""
import hashlib
import struct
from itertools import combinations

RANKS = "23456789TJQKA"
SUITS = "cdhs"
BOARD_CARDS = [0, 3, 4, 5]
MASK = 0xFFFFFFFF


# ---- games and cards

class Game:
    def __init__(self, text):
        keys = {}
        for line in text.splitlines():
            words = line.split("#")[0].replace("=", " ").split()
            if words:
                keys[words[0].lower()] = words[1:]
        self.players = int(keys["numplayers"][0])
        self.is_limit = "nolimit" not in keys
        self.stacks = [int(w) for w in keys.get("stack", [2147483647] * self.players)]
        self.blinds = [int(w) for w in keys.get("blind", [0] * self.players)]
        self.sizes = [int(w) for w in keys.get("raisesize", [0] * 4)]
        self.first = [int(w) - 1 for w in keys.get("firstplayer", [1] * 4)]
        self.parts = (49 - 2 * self.players) * (48 - 2 * self.players)


def cards_of(text):
    return [4 * RANKS.index(text[i]) + SUITS.index(text[i + 1]) for i in range(0, len(text), 2)]


# ---- what seven cards are worth

def worth_of_counts(counts):
    """Of cards that have no five of one suit: the category, and the ranks that decide."""
    by = lambda least: [r for r in range(12, -1, -1) if counts[r] >= least]
    fours, threes, pairs, any_rank = by(4), by(3), by(2), by(1)
    if fours:
        return (7, fours[0], max(r for r in any_rank if r != fours[0]))
    if threes and len(pairs) > 1:
        return (6, threes[0], max(r for r in pairs if r != threes[0]))
    top = straight(any_rank)
    if top is not None:
        return (4, top)
    if threes:
        return (3, threes[0], *[r for r in any_rank if r != threes[0]][:2])
    if len(pairs) > 1:
        return (2, *pairs[:2], max(r for r in any_rank if r not in pairs[:2]))
    if pairs:
        return (1, pairs[0], *[r for r in any_rank if r != pairs[0]][:3])
    return (0, *any_rank[:5])


def straight(ranks):
    """The top of the best straight, of ranks from the ace down; the ace also stands below the two."""
    for top in range(12, 2, -1):
        if all((r if r >= 0 else 12) in ranks for r in range(top, top - 5, -1)):
            return top
    return None


FIVES = [5 ** rank for rank in range(13)]
# of a card: how it changes the sum that tells the counts of ranks, and the sum that tells those of suits
CARD_SUMS = [(FIVES[card // 4], 1 << (4 * (card % 4))) for card in range(52)]
plain_worths, flush_suits = {}, {}


def sums(cards):
    return sum(CARD_SUMS[c][0] for c in cards), sum(CARD_SUMS[c][1] for c in cards)


def flush_suit(key):
    found = flush_suits.get(key, -1)
    if found == -1:
        found = next((suit for suit in range(4) if (key >> (4 * suit)) & 15 >= 5), None)
        flush_suits[key] = found
    return found


def plain_worth(key):
    found = plain_worths.get(key)
    if found is None:
        found = plain_worths[key] = worth_of_counts([key // FIVES[rank] % 5 for rank in range(13)])
    return found


def flush_worth(cards, suit, key):
    suited = sorted({c // 4 for c in cards if c % 4 == suit}, reverse=True)
    top = straight(suited)
    if top is not None:
        return (8, top)
    plain = plain_worth(key)
    return plain if plain[0] > 5 else (5, *suited[:5])


def worth(cards):
    ranks, suits = sums(cards)
    suit = flush_suit(suits)
    return plain_worth(ranks) if suit is None else flush_worth(cards, suit, ranks)


# ---- betting and pots

def states(game, betting):
    """What each position has in and who has folded: when each later round began, and at the end."""
    spent, folded = list(game.blinds), [False] * game.players
    found = []
    for number, part in enumerate(betting.split("/")):
        if number:
            found.append((tuple(spent), tuple(folded)))
        at, place = game.first[number], 0
        while place < len(part):
            while folded[at % game.players] or spent[at % game.players] >= game.stacks[at % game.players]:
                at += 1
            who, letter = at % game.players, part[place]
            place += 1
            digits = ""
            while place < len(part) and part[place].isdigit():
                digits += part[place]
                place += 1
            if letter == "f":
                folded[who] = True
            elif letter == "c":
                spent[who] = min(max(spent), game.stacks[who])
            else:
                spent[who] = min(max(spent) + game.sizes[number], game.stacks[who]) if game.is_limit else int(digits)
            at += 1
    return found, (tuple(spent), tuple(folded))


def settle(spent, folded, worths):
    """The payoffs; `worths` are asked only of those who haven't folded."""
    players = range(len(spent))
    won, below = [0] * len(spent), 0
    for level in sorted({spent[p] for p in players if not folded[p]}):
        pot = sum(min(amount, level) - min(amount, below) for amount in spent)
        live = [p for p in players if not folded[p] and spent[p] >= level]
        best = max(worths[p] for p in live)
        winners = [p for p in live if worths[p] == best]
        for place, p in enumerate(winners):
            won[p] += pot // len(winners) + (place < pot % len(winners))
        below = level
    return [won[p] - spent[p] for p in players]


# ---- drawn boards: ChaCha20 and rand's partial shuffle

def rotated(word, bits):
    return ((word << bits) | (word >> (32 - bits))) & MASK


def chacha_words(key, stream):
    constants = struct.unpack("<4I", b"expand 32-byte k")
    block = 0
    while True:
        start = [*constants, *struct.unpack("<8I", key), block & MASK, block >> 32, stream & MASK, stream >> 32]
        x = list(start)
        for _ in range(10):
            for a, b, c, d in ((0, 4, 8, 12), (1, 5, 9, 13), (2, 6, 10, 14), (3, 7, 11, 15),
                               (0, 5, 10, 15), (1, 6, 11, 12), (2, 7, 8, 13), (3, 4, 9, 14)):
                x[a] = (x[a] + x[b]) & MASK; x[d] = rotated(x[d] ^ x[a], 16)
                x[c] = (x[c] + x[d]) & MASK; x[b] = rotated(x[b] ^ x[c], 12)
                x[a] = (x[a] + x[b]) & MASK; x[d] = rotated(x[d] ^ x[a], 8)
                x[c] = (x[c] + x[d]) & MASK; x[b] = rotated(x[b] ^ x[c], 7)
        yield from ((x[i] + start[i]) & MASK for i in range(16))
        block += 1


def below(words, bound):
    """A number below a bound by Canon's method, over 32-bit words."""
    product = next(words) * bound
    high, low = product >> 32, product & MASK
    if low > 2 ** 32 - bound and low + (next(words) * bound >> 32) >= 2 ** 32:
        high += 1
    return high


def drawn_board(cards, words):
    """The last five of the cards, shuffled to their end; one word serves all indices whose bounds' product fits it."""
    cards, chunk, left = list(cards), 0, 0
    for place in range(len(cards) - 5, len(cards)):
        bound = place + 1
        if left == 0:
            product, left = bound, 1
            while product * (bound + left) <= MASK:
                product, left = product * (bound + left), left + 1
            chunk = below(words, product)
        left -= 1
        index = chunk
        if left:
            chunk, index = divmod(chunk, bound)
        cards[place], cards[index] = cards[index], cards[place]
    return cards[-5:]


# ---- luck

def terms(begun):
    """The means of a hand's luck: a sign, how many cards of the board are known, and what is in and folded. With the same in and
    folded, the mean behind a street is the mean before the next one, and both cancel."""
    for street, state in enumerate(begun):
        if street + 1 == len(begun) or begun[street + 1] != state:
            yield 1, BOARD_CARDS[street + 1], state
        if street == 0 or begun[street - 1] != state:
            yield -1, BOARD_CARDS[street], state


class Luck:
    def __init__(self, game, log, knows_folds=True, boards=None):
        self.game, self.log, self.knows_folds = game, log, knows_folds
        self.key = hashlib.sha256(log).digest()
        self.boards = boards or game.parts

    def hands(self):
        """Of each hand: its number, names and payoffs by position, and their luck in parts of a chip."""
        for line in self.log.decode().splitlines():
            if line.startswith("STATE:"):
                _, number, betting, cards, values, names = line.split(":")
                yield int(number), names.split("|"), [int(v) for v in values.split("|")], self.luck(int(number), betting, cards)

    def luck(self, number, betting, cards):
        game = self.game
        holes, *streets = cards.split("/")
        holes = [cards_of(text) for text in holes.split("|")]
        board = cards_of("".join(streets))
        begun, _ = states(game, betting)
        total = [0] * game.players
        for sign, count, (spent, folded) in terms(begun):
            gone = {c for p, hole in enumerate(holes) for c in hole if self.knows_folds or not folded[p]}
            mean = self.mean(number, holes, gone, spent, folded, board[:count])
            total = [t + sign * m for t, m in zip(total, mean)]
        return total

    def mean(self, number, holes, gone, spent, folded, known):
        left = [c for c in range(52) if c not in gone and c not in known]
        if known:
            boards = (known + list(more) for more in combinations(left, 5 - len(known)))
        else:
            words = chacha_words(self.key, number)
            boards = (drawn_board(left, words) for _ in range(self.boards))
        live = [p for p in range(len(spent)) if not folded[p]]
        hole_sums = {p: sums(holes[p]) for p in live}
        paid, count, memo = [0] * len(spent), 0, {}
        for board in boards:
            ranks, suits = sums(board)
            worths = []
            for p in live:
                key, suit = ranks + hole_sums[p][0], flush_suit(suits + hole_sums[p][1])
                worths.append(plain_worth(key) if suit is None else flush_worth(holes[p] + board, suit, key))
            order = sorted(set(worths))
            places = tuple(order.index(w) for w in worths)
            if places not in memo:
                memo[places] = settle(spent, folded, dict(zip(live, places)))
            paid = [a + b for a, b in zip(paid, memo[places])]
            count += 1
        return [amount * (self.game.parts // count) for amount in paid] if self.knows_folds else \
            [amount * self.game.parts / count for amount in paid]


def lines_of(game, log):
    return "".join(f"{number} {name} {value} {luck}/{game.parts}\n"
                   for number, names, values, lucks in Luck(game, log).hands()
                   for name, value, luck in zip(names, values, lucks))
