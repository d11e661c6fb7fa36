"""What a player has to know of a game, and what a dealer's line shows him. docs/RULES.md has the rules."""
import re

STACK = 2147483647
ACTION = re.compile(r"[fc]|r[0-9]*")


class Game:
    """The values of a right game file."""

    def __init__(self, text):
        keys = {}
        for line in text.splitlines():
            words = line.split("#")[0].replace("=", " ").lower().split()
            if words == ["end", "gamedef"]:
                break
            if words:
                keys[words[0]] = [int(word) for word in words[1:] if word.isdigit()]
        self.players = keys["numplayers"][0]
        self.is_limit = "nolimit" not in keys
        self.stacks = keys.get("stack", [STACK] * self.players)
        self.blinds = keys.get("blind", [0] * self.players)
        self.raise_sizes = keys.get("raisesize", [0] * 4)
        self.first_players = [place - 1 for place in keys.get("firstplayer", [1] * 4)]
        self.max_raises = keys.get("maxraises", [255] * 4)


class Betting:
    """The betting of a hand as its text shows it. Players stand by position, and amounts are over the whole hand."""

    def __init__(self, game, text):
        self.game = game
        self.spent = list(game.blinds)
        self.folded = [False] * game.players
        self.begin_round(0)
        for number, actions in enumerate(text.split("/")):
            if number > 0:
                self.begin_round(number)
            for action in ACTION.findall(actions):
                self.take(action)

    def begin_round(self, number):
        self.round, self.actions, self.raises = number, 0, 0
        self.least = max(self.spent) + max(self.game.blinds)
        # With fewer than two the hand is over, and its text only shows the rounds that are left.
        self.owing = set(self.live()) if len(self.live()) > 1 else set()
        self.turn = self.next_live(self.game.first_players[number])

    def live(self):
        """The players who have neither folded nor put in their stack."""
        return [p for p in range(self.game.players) if not self.folded[p] and self.spent[p] < self.game.stacks[p]]

    def next_live(self, position):
        """The first live player from a position on, round the table."""
        live = self.live()
        return min(live, key=lambda p: (p - position) % self.game.players) if live else None

    def take(self, action):
        """What the player to act did: an action that the dealer allowed."""
        player, most = self.turn, max(self.spent)
        if action == "f":
            self.folded[player] = True
        elif action == "c":
            self.spent[player] = min(most, self.game.stacks[player])
        else:
            self.spent[player] = self.raise_range()[0] if self.game.is_limit else int(action[1:])
            self.least = max(self.least, 2 * self.spent[player] - most)
            self.raises += 1
            self.owing = set(self.live())
        self.actions += 1
        self.owing = {p for p in self.owing if p != player and p in self.live()}
        self.turn = self.next_live(player + 1)

    def to_act(self):
        """The position that is to act; none where the hand is over."""
        is_over = self.folded.count(False) == 1 or not self.owing
        return None if is_over else self.turn

    def may_fold(self):
        return self.spent[self.turn] < max(self.spent)

    def raise_range(self):
        """The least and the greatest amount to which the player to act may raise; none where he may not raise."""
        game, stack, most = self.game, self.game.stacks[self.turn], max(self.spent)
        is_full = self.raises >= game.max_raises[self.round] or self.actions + game.players > 64
        if is_full or len(self.live()) < 2 or most >= stack:
            return None
        if game.is_limit:
            amount = min(most + game.raise_sizes[self.round], stack)
            return amount, amount
        return min(self.least, stack), stack


def turn_of(game, line):
    """The betting that a dealer's line shows, where the player who got the line is to act; else none."""
    word, position, _, betting, _ = line.split(":")
    shown = Betting(game, betting)
    return shown if word == "MATCHSTATE" and shown.to_act() == int(position) else None
