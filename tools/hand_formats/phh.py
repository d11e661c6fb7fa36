"""The open Poker Hand History format (PHH): each hand a table of TOML. docs/HANDS.md names each field."""
import json

from .table_order import bet_sizes, table_order

UNKNOWN = "????"


class Writer:
    """Writes the hands of a match. `match` is its name, `seats` the players' names in seat order."""

    def __init__(self, game, match, seats):
        self.game, self.match, self.seats = game, match, seats
        self.order = table_order(game)
        self.number_of = {position: place + 1 for place, position in enumerate(self.order.positions)}
        self.sizes = [("min_bet", max(game.blinds))] if not game.is_limit else [*zip(("small_bet", "big_bet"), bet_sizes(game))]

    def blinds(self):
        """The blinds as the format has them: where two play, the small blind comes first, though its player is the second."""
        blinds = list(self.order.blinds)
        return blinds[::-1] if self.game.players == 2 else blinds

    def fields(self, hand):
        """The fields of a hand, in the format's order."""
        places = self.order.positions
        return [
            ("variant", "FT" if self.game.is_limit else "NT"),
            ("antes", [0] * self.game.players),
            ("blinds_or_straddles", self.blinds()),
            *self.sizes,
            ("starting_stacks", [self.game.stacks[p] for p in places]),
            ("actions", [*self.actions(hand)]),
            ("event", self.match),
            ("hand", hand.number),
            ("seats", [self.seats.index(hand.names[p]) + 1 for p in places]),
            ("seat_count", self.game.players),
            ("table", self.match),
            ("players", [hand.names[p] for p in places]),
            ("finishing_stacks", [self.game.stacks[p] + hand.payoffs[p] for p in places]),
        ]

    def actions(self, hand):
        """What happened in a hand, in order. Where nobody can bet any more, the cards are shown before the rest of the board."""
        for p in self.order.positions:
            yield f"d dh p{self.number_of[p]} {hand.holes[p] or UNKNOWN}"
        last = max(number for number, it in enumerate(hand.rounds) if it.acts)
        for number, it in enumerate(hand.rounds):
            if it.cards:
                yield f"d db {it.cards}"
            yield from map(self.action, it.acts)
            if number == last and hand.is_showdown:
                yield from (f"p{self.number_of[p]} sm {hand.holes[p]}" for p in hand.showing_order())

    def action(self, act):
        words = {"f": "f", "c": "cc", "r": f"cbr {act.total}"}
        return f"p{self.number_of[act.position]} {words[act.letter]}"

    def text(self, hand, heading=None):
        """A hand as a file of its own, or below a heading in a file of several."""
        lines = [] if heading is None else [f"[{heading}]"]
        return "".join(f"{line}\n" for line in [*lines, *(f"{key} = {in_toml(value)}" for key, value in self.fields(hand))])


def in_toml(value):
    """A text, a number or an array of these in TOML, whose form is here that of JSON."""
    return json.dumps(value)
