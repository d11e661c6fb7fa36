"""How a game's positions lie round a table with a button: the formats know no other order."""
from typing import NamedTuple, Sequence

from .refused import Refused


class TableOrder(NamedTuple):
    """The positions from the small blind on, the button last; where two play, the big blind is first. Their blinds in this order."""

    positions: Sequence[int]
    blinds: Sequence[int]

    @property
    def button(self):
        return self.positions[-1]


def table_order(game):
    """The order of a game's positions. A Refused where who acts first doesn't follow from a button and the blinds."""
    before_flop, *later = game.first_players
    if len({*later}) != 1:
        raise Refused("the first player to act isn't the same on flop, turn and river: these formats have one button for all")
    positions = [(later[0] + step) % game.players for step in range(game.players)]
    blinds = [game.blinds[p] for p in positions]
    last = max(range(game.players), key=lambda place: (blinds[place], place))
    follower = positions[(last + 1) % game.players]
    if before_flop != follower:
        raise Refused(
            f"position {before_flop} is the first to act before the flop, and these formats have the one behind the greatest blind, {follower}"
        )
    return TableOrder(positions, blinds)


def bet_sizes(game):
    """The small and the big bet of a limit game. A Refused where its raises aren't one size twice, and its double twice."""
    small, second, third, fourth = game.raise_sizes
    if (second, third, fourth) != (small, 2 * small, 2 * small):
        sizes = " ".join(map(str, game.raise_sizes))
        raise Refused(f"its raises are {sizes}, and these formats know limit games with one size twice and its double twice")
    return small, 2 * small
