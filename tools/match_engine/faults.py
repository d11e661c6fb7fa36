"""Why a match ends without a score. The text of each is a plain sentence."""


class MatchFault(Exception):
    """What is wrong with files, the game, the program or the machine."""


class InUse(MatchFault):
    """Another dealer writes the match's files."""


class SeatFault(MatchFault):
    """A seat's player failed: `seat` counts from 0, `why` is what the player did."""

    def __init__(self, seat, why):
        super().__init__(f"seat {seat + 1}: {why}")
        self.seat, self.why = seat, why


class Failed(Exception):
    """Between the engine's parts: what a player did by which he failed."""
