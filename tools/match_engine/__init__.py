"""The engine of a match, on which tools/dealer and tools/league stand.

A match without nodes is `Match(settings, watcher)`, used by `with`: it takes the match's files, starts the program, plays again
what the transaction file tells, and listens. `play` then waits for the players and plays to the end. What happens on the way
is told to the watcher, whose methods do nothing by themselves. `NodeMatch` is of the same form: nodes in processes of their
own keep the match, and each player speaks with a relay.
"""
from .course import PASSED_OVER
from .faults import InUse, MatchFault, SeatFault
from .files import stamp
from .match import AGAIN, DEFAULT, Limits, Match, Result, Settings, Watcher
from .node_match import NodeMatch

__all__ = [
    "AGAIN", "DEFAULT", "PASSED_OVER", "InUse", "Limits", "Match", "MatchFault", "NodeMatch", "Result", "SeatFault", "Settings", "Watcher",
    "stamp",
]
