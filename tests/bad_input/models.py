"""A dealer and nodes of their own, by which input is read a second time, and what else the rows of inputs go by."""
from pathlib import Path

import second_dealer as dealer  # noqa: F401, for those who have all from here
import second_nodes as nodes  # noqa: F401, for those who have all from here

TOP = Path(__file__).resolve().parent.parent.parent
GAMES = {name: (TOP / f"examples/{name}.game").read_bytes() for name in ("l2", "n3")}
NAMES = ["alice", "bob", "carol", "dave", "erin", "frank", "grace", "heidi", "ivan", "judy"]
MOST_CHIPS = 2147483647
