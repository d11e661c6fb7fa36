"""Which entry of docs/AT-NIGHT.md is on what was found."""
import re
from enum import Enum


class Entry(Enum):
    """The headings of the entries."""

    ADDRESS = "An address that can't be had"
    ANOTHER_MATCH = "Another `match.kept`"
    CONFLICT = "A conflict"
    CUT_OFF = "A machine cut off"
    DAMAGED = "A store damaged"
    DAMAGED_LOGS_KEPT = "A damaged `nodeI.logs.kept`"
    DAMAGED_PEER_KEPT = "A damaged `nodeI.peerJ.kept`"
    DISK_FAILED = "A disk that failed"
    DISK_FULL = "A disk full"
    HANGS = "A process that hangs"
    KEYS = "Keys that differ"
    LOGS_DIFFER = "Logs that differ"
    LOG_LOST = "A log lost"
    LOST = "A store lost"
    MATCH_FILE = "A wrong match file"
    NO_STORE = "No store in its place"
    NOT_THERE = "A peer that isn't there"
    OLDER_COPY = "An older copy of a store"
    ONE_KEY = "A key on one side"
    RUNS = "It runs already"
    SEED = "A wrong seed"
    SWAPPED = "Addresses swapped"
    TWICE = "Two processes of one node"
    WRONG_NUMBER = "The wrong number"


# By how a fault of a connection begins, and by how the last line of a process begins, with the note before it. The first one counts.
REFUSALS = [
    ("122 ", Entry.ONE_KEY), ("123 OtherMatch number", Entry.SWAPPED), ("123 ", Entry.ANOTHER_MATCH), ("124 ", Entry.KEYS), ("127 ", Entry.LOST), ("128 ", Entry.TWICE),
    ("130 ", Entry.OLDER_COPY),
]  # fmt: skip
ENDS = [
    ("91 Store 6[012]", Entry.DAMAGED), ("91 Store 63 .*: no room'", Entry.DISK_FULL), ("91 ", Entry.DISK_FAILED), ("95 ", Entry.CONFLICT), ("103 ", Entry.NO_STORE),
    ("104 .*only if this node never ran'", Entry.NO_STORE), ("10[0124] ", Entry.MATCH_FILE), ("105 ", Entry.ADDRESS), ("106 .*: no room'", Entry.DISK_FULL), ("106 ", Entry.LOG_LOST),
    ("108 ", Entry.RUNS), (r"109 .*peer\d\.kept'", Entry.DAMAGED_PEER_KEPT), (r"109 .*logs\.kept'", Entry.DAMAGED_LOGS_KEPT), ("109 OtherMatch node", Entry.SEED),
    ("109 OtherMatch match.kept", Entry.ANOTHER_MATCH), ("109 ", Entry.MATCH_FILE), ("127 ", Entry.LOST), ("129 ", Entry.LOGS_DIFFER),
    ("130 ", Entry.OLDER_COPY),
]  # fmt: skip


def first_of(rows, text):
    return next((entry for pattern, entry in rows if re.match(pattern, text)), None)


def of_refusal(fault):
    """The entry on a fault that a connection was closed by; none where there is none."""
    return first_of(REFUSALS, fault)


def of_end(end):
    """The entry on the last line of a process, as Notes.end has it; none where there is none."""
    return first_of(ENDS, end)
