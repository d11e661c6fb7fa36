"""What the last notes of a node tell."""
import os
import re

# How many bytes of them are read at most, from the end.
MOST = 1 << 18
TIME = r"(?:\d{4}-\d\d-\d\dT[\d:.]+Z )?"
STARTED = re.compile(r"match \S+, node \d: started\b")
PEER = re.compile(r"peer (\d): (.*)")
REFUSED = re.compile(r"inbound connection refused: (.*?) \(from peer (\d)'s address\)(?: \(\d+ times\))?")
# Faults of connections that don't pass by themselves, and the last line of a process that a fault ended.
LASTING = re.compile(r"(?:12[234578]|130) [A-Z]")
FAULT = re.compile(r"\d{2,3} [A-Z]\w*")


def end_of(lines):
    """The fault that is the last of these notes, if it is one, behind the note before it."""
    if not lines or not FAULT.match(lines[-1]):
        return None
    return " after ".join([lines[-1], *(f"'{line}'" for line in lines[-2:-1])])


class Notes:
    """The notes since a node was last started, as far as they are read; without their times."""

    def __init__(self, path):
        with open(path, "rb") as file:
            file.seek(max(0, file.seek(0, os.SEEK_END) - MOST))
            text = file.read().decode("utf-8", "replace")
        lines = [re.sub(f"^{TIME}", "", line) for line in text.split("\n")]
        starts = [place for place, line in enumerate(lines) if STARTED.match(line)]
        self.lines = [line for line in lines[starts[-1] if starts else 0 :] if line]

    def end(self):
        """The fault that ended the process, if one did, behind the note before it."""
        return end_of(self.lines)

    def refused(self):
        """For each node the fault by which its last connection was refused, if none was taken since."""
        found = {}
        for line in self.lines:
            if peer := PEER.fullmatch(line):
                node, said = peer.groups()
            elif inbound := REFUSED.fullmatch(line):
                said, node = inbound.groups()
            else:
                continue
            if LASTING.match(said):
                found[int(node)] = said
            elif said.startswith("connected"):
                found.pop(int(node), None)
        return found

    def has_lost_quorum(self):
        return [line for line in self.lines if line.startswith("quorum")][-1:] == ["quorum lost: bots are disconnected until it returns"]

    def is_over(self):
        return self.lines[-1:] == ["the match is over"]
