"""The logs that the nodes of a match write, each on its own."""
import os

from .faults import MatchFault
from .files import whole_lines


class FarthestLog:
    """The log that is farthest of those that nodes write: each is a beginning of the longest, as far as its lines are whole."""

    def __init__(self, paths):
        self.paths, self.taken = paths, 0

    def size(self, path):
        try:
            return os.stat(path).st_size
        except OSError:
            return 0

    def whole(self, path):
        """What a log has, as far as its lines are whole."""
        try:
            return whole_lines(path.read_bytes())
        except OSError:
            return b""

    def are_equal(self, paths):
        return len({self.whole(path) for path in paths}) <= 1

    def compare(self):
        """A MatchFault where a log isn't a beginning of the longest."""
        longest = max(self.paths, key=self.size)
        for path in self.paths:
            if not self.whole(longest).startswith(self.whole(path)):
                raise MatchFault(f"{path.name} and {longest.name} differ: two nodes have written different logs")

    def lines(self):
        """The whole lines that came since, with their ends."""
        path = max(self.paths, key=self.size)
        if self.size(path) <= self.taken:
            return []
        try:
            with open(path, "rb") as file:
                file.seek(self.taken)
                lines = whole_lines(file.read())
        except FileNotFoundError:
            return []
        except OSError as why:
            raise MatchFault(f"{path}: {why.strerror}") from why
        self.taken += len(lines)
        return lines.decode("latin-1").splitlines(True)
