"""The log of a match as it grows, read from whichever of its copies is farthest."""
import os

# All logs of a match have the same first lines: the header, and the first hand.
FIRST_LINES = 2


class GrowingLog:
    """Each node of a match writes a log of its own, and each is a beginning of the longest. Lines are taken from the longest, so
    that they go on where the log that was read is lost.

    What doesn't begin as the match does isn't read. Its first line is known by the match's file, if it has one. Its first hand is
    that of the match's own log that was written last, and without one that of the first log that is read: copies may be of an
    earlier match of the same name."""

    def __init__(self, own, copies=(), head=b""):
        """The paths of the match's own logs and of copies; and the first line, if it is known."""
        self.own, self.copies, self.head, self.taken, self.begun = list(own), list(copies), head, 0, b""

    def anew(self):
        """The same logs, of which nothing was read."""
        return GrowingLog(self.own, self.copies, self.head)

    def sizes(self):
        """How long each log is that can be read, the longest first."""
        found = [(seen.st_size, path) for path, seen in seen_of([*self.own, *self.copies])]
        return sorted(found, key=lambda it: -it[0])

    def beginning(self):
        """The first lines of the match's own log that was written last and has them; nothing where none has."""
        for path, _ in sorted(seen_of(self.own), key=lambda it: -it[1].st_mtime_ns):
            found = first_lines(path)
            if found.count(b"\n") == FIRST_LINES and found.startswith(self.head):
                return found
        return b""

    def lines(self):
        """The whole lines that came since."""
        wanted = self.begun if self.has_first_hand() else self.beginning() or self.begun or self.head
        for size, path in self.sizes():
            if size <= self.taken:
                break
            try:
                with open(path, "rb") as file:
                    if file.read(len(wanted)) != wanted:
                        continue
                    file.seek(self.taken)
                    text = file.read()
            except OSError:
                continue
            text = text[: text.rfind(b"\n") + 1]
            if text:
                self.taken += len(text)
                if not self.has_first_hand():
                    self.begun = b"".join((self.begun + text).splitlines(True)[:FIRST_LINES])
                return text.decode("latin-1").splitlines()
        return []

    def has_begun_anew(self):
        """Whether the match is another one than what was read: its own log has another first hand, or every log that is there is
        shorter, or of another match."""
        if not self.taken:
            return False
        own, found = self.beginning(), self.sizes()
        is_other = bool(own) and not own.startswith(self.begun)
        return is_other or bool(found) and all(size < self.taken or not self.is_same(path) for size, path in found)

    def has_first_hand(self):
        return self.begun.count(b"\n") == FIRST_LINES

    def is_same(self, path):
        found = first_lines(path)
        return not found or found.startswith(self.begun)


def seen_of(paths):
    """The paths that are there, each with what the system says of it."""
    for path in paths:
        try:
            yield path, os.stat(path)
        except OSError:
            continue


def first_lines(path):
    """The first lines of a log, as far as they are there."""
    try:
        with open(path, "rb") as file:
            return b"".join(file.readline() for _ in range(FIRST_LINES))
    except OSError:
        return b""
