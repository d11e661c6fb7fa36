"""How far long work is, as a line on standard error: each second on a terminal, more seldom elsewhere."""
import sys
import time

from .words import printable

# How often it is told on a terminal; elsewhere, of work that may be short and of work that is long, in seconds.
ON_TERMINAL, ELSEWHERE, OF_LONG_WORK = 1, 10, 60


class Progress:
    """A line that is written anew on a terminal, and line below line elsewhere. Long work is told of at once, other work when
    a second has gone by."""

    def __init__(self, is_long=False):
        self.is_terminal, self.width = sys.stderr.isatty(), 0
        self.every = ON_TERMINAL if self.is_terminal else OF_LONG_WORK if is_long else ELSEWHERE
        self.next = time.monotonic() + (0 if is_long else ON_TERMINAL)

    def tell(self, text):
        """Shows how far it is, if that wasn't shown just before. `text` is called for it."""
        if time.monotonic() >= self.next:
            self.next = time.monotonic() + self.every
            self.show(text())

    def show(self, text):
        if self.is_terminal:
            print(f"\r{text:{self.width}}", end="", file=sys.stderr, flush=True)
            self.width = len(text)
        else:
            print(printable(f"league: {text}"), file=sys.stderr, flush=True)

    def note(self, text):
        """Tells something that isn't progress."""
        self.clear()
        print(printable(f"league: {text}"), file=sys.stderr, flush=True)

    def clear(self):
        """Takes the line away."""
        if self.width:
            print(f"\r{'':{self.width}}\r", end="", file=sys.stderr, flush=True)
            self.width = 0
