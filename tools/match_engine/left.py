"""What dealers of this user that have ended left in this machine's memory: folders of matches with nodes."""
import fcntl
import os
import shutil
from pathlib import Path
from typing import NamedTuple

from .node_files import MADE, MEMORY, PATH


class Left(NamedTuple):
    """A folder: of which match it is, as far as it says so, whether a process uses it, and whether the match could go on with it."""

    path: Path
    match: str
    is_used: bool
    can_go_on: bool

    def text(self):
        state = "in use" if self.is_used else "-a -T could go on with it" if self.can_go_on else "nothing can go on with it"
        return f"{self.path}: {self.match}: {state}"


def all_left():
    """The folders, by their paths."""
    base = MEMORY / f"holdem_table.{os.getuid()}"
    return [left(path) for path in sorted(base.iterdir()) if path.is_dir()] if base.is_dir() else []


def left(path):
    match = text_of(path / PATH)
    can_go_on = match is not None and (path / MADE).exists() and os.path.exists(f"{match}.tlog")
    if "." in path.name:
        return Left(path, "a league's, at this host", is_locked(path / "holder"), False)
    return Left(path, match or "a match that it doesn't name", is_locked(path), can_go_on)


def text_of(path):
    try:
        return path.read_text(encoding="utf-8", errors="surrogateescape")
    except OSError:
        return None


def is_locked(path):
    """Whether a process has something locked."""
    try:
        descriptor = os.open(path, os.O_RDONLY | os.O_CLOEXEC)
    except OSError:
        return False
    try:
        fcntl.flock(descriptor, fcntl.LOCK_EX | fcntl.LOCK_NB)
    except BlockingIOError:
        return True
    finally:
        os.close(descriptor)
    return False


def remove(found):
    """Removes a folder that nobody uses; whether it is gone."""
    shutil.rmtree(found.path, ignore_errors=True)
    return not found.path.exists()
