"""What a match leaves on the disk: its log, and the transaction file from which it is resumed."""
import fcntl
import os
import re
from typing import NamedTuple, Optional

from .faults import InUse, MatchFault

TIME = r"(\d+)\.(\d{6})"
ACTED = re.compile(rf"([fc]|r\d{{0,10}}) {TIME} {TIME}(?: (mended|default))?", re.A)
RESTARTED = re.compile(r"restart (\d+)", re.A)
SECOND = 1_000_000


def stamp(microseconds):
    """A time as files and notes have it: seconds, a point, six digits."""
    return "{}.{:06}".format(*divmod(microseconds, SECOND))


def begun_at(process):
    """When a process began, in ticks since the machine's start: with its number it names it. Nothing where it has ended."""
    try:
        with open(f"/proc/{process}/stat", encoding="latin-1") as file:
            fields = file.read().rpartition(")")[2].split()
    except OSError:
        return None
    return None if fields[0] in "ZX" else fields[19]


class Transaction(NamedTuple):
    """An action that was carried out, with the times in microseconds: when the line that it answers was sent, and when it
    came. `mark` says what else there was to it: it was `mended`, or a `default`."""

    action: str
    sent: int
    received: int
    mark: Optional[str] = None

    def text(self):
        return " ".join([self.action, stamp(self.sent), stamp(self.received), *([self.mark] if self.mark else [])])


class Restart(NamedTuple):
    """A seat's player was started again."""

    seat: int

    def text(self):
        return f"restart {self.seat}"


class File:
    """A file that only this process writes, as long as it has it open."""

    def __init__(self, path):
        """Opens it as it is, or makes it. InUse where another process has it."""
        self.path = path
        try:
            self.descriptor = os.open(path, os.O_RDWR | os.O_APPEND | os.O_CREAT | os.O_CLOEXEC, 0o666)
        except OSError as why:
            raise self.fault(why) from why
        try:
            fcntl.flock(self.descriptor, fcntl.LOCK_EX | fcntl.LOCK_NB)
        except OSError as why:
            self.close()
            if isinstance(why, BlockingIOError):
                raise InUse(f"{path}: another dealer is writing this file") from why
            raise MatchFault(f"{path}: can't be locked: {why.strerror}") from why

    def fault(self, why):
        return MatchFault(f"{self.path}: {why.strerror}")

    def content(self):
        """All that is in it."""
        try:
            with os.fdopen(os.dup(self.descriptor), "rb") as file:
                file.seek(0)
                return file.read()
        except OSError as why:
            raise self.fault(why) from why

    def cut(self, size):
        """Drops what is behind so many bytes."""
        try:
            os.ftruncate(self.descriptor, size)
        except OSError as why:
            raise self.fault(why) from why

    def append(self, text):
        """Writes a text behind what is there."""
        data = text.encode("ascii")
        try:
            while data:
                data = data[os.write(self.descriptor, data) :]
        except OSError as why:
            raise self.fault(why) from why

    def sync(self):
        try:
            os.fsync(self.descriptor)
        except OSError as why:
            raise self.fault(why) from why

    def close(self):
        os.close(self.descriptor)


def transaction(line):
    """What a line of a transaction file says; nothing where it is no such line."""
    acted, restarted = ACTED.fullmatch(line), RESTARTED.fullmatch(line)
    if acted:
        numbers = [int(number) for number in acted.group(2, 3, 4, 5)]
        return Transaction(acted[1], numbers[0] * SECOND + numbers[1], numbers[2] * SECOND + numbers[3], acted[6])
    return Restart(int(restarted[1])) if restarted else None


def whole_lines(content):
    """What a file has without what a kill left of its last line."""
    return content[: content.rfind(b"\n") + 1]


def transactions(path, content):
    """What whole lines of a transaction file tell, each with its number from 1 on."""
    for number, line in enumerate(content.decode("latin-1").split("\n")[:-1], start=1):
        told = transaction(line)
        if told is None:
            raise MatchFault(f"{path}: line {number} is no transaction: {line[:80]!r}")
        yield number, told
