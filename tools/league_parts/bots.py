"""The players' programs. They are others': each has a process group of its own, which ends with the match."""
import ctypes
import hashlib
import os
import signal
import subprocess
import threading
import time
from pathlib import Path

from match_engine import hosts

# How long a group may take to end by itself after it was asked to, in seconds, and how often that is looked at.
GRACE, LOOK = 2.0, 0.02
# The most bytes of a player's output that are kept; what comes behind them is read and dropped.
MOST_OUTPUT = 16 * 2**20
# The most bytes of a player's folder of which a digest is made.
MOST_DIGESTED = 2**30
# The signals that ask a match to end.
INTERRUPTS = (signal.SIGINT, signal.SIGTERM, signal.SIGHUP)
PR_SET_PDEATHSIG = 1
LIBRARY = ctypes.CDLL(None)


def is_alive(group):
    """Whether a process of a group is there."""
    try:
        os.killpg(group, 0)
    except ProcessLookupError:
        return False
    except PermissionError:
        pass
    return True


def signal_all(groups, number):
    for group in groups:
        try:
            os.killpg(group, number)
        except (ProcessLookupError, PermissionError):
            pass


def end(groups, reap=lambda: None):
    """Ends process groups: asks them to, and kills those that are still there two seconds later. The number of one that has ended
    may be another's then."""
    signal_all(groups, signal.SIGTERM)
    until = time.monotonic() + GRACE
    while groups and time.monotonic() < until:
        time.sleep(LOOK)
        reap()
        groups = [group for group in groups if is_alive(group)]
    signal_all(groups, signal.SIGKILL)


class Keeper:
    """A process that ends the players' groups where this one ended without doing so, however that was. It is forked before
    anything else is opened, and learns by a pipe which groups there are, and that this process has ended."""

    def __init__(self):
        reader, self.writer = os.pipe()
        self.process = os.fork()
        if self.process == 0:
            os.close(self.writer)
            self.keep(reader)
        os.close(reader)

    @staticmethod
    def keep(reader):
        """Never returns."""
        try:
            os.setsid()
            for number in INTERRUPTS:
                signal.signal(number, signal.SIG_IGN)
            null = os.open(os.devnull, os.O_RDWR)
            for descriptor in (0, 1, 2):
                os.dup2(null, descriptor)
            groups = set()
            with os.fdopen(reader) as told:
                for line in told:
                    group = int(line[1:])
                    (groups.add if line[0] == "+" else groups.discard)(group)
            end(groups)
        finally:
            os._exit(0)

    def begun(self, group):
        os.write(self.writer, f"+{group}\n".encode())

    def ended(self, group):
        os.write(self.writer, f"-{group}\n".encode())

    def close(self):
        os.close(self.writer)
        os.waitpid(self.process, 0)


def set_apart(parent, blocked):
    """What a player's process does before it becomes his program: it gets a process group of its own, only the signals that were
    blocked before its start are blocked, and it is asked to end where its parent ends. Killed at once, a program that stands for a
    container couldn't end that."""
    os.setpgid(0, 0)
    signal.pthread_sigmask(signal.SIG_SETMASK, blocked)
    LIBRARY.prctl(PR_SET_PDEATHSIG, signal.SIGTERM)
    if os.getppid() != parent:
        os._exit(1)


class Bot:
    """A player's program while it runs. It can't be started: OSError."""

    def __init__(self, player, host, port, output, keeper, at=None):
        """`output` is the file that gets what it writes to its standard output and error; `at` the host at which it runs, none where
        that is this one. There a process of ssh stands for it."""
        parent, self.keeper, self.output, self.is_over = os.getpid(), keeper, output, False
        # (an interrupt between the start and the keeper's knowledge of it would leave the program behind; it comes to the main thread
        # alone, since each reader begins with the interrupts blocked)
        blocked = signal.pthread_sigmask(signal.SIG_BLOCK, INTERRUPTS)
        try:
            streams = {"stdout": subprocess.PIPE, "stderr": subprocess.STDOUT}
            words, self.is_elsewhere = player.words(host, port), at is not None
            if at is None:
                self.process = subprocess.Popen(
                    words, cwd=player.folder, stdin=subprocess.DEVNULL, preexec_fn=lambda: set_apart(parent, blocked), **streams
                )
            else:
                asked = {"words": words, "folder": str(player.folder)}
                self.process = hosts.run_at(at, "bot", asked, lambda: set_apart(parent, blocked), **streams)
            self.keeper.begun(self.process.pid)
            self.reader = threading.Thread(target=self.read, daemon=True)
            self.reader.start()
        finally:
            signal.pthread_sigmask(signal.SIG_SETMASK, blocked)

    def read(self):
        """Keeps what the program writes, as far as there is room. A program that runs on is never stopped by a full pipe."""
        with open(self.output, "ab", buffering=0) as file:
            for piece in iter(lambda: os.read(self.process.stdout.fileno(), 65536), b""):
                try:
                    file.write(piece[: max(MOST_OUTPUT - file.tell(), 0)])
                except OSError:
                    # The disk is full: that is no reason to stop a player.
                    continue

    def is_running(self):
        """Whether its program, or one that it started, is there. Once none is, its number may be another's, and isn't looked at
        again."""
        if not self.is_over:
            self.process.poll()
            self.is_over = not is_alive(self.process.pid)
            if self.is_over:
                self.keeper.ended(self.process.pid)
        return not self.is_over


def end_all(bots):
    """Ends players' programs, all at once. One that belongs to another user, and can't be ended, is left behind."""
    elsewhere = [bot for bot in bots if bot.is_elsewhere]
    for bot in elsewhere:
        hosts.let_go(bot.process)
    for bot in elsewhere:
        hosts.end(bot.process)
    running = [bot for bot in bots if bot.is_running()]
    end([bot.process.pid for bot in running], lambda: [bot.process.poll() for bot in running])
    for bot in running:
        try:
            bot.process.wait(GRACE)
        except subprocess.TimeoutExpired:
            continue
        bot.keeper.ended(bot.process.pid)
    for bot in bots:
        bot.reader.join(GRACE)


def digest(folder):
    """Of a player's folder how many files are in it, how many bytes, and the SHA-256 of what this prints in it:
    find . -type f -print0 | LC_ALL=C sort -z | xargs -0 sha256sum; none where they are too many bytes, or can't be read."""
    files = sorted(os.fsencode(path) for path in files_below(folder))
    try:
        size = sum(os.stat(os.path.join(os.fsencode(folder), path)).st_size for path in files)
        whole = hashlib.sha256()
        if size > MOST_DIGESTED:
            return {"files": len(files), "bytes": size, "sha256": None}
        for path in files:
            with open(os.path.join(os.fsencode(folder), path), "rb") as file:
                found = hashlib.file_digest(file, "sha256").hexdigest()
            whole.update(found.encode() + b"  " + path + b"\n")
    except OSError:
        return {"files": len(files), "bytes": None, "sha256": None}
    return {"files": len(files), "bytes": size, "sha256": whole.hexdigest()}


def files_below(folder):
    """The files of a folder and of those below it, as `find .` names them. Links aren't followed."""
    for place, _, names in os.walk(folder):
        for name in names:
            path = Path(place, name)
            if path.is_file() and not path.is_symlink():
                yield "./" + str(path.relative_to(folder))
