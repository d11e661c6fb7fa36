"""The folder of a match with nodes: stores, node logs, notes, and what the processes read. Its owner alone may look into it."""
import fcntl
import hashlib
import json
import os
import secrets
import shutil
import stat
from pathlib import Path

from .faults import InUse, MatchFault

MEMORY = Path("/dev/shm")
# The file that says of which match the stores are; it is written once all of them are made.
MADE = "made"
# The file that has the match's path, for who looks what is left.
PATH = "path"


def fault(path, why):
    return MatchFault(f"{path}: {why.strerror}")


def found_at(path):
    """What is at a path, not followed where it is a link; nothing where another dealer has removed it meanwhile."""
    try:
        return os.lstat(path)
    except FileNotFoundError:
        return None
    except OSError as why:
        raise fault(path, why) from why


def own_folder(path):
    """Makes a folder that nobody else may enter, if it isn't there. Refused is anything else of this name, which another user
    may have put there."""
    found = None
    while found is None:
        try:
            os.mkdir(path, 0o700)
        except FileExistsError:
            pass
        except OSError as why:
            raise fault(path, why) from why
        found = found_at(path)
    if not stat.S_ISDIR(found.st_mode) or found.st_uid != os.getuid() or found.st_mode & 0o077:
        raise MatchFault(f"{path}: expected a folder of this user's that nobody else may enter")


def write(path, text):
    """Writes a file anew, down to the disk."""
    descriptor = os.open(path, os.O_WRONLY | os.O_CREAT | os.O_TRUNC | os.O_CLOEXEC, 0o600)
    with os.fdopen(descriptor, "wb") as file:
        file.write(text)
        file.flush()
        os.fsync(file.fileno())


def folder_of(settings):
    """The path of a match's folder, which only the match's own path decides, and the folder of stores, if one is named."""
    word = hashlib.sha256(os.fsencode(os.path.realpath(settings.name))).hexdigest()[:32]
    return (MEMORY / f"holdem_table.{os.getuid()}" if settings.stores is None else settings.stores.resolve()) / word


def has_stores(settings):
    """Whether there are stores with which a match can go on."""
    return (folder_of(settings) / MADE).exists()


class NodeFolder:
    """The folder, which this process alone uses until it is closed. `match` is the name of the match file in it."""

    def __init__(self, settings, name):
        """Locks the folder; `name` is the match's as its log has it. InUse where another dealer has it."""
        self.path, self.name, self.match = folder_of(settings), name, f"{name}.toml"
        if settings.stores is None:
            own_folder(self.path.parent)
        elif not settings.stores.is_dir():
            raise MatchFault(f"{settings.stores}: expected a folder for the stores")
        self.settings = settings
        self.descriptor = self.locked()

    def locked(self):
        """A descriptor of the folder by which it is locked. Another dealer may remove it meanwhile: then it is made again."""
        while True:
            own_folder(self.path)
            try:
                descriptor = os.open(self.path, os.O_RDONLY | os.O_DIRECTORY | os.O_CLOEXEC)
            except FileNotFoundError:
                continue
            except OSError as why:
                raise fault(self.path, why) from why
            try:
                fcntl.flock(descriptor, fcntl.LOCK_EX | fcntl.LOCK_NB)
                if os.fstat(descriptor).st_ino == os.stat(self.path).st_ino:
                    return descriptor
            except BlockingIOError as why:
                os.close(descriptor)
                raise InUse(f"{self.path}: another dealer is playing this match") from why
            except FileNotFoundError:
                pass
            os.close(descriptor)

    def identity(self, game):
        """What says of which match the stores are."""
        settings = self.settings
        deals = "original" if settings.deals is not None else "own"
        words = [self.name, settings.nodes, settings.hands, settings.seed, deals, *settings.names, hashlib.sha256(game).hexdigest()]
        return "".join(f"{word}\n" for word in words).encode()

    def has_stores(self):
        """Whether there are stores of all nodes, with which the match can go on."""
        return (self.path / MADE).exists()

    def is_of(self, game):
        """Whether the stores are of this match."""
        try:
            return (self.path / MADE).read_bytes() == self.identity(game)
        except OSError as why:
            raise fault(self.path / MADE, why) from why

    def empty(self):
        """Removes what an earlier match left."""
        try:
            (self.path / MADE).unlink(missing_ok=True)
            for found in self.path.iterdir():
                shutil.rmtree(found) if found.is_dir() and not found.is_symlink() else found.unlink()
            for name in ("stores", "logs"):
                (self.path / name).mkdir(mode=0o700)
        except OSError as why:
            raise fault(self.path, why) from why

    def furnish(self, game, slot):
        """Writes what the processes read: the game, a key and tokens, which are drawn for this run of the dealer, and the match
        file, with the addresses of a slot."""
        settings = self.settings
        tokens = [secrets.token_hex(32) for _ in settings.names]
        try:
            write(self.path / PATH, os.fsencode(os.path.realpath(settings.name)))
            write(self.path / "game", game)
            write(self.path / "key", secrets.token_hex(32).encode())
            for seat, token in enumerate(tokens):
                write(self.path / f"token{seat}", token.encode() + b"\n")
            write(self.path / self.match, self.match_file(slot, tokens).encode())
        except OSError as why:
            raise fault(self.path, why) from why

    def match_file(self, slot, tokens):
        """The text of the match file: all nodes draw the same cards."""
        settings = self.settings
        deals = None if settings.deals is None else [deal for _, deal in zip(range(settings.hands), settings.deals)]
        source = f"seed = {settings.seed}" if deals is None else f"deals = {json.dumps(deals)}"
        rows = [
            f'name = "{self.name}"', 'game = "game"', f"hands = {settings.hands}", f"names = {json.dumps(list(settings.names))}",
            'stores = "stores"', 'logs = "logs"', 'key = "key"',
            f"tokens = {json.dumps([hashlib.sha256(token.encode()).hexdigest() for token in tokens])}",
        ]
        for node in range(settings.nodes):
            host, port = slot.status(node)
            rows += ["[[node]]", source, f'peers = "{slot.peers(node)}"', f'seats = "{slot.seat(node, 0)}"', f'status = "{host}:{port}"']
        return "".join(row + "\n" for row in rows)

    def finish(self, game):
        """Says that all stores are made."""
        try:
            write(self.path / MADE, self.identity(game))
            os.fsync(self.descriptor)
        except OSError as why:
            raise fault(self.path, why) from why

    def log(self, node):
        """The path of a node's log."""
        return self.path / "logs" / f"node{node}.log"

    def notes(self, node):
        """The path of a node's notes."""
        return self.path / f"notes{node}"

    def remove(self):
        """Removes the folder, with the stores."""
        shutil.rmtree(self.path, ignore_errors=True)

    def close(self):
        os.close(self.descriptor)
