"""Draws a player's token."""
import hashlib
import os
import secrets

from league_parts.faults import Unfinished

# What a file has of the tokens of examples/room.toml: 64 ones, and 64 twos.
EXAMPLES = [hashlib.sha256(word * 64).hexdigest() for word in (b"1", b"2")]


def draw(path):
    """Writes a new token to a file that its owner alone may read; the line of a room's file that stands for it."""
    token = secrets.token_hex(32)
    try:
        descriptor = os.open(path, os.O_WRONLY | os.O_CREAT | os.O_EXCL, 0o600)
        with os.fdopen(descriptor, "w", encoding="ascii") as file:
            file.write(token + "\n")
    except OSError as why:
        raise Unfinished(f"{path}: {why.strerror}") from why
    return f'token = "{hashlib.sha256(token.encode()).hexdigest()}"'
