"""Addresses of a match file, and what is said at a node's status."""
import re
import socket

# How long a connection may take, and how long the first words of a status, in seconds.
LIMIT, REPLY = 1.0, 2.0


def place(text, more):
    """The host and the port of an address, so many ports higher; none where it is none."""
    found = re.fullmatch(r"(?:\[([0-9a-fA-F:]+)\]|([0-9.]+)):([0-9]{1,5})|([0-9]{1,5})", str(text))
    if not found or not 1 <= int(found[3] or found[4]) + more <= 65535:
        return None
    return found[1] or found[2] or "127.0.0.1", int(found[3] or found[4]) + more


class Status:
    """Who answers at a status: whether a connection is taken there and nothing is said, and the number of the node that answers;
    none where nobody does, or something else."""

    def __init__(self, where):
        self.is_silent, self.number = False, None
        try:
            with socket.create_connection(where, timeout=LIMIT) as asker:
                asker.settimeout(REPLY)
                try:
                    first = asker.recv(64)
                except TimeoutError:
                    self.is_silent = True
                    return
        except OSError:
            return
        found = re.match(rb"node ([0-9]) ", first)
        self.number = int(found[1]) if found else None
