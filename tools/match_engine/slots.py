"""An address of this machine for a match with nodes: no other match has its ports."""
import secrets
import socket

from .faults import MatchFault

# The addresses are 127.77.0.0 to 127.77.255.255. Of each, a match has the ports from the first one on, which is the lock.
NETWORK, ADDRESSES, FIRST = "127.77", 1 << 16, 21000
# How many addresses are tried.
TRIES = 1000


def bound(address, port, is_shared):
    """A socket that has a port; OSError where another one has it. Where it is shared, what closed connections have left of the
    port doesn't count."""
    found = socket.socket()
    try:
        if is_shared:
            found.setsockopt(socket.SOL_SOCKET, socket.SO_REUSEADDR, 1)
        found.bind((address, port))
        return found
    except OSError:
        found.close()
        raise


class Slot:
    """An address whose ports are this match's until it is closed, or the process ends. Others see the lock: a port that is
    bound, and at which nobody listens."""

    def __init__(self, nodes, players):
        """Takes an address at which all ports of so many nodes and players are free."""
        self.nodes, self.players = nodes, players
        count, begin = nodes * (2 + players), secrets.randbelow(ADDRESSES)
        for number in range(begin, begin + TRIES):
            high, low = divmod(number % ADDRESSES, 256)
            self.address = f"{NETWORK}.{high}.{low}"
            try:
                self.lock = bound(self.address, FIRST, False)
            except OSError:
                continue
            if self.has_free(count):
                return
            self.lock.close()
        raise MatchFault(f"no address of {NETWORK}.0.0/16 has its ports {FIRST} to {FIRST + count} free")

    def has_free(self, count):
        """Whether nobody listens at so many ports behind the lock."""
        try:
            for port in range(FIRST + 1, FIRST + 1 + count):
                bound(self.address, port, True).close()
        except OSError:
            return False
        return True

    def peers(self, node):
        """Where a node awaits the others."""
        return f"{self.address}:{FIRST + 1 + node}"

    def status(self, node):
        """Where a node says how it is."""
        return self.address, FIRST + 1 + self.nodes + node

    def seat(self, node, seat):
        """Where a node awaits a seat."""
        return f"{self.address}:{FIRST + 1 + 2 * self.nodes + node * self.players + seat}"

    def close(self):
        self.lock.close()
