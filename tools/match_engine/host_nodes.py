"""Nodes and relays of a match that run at other hosts."""
import base64
import subprocess
import time
from pathlib import Path

from . import hosts
from .faults import MatchFault
from .node_files import write
from .node_processes import AGAIN_AFTER, Node, ending
from .relays import Relay

# How long after its end a node is started again whose host wasn't reached, in seconds.
UNREACHED_AFTER = 2.0
# What at_host.py says once it has a node's first store: the node begins when that is known here.
STORE_MADE = b"the store is made here\n"


class HostSlot:
    """The addresses of a match whose nodes run at other hosts, one for each node: each has the ports from the same first one on."""

    def __init__(self, named, first, players):
        self.nodes, self.players, self.first = len(named), players, first
        self.addresses = [hosts.address_of(host) for host in named]

    def peers(self, node):
        """Where a node awaits the others."""
        return f"{self.addresses[node]}:{self.first + node}"

    def status(self, node):
        """Where a node says how it is."""
        return self.addresses[node], self.first + self.nodes + node

    def seat(self, node, seat):
        """Where a node awaits a seat."""
        return f"{self.addresses[node]}:{self.first + 2 * self.nodes + node * self.players + seat}"

    def relay(self, seat):
        """The port at which the relay of a seat awaits its player, where that one runs at a host."""
        return self.first + 100 - self.players + seat

    def close(self):
        """Nothing is held here."""


def in_base64(path):
    return base64.b64encode(Path(path).read_bytes()).decode()


class HostNode(Node):
    """A node that runs at a host, by a process of ssh: that tells its log and its notes, and ends as it does."""

    def __init__(self, program, folder, number, host, place):
        super().__init__(program, folder, number)
        self.host, self.place, self.is_missed = host, place, False
        # The store that was made for it is sent to the host once: this file is there as soon as the node may have begun with it.
        self.sent = folder.path / f"sent{number}"

    def asked(self):
        """What the host is told."""
        names = ["game", "key", self.folder.match]
        asked = {"folder": f"{self.place}.n{self.number}", "match": self.folder.match, "node": self.number, "program": str(self.program)}
        asked["files"] = {name: in_base64(self.folder.path / name) for name in names}
        if not self.sent.exists():
            stores = [self.folder.path / "stores" / "match.kept", *(self.folder.path / "stores").glob(f"node{self.number}.*")]
            asked["store"] = {f"stores/{path.name}": in_base64(path) for path in stores if path.exists()}
        return asked

    def start(self):
        try:
            asked, end = self.asked(), 0
            with open(self.folder.notes(self.number), "ab") as notes, open(self.folder.log(self.number), "wb") as log:
                end = notes.tell()
                self.process = hosts.run_at(self.host, "node", asked, stdout=log, stderr=notes)
        except OSError as why:
            raise MatchFault(f"{self.folder.path}: {why.strerror}") from why
        self.begun, self.is_over, self.awaits_store = time.monotonic(), False, end if "store" in asked else None

    def tend(self):
        if self.process is not None and self.awaits_store is not None:
            self.look_for_store()
        return super().tend()

    def look_for_store(self):
        """Has the node begin, once the host has its store."""
        with open(self.folder.notes(self.number), "rb") as notes:
            notes.seek(self.awaits_store)
            if STORE_MADE not in notes.read():
                return
        write(self.sent, b"")
        hosts.say(self.process, "go")
        self.awaits_store = None

    def take_end(self, status):
        if status != hosts.UNREACHED:
            self.is_missed = False
            return super().take_end(status)
        self.due, self.failures, self.is_over = time.monotonic() + max(AGAIN_AFTER, UNREACHED_AFTER), 0, False
        was_missed, self.is_missed = self.is_missed, True
        return None if was_missed else f"node {self.number}: host {self.host} isn't reached; it is tried again"

    def is_heard(self):
        return self.process is not None and not self.is_missed

    def forget(self):
        """Has its store removed, since the match is over."""
        if self.process is not None:
            hosts.say(self.process, "remove")
        else:
            asked = {"folder": f"{self.place}.n{self.number}"}
            self.process = hosts.run_at(self.host, "drop", asked, stdout=subprocess.DEVNULL, stderr=subprocess.DEVNULL)

    def let_go(self):
        if self.process is not None:
            hosts.let_go(self.process)

    def close(self):
        if self.process is not None:
            hosts.end(self.process)
            self.process = None


class HostRelay(Relay):
    """The relay of a seat whose player runs at a host."""

    def __init__(self, program, folder, slot, seat, host, place):
        self.host, self.place = host, place
        super().__init__(program, folder, slot, seat, "127.0.0.1", slot.relay(seat))

    def begin(self, program, folder, words):
        names = ["game", f"token{self.seat}"]
        asked = {"folder": f"{self.place}.r{self.seat}", "program": str(program), "words": words}
        asked["files"] = {name: in_base64(folder.path / name) for name in names}
        return hosts.run_at(self.host, "relay", asked, **self.streams())

    def hold(self, is_held):
        hosts.say(self.process, "stop" if is_held else "cont")

    def no_port(self, listen, port, said):
        if self.process.wait() == hosts.UNREACHED:
            return hosts.HostLost(self.host, self.seat)
        return MatchFault(f"host {self.host}: {said}")

    def fail(self):
        if self.status == hosts.UNREACHED:
            raise hosts.HostLost(self.host, self.seat)
        if self.status is not None and self.status > 128:
            raise MatchFault(f"the relay of seat {self.seat + 1} at {self.host} {ending(self.status)}")
        super().fail()

    def close(self):
        hosts.end(self.process)
        for pipe in self.pipes():
            pipe.close()
