"""Ways between the nodes of tests/processes: proxies that are silent, slow, or change what goes by, and networks of hosts."""
import collections
import ctypes
import os
import selectors
import socket
import subprocess
import threading
import time


class Way:
    """What one node sends to another over one connection through a proxy, which may keep it back, change it, and keep a
    record of it."""

    def __init__(self, ways, ends, source, target):
        self.ways, self.ends, self.source, self.target, self.said = ways, ends, source, target, bytearray()
        # What has come, each piece with the time from when on it may go on; an empty piece is the end.
        self.kept, self.is_broken = collections.deque(), False

    def take(self):
        """Takes what has come; it says whether more may come."""
        try:
            piece = self.source.recv(1 << 16)
        except BlockingIOError:
            return True
        except OSError:
            piece = b""
        self.said += piece
        self.kept.append((time.monotonic() + self.ways.delay, self.ways.change(self, piece) if piece else b""))
        return piece != b""

    def give(self):
        """Gives on what may go on; it says whether that was the end."""
        while self.kept and self.kept[0][0] <= time.monotonic():
            due, piece = self.kept.popleft()
            if not piece:
                return True
            rest = piece[self.sent(piece) :]
            if rest:
                self.kept.appendleft((due, rest))
                return False
        return False

    def sent(self, piece):
        """How much of a piece is gone. Where nobody reads any more it is lost: whoever sent it is told by the other way."""
        try:
            target = self.source if self.ends in self.ways.turned else self.target
            return len(piece) if self.is_broken else target.send(piece)
        except BlockingIOError:
            return 0
        except OSError:
            self.is_broken = True
            return len(piece)


class Ways(threading.Thread):
    """A proxy for each ordered pair of nodes: at whose ports the first node finds the second. Ways of nodes may be silent,
    and all of them slow; what goes over one may be changed, and who speaks over one may hear himself."""

    def __init__(self, ports, addresses=None, source=lambda node: "127.0.0.1"):
        """`addresses` are those of the nodes, all the same if none are given; a proxy dials from that of the first node by
        `source`."""
        super().__init__(daemon=True)
        self.addresses, self.source = addresses or ["127.0.0.1"] * len(ports), source
        self.silent, self.turned, self.delay, self.ended = set(), set(), 0.0, threading.Event()
        # What a piece is changed to, and all ways so far, the newest last.
        self.change, self.begun = lambda way, piece: piece, []
        self.selector, self.ways = selectors.DefaultSelector(), []
        pairs = [(dialler, dialled) for dialler in range(len(ports)) for dialled in range(len(ports))]
        self.doors = {pair: self.door(pair, ports[pair[1]]) for pair in pairs}
        self.start()

    def door(self, pair, port):
        listener = socket.create_server((self.addresses[pair[1]], 0))
        self.selector.register(listener, selectors.EVENT_READ, lambda: self.let_in(pair, listener, port))
        return listener.getsockname()[1]

    def run(self):
        while not self.ended.is_set():
            for key, _ in self.selector.select(0.001 if any(way.kept for way in self.ways) else 0.02):
                key.data()
            for way in [way for way in self.ways if way.ends not in self.silent and way.give()]:
                self.part(way)

    def let_in(self, pair, listener, port):
        caller, _ = listener.accept()
        try:
            called = socket.create_connection((self.addresses[pair[1]], port), timeout=1, source_address=(self.source(pair[0]), 0))
        except OSError:
            caller.close()
            return
        for ends, source, target in ((pair, caller, called), (pair[::-1], called, caller)):
            source.setblocking(False)
            source.setsockopt(socket.IPPROTO_TCP, socket.TCP_NODELAY, 1)
            way = Way(self, ends, source, target)
            self.ways.append(way)
            self.begun.append(way)
            self.selector.register(source, selectors.EVENT_READ, lambda way=way: self.take(way))

    def take(self, way):
        if not way.take():
            self.selector.unregister(way.source)

    def part(self, way):
        """Ends the connection of a way."""
        for other in [other for other in self.ways if other.source in (way.source, way.target)]:
            self.ways.remove(other)
            if other.source in self.selector.get_map():
                self.selector.unregister(other.source)
            other.source.close()


class NoHosts(Exception):
    """The system doesn't let networks be made."""


def ip(*words):
    """Has the system change a network."""
    try:
        ran = subprocess.run(["ip", *words], capture_output=True, text=True)
    except OSError:
        raise NoHosts("there is no command ip")
    if ran.returncode != 0:
        raise NoHosts(f"ip {' '.join(words)}: {ran.stderr.strip()}")


class Hosts:
    """A network for each node, as of a host of its own, and one of a switch between them, at which the test is itself."""

    def __init__(self, count):
        self.switch, self.nodes = f"holdem{os.getpid()}", [f"holdem{os.getpid()}.{node}" for node in range(count)]
        self.own, self.is_there = os.open("/proc/thread-self/ns/net", os.O_RDONLY), False
        try:
            self.make()
        except NoHosts:
            self.remove()
            raise

    def make(self):
        for name in [self.switch, *self.nodes]:
            ip("netns", "add", name)
            ip("-n", name, "link", "set", "lo", "up")
        ip("-n", self.switch, "link", "add", "bridge", "type", "bridge")
        ip("-n", self.switch, "addr", "add", self.address(99) + "/24", "dev", "bridge")
        ip("-n", self.switch, "link", "set", "bridge", "up")
        for node, name in enumerate(self.nodes):
            self.join_switch(f"port{node}", name)
            ip("-n", name, "addr", "add", self.address(node) + "/24", "dev", "eth0")
        with open(f"/run/netns/{self.switch}") as switch:
            self.go_to(switch.fileno())
        self.is_there = True

    def join_switch(self, port, name):
        """A network has a port of the switch from now on, whose other end is its eth0."""
        ip("-n", self.switch, "link", "add", port, "type", "veth", "peer", "name", "eth0", "netns", name)
        ip("-n", self.switch, "link", "set", port, "master", "bridge", "up")
        ip("-n", name, "link", "set", "eth0", "up")

    def go_to(self, network):
        """This thread, and those that it starts, go to another network."""
        if ctypes.CDLL(None, use_errno=True).setns(network, 0) != 0:
            raise NoHosts(f"setns: {os.strerror(ctypes.get_errno())}")

    def address(self, node):
        return f"10.77.0.{node + 1}"

    def peer_address(self, node):
        """Where the other nodes dial a node."""
        return self.address(node)

    def ways_to(self, ports):
        """Proxies between the nodes at these ports: none, since each network has ways of its own."""
        return None

    def starter(self, node):
        """The words before a program that is to run on a node's host."""
        return ["ip", "netns", "exec", self.nodes[node]]

    def cut_off(self, node):
        """What comes from a host or is for it is lost, and nobody is told."""
        ip("-n", self.switch, "link", "set", f"port{node}", "nomaster")

    def let_back(self, node):
        ip("-n", self.switch, "link", "set", f"port{node}", "master", "bridge")

    def part(self, node, other):
        """What one host sends to another is lost: it goes to an address that nobody has."""
        ip("-n", self.nodes[node], "neigh", "replace", self.address(other), "lladdr", "02:00:00:00:00:99", "nud", "permanent", "dev", "eth0")

    def join(self, node, other):
        ip("-n", self.nodes[node], "neigh", "del", self.address(other), "dev", "eth0")

    def are_slowed(self):
        """Whether all ways are slow from now on, and lose something, which not each system can do."""
        words = ["qdisc", "add", "dev", "eth0", "root", "netem", "delay", "5ms", "2ms", "loss", "2%"]
        return all(subprocess.run(["tc", "-n", name, *words], capture_output=True).returncode == 0 for name in self.nodes)

    def remove(self):
        if self.is_there:
            self.go_to(self.own)
        os.close(self.own)
        for name in [self.switch, *self.nodes]:
            subprocess.run(["ip", "netns", "del", name], capture_output=True)
