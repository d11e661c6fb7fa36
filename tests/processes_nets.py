"""Networks of tests/processes whose nodes have addresses of their own, slow ways between them, and strangers: networks of
hosts (`ip netns`) where the system lets these be made, else loopback addresses and proxies."""
import subprocess
import sys
from pathlib import Path

from measuring import Wrong, in_time, lacks
from processes_keys import League
from processes_ways import Hosts, NoHosts, Ways, ip

TESTS = Path(__file__).resolve().parent


class SlowHosts(Hosts):
    """Hosts that have a second network, by which nodes dial each other, and whose ways are as slow as is said. Bots and the
    test are at the first one; so are strangers, who have a host with 64 addresses, and dial the nodes where nodes do."""

    def make(self):
        self.slow_switch, self.strangers = None, f"{self.switch}.s"
        super().make()
        words = [sys.executable, TESTS / "processes_switch.py", str(len(self.nodes))]
        self.slow_switch = subprocess.Popen(words, stdin=subprocess.PIPE, stdout=subprocess.PIPE, stderr=subprocess.PIPE, text=True)
        if self.slow_switch.stdout.readline() != "ready\n":
            raise NoHosts("no slow switch: " + self.slow_switch.stderr.read().strip().splitlines()[-1])
        ip("netns", "add", self.strangers)
        self.join_switch("strangers", self.strangers)
        for number in range(64):
            ip("-n", self.strangers, "addr", "add", f"10.77.0.{110 + number}/24", "dev", "eth0")
        for node, name in enumerate(self.nodes):
            ip("-n", self.switch, "link", "set", f"way{node}", "netns", name)
            ip("-n", name, "addr", "add", self.peer_address(node) + "/24", "dev", f"way{node}")
            ip("-n", name, "link", "set", f"way{node}", "txqueuelen", "10000", "up")
            ip("-n", self.strangers, "route", "add", self.peer_address(node), "via", self.address(node))

    def peer_address(self, node):
        """Where other nodes dial a node."""
        return f"10.79.0.{node + 1}"

    def delay(self, seconds):
        """Each way between two nodes takes so long from now on."""
        self.slow_switch.stdin.write(f"{seconds}\n")
        self.slow_switch.stdin.flush()

    def attacker(self):
        """The words before a program of strangers, and the first of their addresses."""
        return ["ip", "netns", "exec", self.strangers], "10.77.0.110"

    def remove(self):
        if self.slow_switch is not None:
            self.slow_switch.communicate()
        super().remove()
        subprocess.run(["ip", "netns", "del", self.strangers], capture_output=True)


class Loopback:
    """Loopback addresses of nodes and of strangers, all on one host."""

    def __init__(self, count):
        """So many nodes."""

    def address(self, node):
        return f"127.77.0.{node + 1}"

    peer_address = address

    def ways_to(self, ports):
        return None

    def starter(self, node):
        return []

    def attacker(self):
        return [], "127.78.0.1"

    def remove(self):
        pass


class SlowLoopback(Loopback):
    """The same, with a proxy for each ordered pair of nodes, which dials from the first one's address, or another."""

    def __init__(self, count, source=None):
        super().__init__(count)
        self.source = source or self.address

    def ways_to(self, ports):
        self.ways = Ways(ports, addresses=[self.address(node) for node in range(len(ports))], source=self.source)
        return self.ways

    def delay(self, seconds):
        self.ways.delay = seconds


def slow_hosts(count):
    """Hosts with slow ways; loopback addresses and proxies where none can be made, which the test notes."""
    try:
        return SlowHosts(count)
    except NoHosts as why:
        lacks(f"{why}: tried over loopback addresses and proxies alone")
        return SlowLoopback(count)


class Besieged(League):
    """A match over such a network, with a key, tokens and statuses."""

    def __init__(self, net, delay=0.0, **more):
        self.delay = delay
        super().__init__(hosts=net, **more)
        if delay:
            net.delay(delay)


class Attack:
    """A program of tests/processes_attacker.py that runs beside a match, until the block is over."""

    def __init__(self, match, what, *words, targets):
        starter, first = match.hosts.attacker()
        words = [first if word is None else str(word) for word in words]
        self.name, self.words = what, [*starter, sys.executable, TESTS / "processes_attacker.py", what, *words, *targets]

    def __enter__(self):
        self.program = subprocess.Popen(self.words, stdin=subprocess.PIPE, stdout=subprocess.PIPE, text=True)
        # (on a busy machine it takes long to begin)
        if self.program.stdout.readline() != "begun\n":
            raise Wrong(f"{self.name} doesn't begin")
        return self

    def __exit__(self, *_):
        """Ends it. It tells how many connections it made, and how many bytes it sent."""
        told, _ = self.program.communicate()
        if self.program.returncode != 0:
            raise Wrong(f"{self.name} ended with status {self.program.returncode}")
        self.made, self.sent = map(int, told.split()[-2:])

    def did(self, made=0, sent=0):
        """It made so many connections at least, and sent so many bytes: who was attacked less has withstood nothing."""
        in_time(self.made >= made and self.sent >= sent, f"{self.name} made {self.made} connections of {made:.0f} and sent {self.sent} bytes of {sent:.0f}")


def dialling(match, rate, *nodes, kind="silent"):
    """So many connections a second to where these nodes are dialled, from 64 addresses, of a kind."""
    return Attack(match, "dial", kind, rate, None, targets=[f"{match.peer_address(node)}:{match.ports[node]}" for node in nodes])


def dialling_seats(match, rate, seat, *nodes, kind="silent"):
    """The same to where the bot of a seat dials these nodes."""
    return Attack(match, "dial", kind, rate, None, targets=[f"{match.address(node)}:{match.seats[node] + seat}" for node in nodes])


def asking(match, number, node):
    """So many connections at once to where a node is asked."""
    return Attack(match, "ask", number, None, targets=[f"{match.address(node)}:{match.statuses[node]}"])


def flooding(match, rate, seat, *nodes):
    """So many bytes a second of empty lines of a seat with its token at each of these nodes, and right answers."""
    targets = [f"{match.address(node)}:{match.seats[node] + seat}" for node in nodes]
    return Attack(match, "flood", rate * len(nodes), match.home(0) / match.word, match.token(seat), targets=targets)


def showing(match, seconds, seat, *nodes):
    """A seat's token, and nothing else, each time that so long has passed at the next of these nodes."""
    return Attack(match, "show", seconds, match.token(seat), targets=[f"{match.address(node)}:{match.seats[node] + seat}" for node in nodes])


class Sink(Attack):
    """A program that takes in whoever dials it, and can be attacked in place of a match's nodes."""

    def __init__(self, match):
        self.hosts, self.count, self.word, self.home, self.token = match.hosts, match.count, match.word, match.home, match.token
        self.name, self.words = "sink", [sys.executable, TESTS / "processes_attacker.py", "sink", self.address(0)]

    def __enter__(self):
        super().__enter__()
        self.ports = [int(self.program.stdout.readline())] * self.count
        self.seats = self.ports
        return self

    def address(self, node):
        return self.hosts.address(99)

    peer_address = address
