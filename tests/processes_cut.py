"""A machine is cut off from the others and comes back, and a connection is stuck: tests of tests/processes.

Each of three nodes has a host of its own. One of them is cut off for 15 seconds, and in some rows a node hung before: behind a hang all
nodes wait longer before they take a peer for lost. What is asked: within 2 seconds behind the cut each pair of nodes hears each other.

In the last test nothing goes over the connection of two nodes any more, and new ones go well, as behind a firewall that forgot it. Within
3 seconds they hear each other over another one: the first of these is the silence that makes a peer absent.
"""
import signal
import time
from typing import NamedTuple, Optional

from measuring import NotMeasured, clock, in_time, measured, want
from processes_keys import League
from processes_match import PACE, test
from processes_ways import Hosts, NoHosts

# How long a node is cut off, and how long lies between a hang and the cut; by when they have to hear each other, and behind a connection
# that is stuck; how often that is looked at, and for how long at most. All in seconds.
CUT, BETWEEN, WITHIN, STUCK, LOOK, MOST = 15.0, 15.0, 2.0, 3.0, 0.05, 60.0


class Cut(NamedTuple):
    """Which node is cut off, and which one hung before, if one did, and for how long."""

    node: int
    hung: Optional[int] = None
    seconds: float = 0.0

    def words(self):
        return f"node {self.node} is cut off" + (f", node {self.hung} hung for {self.seconds:g} s before" if self.hung is not None else "")


# By a hang of 3 seconds no connection is closed, so all of it is measured: behind it one is closed after 24 seconds of silence, so none
# is in the cut.
SHORT, OTHERS = Cut(1, 1, 3.0), (Cut(1), Cut(0, 2, 5.0), Cut(1, 1, 5.0))


def hears(match, node, peer):
    """Whether a node hears a peer, as its status line tells."""
    words = [word.split(":") for word in match.asked(node).get("peers", "").split(",")]
    return any(word[0] == str(peer) and word[1] != "gone" for word in words if len(word) > 1)


def until(is_so):
    """How long it takes until this is so; nothing where it isn't within a minute in which nobody waits for a processor. Who waited for one
    meanwhile excuses what was late."""
    begun, most = time.monotonic(), clock() + MOST
    with measured():
        while clock() < most:
            if is_so():
                return time.monotonic() - begun
            time.sleep(LOOK)
    return None


def cut_off(cut):
    """One node is cut off, and another one hung before, or none."""
    try:
        match = League(hosts=Hosts(3), pace=PACE, hands=4000).begin()
    except NoHosts as why:
        raise NotMeasured(str(why))
    match.goes_on(20)
    if cut.hung is not None:
        match.processes[cut.hung].send_signal(signal.SIGSTOP)
        time.sleep(cut.seconds)
        match.processes[cut.hung].send_signal(signal.SIGCONT)
        time.sleep(BETWEEN)
    match.hosts.cut_off(cut.node)
    time.sleep(CUT)
    match.hosts.let_back(cut.node)
    pairs = [pair for other in {0, 1, 2} - {cut.node} for pair in ((cut.node, other), (other, cut.node))]
    took = until(lambda: all(hears(match, *pair) for pair in pairs))
    want(took is not None, f"{cut.words()}: they don't hear each other behind the cut")
    in_time(took <= WITHIN, f"{cut.words()}: they hear each other {took:.2f} s behind the cut")


@test()
def cut_behind_a_hang(seed, is_long):
    """A node is cut off from the others and comes back, after it hung: they hear each other soon."""
    for cut in (SHORT, *OTHERS) if is_long else (SHORT,):
        cut_off(cut)


@test()
def stuck_connection(seed, is_long):
    """The connection of two nodes brings nothing any more: they hear each other soon over another one."""
    match = League(proxied=True, pace=PACE, hands=4000).begin()
    match.goes_on(20)
    told = lambda: [sum(f"peer {peer}: connected" in note for note in match.notes(node)) for node, peer in ((1, 2), (2, 1))]
    before = told()
    for way in [way for way in match.ways.begun if set(way.ends) == {1, 2}]:
        way.give = lambda: False
    is_new = lambda: all(count > old for count, old in zip(told(), before)) and hears(match, 1, 2) and hears(match, 2, 1)
    took = until(is_new)
    want(took is not None, "nodes 1 and 2 don't connect anew")
    in_time(took <= STUCK, f"nodes 1 and 2 hear each other {took:.2f} s behind a connection that is stuck")
