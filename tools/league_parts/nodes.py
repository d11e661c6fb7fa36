"""The nodes of a league's matches: how many a match has, where they run, and what they leave there."""
import fcntl
import hashlib
import json
import os
import shutil
import socket

from match_engine import MatchFault, hosts
from match_engine.node_files import folder_of, has_stores

from . import deals
from .faults import Unfinished
from .files import write_whole

# The file in a match's folder that says which nodes it began with.
FILE = "nodes.json"
# How many ports a match has at each host, and the greatest one.
EACH, GREATEST = 100, 65535


def wanted(league, planned):
    """The nodes that a match gets which begins now: how many they are, and the host of each, none where they run here."""
    if not league.nodes or not league.hosts:
        return {"nodes": league.nodes, "hosts": []}
    count = len(league.hosts)
    return {"nodes": league.nodes, "hosts": [league.hosts[(planned.number + node) % count] for node in range(league.nodes)]}


def begun_with(league, planned, settings, folder):
    """The nodes that a match began with: those that the file names now, where it hasn't begun."""
    path = folder / FILE
    if not path.exists():
        is_new = not settings.transactions.exists()
        write_whole(path, json.dumps(wanted(league, planned) if is_new else {"nodes": 0, "hosts": []}))
    return json.loads(path.read_text())


def added(league, planned, settings, folder, table):
    """A match's settings with its nodes. Where its stores are gone the match goes on by its transaction file alone, without nodes."""
    found = begun_with(league, planned, settings, folder)
    settings = settings._replace(nodes=found["nodes"], stores=folder if found["hosts"] else None)
    if not found["hosts"]:
        table.at = [None] * len(table.at)
    if not found["nodes"]:
        return settings
    if is_begun(settings.transactions) and not has_stores(settings):
        table.note(f"the stores of its {found['nodes']} nodes are gone: it goes on without nodes by {settings.transactions.name}")
        write_whole(folder / FILE, json.dumps({"nodes": 0, "hosts": []}))
        table.at = [None] * len(table.at)
        return settings._replace(nodes=0, stores=None)
    if not has_stores(settings):
        # (a log may be ahead of the transaction file: nothing goes on with it)
        settings.log.unlink(missing_ok=True)
    if not found["hosts"]:
        return settings
    named = [with_address(host) for host in found["hosts"]]
    return settings._replace(hosts=named, at=table.at, first_port=ports(league), place=f"{name_at_hosts(league)}.{match_at_hosts(planned.name)}")


def is_begun(transactions):
    """Whether a transaction file has a line."""
    return transactions.exists() and b"\n" in transactions.read_bytes()


def forget(folder):
    """Removes what a match's folder has of nodes, which a finished match doesn't need."""
    (folder / FILE).unlink(missing_ok=True)


def remove(settings):
    """Removes the stores of a match that begins again, as far as they are here."""
    shutil.rmtree(folder_of(settings), ignore_errors=True)


def with_address(host):
    """A host by its address: nodes are told no names."""
    user, at, name = host.rpartition("@")
    try:
        return user + at + socket.gethostbyname(name)
    except OSError as why:
        raise Unfinished(f"host {name} has no address: {why.strerror}") from why


def ports(league):
    """The first of a hundred ports that no other match of the league has at its hosts, until this process ends."""
    for first in range(league.ports, GREATEST - EACH, EACH):
        descriptor = os.open(league.folder / "locks" / f"ports.{first}", os.O_RDWR | os.O_CREAT, 0o600)
        try:
            fcntl.flock(descriptor, fcntl.LOCK_EX | fcntl.LOCK_NB)
            return first
        except BlockingIOError:
            os.close(descriptor)
    raise Unfinished(f"all ports from {league.ports} on are taken by matches that are played now")


def name_at_hosts(league):
    """What the league's folders at hosts are called by, which tells nothing of its secret."""
    return hashlib.sha256(f"{league.name} {deals.digest(league)}".encode()).hexdigest()[:16]


def match_at_hosts(name):
    return hashlib.sha256(name.encode()).hexdigest()[:16]


def sweep(league, names, played, note):
    """Ends what runs of this league that have ended left at its hosts, and removes it but for matches of these names, which go on.
    Those of `played` are played now."""
    if not league.hosts:
        return
    found = sorted({host for player in league.players.values() for host in player.at} | set(league.hosts))
    place = name_at_hosts(league)
    kept, left = ([f"{place}.{match_at_hosts(name)}" for name in some] for some in (names, played))
    try:
        for host in hosts.sweep(found, place, kept, left):
            note(f"host {host} isn't reached")
    except MatchFault as why:
        raise Unfinished(str(why)) from why
