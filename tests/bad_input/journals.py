"""Journals of stores, read by docs/FORMATS.md: what opening and looking answer, and what opening leaves."""
import functools
import shutil
import socket
import subprocess

from .damage import cuts
from .faults import Fault
from .frames import Body
from .models import GAMES, nodes
from .running import AT_ONCE, PROGRAM, WORKLOAD, Tally, run

VERSIONS = {b"HDJ1": 1, b"HDJ2": 2}
# Behind the version: node 0 of 3. What opens a journal of version 1 for version 2, in place of a shut gate.
OWN, OPENING = bytes([0, 3, 0, 0]), bytes([1, 0, 1, 3, 0])
# The kinds of records before that one and behind it.
KINDS = {1: (1, 2, 3), 2: (1, 4)}


def read(data):
    """The fault of a journal of node 0 of 3, none where it has none, and what its file has once it was opened."""
    if not data:
        return "60 NoStore", data
    version = VERSIONS.get(data[:4])
    if len(data) < 9 or version is None or data[4:8] != OWN:
        return "61 BadHeader", data
    place = 8
    while data[place] == 1:
        end = place + 3 + int.from_bytes(data[place + 1 : place + 3], "big")
        kind = kind_of(data[place + 3 : end], version)
        if kind is None or len(data) <= end:
            return "62 BadRecord", data
        place, version = end, 2 if kind == 3 else version
    return "", data if version == 2 else data[:place] + OPENING + data[place + 5 :]


def kind_of(payload, version):
    """The kind of a record; none of what isn't one that may stand there."""
    body = Body(payload[1:], version)
    if not payload or payload[0] not in KINDS[version]:
        return None
    try:
        if payload[0] != 3:
            body.ballot()
        if payload[0] in (2, 4):
            body.commands(body.slot())
    except Fault:
        return None
    return None if body.data else payload[0]


def journal(version, payloads):
    """The journal of records."""
    return b"HDJ%d" % version + OWN + b"".join(b"\1" + len(it).to_bytes(2, "big") + it for it in payloads) + b"\0"


# ---- rows, with what is answered

HEADS = [
    ("", "60 NoStore"),
    ("48444a32 00 03 00", "61 BadHeader"),
    ("48444a32 00 03 0000", "61 BadHeader"),
    ("48444a31 00 03 0000", "61 BadHeader"),
    ("48444a30 00 03 0000 00", "61 BadHeader"),
    ("48444a33 00 03 0000 00", "61 BadHeader"),
    ("48444a32 01 03 0000 00", "61 BadHeader"),
    ("48444a31 01 03 0000 00", "61 BadHeader"),
    ("48444a32 00 05 0000 00", "61 BadHeader"),
    ("48444a31 00 05 0000 00", "61 BadHeader"),
    ("48444a32 00 03 0100 00", "61 BadHeader"),
    ("48444a32 00 03 0001 00", "61 BadHeader"),
    ("48444a31 00 03 0001 00", "61 BadHeader"),
    ("48444a32 00 03 0000 00", ""),
    ("48444a31 00 03 0000 00", ""),
    # no next gate, and a length that is one too great
    ("48444a32 00 03 0000 01 0006 01 00000001 00", "62 BadRecord"),
    ("48444a32 00 03 0000 01 0007 01 00000001 00 00", "62 BadRecord"),
]
# Promises of (1, 0) and of other nodes, and a call that was accepted in (1, 0) at slot 0, as version 1 has it.
PROMISE, OF_5, OF_6, OF_7 = (bytes([1, 0, 0, 0, 1, node]) for node in (0, 5, 6, 7))
ACCEPTED, ACCEPTED_OF_5 = (bytes([2, 0, 0, 0, 1, node, 0, 0, 0, 0]) + nodes.act_bytes(0, 0, "c", 0) for node in (0, 5))
OPENED, LONGER_OPENED, FIFTH = b"\3", b"\3\0", bytes([5, 0, 0, 0, 1, 0])
# A call and an away, accepted together from slot 0 on; a third of them that is a deal with a card twice, and with ten cards.
RUN, RUN_OF_6 = (bytes.fromhex(f"04 00000001 0{node} 00000000 02 02 00000000 0000 01 00000000 03 00000000 0001") for node in (0, 6))
THREE = "04 00000001 00 00000000 03 03 00000000 0000 03 00000000 0001 01 00000001"
CARD_TWICE, TEN_CARDS = (bytes.fromhex(f"{THREE} {deal}") for deal in ("09 000102030405060707", "0a 00010203040506070809"))
RECORDS = [
    (1, [PROMISE, ACCEPTED], ""),
    # a run before the record behind which it may stand
    (1, [RUN], "62 BadRecord"),
    (1, [PROMISE, RUN, OPENED], "62 BadRecord"),
    # an accept of version 1 behind it
    (1, [OPENED, ACCEPTED], "62 BadRecord"),
    (1, [ACCEPTED, OPENED, ACCEPTED], "62 BadRecord"),
    # that record twice, and with a byte more
    (1, [OPENED, OPENED], "62 BadRecord"),
    (1, [OPENED, RUN, OPENED], "62 BadRecord"),
    (1, [LONGER_OPENED], "62 BadRecord"),
    # a node that version 1 has none of
    (1, [OF_5], "62 BadRecord"),
    (1, [ACCEPTED_OF_5], "62 BadRecord"),
    (1, [OF_6, OPENED], "62 BadRecord"),
    (1, [OPENED, OF_5], ""),
    (1, [OPENED, OF_6, RUN], ""),
    (1, [PROMISE, ACCEPTED, OPENED, RUN_OF_6], ""),
    (1, [OPENED, OF_7], "62 BadRecord"),
    (1, [FIFTH], "62 BadRecord"),
    (1, [b""], "62 BadRecord"),
    (2, [PROMISE, RUN], ""),
    (2, [ACCEPTED], "62 BadRecord"),
    (2, [OPENED], "62 BadRecord"),
    (2, [RUN, OPENED, RUN], "62 BadRecord"),
    (2, [FIFTH], "62 BadRecord"),
    (2, [b""], "62 BadRecord"),
    (2, [OF_6], ""),
    (2, [OF_7], "62 BadRecord"),
    (2, [CARD_TWICE], "62 BadRecord"),
    (2, [TEN_CARDS], "62 BadRecord"),
]
# Runs of calls: the first slot, how many commands are said to follow, how many do, and what is answered.
RUNS = [
    (0, 1, 1, ""),
    (0, 64, 64, ""),
    (0, 0, 0, "62 BadRecord"),
    (0, 65, 65, "62 BadRecord"),
    (0, 2, 1, "62 BadRecord"),
    (0, 1, 2, "62 BadRecord"),
    # the last slot is 3999999
    (3999999, 1, 1, ""),
    (3999999, 2, 2, "62 BadRecord"),
    (3999936, 64, 64, ""),
    (3999937, 64, 64, "62 BadRecord"),
    (4000000, 1, 1, "62 BadRecord"),
    (0xFFFFFFFF, 2, 2, "62 BadRecord"),
]
# A promise of (1, 0) and that somebody is away, accepted in it at slot 1; two of its bytes changed: hand 10000, index 256, and a
# fourth kind of command.
AWAY = bytes.fromhex("48444a32 00 03 0000 01 0006 01 00000001 00 01 0012 04 00000001 00 00000001 01 03 00000000 0000 00")
NO_AWAYS = [(34, "2710"), (36, "0100"), (31, "0400")]


def rows():
    """Journals and what is answered to each."""
    yield from ((bytes.fromhex(data), told) for data, told in HEADS)
    yield from ((journal(version, payloads), told) for version, payloads, told in RECORDS)
    for slot, said, calls, told in RUNS:
        payload = bytes([4, 0, 0, 0, 1, 0]) + slot.to_bytes(4, "big") + bytes([said]) + calls * nodes.act_bytes(0, 0, "c", 0)
        yield journal(2, [payload]), told
        yield journal(1, [OPENED, payload]), told
        yield journal(2, [payload + b"\0"]), "62 BadRecord"
    yield AWAY, ""
    yield from ((AWAY[:length], "62 BadRecord") for length in range(9, len(AWAY)))
    yield AWAY[:19] + b"\x13" + AWAY[20:] + b"\0", "62 BadRecord"
    yield from ((AWAY[:at] + bytes.fromhex(two) + AWAY[at + 2 :], "62 BadRecord") for at, two in NO_AWAYS)


def twenty():
    """Promises of rounds 1 to 10, and deals that were accepted in them at slots 0 to 9."""
    deal = nodes.deal_bytes(0, nodes.cards_of("TdAs|8hTc/2c8c3h/9c/Kh"))
    for slot in range(10):
        ballot = (slot + 1).to_bytes(4, "big") + b"\0"
        yield b"\1" + ballot
        yield b"\4" + ballot + slot.to_bytes(4, "big") + b"\1" + deal


def drawn(dice):
    """A journal of twenty records, cut at each byte and with each byte changed to sixteen others; and a thousand files of bytes
    from 0 to 2, every second one behind the header."""
    whole = journal(2, twenty())
    yield from [whole, *cuts(whole)]
    for place, byte in enumerate(whole):
        yield from (whole[:place] + bytes([(byte + dice.randrange(1, 256)) % 256]) + whole[place + 1 :] for _ in range(16))
    for number in range(1000):
        yield (b"HDJ2" + OWN if number % 2 else b"") + bytes(dice.randrange(3) for _ in range(dice.randrange(65)))


def journals(dice, folder, pool):
    """What opening answers to each, and leaves; and what looking answers to the rows."""
    tally = Tally("journals")
    (folder / "l2.game").write_bytes(GAMES["l2"])
    inputs = [*rows(), *((data, read(data)[0]) for data in drawn(dice))]
    places = range(len(inputs))
    for (data, told), got in zip(inputs, pool.map(functools.partial(opened, folder), places, [data for data, _ in inputs], chunksize=AT_ONCE)):
        tally.take(data, got, (told, read(data)[1]), [told] if told else [])
    with Looker(folder) as looker:
        for (data, told), got in zip(rows(), pool.map(looker.told, places, [data for data, _ in rows()])):
            tally.take(("look", data), got, (told or "105 LinkFailed", data), [told] if told else [])
    tally.want(["60 NoStore", "61 BadHeader", "62 BadRecord", "read"])
    return tally


def opened(folder, number, data):
    """The fault by which a cluster over this journal and two new ones is refused, none where it begins, and the file then."""
    files = [folder / f"{number}.{node}.journal" for node in range(3)]
    for node, file in enumerate(files):
        file.write_bytes(data if node == 0 else b"HDJ2" + bytes([node, 3, 0, 0, 0]))
    line = f"l2.game alice|bob 1 0 {' '.join(file.name for file in files)}\n"
    got = run([WORKLOAD, "file-cluster"], folder, line.encode())
    left = files[0].read_bytes()
    for file in files:
        file.unlink()
    first = got if isinstance(got, str) else got[1].decode().partition("\n")[0]
    return "" if first.startswith(("0 L ", "frame ")) else first.removeprefix("E 91 Store "), left


class Looker:
    """Stores of three nodes, over which `node` looks: where its store is right it ends later, since its port is taken."""

    def __init__(self, folder):
        self.home, self.taken = folder / "look", socket.socket()
        self.taken.bind(("127.0.0.1", 0))
        self.taken.listen()
        port = self.taken.getsockname()[1]
        (self.home / "stores").mkdir(parents=True)
        (self.home / "logs").mkdir()
        (self.home / "l2.game").write_bytes(GAMES["l2"])
        lines = ['name = "m1"', 'game = "l2.game"', "hands = 1", 'names = ["alice", "bob"]', 'stores = "stores"', 'logs = "logs"']
        for node in range(3):
            lines += ["[[node]]", f"seed = {node}", f'peers = "127.0.0.1:{port if node == 0 else 1}"', 'seats = "127.0.0.1:2"']
        (self.home / "m.toml").write_text("\n".join(lines) + "\n")
        subprocess.run([PROGRAM, "init", "m.toml", "0"], cwd=self.home, capture_output=True, check=True, timeout=60)

    def __enter__(self):
        return Look(self.home)

    def __exit__(self, *_):
        self.taken.close()
        shutil.rmtree(self.home)


class Look:
    """Looks over copies of such stores."""

    def __init__(self, home):
        self.home = home

    def told(self, number, data):
        """The fault that `node` tells, and the file then."""
        copy = self.home.parent / f"look{number}"
        shutil.copytree(self.home, copy)
        (copy / "stores/node0.journal").write_bytes(data)
        got = run([PROGRAM, "node", "m.toml", "0"], copy)
        left = (copy / "stores/node0.journal").read_bytes()
        shutil.rmtree(copy)
        return got if isinstance(got, str) else got[2].decode().strip("\n").split("\n")[-1].removeprefix("91 Store "), left
