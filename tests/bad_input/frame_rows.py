"""Frames whose readings are written down: what a message of either version is written as today, and the faults of other bytes."""
from .models import nodes

CALL = nodes.act_bytes(0, 0, "c", 0)
# Frames of today, which are written as they are read.
TODAY = [
    "0000000b0201000000010000000000",
    "0000000b0201000000010500000000",
    "0000001b02040000000100000000000101000000000921331a200018061c2e",
    "0000002b020400000001000000000001010000000019000102030405060708090a0b0c0d0e0f101112131415161718",
    "00000018020500000001000000000101020000000000000100000000",
    "0000000e0208020000000000000100000000",
    "0000002402020000000202000000000100000000000000010001000000000921331a200018061c2e",
    "00000009020803000000000000",
    "0000001302040000000100000000010103000000000000",
    "0000000d02060000000103000000000000",
    "0000002702040000000102000000000201000000000921331a200018061c2e020000000000000100000000",
    "0000001a0205000000010000000007020300000000000003000000000001",
]
# Frames of the version before, each with the frame of today that says the same.
BEFORE = [
    ("0000000b0101000000010000000000", "0000000b0201000000010000000000"),
    ("0000001a010400000001000000000001000000000921331a200018061c2e", "0000001b02040000000100000000000101000000000921331a200018061c2e"),
    ("000000170105000000010000000001020000000000000100000000", "00000018020500000001000000000101020000000000000100000000"),
    ("0000000e0108020000000000000100000000", "0000000e0208020000000000000100000000"),
    ("0000002401020000000202000000000100000000000000010001000000000921331a200018061c2e", "0000002402020000000202000000000100000000000000010001000000000921331a200018061c2e"),
    ("00000009010803000000000000", "00000009020803000000000000"),
    ("00000012010400000001000000000103000000000000", "0000001302040000000100000000010103000000000000"),
    ("0000000d01060000000103000000000000", "0000000d02060000000103000000000000"),
]  # fmt: skip
# Bytes that are no frame.
NONE = [
    ("000000020301", "52 BadVersion"),
    ("000000020001", "52 BadVersion"),
    ("000000020309", "52 BadVersion"),
    ("000000020209", "53 BadKind"),
    ("000000020109", "53 BadKind"),
    ("000000020201", "54 BadBody"),
    ("000000020101", "54 BadBody"),
    # a byte is missing, which comes before the version
    ("000000030301", "54 BadBody"),
    # of an Accept: no command, one without its count, and one of the version before with a count
    ("0000000c020400000001000000000000", "54 BadBody"),
    ("00000012020400000001000000000103000000000000", "54 BadBody"),
    ("0000001301040000000100000000010103000000000000", "54 BadBody"),
    # two commands in the version before, behind their count and without it
    ("0000001a0104000000010000000001020300000000000003000000000001", "54 BadBody"),
    ("0000001901040000000100000000010300000000000003000000000001", "54 BadBody"),
    # two commands, with a length of one byte too few and one too many
    ("0000002602040000000102000000000201000000000921331a200018061c2e020000000000000100000000", "54 BadBody"),
    ("0000002802040000000102000000000201000000000921331a200018061c2e020000000000000100000000", "54 BadBody"),
    # a node that there was none of in the version before
    ("0000000b0101000000010500000000", "54 BadBody"),
    # no round, no node, no slot, and no last byte
    ("0000000b0201000000000000000000", "54 BadBody"),
    ("0000000b0201000000010700000000", "54 BadBody"),
    ("0000000b02010000000100003d0900", "54 BadBody"),
    ("0000000b02010000000100000000", "54 BadBody"),
    # who is away in hand 10000, at index 256, with a byte more; and a fourth kind of command
    ("00000009020803000027100000", "54 BadBody"),
    ("00000009020803000000000100", "54 BadBody"),
    ("0000000a02080300000000000000", "54 BadBody"),
    ("00000009020804000000000000", "54 BadBody"),
    ("000000", "50 TooShort"),
    ("0000000101", "50 TooShort"),
    ("00001001", "51 TooLong"),
    # three commands, the third of which is a deal with a card twice, and a deal of ten cards
    ("000000290204000000010000000000030300000000000003000000000001010000000109000102030405060707", "54 BadBody"),
    ("0000002a020400000001000000000003030000000000000300000000000101000000010a00010203040506070809", "54 BadBody"),
    # two commands, and a byte behind the frame
    ("0000002702040000000102000000000201000000000921331a200018061c2e02000000000000010000000000", "54 BadBody"),
]  # fmt: skip
# The version, the kind and the ballot behind which calls follow, and the fault of calls at fault there.
FRONTS = [("02040000000100", "54 BadBody"), ("02050000000100", "54 BadBody"), ("03040000000100", "52 BadVersion"), ("02090000000100", "53 BadKind")]
# Calls at fault: their first slot, how many are said to follow, and how many do. The last slot is 3999999.
WRONG_CALLS = [(0, 0, 0), (0, 65, 65), (0, 2, 1), (0, 1, 2), (3999999, 2, 2), (3999937, 64, 64), (4000000, 1, 1), (0xFFFFFFFF, 2, 2)]
# Calls that are right: their first slot, and how many there are.
RIGHT_CALLS = [(0, 1), (0, 2), (0, 64), (3999999, 1), (3999936, 64)]


def framed(front, slot, said, commands):
    """The frame of commands behind a front, from a slot on."""
    body = bytes.fromhex(front) + slot.to_bytes(4, "big") + bytes([said]) + b"".join(commands)
    return len(body).to_bytes(4, "big") + body


def rows():
    """Bytes, each with the frame as which their message is written, or their fault."""
    yield from ((bytes.fromhex(frame), frame) for frame in TODAY)
    yield from ((bytes.fromhex(digits), answer) for digits, answer in BEFORE + NONE)
    for front, fault in FRONTS:
        yield from ((framed(front, slot, said, calls * [CALL]), fault) for slot, said, calls in WRONG_CALLS)
    frames = [framed(front, slot, calls, calls * [CALL]) for front, _ in FRONTS[:2] for slot, calls in RIGHT_CALLS]
    # no Accept and no Accepted is longer than one of 64 deals for ten players: 2000 bytes
    frames.append(framed("02050000000202", 0, 64, 64 * [bytes([1, 0, 0, 0, 0, 25, *range(25)])]))
    assert len(frames[-1]) == 2000
    yield from ((frame, frame.hex()) for frame in frames)
