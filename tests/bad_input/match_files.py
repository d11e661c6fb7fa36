"""Match files, as `play` reads them: each is refused by a fault that has a name, or the match begins."""
import functools
import re

from .damage import DRAWN, changes, cuts, drawn
from .models import GAMES
from .running import AT_ONCE, PROGRAM, Tally, run

DEALS = b"""name = "m1"
game = "l2.game"
hands = 1
names = ["alice", "bob"]
[[node]]
deals = ["TdAs|8hTc/2c8c3h/9c/Kh"]
[[node]]
deals = ["2d2h|3d3s/4c5c6c/7c/8d"]
[[node]]
deals = ["QcQd|JcJd/2s3c4d/9s/Th"]
"""
# What `serve` alone reads stands in front of the nodes, and keys as long as they may be.
SERVE = b'''port = 7000
host = "127.0.0.1"
stores = "s"
logs = "l"
away = "play"
outage = [{node = 1, at = 1, back = 2}]
'''
SERVED = DEALS.replace(b"[[node]]", SERVE + b"[[node]]", 1)
REFUSED = {"100 NotToml", "101 BadEntry", "102 Game"}
WORDS = [
    *b"name game hands names node deals seed port host stores logs away outage key tokens patience start peers seats status from".split(),
    *b"[[node]] [node] = 0 1 2 3 10000 10001 -1 1.5 true".split(),
    *b"TdAs|8hTc/2c8c3h/9c/Kh alice bob l2.game 18446744073709551615 18446744073709551616 [ ] { } , # ''' \"\"\"".split(),
    b'"', b"'", b"\\", b"\n", b"\r\n", b" ", b"\0", b"\xff", b"\xc3\xa9", b'name = "m"\n', b"hands = 1\n", b"[[node]]\n", b"seed = 1\n",
]  # fmt: skip


def long_files(text):
    """A match file made too long: in its lines, in front and behind."""
    lines = text.splitlines(keepends=True)
    for place, line in enumerate(lines):
        for more in (b" ", b"#" * 100000, b"\n" * 5000, b"x" * 300, b"[" * 5000, b'"' * 3):
            yield b"".join(lines[:place]) + line.rstrip(b"\n") + more + b"\n" + b"".join(lines[place + 1 :])
        yield b"".join(lines[:place] + [line] + lines[place:])
        yield b"".join(lines[:place] + lines[place + 1 :])
    yield from (text + b"[[node]]\nseed = 1\n", text + b"[[node]]\nseed = 1\n" * 2, text + b"x" * (1 << 20), b"# x\n" * 20000 + text, b"")


def match_files(dice, folder, pool):
    """Match files, and the first tick of the match where one is read. What is cut before the last node's deals is refused."""
    tally = Tally("match files")
    (folder / "l2.game").write_bytes(GAMES["l2"])
    inputs = [(text, {"read"}) for text in (DEALS, DEALS[:-1], SERVED)] + [(text, REFUSED) for text in cuts(DEALS)[:-1]]
    others = [one for text in (DEALS, SERVED) for one in [*long_files(text), *changes(dice, text)]]
    others += [drawn(dice, lambda: dice.choice([DEALS, SERVED]), WORDS) for _ in range(DRAWN)]
    inputs += [(text, {"read", *REFUSED, *["104 Unreadable"] * (b'"l2.game"' not in text)}) for text in others]
    texts = [text for text, _ in inputs]
    for (text, wanted), got in zip(inputs, pool.map(functools.partial(one_match, folder), range(len(texts)), texts, chunksize=AT_ONCE)):
        said = said_of(got)
        tally.take(text, "as wanted" if said in wanted else got, "as wanted", [said] if said in wanted - {"read"} else [])
    tally.want("100 NotToml,101 BadEntry,read".split(","))
    return tally


def one_match(folder, number, text):
    word = f"{number}.toml"
    (folder / word).write_bytes(text)
    got = run([PROGRAM, "play", word], folder, b"tick 0\n")
    (folder / word).unlink()
    return got


def said_of(got):
    """The fault by which a match file was refused, before anything was written; 'read' where the match began; else none."""
    if isinstance(got, str):
        return None
    status, printed, said = got
    if status == 0 and printed.startswith(b"0 L # name/game/hands "):
        return "read"
    fault = re.match(rb"1\d\d [A-Z]\w+", said)
    return fault[0].decode() if status == 2 and printed == b"" and fault else None
