"""Match files of which rows say by hand what is told: what `play` reads of them, what `serve` reads, and what a node reads."""
import functools

from .models import GAMES, nodes
from .running import PROGRAM, Tally, run

# What is listed, in a match of `play`.
LISTED = """name = "m1"
game = "l2.game"
hands = 1
names = ["alice", "bob"]
[[node]]
deals = ["TdAs|8hTc/2c8c3h/9c/Kh"]
[[node]]
seed = 0
[[node]]
seed = 9223372036854775807
"""
# Where its nodes' deals come from: a text, or a seed.
SOURCES = ["TdAs|8hTc/2c8c3h/9c/Kh", 0, 9223372036854775807]
# A game whose second stack is no more than the greatest blind, in line 5.
LOW_STACK = b"""GAMEDEF
nolimit
numPlayers = 2
numRounds = 4
stack = 20000 100
blind = 100 50
firstPlayer = 2 1 1 1
numSuits = 4
numRanks = 13
numHoleCards = 2
numBoardCards = 0 3 1 1
END GAMEDEF
"""
# A part of it, what stands in its place, and what is told: nothing where the match begins.
LISTED_ROWS = [
    ('name = "m1"', 'name = ""', "101 BadEntry name"),
    ('name = "m1"', "name = 1", "101 BadEntry name"),
    ('name = "m1"\n', "", "101 BadEntry name"),
    ('"m1"', '"a.B-c_9"', ""),
    ('"m1"', '"a b"', "101 BadEntry name"),
    ('"m1"', f'"{33 * "x"}"', "101 BadEntry name"),
    ('"l2.game"', '"l2 game"', "101 BadEntry game"),
    ('"l2.game"', '""', "101 BadEntry game"),
    ('"l2.game"', '"l2\\u007f"', "101 BadEntry game"),
    ('"l2.game"', f'"{201 * "x"}"', "101 BadEntry game"),
    ('"l2.game"', f'"{200 * "x"}"', ""),
    ('"l2.game"', '"!holdem.limit.2p.game~"', ""),
    ("hands = 1", "hands = 0", "101 BadEntry hands"),
    ("hands = 1", "hands = 10001", "101 BadEntry hands"),
    ("hands = 1", "hands = -1", "101 BadEntry hands"),
    ("hands = 1", "hands = 1.0", "101 BadEntry hands"),
    ("hands = 1", "hands = 2", "101 BadEntry node"),
    ('"bob"]', '"alice"]', "101 BadEntry names"),
    (', "bob"]', "]", "101 BadEntry names"),
    ('"bob"]', "7]", "101 BadEntry names"),
    ('"bob"]', '"bob", "carol"]', "101 BadEntry names"),
    ('"bob"]', '""]', "101 BadEntry names"),
    ('"bob"]', '"b b"]', "101 BadEntry names"),
    ("seed = 0", "seed = -1", "101 BadEntry node"),
    ("seed = 0", "seed = 0\ndeals = []", "101 BadEntry node"),
    ("seed = 0", "", "101 BadEntry node"),
    ("[[node]]\nseed = 0\n", "", "101 BadEntry node"),
    ("seed = 0\n", "seed = 0\n[[node]]\nseed = 3\n", "101 BadEntry node"),
    ("8hTc/", "TdTc/", "101 BadEntry node"),
    ('/Kh"]', '/Kh", "TdAs|8hTc"]', "101 BadEntry node"),
    ('name = "m1"', 'name = "m1', "100 NotToml"),
    ('name = "m1"', 'name = "m1"\nname = "m1"', "100 NotToml"),
    ("hands = 1", 'hands = 1\nport = "none"\noutage = 3', ""),
    ("hands = 1", 'hands = 1\naway = "Play"', ""),
    ('/Kh"]', '/Kh", "2d2h|3d3s/4c5c6c/7c/8d"]', ""),
    # What is told first: the game's path, the file there, and the other keys.
    ('game"\nhands = 1', 'gone"\nhands = 0', "104 Unreadable"),
    ('l2.game"\nhands = 1', 'low.game"\nhands = 0', "102 Game 17 StackBelowBlind 5"),
    ('"l2.game"\nhands = 1', "7\nhands = 0", "101 BadEntry game"),
]
# Texts that say no match.
NO_MATCHES = [(b"", "101 BadEntry name"), (b'name = "\xff"', "100 NotToml")]

# The same with what is said for serving. Nothing is told of the match file where the run ends by a later fault.
OUTAGES = "outage = [{node = 0, at = 1, back = 5}, {node = 1, at = 5}]"
SERVED = LISTED.replace("[[node]]", f'stores = "stores"\nlogs = "a folder"\nport = 2000\n{OUTAGES}\n[[node]]', 1)
SERVED_ROWS = [
    ('stores = "stores"\n', "", "101 BadEntry stores"),
    ('stores = "stores"', "stores = 1", "101 BadEntry stores"),
    ('logs = "a folder"\n', "", "101 BadEntry logs"),
    ("port = 2000\n", "", "101 BadEntry port"),
    ("port = 2000", "port = 1023", "101 BadEntry port"),
    ("port = 2000", "port = 1024", ""),
    ("port = 2000", "port = 65000", ""),
    ("port = 2000", "port = 65001", "101 BadEntry port"),
    ("port = 2000", 'port = "2000"', "101 BadEntry port"),
    ("port = 2000", "port = 2000", ""),
    ("back = 5", "back = 6", "101 BadEntry outage"),
    ("back = 5", "back = 1", "101 BadEntry outage"),
    ("node = 1", "node = 3", "101 BadEntry outage"),
    ("node = 1", "node = 0", ""),
    ("at = 5}", "at = -5}", "101 BadEntry outage"),
    (", at = 5}", "}", "101 BadEntry outage"),
    (OUTAGES, "outage = 1", "101 BadEntry outage"),
    (f"{OUTAGES}\n", "", ""),
    ("port = 2000", 'port = 2000\naway = "wait"', ""),
    ("port = 2000", 'port = 2000\naway = "play"', ""),
    ("port = 2000", "port = 2000\naway = 'play'", ""),
    ("port = 2000", "port = 2000\naway = 1", "101 BadEntry away"),
    ("port = 2000", "port = 2000\naway = true", "101 BadEntry away"),
    ("port = 2000", 'port = 2000\naway = ["play"]', "101 BadEntry away"),
    ("port = 2000", 'port = 2000\naway = "Play"', "101 BadEntry away"),
    ("port = 2000", 'port = 2000\naway = ""', "101 BadEntry away"),
    ("port = 2000", 'port = 2000\naway = "play"\naway = "play"', "100 NotToml"),
    (OUTAGES, "outage = 1\naway = 1", "101 BadEntry outage"),
]

# What a node reads, without a key and with one. The tokens are digests of the digits `0a`, 32 times, and of `5b`.
REACHED = """name = "m1"
game = "l2.game"
hands = 1
names = ["alice", "bob"]
stores = "stores"
logs = "a folder"
[[node]]
seed = 1
peers = "10.0.0.7:21000"
seats = "[fd00::7%3]:65534"
[[node]]
seed = 2
peers = "10.0.0.8:21000"
seats = "10.0.0.8:7000"
[[node]]
seed = 3
peers = "10.0.0.9:21000"
seats = "10.0.0.9:7000"
"""
OTHERS = "9.255.255.255 11.0.0.0 172.15.255.255 172.32.0.0 192.169.0.0 100.63.255.255 100.128.0.0 [fbff::1] [fe00::1] [fe80::1%3] [::ffff:10.0.0.7] [::]"
TRUSTED = """127.0.0.0:1 127.255.255.255:65535 10.0.0.0:1 10.255.255.255:1 172.16.0.0:1 172.31.255.255:1 192.168.0.0:1
192.168.255.255:1 100.64.0.0:1 100.127.255.255:1 [fc00::]:1 [fdff:ffff:ffff:ffff:ffff:ffff:ffff:ffff]:1"""
# From where a node may dial: one IP address, or an array of such; and what is neither.
HOSTS = """"10.0.0.7" "8.8.8.8" "0.0.0.0" "::" "fd00::7" "::ffff:10.0.0.7" '::1' [] ["fd00::7"] ["10.0.0.7","::1","10.0.0.7"]""".split()
NO_HOSTS = """"10.0.0.7:21000" "[fd00::7]" "fd00::7%3" "10.0.0" "010.0.0.7" "10.0.0.256" "10.0.0.7/8" "localhost" "" "\\t10.0.0.7" 10 true
[7] [""] ["10.0.0.7",8] [["10.0.0.7"]] {ip="10.0.0.7"}""".split()
REACHED_ROWS = [
    *[("seed = 1", f"seed = 1\nfrom = {value}", "101 BadEntry from") for value in NO_HOSTS],
    *[("seed = 1", f"seed = 1\nfrom = {value}", "") for value in HOSTS],
    ("seed = 3", "seed = 3\nfrom = 7", "101 BadEntry from"),
    ("[fd00::7%3]:65534", '[fd00::7%3]:0"\nfrom = "7', "101 BadEntry seats"),
    ('stores = "stores"', 'from = 7\nstores = "stores"', ""),
    *[('logs = "a folder"', f'logs = "a folder"\naway = {word}', "101 BadEntry away") for word in ('"never"', '"Wait"', '""', "1", '["wait"]')],
    *[('logs = "a folder"', f'logs = "a folder"\naway = {word}', "") for word in ('"wait"', '"play"')],
    ('logs = "a folder"', 'away = "never"', "101 BadEntry logs"),
    ('stores = "stores"\nlogs = "a folder"\n', "", "101 BadEntry stores"),
    ('logs = "a folder"\n', "", "101 BadEntry logs"),
    ('peers = "10.0.0.7:21000"\nseats', "other", "101 BadEntry peers"),
    *[("10.0.0.7:21000", address, "101 BadEntry peers") for address in ("10.0.0.7:0", "10.0.0.7:65536", "10.0.0.7", "node0:21000")],
    *[("10.0.0.7:21000", f"{address}:21000", "101 BadEntry peers") for address in OTHERS.split()],
    *[("10.0.0.7:21000", address, "") for address in TRUSTED.split()],
    *[("[fd00::7%3]:65534", address, "101 BadEntry seats") for address in ("[fd00::7]:65535", "fd00::7:21000", "0.0.0.0:21000")],
]
DIGESTS = [
    "2db6b2a7b2fbb5fbf2ea7fcbacb5e1645fb6bf3c0d606ce5b88a23533b32d4b8",
    "A76CE78EBA9F3EE75893315FAFED974A60B4A028B36F9B1E42B11E841E7B4282",
]
KEYED = f"""name = "m1"
game = "l2.game"
hands = 1
names = ["alice", "bob"]
stores = "stores"
logs = "a folder"
key = "match.key"
tokens = [
    "{DIGESTS[0]}",
    "{DIGESTS[1]}",
]
patience = 86400
[[node]]
seed = 1
peers = "8.8.8.8:21000"
seats = "[2001:db8::7]:65534"
status = "21900"
[[node]]
seed = 2
peers = "0.0.0.0:21000"
seats = "127.0.0.1:7000"
[[node]]
seed = 3
peers = "8.8.4.4:21000"
seats = "8.8.4.4:7000"
"""
# Times from 0.1 to 86400 seconds: a number of whole ones, or a text with one to three digits behind its point; and what is neither.
TIMES = """1 86400 "0.1" "0.10" "0.100" "0.5" "2.25" "0.999" "30.0" "86399.999" "86400.0" "86400.000" '1.5'""".split()
NO_TIMES = """86401 0 -1 0.5 30.0 true [1] ["0.5"] "30" "" "." "0." ".5" "0.1234" "00.5" "01.5" "+0.5" "-0.5" "0.-5" "0.5s" "0.5.5" "0,5" "1e1.5"
"0.5\\t" "0.0" "0.09" "0.099" "86400.001" "86401.0" "4294967296.5" "18446744073709551617.5" "\\u0661.5" """.split()
KEYED_ROWS = [
    ('"match.key"', "1", "101 BadEntry key"),
    ('key = "match.key"\n', "", "101 BadEntry peers"),
    ("8.8.8.8:21000", "8.8.8.8:0", "101 BadEntry peers"),
    ("0.0.0.0:21000", "node1:21000", "101 BadEntry peers"),
    (":65534", ":65535", "101 BadEntry seats"),
    ("127.0.0.1:7000", "127.0.0.1:0", "101 BadEntry seats"),
    *[('"21900"', word, "101 BadEntry status") for word in ("21900", '"0"', '"65536"', '""', '"localhost:21900"')],
    ('"21900"', '"[::]:65535"', ""),
    ("tokens = [", "others = [", "101 BadEntry tokens"),
    ("tokens = [", 'tokens = ["",', "101 BadEntry tokens"),
    ('E7B4282"', 'E7B428"', "101 BadEntry tokens"),
    ('E7B4282"', 'E7B428g"', "101 BadEntry tokens"),
    ('"A76C', '7, # "A76C', "101 BadEntry tokens"),
    ('"A76C', '# "A76C', "101 BadEntry tokens"),
    ('E7B4282",\n]', 'E7B428"\n]\nstart = 0', "101 BadEntry tokens"),
    ('status = "21900"', 'status = "0"\nfrom = 7', "101 BadEntry status"),
    ('status = "21900"', 'status = "21900"\nfrom = ["::1"]', ""),
    ('key = "match.key"', 'key = 1\naway = "never"', "101 BadEntry away"),
    *[("86400", word, "101 BadEntry patience") for word in NO_TIMES],
    *[("86400", word, "") for word in TIMES],
    ("patience = 86400", "", ""),
    *[("86400", f"1\nstart = {word}", "101 BadEntry start") for word in NO_TIMES],
    *[("86400", f"1\nstart = {word}", "") for word in TIMES],
    ("86400", "0\nstart = 0", "101 BadEntry patience"),
]


def changed(text, rows):
    """The texts of rows, each with what is told of it. A part stands in its text, the first time that it does is changed."""
    for old, new, told in rows:
        if old not in text:
            raise ValueError(f"{old!r} isn't in the text of its row")
        yield text.replace(old, new, 1).encode(), told


def match_rows(folder, pool):
    """Rows of match files. Where nothing is told of a match file, `play` begins, and what else ends `serve` and `node` comes
    later: no port, or no store."""
    tally = Tally("rows of match files")
    for name, game in (("l2.game", GAMES["l2"]), ("low.game", LOW_STACK), (200 * "x", GAMES["l2"]), ("!holdem.limit.2p.game~", GAMES["l2"])):
        (folder / name).write_bytes(game)
    (folder / "match.key").write_text(64 * "0" + "\n")
    (folder / "match.key").chmod(0o600)
    kinds = {
        ("play", "", ""): [*changed(LISTED, LISTED_ROWS), *NO_MATCHES],
        ("serve", "", "104 Unreadable,105 LinkFailed"): [*changed(SERVED, SERVED_ROWS)],
        ("node", "0", "104 Unreadable"): [*changed(REACHED, REACHED_ROWS), *changed(KEYED, KEYED_ROWS)],
    }
    for (command, number, later), inputs in kinds.items():
        texts = [text for text, _ in inputs]
        answers = pool.map(functools.partial(told_of, folder, command, number), range(len(texts)), texts)
        for (text, told), got in zip(inputs, answers):
            tally.take((command, text), got in (told or later).split(",") or got, True, [" ".join(told.split()[:2])] if told else [])
    for node, source in enumerate(SOURCES):
        tally.take(("deal", node), dealt(folder, node), cards_of(source), [])
    return tally


def told_of(folder, command, number, place, text):
    """The last line that the command prints on standard error."""
    word = f"{command}{place}.toml"
    (folder / word).write_bytes(text)
    got = run([PROGRAM, command, word, *number.split()], folder)
    return got if isinstance(got, str) else got[2].decode().strip("\n").split("\n")[-1]


def cards_of(source):
    """The numbers of the cards that a source deals first, as frames have them."""
    cards = nodes.draw(source, 0, 2) if isinstance(source, int) else nodes.cards_of(source)
    return bytes(map(nodes.number_of, cards)).hex()


def dealt(folder, node):
    """The cards of the deal that a node proposes where it leads first: those at the end of its frame to another node."""
    (folder / "deals.toml").write_text(LISTED)
    other = (node + 1) % 3
    prepare = 0 if other < (node + 2) % 3 else 1
    got = run([PROGRAM, "play", "deals.toml"], folder, f"tick {node}\ndeliver {prepare}\ndeliver 2\n".encode())
    frames = [line.split()[3] for line in got[1].decode().splitlines() if line.startswith("frame 3 ")] if got[0] == 0 else []
    return frames[0][-18:] if frames else got
