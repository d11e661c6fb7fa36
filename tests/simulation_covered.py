"""What is to come in a long run of tests/simulation, and why some of what there is doesn't: `--covered`.

The lists aren't kept here but read: words of scripts, ends of processes, notes and settings out of the sources, the numbers of faults
out of their page. So what is new there and in neither list is told as what never came."""
import functools
import re

from simulation_trace import KINDS, TOP

ROW = re.compile(r"^\| (\d+) \| `(\w+)[^`]*`")


@functools.lru_cache(maxsize=1024)
def names_of(words):
    """The names of a fault that is told as `Name(Name(Number))`."""
    return [name for name in re.findall(r"[A-Za-z]\w*", words)]


def arms(path, name):
    """The arms of an enumeration of the sources."""
    text = (TOP / "crates" / path).read_text()
    body = text.partition(f"pub enum {name} {{\n")[2].partition("\n}\n")[0]
    return re.findall(r"^    ([A-Z]\w*)", body, re.M)


def faults():
    """The faults of their page: number and name."""
    rows = map(ROW.match, (TOP / "docs/FAULTS.md").read_text().splitlines())
    return sorted({(int(row[1]), row[2]) for row in rows if row})


# Whether a store of which an older copy was put back is refused (130).
REFUSES_OLDER = "StoreOlder" in arms("node_service/src/outcome.rt", "Outcome")
RECORDS = ("Hello", "Proof", "Frame", "Beat", "Lives", "Settings", "Promised")

FAULTS = faults()
# Which number a name has where it is told: of a seat, of another node, or of a store and its node.
PLACES = {"seat": [(20, 26), (40, 44), (80, 86)], "node": [(120, 130)], "store": [(60, 64), (90, 96)]}
NUMBERS = {(where, name): number for where, ranges in PLACES.items() for number, name in FAULTS if any(low <= number <= high for low, high in ranges)}

WANTED = [
    *(f"order {word.lower()}" for word in arms("traffic/src/order.rt", "Word")),
    *(f"ended {word}" for word in arms("node_service/src/outcome.rt", "Outcome") if word != "GoesOn"),
    *(f"note {word}" for word in arms("node_service/src/server_notice.rt", "ServerNotice")),
    *(f"setting {word}" for word in arms("node_service/src/server_notice.rt", "Setting")),
    *(f"fault {number}" for number, _ in FAULTS),
    *(f"record {word}" for word in RECORDS if word != "Promised" or REFUSES_OLDER),
    *(f"frame {kind}" for kind in KINDS[1:]),
    *(f"due {word}" for word in ("campaign", "campaign again", "ask", "order")),
    *(f"stored {word}" for word in ("promise", "votes")),
    *(f"died with {count} unsynced" for count in range(2)),
    *("deal", "act", "away", "command of no account", "begin", "begin again", "disk failed"),
    *(f"bot asks for {word}" for word in ("FIRST", "NEWEST", "a line")),
    *("told #OVER", "told #WAIT", "told a status"),
    *(f"all that {words}" for words in ("waits for a bot", "is read of a seat", "is read of a guest", "is read of a node")),
]

NO_MEMORY = "no memory is refused but by --refused"
NO_FILE = "no command line, no file and no port is read here: only the servers' turns are run"
ALONE = "only a library alone tells it"
NO_KEPT = "the logs of earlier starts aren't kept here"
ACCIDENT = "it would be an accident"
# What doesn't come, and why.
NEVER = {
    **{f"fault {number}": NO_FILE for number, _ in FAULTS if 10 <= number <= 19 or 45 <= number <= 49 or 100 <= number <= 110},
    **{f"fault {number}": ALONE for number, _ in FAULTS if number in (1, 2, 30, 31, 64, 70, 71, 90)},
    **{f"fault {number}": "the server drops a frame that is none, and tells nothing" for number, _ in FAULTS if 50 <= number <= 54 or number == 94},
    "fault 20": "a seat is told 84 in its place",
    "fault 26": "no bot raises sixty times in a round",
    "fault 92": NO_MEMORY,
    "fault 93": "no match has so many ballots or slots",
    "fault 95": ACCIDENT,
    "fault 96": "a server orders a default action only where a hand runs",
    "fault 124": "all nodes have one key, and strangers say no proof",
    "fault 125": "nothing changes what is on its way",
    "fault 129": NO_KEPT,
    "order cost": "tests/floods has what calls of wires cost; here each takes a microsecond",
    "ended LogFailed": "the log of a process that lives is always written",
}
# What comes so seldom that a long run may go without it, and why.
SELDOM = {
    "order end": "all processes end before, but one that is started once more behind the match's end",
    "fault 23": "a bot raises by what is drawn, hardly ever by all that it has",
    "all that is read of a node": "a node sends so much before it is read only where it was behind by far",
    "all that waits for a bot": "a match has hardly so many hands; a script of tests/simulation.d has",
    "command of no account": "fresh commands are proposed one by one; two leaders after each other would have to bring one",
}


def lacking(counts):
    """What was to come and didn't, and what came though it shouldn't; each as a line."""
    for word in WANTED:
        if word not in counts and word not in NEVER and word not in SELDOM:
            yield f"never came: {word}"
    for word, why in NEVER.items():
        if word in counts:
            yield f"came, though {why}: {word}"
    for word in (*NEVER, *SELDOM):
        if word not in WANTED:
            yield f"there is no such thing: {word}"
