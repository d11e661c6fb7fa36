"""A trace of tests/simulation as text that can be read, and as a drawing: nodes as rows, time to the right, a frame an arrow."""
from xml.sax.saxutils import escape

from simulation_trace import KINDS, Records, bytes_of, number

COLOURS = ["", "#0072b2", "#0072b2", "#d55e00", "#007a5a", "#007a5a", "#a0508c", "#5f5f5f", "#9a6700"]
THIN = {"Promise", "Accepted"}
RECORDS = {0: "Hello", 1: "Proof", 3: "Beat", 4: "Lives", 5: "Settings", 6: "Promised"}


def ballot(part):
    return f"({number(part[:4])}, {part[4]})"


def command(part):
    if part[0] == 1:
        return f"deal {number(part[1:5])}"
    index = f"{number(part[1:5])}.{number(part[5:7])}"
    if part[0] == 3:
        return f"away {index}"
    return f"{index} {'fcr'[part[7]]}" + (str(number(part[8:12])) if part[7] == 2 else "")


def commands(part):
    words = []
    while part:
        words.append(command(part))
        part = part[{1: 6 + part[5], 2: 12, 3: 7}[part[0]] :]
    return ", ".join(words)


def spoken(part):
    """The kind of a frame behind its length and version, and what it says."""
    kind, body = KINDS[part[0]], part[1:]
    if kind == "Forward":
        return kind, command(body)
    if kind == "Ask":
        return kind, f"from {number(body[:4])}"
    if kind == "Chosen":
        return kind, f"{number(body[:4])}: {command(body[4:])}"
    words = f"{ballot(body)} {number(body[5:9])}"
    if kind == "Promise":
        return kind, words + f": {body[9]} accepted"
    if kind == "Refuse":
        return kind, words + f": promised {ballot(body[9:])}"
    if kind == "Prepare":
        return kind, words
    return kind, words + ": " + commands(body[10:])


class Talks:
    """Who is at the ends of connections, and what they say to each other."""

    def __init__(self):
        self.ends, self.records = {}, {}

    def dial(self, event):
        self.ends[int(event.rest[0])] = (event.who, event.rest[1])

    def other(self, event):
        ends = self.ends.get(int(event.rest[0]))
        return None if ends is None else ends[1] if ends[0] == event.who else ends[0]

    def records_of(self, event):
        """What an event says between nodes; None where it is said to a bot or a stranger."""
        ends = self.ends.get(int(event.rest[0]))
        if ends is None or not (ends[0].isdigit() and ends[1].isdigit()):
            return None
        reader = self.records.setdefault((int(event.rest[0]), event.who), Records())
        return list(reader.read(bytes_of(event.rest[1])))


def shown(events, has_key, beats=False):
    """Each event as a line."""
    talks = Talks()
    for event in events:
        words = " ".join(event.rest)
        if event.word == "dial":
            talks.dial(event)
            if event.who.startswith("b"):
                words = f"connection {event.rest[0]} to node {event.rest[1]}, seat {event.rest[2]}"
            else:
                words = f"connection {event.rest[0]} to node {event.rest[1]}"
        elif event.word == "say":
            records = None if has_key else talks.records_of(event)
            if records is not None:
                for kind, body in records:
                    if kind == 2:
                        name, said = spoken(body[5:])
                        yield f"{event.moment:>12} {event.who} to {talks.other(event)}: {name} {said}"
                    elif beats or kind != 3:
                        yield f"{event.moment:>12} {event.who} to {talks.other(event)}: {RECORDS.get(kind, kind)} {body.hex() if kind == 3 else ''}"
                continue
            words = f"to {talks.other(event)} over {event.rest[0]}: {bytes_of(event.rest[1])!r}"
        elif event.word in ("read", "log"):
            words = " ".join(event.rest[:-1]) + f" {bytes_of(event.rest[-1])!r}"
        elif event.word == "begin":
            words = f"{len(bytes_of(event.rest[0]))} bytes"
        elif event.word in ("write", "sync"):
            words = words[:60]
        yield f"{event.moment:>12} {event.who} {event.word} {words}"


def drawn(events, has_key, first=0, last=None):
    """An SVG of what nodes said between two moments."""
    talks, marks, arrows = Talks(), [], []
    for event in events:
        if event.word == "dial":
            talks.dial(event)
        if event.moment < first or last is not None and event.moment > last:
            if event.word == "say" and not has_key:
                talks.records_of(event)
            continue
        if event.word == "say" and not has_key:
            for kind, body in talks.records_of(event) or []:
                if kind == 2:
                    arrows.append((event.moment, int(event.who), int(talks.other(event)), *spoken(body[5:])))
        elif event.word in ("begin", "died", "ended", "log", "sync") and event.who.isdigit():
            marks.append((event.moment, int(event.who), event.word))
        elif event.who == "-":
            marks.append((event.moment, None, f"{event.word} {' '.join(event.rest)}"))
    moments = sorted({it[0] for it in arrows} | {it[0] for it in marks})
    across = {moment: 96 + 17 * place for place, moment in enumerate(moments)}
    count = 1 + max([0] + [max(it[1], it[2]) for it in arrows] + [it[1] for it in marks if it[1] is not None])
    below = 96 + 112 * (count - 1) + 46
    width = 96 + 17 * len(moments) + 320
    yield f'<svg xmlns="http://www.w3.org/2000/svg" viewBox="0 0 {width} {below + 320}" font-family="sans-serif" font-size="11">'
    yield f'<rect width="{width}" height="{below + 320}" fill="white"/>'
    for kind, colour in enumerate(COLOURS):
        if colour:
            yield f'<marker id="head{kind}" markerWidth="10" markerHeight="8" refX="9" refY="4" orient="auto" markerUnits="userSpaceOnUse"><path d="M0,0 L10,4 L0,8 z" fill="{colour}"/></marker>'
    for node in range(count):
        y = 96 + 112 * node
        yield f'<text x="20" y="{y + 4}" font-size="13">node {node}</text><line x1="72" y1="{y}" x2="{width - 320}" y2="{y}" stroke="#222" stroke-width="1.6"/>'
    for moment, sender, receiver, kind, words in arrows:
        x, number_of = across[moment], KINDS.index(kind)
        y, level = 96 + 112 * sender, 96 + 112 * receiver
        yield f'<line x1="{x}" y1="{y}" x2="{x + 12}" y2="{level}" stroke="{COLOURS[number_of]}" stroke-width="{1 if kind in THIN else 1.8}" marker-end="url(#head{number_of})"/>'
        yield text(x, below, f"{moment} {sender}>{receiver} {kind} {words}", COLOURS[number_of])
    for moment, node, words in marks:
        x = across[moment]
        if node is None:
            yield text(x, below, f"{moment} {words}", "#c00")
            continue
        y, colour = 96 + 112 * node, "#c00" if words in ("died", "ended") else "#222"
        yield f'<circle cx="{x}" cy="{y}" r="{4 if words != "sync" else 2}" fill="{colour}"/>'
        if words != "sync":
            yield text(x, below, f"{moment} node {node} {words}", colour)
    yield "</svg>"


def text(x, below, words, colour):
    return f'<text transform="translate({x - 3} {below + 10}) rotate(45)" font-family="monospace" font-size="10" fill="{colour}">{escape(words)}</text>'
