"""A league's page: one file that asks for nothing else, with links to logs, notes and pages of hands."""
import base64
import hashlib
import time
from html import escape
from pathlib import Path

from . import deals
from .elements import graph, link, noted, paragraph, row, scale_of, section, shade, table, valued
from .estimates import meetings_to_tell
from .standings import FEWEST_GROUPS, INCIDENTS
from .table import BY_HANDS, LUCK, contradiction, half, head, marks, neighbour_marks, place, rating_rows, shown, trust
from .words import counted

HERE = Path(__file__).resolve().parent
PAGE = """<!DOCTYPE html>
<html lang="en">
<head>
<meta charset="utf-8">
<meta name="viewport" content="width=device-width, initial-scale=1">
<meta http-equiv="Content-Security-Policy" content="default-src 'none'; style-src 'sha256-{hash}'; base-uri 'none'; form-action 'none'">
<title>{title}</title>
<style>{style}</style>
</head>
<body>
{body}
</body>
</html>
"""
MEANING = (
    "mbb/hand are thousandths of the greatest blind won a hand. The interval behind ± is one of 95\u00a0%. The true value is the "
    "player’s mean against these opponents over all cards that could be dealt."
)
DUPLICATE = (
    "The mean of all seatings of one meeting is one result. All seatings have the same cards, so part of their luck cancels."
)
SINGLE = "Each match is one result."
FEW_GROUPS = (
    "Against {which} opponents fewer than {fewest} meetings are finished. There the interval counts each hand of all seatings "
    "together as one result ({mark})."
)
SELECTED = (
    "The leader’s mean is too high by selection. Two players whom you picked by their results need more than an interval "
    "that leaves 0 out. Rare large losses that haven’t happened yet are in no interval; ± 0.0 means that no result varied yet. "
    "No interval here holds if a bot learns from match to match, or if meetings were added because a result wasn’t clear."
)
WORDS = (
    "Green and red: the interval leaves 0 out. In the graph the dot is the mean, and the dashed line is 0. “plain” is the "
    "interval if each hand were counted by itself."
)
ADJUSTED = (
    "“luck-adjusted” is the same of results less luck: of how far the flop, the turn and the river moved what each player could expect. "
    "Luck in hole cards isn’t taken out. Ranks and “told apart” go by the one of the two that rank_by names in the league’s file."
)
ORDERS = (
    "“rank” orders players by their mean over all opponents that they met; equal means share a rank. “run-off”: again and "
    "again the player goes whose mean over those who are left is the least; of equal ones the one goes whose mean over all is "
    "less, then the last by name."
)
COUNTS = (
    "“restarts” counts how often a player’s program was started again, “defaults” the actions that were taken for it, and "
    "“mended” its actions that weren’t allowed and were replaced: in all finished matches, also of meetings that aren’t finished."
)
RATED = (
    "Ratings by least squares compare players also where they met others: two ratings differ by what one is expected to win against the "
    "other. Ratings of different parts say nothing of each other: no chain of matches joins their players. Where ratings explain the "
    "results, the weighted squares are about as large as their degrees of freedom."
)
CROSS = (
    "Green is won, red is lost, the darker the more. Point at a cell for its number of groups, and for how many more meetings would "
    "tell the two apart if their difference stays as it is."
)
NEIGHBOURS = "The difference has an interval of its own: hands that two neighbours played against each other count for both."
DIFFERENT = (
    "Means over different opponents say nothing of who is better: no neighbours who met different opponents are told apart."
)
HOSTILE = (
    "Bots run without a sandbox. A log has all cards, also one of a meeting that isn’t finished. docs/LEAGUE.md says what isn’t "
    "kept from a hostile bot."
)
PUBLIC = (
    "A log here lacks the hole cards that the table wasn’t shown, unless all cards are revealed. Matches of a meeting that isn’t "
    "finished aren’t here."
)
REMEMBERED = " A bot that remembers one seating of a meeting knows its opponent’s cards in the next."
# With no more matches than this all lists of matches are open.
FEW_MATCHES = 40
MICROSECONDS = 1000


class Links:
    """Where a page leads: to the league's own folder, or in one that is published to what is beside it there."""

    def __init__(self, league, hands, is_public=False):
        """`hands` has by match the address of its hands."""
        self.league, self.hands, self.is_public = league, hands, is_public

    def log(self, planned):
        return f"logs/{planned.name}.log" if self.is_public else f"matches/{planned.name}/{planned.name}.log"

    def notes(self, planned):
        """The address of a match's notes; none where they aren't published, or tell nothing."""
        has_notes = not self.is_public and (self.league.result_of(planned.name) / "notes").stat().st_size > 0
        return f"matches/{planned.name}/notes" if has_notes else None


def text_of(standings, links, is_revealed):
    """The page's text."""
    league = standings.league
    style = (HERE / "page.css").read_text()
    sections = [
        heading(standings), standing_table(standings), *([ratings(standings)] if len(league.players) > 2 else []), neighbours(standings),
        cross_table(standings) if league.seats == 2 else sets_table(standings), incidents(standings, links),
        matches(standings, links, is_revealed),
    ]
    found = base64.b64encode(hashlib.sha256(style.encode()).digest()).decode()
    return PAGE.format(hash=found, title=escape(league.name), style=style, body="\n".join(sections))


def heading(standings):
    first, counts, *withdrew = head(standings)
    won = [paragraph(verdict(standings), "verdict")] if standings.finished_groups else []
    made = time.strftime("%Y-%m-%d %H:%M UTC", time.gmtime())
    return f"<h1>{escape(first)}</h1>\n" + "\n".join(
        [*won, paragraph(f"{counts}. Written {made}.", "quiet"), *(paragraph(f"{it}.") for it in withdrew)]
    )


def verdict(standings):
    """One sentence that says who won, or leads, and by what."""
    first = [it for it in standings.standings if it.rank == 1]
    verb = "won" if standings.is_whole else "leads so far" if len(first) == 1 else "lead so far"
    names, interval = " and ".join(it.name for it in first), first[0].interval
    if len(first) > 1 or not standings.neighbours:
        return f"{names} {verb} with {shown(interval)} mbb/hand."
    ahead = standings.neighbours[0]
    apart = "" if ahead.are_told_apart else ", which doesn’t tell the two apart"
    return f"{names} {verb} with {shown(interval)} mbb/hand, {shown(ahead.ahead)} ahead of {ahead.worse}{apart}."


def times(standings, name):
    """A player's milliseconds a hand, and his longest response."""
    used = sum(it.of("used", name) for it in standings.matches if name in it.planned.players)
    hands = sum(standings.league.hands for it in standings.matches if name in it.planned.players)
    worst = max((it.of("worst", name) for it in standings.matches if name in it.planned.players), default=0)
    return (f"{used / hands / MICROSECONDS:.1f} ms", f"{worst / MICROSECONDS:.1f} ms") if hands else ("–", "–")


def standing_table(standings):
    (at, least, most), rows, adjusted = scale_of(standings), [], standings.adjusted
    for it in standings.standings:
        small = [note.partition(":")[0] for note in marks(it)]
        plain, luck = standings.plain.of(it.name), [valued(adjusted.of(it.name).interval)] if adjusted else []
        rows.append(row([
            place(it.rank), ("left stays", escape(it.name)), noted(valued(plain.interval), small), ("graph", graph(it.interval, at)),
            half(plain.plain), *luck, place(it.run_off), *[str(it.incidents[key]) for key in INCIDENTS], *times(standings, it.name),
        ]))
    scale = "graph", f"from {least:+.0f} to {most:+.0f}" if most > least else ""
    header = ["rank", ("left stays", "player"), "mbb/hand", scale, "plain", *([LUCK] if adjusted else [])]
    header += ["run-off", *INCIDENTS, "time a hand", "longest response"]
    return section("Standings", table(header, rows), *meaning(standings))


def meaning(standings):
    """What the figures of the standings mean."""
    cells = [cell for found in standings.cells.values() for cell in found]
    by_hands = [cell.is_by_hands for cell in cells]
    yield paragraph(MEANING, "quiet")
    if not cells or not all(by_hands):
        yield paragraph(DUPLICATE if standings.league.duplicate else SINGLE, "quiet")
    if any(by_hands):
        yield paragraph(FEW_GROUPS.format(which="all" if all(by_hands) else "some", fewest=FEWEST_GROUPS, mark=BY_HANDS))
    if cells:
        yield paragraph(f"{trust(standings)} {SELECTED}", "quiet")
    for words in (WORDS, *([ADJUSTED] if standings.adjusted else []), ORDERS, COUNTS):
        yield paragraph(words, "quiet")


def ratings(standings):
    """The players by least squares, where there are more than two."""
    header, *found = rating_rows(standings)
    rows = [row([escape(part), ("left", escape(name)), escape(value)]) for part, name, value in found]
    words = [paragraph(RATED), paragraph(contradiction(standings), "quiet")]
    return section("Ratings", table([header[0], ("left", header[1]), header[2]], rows), *words)


def neighbours(standings):
    rows = [
        row([
            ("left words", f"{escape(it.better)} – {escape(it.worse)}"), valued(it.ahead) if it.have_same_opponents else shown(it.ahead),
            ("left words", escape(", ".join([*neighbour_marks(it), *more_meetings(standings, it)]))),
        ])
        for it in standings.neighbours
    ]
    found = table([("left", "players"), ("words", "the first is ahead by"), ""], rows)
    words = [NEIGHBOURS] if all(it.have_same_opponents for it in standings.neighbours) else [NEIGHBOURS, DIFFERENT]
    return section("Neighbours in rank", found, *[paragraph(it, "quiet") for it in words])


def more_meetings(standings, it):
    """How many meetings more would tell two neighbours apart, if the difference stays as it is."""
    groups = max((cell.groups for cell in standings.cells[it.better]), default=0)
    more = meetings_to_tell(it.ahead, groups)
    if more and it.have_same_opponents:
        yield f"about {counted(more, 'more meeting')} would tell them apart"


def names_of(players):
    return ".".join(players)


def cell_link(name, it):
    """A cell of a player against others, which leads to the matches that it is made of."""
    kind, text = valued(it.interval)
    unit = ", by hands" if it.is_by_hands else ""
    return kind, f"{link('#' + names_of(sorted([name, *it.opponents])), text)}<small>{counted(it.groups, 'group')}{unit}</small>"


def cross_cell(name, it, most):
    """The same as a narrow cell, shaded by its value; what else there is of it is shown where somebody points at it."""
    kind, _ = valued(it.interval)
    value, _, half_width = shown(it.interval).partition(" ± ")
    more, apart = meetings_to_tell(it.interval, it.groups), "told apart" if it.interval.leaves_out(0) else "not told apart"
    apart = f"about {counted(more, 'more meeting')} would tell them apart" if more else apart
    told = f"{name} – {it.opponents[0]}: {counted(it.groups, 'group')}{', by hands' if it.is_by_hands else ''}; {apart}"
    address = "#" + names_of(sorted([name, *it.opponents]))
    return f"{kind} {shade(it.interval.value, most)}".strip(), f"{link(address, value, told)}<small>± {half_width}</small>"


def cross_table(standings):
    """Each player, a line, against each other one, a column, in the order of the ranks."""
    order, rows = [it.name for it in standings.standings], []
    most = max((abs(float(it.interval.value)) for found in standings.cells.values() for it in found), default=0)
    for name in order:
        found = {it.opponents[0]: it for it in standings.cells[name]}
        cells = [cross_cell(name, found[other], most) if other in found else ("own", "") if other == name else ("quiet", "–") for other in order]
        rows.append(row([("left stays", escape(name)), *cells]))
    return section("Each against each", table([("left stays", "mbb/hand of"), *map(escape, order)], rows, "cross"), paragraph(CROSS, "quiet"))


def sets_table(standings):
    """The players of each table, where a match has more than two."""
    rows = []
    for players in sorted(standings.groups):
        found = {name: next(it for it in standings.cells[name] if set(it.opponents) == set(players) - {name}) for name in players}
        for name in players:
            against = "left words", escape(", ".join(found[name].opponents))
            rows.append(row([("left stays", escape(name)), against, cell_link(name, found[name])]))
    return section("Each against each", table([("left stays", "player"), ("left", "against"), "mbb/hand"], rows))


def incidents(standings, links):
    """Matches in which a player failed or was mended, those that were played anew, and players whose files changed."""
    rows = []
    for match in standings.matches:
        for name in match.planned.seats:
            counts = [match.of(key, name) for key in INCIDENTS]
            if any(counts):
                notes = links.notes(match.planned)
                notes = link(notes, match.planned.name) if notes else escape(match.planned.name)
                rows.append(row([("left", notes), ("left", escape(name)), *map(str, counts)]))
    found = table([("left", "match"), ("left", "player"), *INCIDENTS], rows) if rows else paragraph("No player failed, and no action was mended.")
    return section("Incidents", found, *map(paragraph, [*replaced(standings.league, links.is_public), *changed_files(standings)]))


def replaced(league, is_public):
    """Which matches were played anew. What there was of them isn't published."""
    folder = league.folder / "replaced"
    for path in sorted(folder.iterdir()) if folder.exists() else []:
        earlier = "" if is_public else f"; the earlier one is in replaced/{path.name}"
        yield f"{path.name.rpartition('.')[0]} was played anew{earlier}."


def changed_files(standings):
    """Of which players the files weren't the same before each match. Bots that learn may write to them."""
    for name in sorted(standings.league.players):
        digests = {it.result["files"][name]["sha256"] for it in standings.matches if name in it.result["files"]}
        if len(digests) > 1:
            found = f"The files of {name} weren't the same before each match ({len(digests)} different states)."
            yield found + (REMEMBERED if standings.league.duplicate else "")


def matches(standings, links, is_revealed):
    """All finished matches by their players, with links."""
    parts = [match_list(standings, players, links, is_revealed) for players in sorted({it.planned.players for it in standings.matches})]
    hostile = paragraph(PUBLIC if links.is_public else HOSTILE)
    return section("Matches", hostile, *(parts or [paragraph("None is finished.")]))


def match_list(standings, players, links, is_revealed):
    rows = []
    whole = {group.meeting for group in standings.groups.get(players, [])}
    secret = deals.secret(standings.league) if is_revealed else None
    for it in sorted((it for it in standings.matches if it.planned.players == players), key=lambda it: it.planned.number):
        meeting, planned = it.planned.meeting, it.planned
        seed = deals.seed(secret, players, meeting) if is_revealed and meeting in whole else None
        found = [(links.log(planned), "log"), (links.notes(planned), "notes"), (links.hands.get(planned.name), "hands")]
        found = " · ".join(link(address, text) for address, text in found if address)
        cells = [str(planned.number), ("left", escape(planned.name)), ("left", found), ("left", escape(", ".join(planned.seats)))]
        cells += [f"{it.of('chips', name):+d}" for name in players]
        cells += [f"<code>{seed or 'not yet'}</code>"] if is_revealed else []
        rows.append(row(cells))
    header = ["number", ("left", "match"), "", ("left", "seats"), *[f"chips of {escape(name)}" for name in players]]
    header += ["seed"] if is_revealed else []
    title = f"{', '.join(map(escape, players))}: {len(rows)} finished"
    is_open = " open" if len(standings.matches) <= FEW_MATCHES else ""
    return f'<details{is_open}><summary>{title}</summary>\n<div id="{names_of(players)}">{table(header, rows)}</div>\n</details>'
