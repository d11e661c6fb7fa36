"""Which matches a league has. The plan is a file that only grows: a match has its line's number for ever."""
import fcntl
import hmac
import itertools
import json
import os
import random
from collections import Counter
from math import comb
from typing import NamedTuple, Tuple

from . import deals, rounds
from .faults import Unfinished, Wrong
from .files import put_once
from .words import counted, in_words


# How often a table is drawn that isn't there yet, before all are taken for drawn.
TRIES = 1000


class Planned(NamedTuple):
    """A match of the plan: its number from 1 on, its name, who plays, by name, which meeting of these players it is,
    from 1 on, and who sits where."""

    number: int
    name: str
    players: Tuple[str, ...]
    meeting: int
    seats: Tuple[str, ...]

    @property
    def group(self):
        """What all seatings of one meeting have in common."""
        return self.players, self.meeting


def seatings(players, duplicate, meeting):
    """Who sits where, by the seatings' numbers. Two players sit both ways, three in all six orders, more in each rotation of the order
    in which they are given. Without duplicates each meeting has one seating, the next rotation each time."""
    rotations = [players[start:] + players[:start] for start in range(len(players))]
    if not duplicate:
        number = (meeting - 1) % len(players)
        return [(number, rotations[number])]
    orders = list(itertools.permutations(players)) if len(players) <= 3 else rotations
    return list(enumerate(orders))


def wanted(league, known):
    """The matches that the league's file asks for and that aren't known: name, players, meeting, seats. First meetings come first.
    Players are sorted by name, so that their order in the file doesn't matter. Those of a room are planned as players come."""
    if league.room:
        return
    secret, names, first, tables = deals.secret(league), {it.name for it in known}, {}, {}
    for it in known:
        first.setdefault(it.group, it)
        tables.setdefault(it.meeting, {})[it.players] = True
    for meeting in range(1, league.meetings + 1):
        for players in tables_of(league, secret, meeting, list(tables.get(meeting, ()))):
            order = order_of(league, secret, players, meeting, first.get((players, meeting)))
            for number, seats in seatings(order, league.duplicate, meeting):
                name = f"{'.'.join(players)}.{meeting}.{number}"
                if name not in names:
                    yield name, players, meeting, seats


def tables_of(league, secret, meeting, planned):
    """Who sits together in a meeting. Where so many tables are drawn, those of a meeting that is planned already stay."""
    players = sorted(league.players.keys() - league.withdrawn)
    if league.swiss:
        return rounds.pairs(league)
    if league.tables:
        return planned or drawn_tables(players, league.seats, league.tables, dice(secret, "tables", meeting))
    return [table for table in itertools.combinations(players, league.seats) if all(meets(league.players[name], table) for name in table)]


def meets(player, table):
    """Whether a player sits at a table: who plays some alone sits with them alone."""
    return not player.against or set(table) <= {player.name, *player.against}


def dice(secret, *words):
    """A generator of random numbers that the secret decides, and nobody can know beforehand."""
    return random.Random(hmac.digest(secret, " ".join(map(str, words)).encode(), "sha256"))


def drawn_order(league):
    """The players who haven't withdrawn, in an order that the secret decides."""
    order = sorted(league.players.keys() - league.withdrawn)
    dice(deals.secret(league), "order").shuffle(order)
    return order


def order_of(league, secret, players, meeting, known):
    """The order in which players sit, before it is rotated: with more than two drawn for each meeting, so that nobody always acts
    behind the same one. A meeting of which a match is known has that one's order."""
    if league.seats == 2 or (league.seats == 3 and league.duplicate):
        return players
    if known is not None:
        number = int(known.name.rpartition(".")[2])
        return (*known.seats[-number:], *known.seats[:-number]) if number else known.seats
    order = list(players)
    dice(secret, "seats", *players, meeting).shuffle(order)
    return tuple(order)


def drawn_tables(players, seats, count, drawn):
    """So many tables, at which each player sits as often as any other, one more or less; none is there twice as long as there are
    others."""
    sat, tables, most = Counter(), [], comb(len(players), seats)
    for number in range(min(count, most)):
        for _ in range(TRIES):
            drawn.shuffle(players := list(players))
            table = tuple(sorted(sorted(players, key=lambda name: sat[name])[:seats]))
            if table not in tables:
                break
        else:
            return tables
        tables.append(table)
        sat.update(table)
    return sorted(tables)


def group_size(league):
    """How many matches a group has."""
    return len(seatings(tuple(range(league.seats)), league.duplicate, 1))


def fixed(league):
    """What the results of all matches depend on."""
    return {
        "name": league.name, "game": league.game_path.read_text(encoding="latin-1"), "hands": league.hands,
        "duplicate": league.duplicate, "secret": deals.digest(league),
    }


def planned(league):
    """All matches of the league, by their numbers. Those that the league's file asks for and the plan doesn't have yet are
    added to it."""
    return extended(league, lambda known: wanted(league, known))


def add(league, players):
    """Plans the next meeting of some players, with duplicates all its seatings; its last match."""
    return extended(league, lambda known: next_meeting(league, known, tuple(sorted(players))))[-1]


def next_meeting(league, known, players):
    """The matches of the next meeting of some players, as `wanted` has them."""
    meeting = 1 + max((it.meeting for it in known if it.players == players), default=0)
    for number, seats in seatings(order_of(league, deals.secret(league), players, meeting, None), league.duplicate, meeting):
        yield f"{'.'.join(players)}.{meeting}.{number}", players, meeting, seats


def extended(league, lacking):
    """All matches of the plan, to which those are added that `lacking` names, given those that it has."""
    prepare(league)
    with open(league.folder / "plan", "a+", encoding="ascii") as file:
        fcntl.flock(file, fcntl.LOCK_EX)
        file.seek(0)
        text = file.read()
        if not text.endswith("\n") and text:
            text = text[: text.rfind("\n") + 1]
            file.truncate(len(text))
        have = text.splitlines()
        known = [match(league, number, it) for number, it in enumerate(have, start=1)]
        more = [line(name, players, meeting, seats) for name, players, meeting, seats in lacking(known)]
        if more:
            file.write("".join(it + "\n" for it in more))
            file.flush()
            os.fsync(file.fileno())
    return [match(league, number, it) for number, it in enumerate(have + more, start=1)]


def line(name, players, meeting, seats):
    return " ".join([name, str(meeting), *players, *seats])


def match(league, number, text):
    """The match of a line of the plan."""
    name, meeting, *people = text.split(" ")
    players, seats = tuple(people[: league.seats]), tuple(people[league.seats :])
    if len(seats) != len(players) or not meeting.isdigit():
        raise Wrong(f"{league.folder / 'plan'}: line {number} isn't one of a match")
    missing = next((player for player in players if player not in league.players), None)
    if missing is not None:
        who = f"the plan has matches of {missing}, whom the file doesn't name"
        raise Wrong(f"{league.path.name}: {who}; who leaves the league stays in it, with withdrawn = true")
    return Planned(number, name, players, int(meeting), seats)


def prepare(league):
    """Makes the league's folder, which its owner alone may enter, and sees that the file didn't change in what is fixed."""
    try:
        league.folder.mkdir(mode=0o700, parents=True, exist_ok=True)
        league.folder.chmod(0o700)
        for name in ("matches", "locks", "running"):
            (league.folder / name).mkdir(mode=0o700, exist_ok=True)
    except OSError as why:
        raise Unfinished(f"{why.filename} can't be made: {why.strerror}") from why
    path = league.folder / "fixed.json"
    if not path.exists():
        deals.draw(league)
    now = fixed(league)
    put_once(path, json.dumps(now, indent=1).encode())
    for key, value in json.loads(path.read_text()).items():
        if now.get(key) != value:
            raise Wrong(f"{league.path.name}: {key} was another one when the league began ({path}); begin another league for that")


def is_finished(league, planned):
    return (league.result_of(planned.name) / "result.json").exists()


def played(league, matches):
    """The matches that are finished or are to be played: the unfinished ones of who has withdrawn aren't."""
    gone = league.withdrawn
    return [it for it in matches if gone.isdisjoint(it.players) or is_finished(league, it)]


def counted_ones(league, matches):
    """The matches whose groups count, once they are finished. Of who has withdrawn these are finished groups alone, and of those as
    `keep` says: all, only those against opponents against whom all are finished, or none."""
    gone, unfinished = league.withdrawn, set()
    for it in matches:
        if not gone.isdisjoint(it.players) and not is_finished(league, it):
            unfinished.add(it.group)
    open_sets = {players for players, _ in unfinished}

    def counts(it):
        keeps = {league.players[name].keep for name in gone.intersection(it.players)}
        return it.group not in unfinished and "none" not in keeps and not ("complete" in keeps and it.players in open_sets)

    return [it for it in matches if counts(it)]


def count_groups(league, matches):
    """How many groups are finished, and how many there are."""
    whole, done = Counter(), Counter()
    for it in matches:
        whole[it.group] += 1
        done[it.group] += is_finished(league, it)
    return sum(done[group] == count for group, count in whole.items()), len(whole)


def seconds_a_match(league, finished):
    """How long a finished match took, on the average; none where none is finished."""
    times = []
    for it in finished:
        result = json.loads((league.result_of(it.name) / "result.json").read_text())
        times.append(result["ended"] - result["began"])
    return sum(times) / len(times) if times else None


def told(league, matches, jobs):
    """How many matches there are, and how long the rest takes by the speed so far, as lines of text."""
    finished = [it for it in matches if is_finished(league, it)]
    groups, whole = count_groups(league, matches)
    all_matches, of_hands = counted(len(matches), "match", "matches"), counted(league.hands, "hand")
    yield f"{league.name}: {all_matches} of {of_hands} in {counted(whole, 'group')} of {group_size(league)}"
    yield f"{counted(len(finished), 'match', 'matches')} and {counted(groups, 'group')} are finished"
    seconds, left = seconds_a_match(league, finished), len(matches) - len(finished)
    if seconds is None:
        yield "how long they take is known when one is finished"
    elif left:
        yield f"the rest takes about {in_words(seconds * left / jobs)}: {seconds:.1f} s a match so far, {jobs} at a time"
