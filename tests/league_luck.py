"""Tests of a league's results less luck. What is wanted is worked out by hand beside each, or by the second reader of luck."""
import json
import random
import re
import sys
from fractions import Fraction
from types import SimpleNamespace

sys.dont_write_bytecode = True

import luck_reader
from dealer_runs import NOLIMIT_2P
from league_figures import near, standing
from league_runs import League, command, test
from serving import TOP, want

sys.path.insert(0, str(TOP / "tools"))

from league_parts.groups import Played
from league_parts.plan import Planned
from league_parts.standings import INCIDENTS, Standings

CALLS = "true {port}"
PARTS = 4
# By match the chips of who sits first, and what is left of them without luck.
HANDS = {
    "alice.bob.1.0": ([300, -100, 400], [-10, 0, -20]), "alice.bob.1.1": ([200, -200, 300], [20, 10, 0]),
    "alice.bob.2.0": ([-400, 100, -60], [0, -5, -10]), "alice.bob.2.1": ([-300, 100, -40], [6, 5, 10]),
}


def tell_luck(league, name, adjusted):
    """Adds to an invented match of two what the results of who sits first are without luck, hand by hand."""
    folder, result = league.kept / "matches" / name, league.result(name)
    chips = [it[:2] for it in (line.split(":")[4].split("|") for line in league.log(name).splitlines() if line.startswith("STATE"))]
    lucks = [(int(first) - it) * PARTS for (first, _), it in zip(chips, adjusted)]
    seats = result["seats"]
    lines = [f"{at} {seats[seat]} {paid[seat]} {(1 - 2 * seat) * luck}/{PARTS}\n" for at, (paid, luck) in enumerate(zip(chips, lucks)) for seat in (0, 1)]
    (folder / f"{name}.luck").write_text("".join(lines))
    squares = sum((it * PARTS) ** 2 for it in adjusted)
    result.update(parts=PARTS, luck=[sum(lucks), -sum(lucks)], adjusted_squares=[squares, squares])
    (folder / "result.json").write_text(json.dumps(result))


def lucky(**entries):
    """The league of the page's worked example, whose luck is known."""
    league = League({"bob": CALLS, "alice": CALLS}, hands=3, meetings=2, **entries)
    league.invent({name: chips for name, (chips, _) in HANDS.items()})
    for name, (_, adjusted) in HANDS.items():
        tell_luck(league, name, adjusted)
    return league


@test
def a_worked_example_of_luck():
    """Alice is at seat 0 of seating 0 and at seat 1 of seating 1. Less luck she wins -30 and -30 in meeting 1, -15 and -21 in
    meeting 2. By groups x is 1000 x -60 / 6 / 100 = -100 and 1000 x -36 / 6 / 100 = -60: m = -80, v = (20^2 + 20^2) / 1 / 2 = 400,
    t(1) x 20 = 254.124. By hands her two seatings together give -30 -10 -20 -6 -10 -20 chips, each 5 mbb: m = -80,
    v = 25 x 400 / 5 / 6 = 333.333, t(5) x 18.2574 = 46.932. With luck she has +150 (see the worked example without)."""
    league = lucky()
    by_group, by_hand = league.figures("--unit", "group"), league.figures()
    for figures, plain, half in ((by_group, 4447.17, 254.124), (by_hand, 439.0135, 46.932)):
        for name, sign in (("alice", 1), ("bob", -1)):
            for found in (standing(figures, name), next(it for it in figures["cells"] if it["player"] == name)):
                near(found["mean"], sign * 150, "the mean")
                near(found["half"], plain, "the interval", 0.01)
                near(found["adjusted_mean"], sign * -80, "the mean less luck")
                near(found["adjusted_half"], half, "its interval", 0.01)
    want([it["player"] for it in by_hand["standings"]] == ["alice", "bob"], "luck ranks, which the file doesn't name")
    text = league.table()
    want(re.search(r"1 +alice +\+150\.0 ± 439\.0 +± 1605\.7 +-80\.0 ± 46\.9 +1 +0", text), f"the table is {text}")
    want(re.search(r"\nalice +bob +\+150\.0 ± 439\.0 +± 1605\.7 +-80\.0 ± 46\.9 +2  by hands", text), f"the table is {text}")
    want("luck-adjusted" in league.does("page", "--hands", "none")[0] + (league.kept / "page.html").read_text(), "the page has no such column")


@test
def luck_ranks_where_the_file_names_it():
    """The same league: less luck bob is 160 ahead, and 2 x 46.932 leaves 0 out."""
    league = lucky(rank_by="luck")
    figures, text = league.figures(), league.table()
    want([it["player"] for it in figures["standings"]] == ["bob", "alice"] and figures["rank_by"] == "luck", f"the ranks are {figures['standings']}")
    ahead = figures["neighbours"][0]
    near(ahead["mean"], 160, "the difference")
    near(ahead["half"], 93.864, "its interval", 0.02)
    want(ahead["told_apart"], "bob and alice aren't told apart")
    near(standing(figures, "bob")["mean"], -150, "the mean with luck")
    want("players are ranked and told apart by their results less luck" in text, f"the table is {text}")
    near(figures["ratings"][0]["mean"], 40, "the rating of who is expected to win 80 against the other")


@test
def a_match_of_an_earlier_program_tells_no_luck():
    league = lucky()
    result = league.result("alice.bob.2.1")
    for key in ("parts", "luck", "adjusted_squares"):
        del result[key]
    (league.kept / "matches/alice.bob.2.1/result.json").write_text(json.dumps(result))
    want("luck" not in league.table() and "adjusted_mean" not in league.table("--json"), "the table has a column that lacks a match")
    league.entries["rank_by"] = "luck"
    league.write()
    said = league.does("table", status=1)[1]
    want("alice.bob.2.1 doesn't tell its luck, by which rank_by ranks: an earlier program dealt it" in said, f"it says {said}")
    league.entries["rank_by"] = "skill"
    league.write()
    want("rank_by is plain or luck, not 'skill'" in league.does("table", status=2)[1], "rank_by = skill is taken")


@test
def luck_of_a_played_league():
    """Two bots of the tests; the second reader tells of each log what the league has."""
    league = League({"a": command("raises"), "b": command("calls")}, hands=6, meetings=2)
    league.does("run")
    game, total = luck_reader.Game((TOP / "examples" / NOLIMIT_2P).read_text()), Fraction(0)
    for name, log in league.logs().items():
        told = (league.kept / "matches" / name / f"{name}.luck").read_text()
        want(told == luck_reader.lines_of(game, log.encode()), f"another luck of {name}")
        for _, names, paid, lucks in luck_reader.Luck(game, log.encode()).hands():
            total += paid[names.index("a")] - Fraction(lucks[names.index("a")], game.parts)
    mean = total * 1000 / len(league.logs()) / 6 / max(game.blinds)
    near(standing(league.figures(), "a")["adjusted_mean"], float(mean), "the mean less luck", 0.00001)


def drawn(dice, mean, noise, luck, meetings=10, hands=1000):
    """A league of two whose luck is known: chips are a true mean, noise, and luck."""
    plan, matches, pair = [], [], ("a", "b")
    for meeting in range(1, meetings + 1):
        planned = Planned(meeting, f"a.b.{meeting}", pair, meeting, pair)
        skill, drawn_luck = round(dice.gauss(mean, noise)), round(dice.gauss(0, luck))
        chips = skill + drawn_luck
        plan.append(planned)
        result = {"seats": pair, "chips": [chips, -chips], "squares": [chips * chips] * 2, **dict.fromkeys(INCIDENTS, [0, 0])}
        result.update(parts=1, luck=[drawn_luck, -drawn_luck], adjusted_squares=[skill * skill] * 2)
        matches.append(Played(planned, result))
    league = SimpleNamespace(players=["a", "b"], seats=2, blind=100, hands=hands)
    return Standings(league, plan, matches)


@test
def intervals_less_luck_cover_in_nineteen_of_twenty_drawn_leagues():
    """1,000 leagues of two players, ten groups each; 930 to 970 are three standard errors. Luck has four times the spread of the
    rest, so it takes 17 times as many matches to have intervals as narrow with it."""
    dice, covered, plain, halves = random.Random(86), 0, 0, []
    for _ in range(1000):
        standings = drawn(dice, 3000, 10000, 40000)
        own, less = standings.of("a").interval, standings.adjusted.of("a").interval
        covered, plain = covered + less.covers(Fraction(3000 * 1000, 1000 * 100)), plain + own.covers(Fraction(3000 * 1000, 1000 * 100))
        halves.append((own.half**2, less.half**2))
    want(930 <= covered <= 970 and 930 <= plain <= 970, f"{covered} of 1000 intervals less luck cover the mean, and {plain} with it")
    with_luck, less_luck = map(sum, zip(*halves))
    near(with_luck / less_luck, 17, "by how many times as many matches they are narrower", 1)
