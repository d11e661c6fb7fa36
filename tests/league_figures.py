"""Tests of the figures of tools/league. What is wanted is worked out by hand beside each."""
import random
import re
import sys
from fractions import Fraction
from math import gamma, pi, sqrt
from types import SimpleNamespace

sys.dont_write_bytecode = True

from dealer_runs import NOLIMIT_3P
from league_runs import League, test
from serving import TOP, want

sys.path.insert(0, str(TOP / "tools"))

from league_parts.estimates import combined, estimate
from league_parts.groups import Played
from league_parts.plan import Planned
from league_parts.standings import INCIDENTS, Standings
from league_parts.students_t import t

CALLS = "true {port}"


def near(found, wanted, what, margin=0.001):
    want(found is not None and abs(found - wanted) <= margin, f"{what} is {found}, not {wanted}")


def standing(figures, name):
    return next(it for it in figures["standings"] if it["player"] == name)


def cell(figures, name, against):
    return next(it for it in figures["cells"] if (it["player"], it["against"]) == (name, against))


def three(meetings, **chips):
    """A league of a, b and c without duplicates, each match one hand of a blind of 100: one chip is 10 mbb."""
    league = League({"a": CALLS, "b": CALLS, "c": CALLS}, hands=1, meetings=meetings, duplicate=False)
    rotated = {}
    for pair, hands in chips.items():
        for meeting, it in enumerate(hands, start=1):
            seating = (meeting - 1) % 2
            rotated[f"{pair[0]}.{pair[1]}.{meeting}.{seating}"] = [-it if seating else it]
    league.invent(rotated)
    return league


def by_area(freedom):
    """Student's t at 97.5 %, also for a broken number: to where the area below its density, by Simpson's rule, is 0.475 from 0 on."""
    scale = gamma((freedom + 1) / 2) / sqrt(pi * freedom) / gamma(freedom / 2)

    def area(value, steps=400):
        heights = [scale * (1 + (value * at / steps) ** 2 / freedom) ** (-(freedom + 1) / 2) for at in range(steps + 1)]
        return value / steps / 3 * (heights[0] + heights[-1] + 4 * sum(heights[1::2]) + 2 * sum(heights[2:-1:2]))

    least, most = 1.9, 13.0
    for _ in range(40):
        middle = (least + most) / 2
        least, most = (middle, most) if area(middle) < 0.475 else (least, middle)
    return middle


@test
def students_t_is_that_of_printed_tables():
    """And of broken numbers that of the area below its density."""
    for freedom, value in (
        (1, 12.7062), (2, 4.3027), (5, 2.5706), (9, 2.2622), (10, 2.2281), (29, 2.0452), (30, 2.0423), (40, 2.0211), (60, 2.0003), (120, 1.9799),
        (1000, 1.9623), (10**9, 1.9600),
    ):
        near(t(freedom), value, f"t({freedom})", 0.00006)
    for freedom in (1.1245, 1.4706, 2.4545, 7.5, 33.3):
        near(t(freedom), by_area(freedom), f"t({freedom})", 0.0001)
    want(t(0.7) == t(1), "fewer degrees of freedom than one")


@test
def the_worked_example_of_the_page():
    """Two meetings, two seatings, three hands, a blind of 100; alice's chips: meeting 1 +300 -100 +400 and -200 +200 -300,
    meeting 2 -400 +100 -60 and +300 -100 +40. By groups x is 1000 x 300 / 6 / 100 = 500 and 1000 x -120 / 6 / 100 = -200:
    m = 150, v = (350^2 + 350^2) / 1 / 2 = 122500, t(1) x 350 = 4447.17. By hands x is 500 500 500 -500 0 -100: m = 150,
    v = 875000 / 5 / 6 = 29166.667, t(5) x 170.7825 = 439.0135. Plain v = (70520000 - 12 x 150^2) / 11 / 12 = 532196.97,
    t(11) x 729.5183 = 1605.66."""
    league = League({"bob": CALLS, "alice": CALLS}, hands=3, meetings=2)
    league.invent({
        "alice.bob.1.0": [300, -100, 400], "alice.bob.1.1": [200, -200, 300],
        "alice.bob.2.0": [-400, 100, -60], "alice.bob.2.1": [-300, 100, -40],
    })
    by_group, by_hand = league.figures("--unit", "group"), league.figures()
    want(by_hand == league.figures("--unit", "hand"), "two groups are counted otherwise than by hands")
    for figures, half, freedom in ((by_group, 4447.17, 1), (by_hand, 439.0135, 5)):
        for name, sign in (("alice", 1), ("bob", -1)):
            for found in (standing(figures, name), cell(figures, name, "bob" if name == "alice" else "alice")):
                near(found["mean"], sign * 150, "the mean")
                near(found["half"], half, "the interval", 0.01)
                near(found["freedom"], freedom, "nu")
                near(found["plain_half"], 1605.66, "the plain interval", 0.02)
        near(figures["neighbours"][0]["mean"], 300, "the difference")
        near(figures["neighbours"][0]["half"], 2 * half, "its interval", 0.02)
    want(by_hand["neighbours"][0]["told_apart"] is False, "150 - -150 of 878 is told apart")
    text = league.table()
    row = r"1 +alice +\+150\.0 ± 439\.0 +± 1605\.7 +1 +0 +0 +0 +0  by hands: too small where bots learn\n"
    want(re.search(row, text), f"the table is {text}")
    want("alice - bob: +300.0 ± 878.0, not told apart" in text, f"the table is {text}")
    want("by hands" not in league.table("--unit", "group"), "groups are marked as hands")


@test
def a_standing_adds_up_opponents():
    """x of a against b: 10 30, m 20, v 100; against c: 30 70, m 50, v 400; of b against c: -10 10, m 0, v 100. M of a is 35,
    V = 500 / 4 = 125, nu = 125^2 / (25^2 + 100^2) = 1.4706. D of a and b is 35 - -10 = 45, V = (400 + 100 + 4 x 100) / 4 = 225,
    nu = 225^2 / (100^2 + 25^2 + 100^2) = 2.4545. D of b and c is -10 - -25 = 15, V = (100 + 400 + 4 x 100) / 4 = 225, nu the same."""
    figures = three(2, ab=[1, 3], ac=[3, 7], bc=[-1, 1]).figures("--unit", "group")
    want([it["player"] for it in figures["standings"]] == ["a", "b", "c"], "another order")
    near(standing(figures, "a")["mean"], 35, "M of a")
    near(standing(figures, "a")["half"], by_area(1.470588) * sqrt(125), "its interval", 0.01)
    near(standing(figures, "a")["freedom"], 1.4706, "its nu")
    near(standing(figures, "c")["mean"], -25, "M of c")
    for it, mean in zip(figures["neighbours"], (45, 15)):
        near(it["mean"], mean, "D")
        near(it["half"], by_area(2.454545) * 15, "its interval", 0.01)
        near(it["freedom"], 2.4545, "its nu")
        want(not it["told_apart"], "neighbours are told apart")


@test
def five_groups_are_enough():
    """With four groups the unit is the hand, with five the group; here a group is one hand, so nothing else differs."""
    for meetings, unit in ((4, "hand"), (5, "group")):
        figures = three(meetings, ab=[1] * meetings, ac=[2] * meetings, bc=[3] * meetings).figures()
        want({it["unit"] for it in figures["cells"] + figures["standings"]} == {unit}, f"{meetings} groups: {figures['cells'][0]}")
        want(figures["cells"][0]["half"] == 0 and figures["cells"][0]["freedom"] is None, "equal units have an interval")
        want({it["unit"] for it in figures["neighbours"]} == {unit}, f"{meetings} groups: neighbours by another unit")
        want([it["told_apart"] for it in figures["neighbours"]] == [False, False], "units that never varied tell players apart")


@test
def neighbours_are_told_apart_by_units_that_vary():
    """x of a against b: 10 20 30 40 50, m 30, v 50; against c always 10, and b against c always 10. M are 20, -10 and -10.
    D of a and b is 30, V = 4 x 50 / 4 = 50, nu 4, 2.7764 x 7.0711 = 19.6321: told apart. D of b and c is 0, V = 50 / 4,
    2.7764 x 3.5355 = 9.8161."""
    league = three(5, ab=[1, 2, 3, 4, 5], ac=[1] * 5, bc=[1] * 5)
    found = league.figures()["neighbours"]
    for it, (mean, half, told) in zip(found, ((30, 19.6321, True), (0, 9.8161, False))):
        near(it["mean"], mean, "D")
        near(it["half"], half, "its interval")
        want(it["told_apart"] is told, f"told apart: {it}")
    want("a - b: +30.0 ± 19.6\nb - c: 0.0 ± 9.8, not told apart\n" in league.table(), "the table says it otherwise")
    page = (league.does("page"), (league.kept / "page.html").read_text())[1]
    want('<td class="won">+30.0 ± 19.6</td>' in page and '"won">+10.0 ± 0.0' not in page, "the page colours units that never varied")


@test
def opponents_who_were_not_met():
    """a met b (x 10 30, m 20, v 100) and c (30 70, m 50, v 400), who haven't met each other: k of a is 2, of b and c 1. M are
    35, -20, -50. D of a and b is 55, V = 400 / 2^2 + (1/2 + 1/1)^2 x 100 = 100 + 225 = 325, nu = 325^2 / (100^2 + 225^2) =
    1.7423. D of b and c is 30, V = 100 + 400, nu = 500^2 / (100^2 + 400^2) = 1.4706, t 6.1880: 138.3691."""
    league = three(2, ab=[1, 3], ac=[3, 7])
    figures, text = league.figures("--unit", "group", status=1), league.table("--unit", "group", status=1)
    want([(it["player"], it["met"], it["planned"]) for it in figures["standings"]] == [("a", 2, 2), ("b", 1, 2), ("c", 1, 2)], "met others")
    wanted = (55, by_area(1.742268) * sqrt(325), 1.7423), (30, by_area(1.470588) * sqrt(500), 1.4706)
    for it, (mean, half, freedom) in zip(figures["neighbours"], wanted):
        near(it["mean"], mean, "D")
        near(it["half"], half, "its interval", 0.01)
        near(it["freedom"], freedom, "its nu")
    marked = [line.split()[1] for line in text.splitlines() if line.endswith("  met 1 of 2")]
    want(marked == ["b", "c"], f"the table is {text}")
    by_hands = league.table(status=1)
    want("met 1 of 2; by hands: too small where bots learn" in by_hands, f"the table is {by_hands}")
    want("b - c: +30.0 ± 138.4, not told apart, by hands: too small where bots learn" in by_hands, f"the table is {by_hands}")


@test
def opponents_weigh_alike_in_an_unfinished_league():
    """a has five groups of 10 against b and three of -30 against c: M of a is -10, and not -5, the mean of all eight groups.
    The table says so while groups are missing, and no longer when none is."""
    league, text = three(5, ab=[1] * 5, ac=[-3] * 3), "a mean weighs all opponents that the player met alike"
    near(standing(league.figures(status=1), "a")["mean"], -10, "M of a")
    want(text in league.table(status=1), f"the table is {league.table(status=1)}")
    page = (league.does("page"), (league.kept / "page.html").read_text())[1]
    want(text in page, "the page doesn't say it")
    whole = three(1, ab=[1], ac=[-3], bc=[1]).table()
    want(text not in whole and "± ? stands behind one result alone" in whole, f"the table is {whole}")


@test
def one_of_each_is_told_in_the_singular():
    """One match of one hand, which is one group and gives one cell."""
    league = League({"a": CALLS, "b": CALLS}, hands=1, duplicate=False)
    begun = league.does("plan")[0]
    want("l: 1 match of 1 hand in 1 group of 1\n0 matches and 0 groups are finished\n" in begun, f"the plan is {begun}")
    league.invent({"a.b.1.0": [5]})
    text, ended = league.table(), league.does("plan")[0]
    want("2 players, 1 hand a match" in text and "1 of 1 match and 1 of 1 group are finished\n" in text, f"the table is {text}")
    want("misses the true value in 1 of 20 leagues. " in text and "cells" not in text, f"the table is {text}")
    want("1 match and 1 group are finished" in ended, f"the plan is {ended}")
    rest = League({"a": CALLS, "b": CALLS}, hands=1).table(status=1)
    want("0 of 2 matches and 0 of 1 group are finished; 1 group with an unfinished match doesn't count" in rest, f"the table is {rest}")


@test
def neighbours_who_met_different_opponents():
    """a met b (x 10 30) and c (3000 3070, m 3035, v 1225), b and c met a alone: apart from each other a met c and b nobody, b
    and c the same. D of a and b is 1527.5 - -20, V = 1225 / 4 + (1/2 + 1/1)^2 x 100 = 531.25, nu = 531.25^2 / (306.25^2 +
    225^2) = 1.9543, t 4.4005: 101.4281: 0 is left out, which is no difference of strength. D of b and c is -20 + 3035,
    V = 100 + 1225, nu = 1325^2 / (100^2 + 1225^2) = 1.1622. In the finished league all met the same."""
    league = three(2, ab=[1, 3], ac=[300, 307])
    found, text = league.figures("--unit", "group", status=1)["neighbours"], league.table("--unit", "group", status=1)
    for it, (mean, half, same) in zip(found, ((1547.5, by_area(1.954327) * sqrt(531.25), False), (3015, by_area(1.162186) * sqrt(1325), True))):
        near(it["mean"], mean, "D")
        near(it["half"], half, "its interval", 0.02)
        want((it["same_opponents"], it["told_apart"]) == (same, same), f"the neighbours are {it}")
    lines = "a - b: +1547.5 ± 101.4, not told apart, met different opponents", f"b - c: +3015.0 ± {by_area(1.162186) * sqrt(1325):.1f}"
    want("\n".join(lines) + "\n" in text, f"the table is {text}")
    page = (league.does("page"), (league.kept / "page.html").read_text())[1]
    want("<td>+1547.5 ± 101.4</td>" in page and page.count("met different opponents") == 2, "the page colours or doesn't mark them")
    whole = three(2, ab=[1, 3], ac=[300, 307], bc=[1, 1])
    want(all(it["same_opponents"] for it in whole.figures()["neighbours"]), "a finished league has different opponents")
    whole.does("page")
    want("different opponents" not in (whole.kept / "page.html").read_text(), "the page warns of a finished league")


@test
def files_with_other_numbers_of_hands():
    """A result, or a log, that has two hands where each match has three: no figure is printed."""
    for broken, file in (([[1, 1, 1], [1, 1]], "result.json"), ([[1, 1, 1], [1, 1, 1]], "a.b.1.1.log")):
        league = League({"a": CALLS, "b": CALLS}, hands=3)
        league.invent(dict(zip(("a.b.1.0", "a.b.1.1"), broken)))
        log = league.kept / "matches/a.b.1.1/a.b.1.1.log"
        log.write_text("".join(line for line in log.read_text().splitlines(True) if not line.startswith("STATE:2:")))
        printed, said = league.does("table", status=1)
        want(f"{file} has 2 hands, and a match of this league has 3" in said and not printed, f"{file}: {printed}{said}")


@test
def winners_by_bankroll_and_by_run_off():
    """a beats b by 20 and loses 10 to c, b beats c by 60: M are 5, 20 and -25. c goes first; of the others a beats b."""
    figures = three(1, ab=[2], ac=[-1], bc=[6]).figures()
    want([(it["player"], it["rank"], it["run_off"]) for it in figures["standings"]] == [("b", 1, 2), ("a", 2, 1), ("c", 3, 3)], "other ranks")
    want(figures["standings"][0]["half"] is None and "+20.0 ± ?" in three(1, ab=[2], ac=[-1], bc=[6]).table(), "one unit has an interval")
    equal = three(1, ab=[2], ac=[-2], bc=[2]).figures()
    want([(it["player"], it["rank"], it["run_off"]) for it in equal["standings"]] == [("a", 1, 1), ("b", 1, 2), ("c", 1, 3)], "equal ones")


@test
def a_run_off_of_equal_players_goes_by_their_names():
    """Nobody won a chip. The last by name goes first, also where one name begins another: b, then ab."""
    league = League({"ab": CALLS, "b": CALLS, "a": CALLS}, hands=1)
    league.does("plan")
    league.invent({line.split(" ")[0]: [0] for line in league.plan()})
    found = [(it["player"], it["rank"], it["run_off"]) for it in league.figures()["standings"]]
    want(found == [("a", 1, 1), ("ab", 1, 2), ("b", 1, 3)], f"the standings are {found}")


@test
def groups_with_an_unfinished_part_do_not_count():
    """Of two meetings the second has one seating alone: its match stands in no figure."""
    league = League({"a": CALLS, "b": CALLS, "c": CALLS}, hands=2, meetings=2)
    league.invent({"a.b.1.0": [3, 1], "a.b.1.1": [-1, -3], "a.b.2.0": [100, 100]})
    figures, text = league.figures(status=1), league.table(status=1)
    want(figures["groups"] == {"planned": 6, "finished": 1} and figures["matches"] == {"planned": 12, "finished": 3}, "other counts")
    near(cell(figures, "a", "b")["mean"], 20, "the mean of the finished group")
    want("5 groups with an unfinished match don't count" in text, f"the table says {text}")
    found = [(it["player"], it["mean"], it["rank"], it["run_off"]) for it in figures["standings"]]
    want(found == [("a", 20.0, 1, 1), ("b", -20.0, 2, 2), ("c", None, None, None)], f"the standings are {found}")


@test
def three_at_a_table():
    """By groups of all six orders, one hand each, the same result in each: a +6 +2, b 0 +4, c -6 -6 chips of a blind of 100.
    m of a is 40, v = (20^2 + 20^2) / 2 = 400, 12.7062 x 20 = 254.124. a - b is 60 and -20: D = 20, v = 1600: 508.248."""
    league = League({"a": CALLS, "b": CALLS, "c": CALLS}, game=NOLIMIT_3P, hands=1, meetings=2)
    league.does("plan")
    results = {1: {"a": 6, "b": 0, "c": -6}, 2: {"a": 2, "b": 4, "c": -6}}
    lines = [line.split(" ") for line in league.plan()]
    league.invent({name: [[results[int(meeting)][it] for it in people[3:]]] for name, meeting, *people in lines})
    figures = league.figures("--unit", "group")
    near(cell(figures, "a", "b c")["mean"], 40, "m of a")
    near(cell(figures, "a", "b c")["half"], 254.124, "its interval")
    near(figures["neighbours"][0]["mean"], 20, "D of a and b")
    near(figures["neighbours"][0]["half"], 508.248, "its interval")
    want([(it["player"], it["run_off"]) for it in figures["standings"]] == [("a", 1), ("b", 2), ("c", 3)], "another order")


@test
def sets_of_three_in_an_unfinished_league():
    """a b c met twice: a +6 +2, b 0 +4, c -6 -6 chips of a blind of 100; a b d twice: a +2 +6, b -4 -12, d +2 +6; the other two
    sets never. So k of a and b is 2, of c and d 1. M are 40, -30, -60, 40. D of a and d: x is a / 2 - d with d, -10 -30, v 100,
    and a / 2 without, 30 10, v 100: D = 0, V = 200, nu = 2, 4.3027 x 14.1421 = 60.8494. D of d and b: d - b / 2 is 40 120, v
    1600, -b / 2 is 0 -20, v 100: D = 70, nu = 1700^2 / (1600^2 + 100^2) = 1.1245. D of b and c: b / 2 - c is 60 80, v 100,
    b / 2 is -20 -60, v 400: D = 30, nu 1.4706."""
    league = League(dict.fromkeys("abcd", CALLS), game=NOLIMIT_3P, hands=1, meetings=2)
    league.does("plan")
    chips = {("a", "b", "c"): ((6, 0, -6), (2, 4, -6)), ("a", "b", "d"): ((2, -4, 2), (6, -12, 6))}
    results = {(players, meeting): dict(zip(players, it)) for players, found in chips.items() for meeting, it in enumerate(found, start=1)}
    lines = [line.split(" ") for line in league.plan()]
    known = [(name, people[3:], results.get((tuple(people[:3]), int(meeting)))) for name, meeting, *people in lines]
    league.invent({name: [[found[it] for it in seats]] for name, seats, found in known if found})
    figures, text = league.figures("--unit", "group", status=1), league.table("--unit", "group", status=1)
    found = [(it["player"], it["mean"], it["met"], it["planned"]) for it in figures["standings"]]
    want(found == [("a", 40, 2, 3), ("d", 40, 1, 3), ("b", -30, 2, 3), ("c", -60, 1, 3)], f"the standings are {found}")
    for it, (mean, half) in zip(figures["neighbours"], ((0, 60.8494), (70, by_area(1.124514) * sqrt(1700)), (30, by_area(1.470588) * sqrt(500)))):
        near(it["mean"], mean, "D")
        near(it["half"], half, "its interval", 0.02)
        want(not it["same_opponents"], f"the same opponents: {it}")
    want("24 of 48 matches and 4 of 8 groups are finished; 4 groups with an unfinished match don't count" in text, f"the table is {text}")


def drawn(dice, names, means, meetings, hands=1000):
    """Matches without duplicates of some pairs: each has a true mean in chips a match, and normal noise of its own size."""
    plan, matches = [], []
    for number, (pair, (mean, noise)) in enumerate(means.items(), start=1):
        for meeting in range(1, meetings + 1):
            planned = Planned(len(plan) + 1, f"{number}.{meeting}", pair, meeting, pair)
            chips = round(dice.gauss(mean, noise))
            plan.append(planned)
            result = {"seats": pair, "chips": [chips, -chips], "squares": [chips * chips] * 2}
            matches.append(Played(planned, {**result, **dict.fromkeys(INCIDENTS, [0, 0])}))
    league = SimpleNamespace(players=names, seats=2, blind=100, hands=hands)
    return Standings(league, plan, matches)


@test
def intervals_cover_in_nineteen_of_twenty_drawn_leagues():
    """1,000 leagues of one player against five, ten groups each; and 1,000 of three players, where the difference of two is
    looked at, whoever is ahead. 930 to 970 are three standard errors."""
    dice, covered, told = random.Random(67), 0, 0
    names = ["hero", *"abcde"]
    means = {("hero", name): (20000 * at - 30000, 50000 * (at + 1)) for at, name in enumerate("abcde")}
    true = Fraction(sum(mean for mean, _ in means.values()), 5) * 1000 / 1000 / 100
    others = {("a", "b"): (3000, 40000), ("a", "c"): (-5000, 90000), ("b", "c"): (9000, 20000)}
    ahead = Fraction(1, 100) * (Fraction(3000 - 5000, 2) - Fraction(-3000 + 9000, 2))
    for _ in range(1000):
        hero = next(it for it in drawn(dice, names, means, 10).standings if it.name == "hero")
        covered += hero.interval.covers(true)
        league = drawn(dice, ["a", "b", "c"], others, 10)
        by_name = {it.name: it for it in league.standings}
        told += league.side_by_side(by_name["a"], by_name["b"]).ahead.covers(ahead)
    want(930 <= covered <= 970, f"{covered} of 1000 intervals cover a player's mean")
    want(930 <= told <= 970, f"{told} of 1000 intervals cover the difference of two")


@test
def nothing_is_lost_by_rounding():
    """Great sums with small differences: the variance of 10^15 and 10^15 + 2 is 2, that of their mean 1."""
    found = estimate([10**15, 10**15 + 2])
    want((found.mean, found.variance) == (10**15 + 1, 1.0), f"it is {found}")
    want(combined([(Fraction(1), found)]).freedom == 1, "nu of two units isn't 1")
