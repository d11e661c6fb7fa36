"""Tests of who meets whom in a league, where they sit, and of ratings over different opponents. What is wanted is worked out by hand
beside each."""
import sys
from collections import Counter
from itertools import combinations

sys.dont_write_bytecode = True

from dealer_runs import NOLIMIT_3P, NOLIMIT_6P
from league_figures import by_area, near
from league_files import planned
from league_runs import Bots, League, test
from serving import TOP, want

sys.path.insert(0, str(TOP / "tools"))

from league_parts import rounds

CALLS = "true {port}"


@test
def the_order_at_a_table_is_drawn():
    """Of six players: in each meeting each sits in each seat once, and by the drawn orders of 60 meetings who acts behind a is each of
    the others, at least once and at most 35 times (12 are expected). The lines of a plan stay when it grows."""
    league = League(dict.fromkeys("abcdef", CALLS), game=NOLIMIT_6P, meetings=60)
    found = planned(league)
    behind = Counter()
    for meeting in range(60):
        orders = [seats for _, seats in found[6 * meeting : 6 * meeting + 6]]
        want(all(sorted(column) == list("abcdef") for column in zip(*orders)), f"meeting {meeting + 1} sits as {orders}")
        behind[(orders[0] * 2)[orders[0].index("a") + 1]] += 1
    want(set(behind) == set("bcdef") and all(1 <= count <= 35 for count in behind.values()), f"behind a sit {behind}")
    league.entries["meetings"] = 61
    league.write()
    want(planned(league)[:360] == found, "a line of the plan has changed")


@test
def a_plan_of_fixed_orders_stays():
    """Of a meeting that an earlier version planned, with fixed orders, one line was torn: it is added in that meeting's order."""
    league = League(dict.fromkeys("abcd", CALLS), game=NOLIMIT_3P, duplicate=False, meetings=2)
    league.does("plan")
    lines = league.plan()
    old = ["a.b.c.1.0 1 a b c a b c", "a.b.d.1.0 1 a b d a b d", "a.c.d.1.0 1 a c d a c d", "b.c.d.1.0 1 b c d b c d"]
    (league.kept / "plan").write_text("\n".join(old[:3]) + "\n")
    league.does("plan")
    names = [sorted(it.split(" ")[0] for it in found) for found in (league.plan(), lines)]
    want(league.plan()[:3] == old[:3] and names[0] == names[1], f"the plan is {league.plan()}")


@test
def so_many_tables_are_drawn():
    """Twelve players, fifty tables of six a meeting: each sits at 25 of each meeting's, no table is there twice in one, and another
    meeting has others. Fifty are 5,544 matches less 5,244."""
    league = League({f"p{number:02}": CALLS for number in range(12)}, game=NOLIMIT_6P, meetings=2, tables=50)
    found = planned(league)
    want(len(found) == 2 * 50 * 6, f"there are {len(found)} matches")
    tables = [{tuple(sorted(seats)) for name, seats in found if name.split(".")[-2] == meeting} for meeting in "12"]
    for drawn in tables:
        want(len(drawn) == 50 and set(Counter(name for table in drawn for name in table).values()) == {25}, "a player sits more often than another")
    want(tables[0] != tables[1], "both meetings have the same tables")
    league.add("new", CALLS)
    league.entries["meetings"] = 3
    league.write()
    more = planned(league)
    want(more[:600] == found and {name.split(".")[-2] for name, _ in more[600:]} == {"3"}, "a planned meeting has changed")
    sat = Counter(name for _, seats in more[600:] for name in seats)
    want(sorted(sat.values()) == [23 * 6] * 12 + [24 * 6], f"of 13 players one sits once more: {sat}")


@test
def a_player_against_house_bots_alone():
    """a and b are tried against h and i, who play each other too: a and b don't meet."""
    league = League({"h": CALLS, "i": CALLS})
    league.add("a", CALLS, against=["h", "i"])
    league.add("b", CALLS, against=["h", "i"])
    pairs = {tuple(sorted(seats)) for _, seats in planned(league)}
    want(pairs == {("a", "h"), ("a", "i"), ("b", "h"), ("b", "i"), ("h", "i")}, f"pairs are {pairs}")
    league.players["b"]["against"] = ["nobody"]
    league.write()
    want("against of b names nobody, who is no other player of the file" in league.does("plan", status=2)[1], "nobody is met")


@test
def rounds_are_paired_by_results():
    """Five players, three rounds: nobody meets anybody twice, a round begins once the one before is finished, and each round another
    one has a bye. `run` plays all of them."""
    league = League({name: Bots.command(seed) for seed, name in enumerate("abcde", start=1)}, hands=2, swiss=3)
    said = league.does("run", "--jobs", "2")[1]
    found = [line for line in said.splitlines() if line.startswith("league: round ")]
    want(len(found) == 3 and all(f"round {number} of 3: " in line for number, line in enumerate(found, start=1)), f"it says {found}")
    want(len({line.rpartition("; ")[2] for line in found}) == 3 and all(line.endswith(" has a bye") for line in found), f"byes: {found}")
    pairs = [tuple(sorted(seats)) for _, seats in planned(league)[::2]]
    want(len(pairs) == len(set(pairs)) == 6 and len(league.logs()) == 12, f"pairs are {pairs}")
    text = league.table()
    want("Pairs were made by results: no interval here holds" in text and "ratings by least squares" in text, f"the table is {text}")


@test
def nobody_is_paired_twice():
    """a is first, then b, c, d. a met b and c, so he meets d, though c is above him; of three players the last who had no bye has it.
    Four players have three rounds, and no fourth."""
    want(rounds.paired(list("abcd"), {frozenset("ab"), frozenset("ac")}) == [("a", "d"), ("b", "c")], "other pairs")
    want(rounds.paired(list("abcd"), {frozenset("cd")}) == [("a", "c"), ("b", "d")], "the last two meet again")
    want(rounds.byes_of(list("abc"), ["c", None]) == ["b", "a", "c"], "another bye")
    met = {frozenset(pair) for pair in combinations("abcd", 2)}
    want(rounds.paired(list("abcd"), met) is None, "somebody meets somebody twice")


@test
def ratings_over_different_opponents():
    """One chip is 10 mbb. a won 10 and 30 of b, m 20, v 100; b lost and won 10 of c, m 0, v 100; a won 30 and 70 of c, m 50, v 400. With
    s = a - c the sum of (a - b - 20)^2 / 100, (b - c)^2 / 100 and (s - 50)^2 / 400 is least where a - b is 25 and b - c 5: a 55 / 3, b
    -20 / 3, c -35 / 3. It is 1/4 + 1/4 + 1 = 1.5 there, at 3 - 2 degrees of freedom. a is m(ab) / 2 + m(bc) / 6 + m(ac) / 6: V = 25 +
    100 / 36 + 400 / 36 = 38.8889, nu = V^2 / (25^2 + 2.7778^2 + 11.1111^2) = 2. d and e, who met each other alone, are a part of their
    own: d won 40 and 60: 25 and -25."""
    league = League(dict.fromkeys("abcde", CALLS), hands=1, meetings=2, duplicate=False)
    won = {"a.b": (1, 3), "b.c": (-1, 1), "a.c": (3, 7), "d.e": (4, 6)}
    league.invent({f"{pair}.{at + 1}.{at}": [it if at == 0 else -it] for pair, both in won.items() for at, it in enumerate(both)})
    figures = league.figures("--unit", "group", status=1)
    found = {it["player"]: it for it in figures["ratings"]}
    want([(it["player"], it["part"]) for it in figures["ratings"]] == [("a", 1), ("b", 1), ("c", 1), ("d", 2), ("e", 2)], f"{figures['ratings']}")
    for name, value in (("a", 55 / 3), ("b", -20 / 3), ("c", -35 / 3), ("d", 25), ("e", -25)):
        near(found[name]["mean"], value, f"the rating of {name}")
    near(found["a"]["half"], by_area(2) * 38.8889**0.5, "the interval of a", 0.01)
    near(found["a"]["freedom"], 2, "its nu")
    near(figures["residual"]["squares"], 1.5, "the squares")
    want(figures["residual"]["freedom"] == 1, f"{figures['residual']}")
    text = league.table("--unit", "group", status=1)
    want("part  player" in text and "don't explain are 1.5, at 1 degree of freedom." in text, f"the table is {text}")


@test
def ratings_of_three_at_a_table():
    """Two meetings of a, b and c in all six orders: a 40, b 20, c -60 mbb in each. Who is better than the mean of a table by r wins 3 / 2 r:
    80 / 3, 40 / 3 and -40, whose differences to the mean of the other two are 40, 20 and -60. One table explains itself."""
    league = League(dict.fromkeys("abc", CALLS), game=NOLIMIT_3P, hands=1, meetings=2)
    league.does("plan")
    chips = {"a": 4, "b": 2, "c": -6}
    lines = [line.split(" ") for line in league.plan()]
    league.invent({words[0]: [[chips[name] for name in words[5:]]] for words in lines})
    figures = league.figures("--unit", "group")
    found = {it["player"]: it["mean"] for it in figures["ratings"]}
    for name, value in (("a", 80 / 3), ("b", 40 / 3), ("c", -40)):
        near(found[name], value, f"the rating of {name}")
    want(figures["residual"] == {"squares": None, "freedom": 0}, f"{figures['residual']}")
