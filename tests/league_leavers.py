"""Tests of players who have left, and of what a league publishes. What is wanted is worked out by hand beside each."""
import re
import subprocess
import sys

sys.dont_write_bytecode = True

from dealer_runs import PROGRAM
from league_files import Links
from league_figures import cell, near, standing
from league_runs import Bots, League, test
from serving import want

CALLS = "true {port}"


def left(keep, **more):
    """A league of a, b and c with duplicates, each match one hand of a blind of 100: one chip each seating is 10 mbb. c has withdrawn:
    of a and c a meeting is finished and half of another, of b and c both are, and of a and b both."""
    league = League(dict.fromkeys("abc", CALLS), hands=1, meetings=2, **more)
    won = {"a.b.1": 1, "a.b.2": 3, "a.c.1": 5, "b.c.1": 2, "b.c.2": 4}
    chips = {f"{name}.{seating}": [it if seating == 0 else -it] for name, it in won.items() for seating in (0, 1)}
    league.invent({**chips, "a.c.2.0": [1000]})
    league.players["c"].update(withdrawn=True, keep=keep)
    league.write()
    return league


@test
def of_who_withdraws_finished_groups_count():
    """All five: a won 20 and 50 mbb, M 35; c -50 and -30, M -40. Only against b, against whom all are finished: a has 20, c -30. None:
    c has no rank. The half of a meeting, worth 1000 chips, counts nowhere, and isn't missing."""
    for keep, matches, mean, others in (("all", 10, 35, -40), ("complete", 8, 20, -30), ("none", 4, 20, None)):
        league = left(keep)
        figures, text = league.figures(), league.table()
        want(figures["matches"] == {"planned": matches, "finished": matches}, f"{keep}: {figures['matches']}")
        near(standing(figures, "a")["mean"], mean, f"{keep}: M of a")
        found = standing(figures, "c")
        want(found["mean"] == others and (found["rank"] is None) == (others is None), f"{keep}: c has {found}")
        want(figures["withdrawn"] == {"c": keep} and "c withdrew: " in text, f"{keep}: the table is {text}")
        league.does("page", "--hands", "none")
        want("c withdrew: " in (league.kept / "page.html").read_text(), f"{keep}: the page doesn't say who withdrew")
        want("l: 11 matches" in league.does("plan")[0] and len(league.plan()) == 12, "the plan counts what isn't played")


@test
def who_withdraws_plays_no_more():
    """`run` has nothing to play, and `match` refuses. Without c, a and b alone have matches; nobody meets him any more."""
    league = left("all")
    said = league.does("run")[1]
    want("11 of 11 matches finished" in said, f"it says {said}")
    want("match 6 isn't played" not in said, f"it says {said}")
    number = next(at for at, line in enumerate(league.plan(), start=1) if line.startswith("a.c.2.1 "))
    want(f"match {number} isn't played: c has withdrawn" in league.does("match", str(number), status=2)[1], "it is played")
    figures = league.figures("--without", "c")
    want([it["player"] for it in figures["standings"]] == ["a", "b"] and figures["matches"]["planned"] == 4, f"{figures}")
    near(cell(figures, "a", "b")["mean"], 20, "a against b")
    want("--without d: the file names no such player" in league.does("table", "--without", "d", status=2)[1], "d is left out")
    league.entries["meetings"] = 3
    league.write()
    league.does("plan")
    want([line.split(" ")[0] for line in league.plan()[12:]] == ["a.b.3.0", "a.b.3.1"], f"the plan is {league.plan()}")


@test
def wrong_words_of_who_leaves_are_refused():
    for player, text in (
        ({"withdrawn": 1}, "withdrawn of c is true or false, not 1"),
        ({"withdrawn": True, "keep": "some"}, "keep of c goes with withdrawn = true and is all, complete or none, not 'some'"),
        ({"keep": "all"}, "keep of c goes with withdrawn = true"),
        ({"at": ["h"]}, "at of c goes with hosts"),
        ({"at": "h"}, "at is a list of hosts"),
    ):
        league = League(dict.fromkeys("abc", CALLS))
        league.players["c"].update(player)
        league.write()
        said = league.does("plan", status=2)[1]
        want(text in said and said.count("\n") == 1, f"{player}: {said}")
    for entries, text in (
        ({"hosts": ["a", "b", "c"]}, "hosts are those of nodes: they go with nodes = 3 or nodes = 5"),
        ({"hosts": ["a", "b"], "nodes": 3}, "2 hosts are too few for 3 nodes: one that is lost would take half of a match's nodes"),
        ({"hosts": ["a", "b", "a"], "nodes": 3}, "hosts names a host twice"),
        ({"hosts": ["-o x", "b", "c"], "nodes": 3}, "hosts is a list of hosts, each ADDRESS or USER@ADDRESS, not '-o x'"),
        ({"ports": 80}, "ports is a number from 1024 to 65000, not 80"),
    ):
        said = League(dict.fromkeys("abc", CALLS), **entries).does("plan", status=2)[1]
        want(text in said and said.count("\n") == 1, f"{entries}: {said}")


@test
def what_is_published_has_no_secret():
    """Two meetings of a and b, of which one is half finished: that one's cards are nowhere. Hole cards are there that the table was
    shown, and no others; no link is dead; `check` takes no log of it. With --reveal it takes each."""
    league = League({"a": Bots.command(1), "b": Bots.command(2)}, hands=8, meetings=2)
    for number in (1, 2, 3):
        league.does("match", str(number))
    folder = league.folder / "public"
    printed = league.does("page", "--public", str(folder))[0].splitlines()
    want(printed == [str(folder / "index.html"), f"upload {folder} and nothing else"], f"it printed {printed}")
    files = {str(path.relative_to(folder)) for path in folder.rglob("*") if path.is_file()}
    logs = {"logs/a.b.1.0.log", "logs/a.b.1.1.log"}
    want(files == {"index.html", "table.csv", *logs, "hands/a.b.html", "hands/replay.js", "hands/replay.css"}, f"{files}")
    texts = {name: (folder / name).read_text() for name in files}
    for link in Links(texts["index.html"]).to:
        file, _, place = link.partition("#")
        want(file in files if file else place in Links(texts["index.html"]).ids, f"nothing is at {link}")
    secret = (league.kept / "secret").read_bytes()
    want(not any(secret.hex() in text or "a.b.2" in text for text in texts.values()), "a secret, or an unfinished meeting, is published")
    shown = dict(zip(("a.b.1.0", "a.b.1.1"), map(hands_of, (texts["logs/a.b.1.0.log"], texts["logs/a.b.1.1.log"]))))
    for name, hands in shown.items():
        for (betting, holes), (whole, all_holes) in zip(hands, hands_of(league.log(name))):
            want(betting == whole and holes == (["", ""] if "f" in betting else all_holes), f"{name}: {betting} shows {holes}")
    want(check(league, folder / "logs/a.b.1.0.log") != b"yes\n", "check takes a log without cards")
    league.does("page", "--public", str(folder), "--reveal")
    want(check(league, folder / "logs/a.b.1.0.log") == b"yes\n", "check refuses a log with all cards")


def hands_of(log):
    """The betting of each hand, and its players' hole cards."""
    lines = [line.split(":") for line in log.splitlines() if line.startswith("STATE:")]
    return [(words[2], words[3].split("/")[0].split("|")) for words in lines]


def check(league, log):
    return subprocess.run([PROGRAM, "check", league.entries["game"], log], capture_output=True).stdout


@test
def a_folder_with_the_secret_is_not_published():
    league = League(dict.fromkeys("ab", CALLS))
    league.does("plan")
    for folder in (league.kept, league.kept / "public", league.folder):
        said = league.does("page", "--public", str(folder), status=2)[1]
        want("expected a folder beside the league's own" in said, f"{folder}: it says {said}")


@test
def the_page_of_many_matches():
    """Twelve players, two meetings: 66 pages of hands. One sentence says who won; a cell of the cross table is short, and says how many
    meetings more would tell its two apart. One chip is 10 mbb: a won 20 and 40 of b, m 30, v 100, by hands (2 groups, 1 hand): t(1) x 10
    = 127.062: (127.062 / 30)^2 x 2 = 35.9, so 34 more."""
    names = "abcdefghijkl"
    league = League(dict.fromkeys(names, CALLS), hands=1, meetings=2, duplicate=False)
    pairs = [(one, other) for at, one in enumerate(names) for other in names[at + 1 :]]
    chips = {f"{one}.{other}.{meeting}.{meeting - 1}": [2 * meeting if meeting == 1 else -4] for one, other in pairs for meeting in (1, 2)}
    league.invent(chips)
    league.does("page", "--hands", "none")
    page = (league.kept / "page.html").read_text()
    want(re.search(r'class="verdict">a won with \+30\.0 ± [\d.]+ mbb/hand, ', page), "no sentence says who won")
    want('title="a – b: 2 groups, by hands; about 34 more meetings would tell them apart">+30.0</a><small>± 127.1</small>' in page, "another cell")
    want(not (league.kept / "replays").exists(), "pages of hands were made")
    widest = max(len(re.sub(r"<[^>]*>", "", it)) for it in re.findall(r'<td class="[^"]*(?:up|down)\d">(.*?)</td>', page))
    want(widest <= 14, f"a cell has {widest} letters")
