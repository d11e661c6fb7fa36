"""Tests of matches that go right, or whose players do wrong."""
import json
import os
import re
import shutil
import sys
import tempfile
from pathlib import Path
from types import SimpleNamespace
from unittest import mock

sys.dont_write_bytecode = True

from dealer_runs import NOLIMIT_3P
from league_runs import Bots, League, awaited, command, test
from measuring import in_time
from serving import TOP, want

sys.path.insert(0, str(TOP / "tools"))

from league_parts import league_file, one_match
from league_parts.plan import Planned
from match_engine.match import Result

RAISER = f"{sys.executable} {TOP / 'examples/bots/raiser'} {TOP / 'examples' / NOLIMIT_3P} {{seed}} {{port}}"


@test
def three_players_in_six_orders():
    """The same cards at the same positions in all six, and each result is what its log says."""
    league = League({name: RAISER.replace("{seed}", str(seed)) for seed, name in enumerate("abc")}, game=NOLIMIT_3P, hands=6)
    league.does("run", "--jobs", "2")
    logs = {name: league.is_right(name) for name in league.logs()}
    want(len(logs) == 6, f"there are {len(logs)} matches")
    cards = {tuple(line.split(":")[3].split("/")[0] for line in log.splitlines()[1:-1]) for log in logs.values()}
    want(len(cards) == 1, f"the six orders have {len(cards)} sequences of cards")
    seated = {league.result(name)["score"].split(":")[2] for name in logs}
    want(len(seated) == 6, f"they sat as {seated}")
    for name, log in logs.items():
        result = league.result(name)
        want(log.splitlines()[-1] == result["score"] and sum(result["chips"]) == 0, f"{name}: another score")
        want("|".join(map(str, result["chips"])) == result["score"].split(":")[1], f"{name}: other chips")
    figures = league.figures()
    want(figures["groups"] == {"planned": 1, "finished": 1}, "the group isn't finished")
    total = sum(dict(zip(it["seats"], it["chips"]))["a"] for it in map(league.result, logs))
    mean = next(it["mean"] for it in figures["standings"] if it["player"] == "a")
    want(abs(mean - 1000 * total / 36 / 100) < 0.001, f"the mean of a is {mean}")


@test
def a_bot_that_crashes_whenever_it_loses():
    """quits folds whenever it faces a bet, and ends; raises bets at once. With blinds of 100 and 50 quits loses 50 in the five
    hands that it begins and 100 in the others: 750 of 10 hands, -750 mbb. It is started again behind hands 0, 1 and 2; of
    hands 4 to 9 each has one default action, which is the same fold."""
    league = League({"quits": command("quits"), "raises": command("raises")})
    league.does("run")
    for name, seat in (("quits.raises.1.0", 0), ("quits.raises.1.1", 1)):
        result, log = league.result(name), league.is_right(name)
        want(result["chips"][seat] == -750 and log.count("STATE:") == 10, f"{name}: {result['chips']}")
        want((result["restarts"][seat], result["defaults"][seat], result["mended"][seat]) == (3, 6, 0), f"{name}: {result}")
        want(result["restarts"][1 - seat] == result["defaults"][1 - seat] == 0, f"{name}: the other one failed")
        notes = (league.kept / "matches" / name / "notes").read_text()
        want([notes.count(f"started again ({count} of 3)") for count in (1, 2, 3)] == [1, 1, 1], f"the notes are {notes}")
        want(notes.count("folds or calls from now on") == 1, f"the notes are {notes}")
    text = league.table()
    want(re.search(r"2  quits +-750\.0 ± .* 6  +12  +0  +0", text), f"the table is {text}")


@test
def a_bot_that_cannot_be_started_costs_little_time():
    """Neither a program that isn't there nor one that ends at once is waited for until start_timeout has passed."""
    league = League({"calls": command("calls"), "missing": "./none {port}", "sudden": "false {port}"}, hands=4, restarts=1)
    league.does("run")
    for name in league.logs():
        result = league.result(name)
        in_time(result["ended"] - result["began"] < 30, f"{name} took {result['ended'] - result['began']} s")
        for it, restarts, defaults in zip(result["seats"], result["restarts"], result["defaults"]):
            want((restarts, defaults > 0) == ((0, False) if it == "calls" else (1, True)), f"{name}: {it} has {restarts}, {defaults}")


@test
def responses_that_take_too_long():
    """A bot that answers nothing is started again once, then it has default actions; it is killed, since it asks not to end."""
    league = League({"calls": command("calls"), "silent": command("silent")}, hands=2, restarts=1, t_response=3000)
    league.does("match", "1")
    result = league.result("calls.silent.1.0")
    want(result["restarts"] == [0, 1] and result["defaults"][1] >= 2 and result["defaults"][0] == 0, f"it is {result}")
    notes = (league.kept / "matches/calls.silent.1.0/notes").read_text()
    want("silent: out of time: no response came within 3.000 s: started again (1 of 1)" in notes, f"the notes are {notes}")


@test
def who_comes_again_before_his_program_is_ended_has_no_seat():
    """It answered nothing, and dials while it is asked to end: the seat is that of the program that is started then."""
    league = League({"calls": command("calls"), "returns": command("returns")}, hands=2, t_response=8000)
    league.does("match", "1")
    result = league.result("calls.returns.1.0")
    want((result["restarts"], result["defaults"]) == ([0, 1], [0, 0]), f"it is {result}")


@test
def one_who_never_comes_costs_the_other_nothing():
    """The limit of the start passes while the first seat is waited for; who came to the second one long before has come in
    time. None of the first one's processes is left."""
    league = League({"quick": Bots.command(1), "stubborn": command("stubborn")}, hands=2, restarts=1, start_timeout=5000)
    league.does("match", "2")
    result = league.result("quick.stubborn.1.1")
    want(result["seats"] == ["stubborn", "quick"] and result["restarts"] == [1, 0], f"it is {result}")
    want(result["defaults"][0] > 0 == result["defaults"][1], f"it is {result}")
    # (one that was killed may need a processor to end)
    left = lambda: [number for number in os.listdir("/proc") if number.isdigit() and str(league.folder) in folder_of(number)]
    awaited(lambda: not left(), "the end of its processes")


def folder_of(process):
    """In which folder a process works; nothing where it has ended."""
    try:
        return os.readlink(f"/proc/{process}/cwd")
    except OSError:
        return ""


@test
def a_noisy_bot_keeps_sixteen_mebibytes():
    league = League({"calls": command("calls"), "noisy": command("noisy")}, hands=1)
    league.does("match", "1")
    folder = league.kept / "matches/calls.noisy.1.0"
    want((folder / "noisy.out").stat().st_size == 2**24, f"{(folder / 'noisy.out').stat().st_size} bytes are kept")
    want(folder.stat().st_mode & 0o777 == 0o700, "others may enter the match's folder")
    want(league.result(folder.name)["restarts"] == [0, 0], "it failed")


@test
def a_player_added_plays_alone():
    """No match is played again, and each keeps its number."""
    league = League({"a": Bots.command(1), "b": Bots.command(2)}, hands=5)
    league.does("run")
    before = {path: (path.stat().st_mtime_ns, path.read_bytes()) for path in league.kept.glob("matches/*/*")}
    league.add("c", Bots.command(3))
    league.does("table", status=1)
    league.does("run", "--jobs", "2")
    after = {path: (path.stat().st_mtime_ns, path.read_bytes()) for path in league.kept.glob("matches/*/*")}
    want({path: after[path] for path in before} == before and len(league.logs()) == 6, "a match was played again")
    want([league.result(line.split(" ")[0])["number"] for line in league.plan()] == [1, 2, 3, 4, 5, 6], "other numbers")
    league.table()


@test
def a_match_in_a_local_folder():
    """Its result comes to the league's folder from another file system, and nothing is left there."""
    league = League({"a": Bots.command(1), "b": Bots.command(2)}, hands=5)
    elsewhere = tempfile.mkdtemp(prefix="league.")
    try:
        printed = league.does("match", "1", "--local", elsewhere)[0]
        want(re.fullmatch(r"a\.b\.1\.0: finished, SCORE:-?\d+\|-?\d+:a\|b\n", printed), f"it printed {printed}")
        want([*Path(elsewhere, "running").iterdir()] == [] == [*(league.kept / "running").iterdir()], "something is left")
    finally:
        shutil.rmtree(elsewhere)
    league.is_right("a.b.1.0")
    names = {path.name for path in (league.kept / "matches/a.b.1.0").iterdir()}
    want(names == {"a.b.1.0.log", "a.b.1.0.luck", "a.b.1.0.tlog", "a.out", "b.out", "notes", "result.json"}, f"it has {names}")
    want([path.name for path in (league.kept / "matches").iterdir()] == ["a.b.1.0"], "something lies beside it")


@test
def a_match_played_again():
    """The earlier one is kept; these bots go by the line alone, so that its log is the same."""
    league = League({"a": Bots.command(1), "b": Bots.command(2)}, hands=5)
    league.does("match", "1")
    first = league.log("a.b.1.0")
    want(league.does("match", "1")[0] == "a.b.1.0: finished before\n", "it was played again without being asked for")
    league.does("match", "1", "--again")
    league.does("match", "1", "--again")
    want(league.log("a.b.1.0") == first, "another log")
    want(sorted(path.name for path in (league.kept / "replaced").iterdir()) == ["a.b.1.0.1", "a.b.1.0.2"], "earlier ones aren't kept")
    league.does("page")
    want("a.b.1.0 was played anew" in (league.kept / "page.html").read_text(), "the page doesn't say so")


@test
def what_a_result_says():
    """Among it the digest of each player's files, as the command on the page prints it."""
    league = League({"a": Bots.command(1), "b": Bots.command(2)}, hands=5)
    (league.folder / "of_a/book").mkdir()
    (league.folder / "of_a/book/x").write_text("one\n")
    (league.folder / "of_a/a b").write_text("two\n")
    league.does("match", "2")
    result = league.result("a.b.1.1")
    # As `find . -type f -print0 | LC_ALL=C sort -z | xargs -0 sha256sum | sha256sum` says in such a folder.
    digest = "a63d08020479ace753f789076529f73741798d251a24094382eb306461063db6"
    want(result["files"]["a"] == {"files": 2, "bytes": 8, "sha256": digest}, f"the files are {result['files']['a']}")
    want(result["files"]["b"]["files"] == 0 and result["seats"] == ["b", "a"] and result["number"] == 2, f"it is {result}")
    want(all(used >= worst > 0 for used, worst in zip(result["used"], result["worst"])), "no times")
    want({"host", "load", "versions", "limits", "began", "ended", "squares"} <= set(result), f"it has {set(result)}")


@test
def a_result_has_the_hands_of_its_log():
    """A log of two hands in a league of three: the result says two, so that `table` stops at it."""
    league = League({"a": "true {port}", "b": "true {port}"}, hands=3)
    (league.folder / "a.b.1.0.log").write_text("# head\nSTATE:0:f:x:7|-7:a|b\nSTATE:1:f:x:2|-2:b|a\nSCORE:5|-5:a|b\n")
    result, nothing = Result("SCORE:5|-5:a|b", *([0, 0] for _ in range(5))), {}
    planned, table = Planned(1, "a.b.1.0", ("a", "b"), 1, ("a", "b")), SimpleNamespace(passed=[0, 0], at=[None, None])
    # (such a log has no luck: it is as an earlier program would have it, which doesn't tell any)
    with mock.patch.object(one_match.lucks, "write", return_value=False):
        text = one_match.result_text(league_file.read(league.file), planned, result, nothing, 0.0, league.folder, table, SimpleNamespace(nodes=0, hosts=()))
    found = json.loads(text)
    want((found["hands"], found["chips"], found["squares"]) == (2, [5, -5], [53, 53]), f"it is {text}")


@test
def a_player_runs_at_most_so_often_at_once():
    league = League({"b": Bots.command(2), "c": Bots.command(3), "d": Bots.command(4)}, hands=5)
    league.add("a", Bots.command(1), at_once=1)
    league.does("run", "--jobs", "4")
    times = sorted((result["began"], result["ended"]) for result in map(league.result, league.logs()) if "a" in result["seats"])
    want(len(times) == 6 and all(ended <= began for (_, ended), (began, _) in zip(times, times[1:])), f"a played at {times}")


@test
def players_are_tried_before_a_league():
    league = League({"good": command("calls"), "mended": command("wrong")})
    printed = league.does("try")[0].splitlines()
    want(re.fullmatch(r"good: connected after \d+\.\d s; \d+ responses of .* ms, the longest .* ms; no mended action", printed[0]), f"{printed}")
    want("; 1 mended action, see " in printed[1], f"{printed}")
    league.add("bad", command("quits"))
    league.add("none", "false {port}")
    league.add("three", command("calls"))
    league.add("gone", "./nosuchbot {port}")
    printed = league.does("try", status=1)[0].splitlines()
    want([line.split(":")[0] for line in printed] == ["good", "mended", "bad", "none", "three", "gone"], f"{printed}")
    want([": failed: " in line for line in printed] == [False, False, True, True, False, True], f"{printed}")
    want("the player's program ended" in printed[3] and "bad.out" in printed[2], f"{printed}")
    want(printed[5] == "gone: failed: the program can't be started: No such file or directory: ./nosuchbot", f"{printed}")


@test
def faults_of_the_machine_leave_a_match_unfinished():
    """Its transaction file is another match's: run tells it twice, plays the others, and ends with status 1. With the file
    gone the same command finishes it."""
    league = League({"a": Bots.command(1), "b": Bots.command(2)}, hands=3)
    league.does("plan")
    folder = league.kept / "running/a.b.1.0"
    folder.mkdir(mode=0o700)
    (folder / "a.b.1.0.tlog").write_text("r7 1.000000 1.000000\n")
    said = league.does("run", "--jobs", "1", status=1)[1]
    want(said.count("a.b.1.0.tlog: line 1 is of another match") == 2 and "a.b.1.0 isn't finished" in said, f"it says {said}")
    want([*league.logs()] == ["a.b.1.1"], "the other match wasn't played")
    league.does("match", "1", status=1)
    (folder / "a.b.1.0.tlog").unlink()
    league.does("run", "--jobs", "1")
    league.table()
