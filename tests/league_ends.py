"""Tests of leagues whose processes are ended or killed, and of several at once."""
import os
import random
import signal
import subprocess
import sys
import time
from types import SimpleNamespace
from unittest import mock

sys.dont_write_bytecode = True

from dealer_runs import are_ended
from league_runs import OPTIONS, WAIT, Bots, League, awaited, command, descendants, kill, test
from measuring import communicate
from serving import TOP, want

sys.path.insert(0, str(TOP / "tools"))
from league_parts import bots

SEED = 67
# tools/league as it is where an interrupt comes in the midst of a look at a process, once the file `interrupt` is beside the league's.
INTERRUPTED_LEAGUE = f"""
import os, runpy, signal, subprocess, sys
sys.path.insert(0, "{TOP}/tools")
at_once, sent, asked = subprocess.Popen._internal_poll, [], os.path.join(os.path.dirname(sys.argv[1]), "interrupt")
def poll(process, *words, **more):
    if not sent and os.path.exists(asked):
        sent.append(process)
        process._waitpid_lock.acquire(False)
        os.kill(os.getpid(), signal.SIGINT)
        process._waitpid_lock.release()
    return at_once(process, *words, **more)
subprocess.Popen._internal_poll = poll
runpy.run_path("{TOP}/tools/league", run_name="__main__")
"""
# tools/league as it is where two seconds pass from the start of a bot until its number is told.
LATE_LEAGUE = f"""
import runpy, sys, time
sys.path.insert(0, "{TOP}/tools")
from league_parts.bots import Keeper
at_once = Keeper.begun
def begun(keeper, group):
    time.sleep(2)
    at_once(keeper, group)
Keeper.begun = begun
runpy.run_path("{TOP}/tools/league", run_name="__main__")
"""


def six_bots():
    """Random bots that go by the line alone, so that a match is the same whenever it is played."""
    return {name: Bots.command(seed) for seed, name in enumerate(("ann", "ben", "cid", "dot", "eve", "fay"), start=1)}


def slow_league(**entries):
    """A league of two matches, of which each takes some seconds. Its limits are beyond what a busy machine takes, and a match
    that a test has stand still."""
    players = {"calls": command("calls"), "slow": command("slow")}
    return League(players, hands=6, t_per_hand=1000 * WAIT, start_timeout=1000 * WAIT, **entries)


def played_now(league, process):
    """Waits until a match of the league has been begun; the processes below a process then, by number and start."""
    awaited(lambda: is_played(league), "the first action")
    return descendants(process.pid)


def is_played(league):
    """Whether a match of the league was begun and isn't finished."""
    for path in league.kept.glob("running/*/*.tlog"):
        try:
            if path.stat().st_size:
                return True
        except FileNotFoundError:
            continue
    return False


@test
def a_run_that_is_killed_again_and_again():
    """By signal 9, every other time with all processes that it started: at a random moment of the first second, or as long
    after the first action of a match that is being played. At last the table is letter by
    letter that of a league with the same secret that nobody disturbed, and the logs are."""
    kills, hands, meetings = (int(OPTIONS[key]) for key in ("--kills", "--hands", "--meetings"))
    dice, torn = random.Random(SEED), 0
    calm, killed = (League(six_bots(), hands=hands, meetings=meetings, start_timeout=1000 * WAIT) for _ in range(2))
    for league in (calm, killed):
        league.kept.mkdir()
        (league.kept / "secret").write_bytes(bytes(32))
    ran = calm.start("run", "--jobs", "8")
    for number in range(kills):
        run = killed.start("run", "--jobs", "8")
        if number % 3 != 2:
            awaited(lambda: is_played(killed) or run.poll() is not None, "the first action")
        time.sleep(dice.choice([0, 0.05, 1]) * dice.random())
        end_by_nine(run, with_children=number % 2 == 0)
        torn += is_played(killed)
    killed.does("run", "--jobs", "8", most=5 * WAIT)
    want(ran.wait(5 * WAIT) == 0, "the undisturbed run failed")
    want(torn, "no kill hit a match")
    want(killed.table() == calm.table(), f"the tables differ:\n{killed.table()}\n{calm.table()}")
    want(killed.logs() == calm.logs() and len(calm.logs()) == 30 * meetings, "the logs differ")
    want([*(killed.kept / "running").iterdir()] == [], "something is left of a match")


def end_by_nine(run, with_children):
    """Kills a run, and where it is said all below it, dealers before their bots: a bot that ends while its dealer still looks
    has failed."""
    below = descendants(run.pid) if with_children else []
    run.kill()
    kill(below)
    communicate(run, WAIT)


@test
def a_run_that_is_killed_takes_its_matches_along():
    league = slow_league()
    run = league.start("run", "--jobs", "2")
    below = played_now(league, run)
    run.kill()
    communicate(run, WAIT)
    awaited(lambda: are_ended(below), f"the end of {below}")
    want(not league.logs(), "a match is finished")


@test
def a_match_that_is_killed_takes_its_bots_along():
    """Also one that doesn't end when it is asked to, and what that started."""
    league = League({"calls": command("calls"), "stubborn": command("stubborn")})
    match = league.start("match", "1")
    awaited(lambda: sum("league_bot" in words_of(number) for number, _ in descendants(match.pid)) == 3, "both bots and one's child")
    below = descendants(match.pid)
    match.kill()
    communicate(match, WAIT)
    awaited(lambda: are_ended(below), f"the end of {below}")


def words_of(number):
    """A process's command line; nothing where it has ended."""
    try:
        with open(f"/proc/{number}/cmdline", encoding="utf-8", errors="replace") as file:
            return file.read()
    except OSError:
        return ""


@test
def an_interrupt_ends_all_and_leaves_all_to_go_on():
    """As a terminal sends it: to the whole process group of the run. A second one changes nothing."""
    league = slow_league()
    run = league.start("run", "--jobs", "2")
    below = played_now(league, run)
    os.killpg(run.pid, signal.SIGINT)
    time.sleep(0.05)
    os.killpg(run.pid, signal.SIGINT)
    said = communicate(run, WAIT)[1]
    want(run.returncode == 1 and "interrupted; the same command resumes it" in said, f"status {run.returncode}: {said}")
    want(are_ended(below), "a process outlived the run")
    kept = {path: path.read_bytes() for path in league.kept.glob("running/*/*.tlog")}
    want(kept, "nothing is left to go on with")
    league.does("run", "--jobs", "2")
    for path, text in kept.items():
        now = (league.kept / "matches" / path.parent.name / path.name).read_bytes()
        want(now.startswith(text[: text.rfind(b"\n") + 1]), f"{path.name} began again")
    for name in league.logs():
        league.is_right(name)
        want(league.result(name)["restarts"] == [0, 0], "the interrupt is counted as a restart")


@test
def an_interrupt_ends_a_match_that_stands_still():
    league = slow_league()
    run = league.start("run", "--jobs", "1")
    below = played_now(league, run)
    os.kill(below[0][0], signal.SIGSTOP)
    run.send_signal(signal.SIGINT)
    said = communicate(run, WAIT)[1]
    want(run.returncode == 1 and "interrupted" in said and are_ended(below), f"status {run.returncode}: {said}")


def altered_league(league, script, *words):
    """A process of a league's tool that a script alters."""
    altered = league.folder / "altered_league"
    altered.write_text(script)
    return subprocess.Popen([sys.executable, altered, league.file, *words], start_new_session=True, stderr=subprocess.PIPE, text=True)


@test
def an_interrupt_at_a_look_at_a_match_ends_it():
    """Which isn't waited for without end, however the interrupt comes."""
    league = slow_league()
    run = altered_league(league, INTERRUPTED_LEAGUE, "run", "--jobs", "1")
    below = played_now(league, run)
    (league.folder / "interrupt").touch()
    try:
        said = communicate(run, WAIT)[1]
    finally:
        run.kill()
    want(run.returncode == 1 and "interrupted" in said and are_ended(below), f"status {run.returncode}: {said}")


@test
def an_interrupt_at_the_start_of_a_bot_ends_it_too():
    """Also one that isn't ended by TERM, where the interrupt comes before anybody was told of it."""
    league = League({"calls": command("calls"), "stays": "sh -c 'trap \"\" TERM; touch here; sleep 600' {port}"}, t_per_hand=1000 * WAIT)
    here = league.folder / "of_stays/here"
    # (it is the second one that is started, and then the first one)
    for number in ("1", "2"):
        match = altered_league(league, LATE_LEAGUE, "match", number)
        awaited(here.exists, "the start of the bot")
        here.unlink()
        below = descendants(match.pid)
        match.terminate()
        want(match.wait(WAIT) == 1, f"status {match.returncode}")
        awaited(lambda: are_ended(below), f"the end of {below}")


def with_signals(signalled, call):
    """Calls something while what league_parts/bots.py sends to groups is kept too, each signal with its group."""

    def killpg(group, number):
        if number:
            signalled.append((group, number))
        os.killpg(group, number)

    with mock.patch.object(bots, "os", SimpleNamespace(**{**vars(os), "killpg": killpg})):
        return call()


@test
def a_number_that_may_be_anothers_gets_no_signal():
    """Neither where all of a program has ended long before its player is ended, nor where it ends by itself when it is asked to,
    and another one is killed two seconds later."""
    signalled = []

    def ended_before():
        keeper = SimpleNamespace(begun=lambda group: None, ended=lambda group: None)
        bot = bots.Bot(SimpleNamespace(words=lambda *_: ["true"], folder="/"), "127.0.0.1", 1, os.devnull, keeper)
        awaited(lambda: not bot.is_running(), "the end of true")
        bots.end_all([bot])

    with_signals(signalled, ended_before)
    want(signalled == [], f"signals {signalled}")
    words = (["sleep", str(WAIT)], ["sh", "-c", f"trap '' TERM; echo; sleep {WAIT}"])
    quick, slow = (subprocess.Popen(it, stdout=subprocess.PIPE, preexec_fn=lambda: os.setpgid(0, 0)) for it in words)
    slow.stdout.readline()
    with_signals(signalled, lambda: bots.end([quick.pid, slow.pid], quick.poll))
    slow.wait(WAIT)
    want(signalled == [(quick.pid, signal.SIGTERM), (slow.pid, signal.SIGTERM), (slow.pid, signal.SIGKILL)], f"signals {signalled}")


@test
def a_match_that_another_one_plays():
    """A second `match` and a second `run` end with status 4; a `run` beside a `match` waits for it and finishes the rest. The
    first match stands still meanwhile, so that it can't end before them on a busy machine."""
    league = slow_league()
    match = league.start("match", "1")
    played_now(league, match)
    match.send_signal(signal.SIGSTOP)
    want("another process plays calls.slow.1.0" in league.does("match", "1", status=4)[1], "the second match says something else")
    want("another process plays" in league.does("match", "1", "--again", status=4)[1], "the match is taken away")
    run = league.start("run", "--jobs", "2")
    awaited(lambda: (league.kept / "running/calls.slow.1.1").exists(), "the run's match")
    want("another process runs this league" in league.does("run", status=4)[1], "the second run says something else")
    match.send_signal(signal.SIGCONT)
    want(match.wait(WAIT) == 0, "the match failed")
    said = communicate(run, WAIT)[1]
    want(run.returncode == 0 and len(league.logs()) == 2, f"the run ended with {run.returncode}: {said}")
    notes = {name: (league.kept / "matches" / name / "notes").read_text()[-600:] for name in league.logs()}
    want(all(league.result(name)["restarts"] == [0, 0] for name in league.logs()), f"a bot was started again: {notes}")


@test
def two_of_the_same_match_at_once():
    league = League({"a": Bots.command(1), "b": Bots.command(2)}, hands=3)
    league.does("plan")
    both = [league.start("match", "1") for _ in range(2)]
    for it in both:
        communicate(it, WAIT)
    statuses = sorted(it.returncode for it in both)
    want(statuses in ([0, 4], [0, 0]) and [*league.logs()] == ["a.b.1.0"], f"they ended with {statuses}")
    league.is_right("a.b.1.0")
