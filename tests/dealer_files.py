"""Tests of tests/dealer_tool: what a match leaves on the disk, kills and resumptions, several tools at once, and what
tools/league asks of the engine."""
import os
import random
import signal
import subprocess
import sys
import time

sys.dont_write_bytecode = True

from dealer_runs import (
    IS_LONG, OPTIONS, PROGRAM, WAIT, Bot, Run, are_ended, are_killed, at_turn, calls, children, compiled, goes, hangs, here, memory_of, rows,
    rows_with_nodes, slow, test, waits,
)
from measuring import wait
from serving import size_of, want, waited

from match_engine import AGAIN, DEFAULT, Limits, Match, Settings, Watcher

# How many matches are killed, and how many tools play at once.
KILLED, AT_ONCE = 4, 16
# How long a response may take in matches like those of tools/league, in milliseconds: longer than it does on a busy machine.
LATE = 3000


def bots_in_c(run, program, *seeds):
    """The bots of a run, as programs in C: two of the same seeds act alike in each run."""
    words = [[program, str(seed), "127.0.0.1", str(port)] for seed, port in zip(seeds, run.ports)]
    return [subprocess.Popen(some, stdout=subprocess.DEVNULL) for some in words]


def await_moment(run, dice):
    """Waits a moment, or more often until some more actions were noted, however quick the machine is; or until the match is over."""
    noted = lambda: size_of(run.folder / "m.tlog")
    most = 0 if dice.random() < 0.3 else noted() + dice.randrange(15 * run.hands)
    waited(lambda: noted() >= most or run.process.poll() is not None, "more actions", lambda: str(run.said()[-3:]))
    time.sleep(dice.uniform(0, 0.02))


@rows_with_nodes("killed and resumed", [(f"match {number}", number) for number in range(KILLED)])
def killed_and_resumed(number, nodes):
    """A match of two bots in C, killed at random moments, comes to the same log as one that wasn't, and its score."""
    dice, hands = random.Random(number), 100 if nodes and not IS_LONG else 250
    calm = Run("-qT", *here(), hands=hands, seed=number)
    program = compiled(calm.folder)
    bots = bots_in_c(calm, program, 1, 2)
    calm.ends(0, 3 * WAIT)
    want([wait(bot, WAIT) for bot in bots] == [0, 0], "a bot ended otherwise than by 0")
    actions = [line.split()[0] for line in calm.transactions().splitlines()]
    first, done, kills = None, 0, int(OPTIONS["--kills"]) // KILLED
    for kill in range(kills + 1):
        run = Run("-qTa", *nodes, *here(), hands=hands, seed=number, folder=first and first.folder)
        first = first or run
        bots = bots_in_c(run, program, 1, 2)
        if kill == kills:
            break
        await_moment(run, dice)
        started = children(run.process.pid)
        if not started:
            break
        done += 1
        run.process.send_signal(signal.SIGKILL)
        run.process.wait()
        until = time.monotonic() + 1
        while not are_ended(started) and time.monotonic() < until:
            time.sleep(0.01)
        want(are_killed(started) and len(started) <= (5 if nodes else 2), f"processes of it are alive a second later: {started}")
        waited(lambda: are_ended(started), "the end of its processes")
        [wait(bot, WAIT) for bot in bots]
        if nodes and not memory_of(run).exists():
            # It was over: nothing can be resumed, and nothing has to be.
            want(run.log() == calm.log(), "the log is another one")
            return f"killed {done} times"
    run.ends(0, 3 * WAIT)
    want(run.is_right() == calm.log(), "the log is another one")
    want(run.printed == calm.printed, "the score is another one")
    want([line.split()[0] for line in run.transactions().splitlines()] == actions, "other transactions")
    return f"killed {done} times"


def stopped_in_hand(hand, *options, hands=6):
    """A match of callers whose second bot goes home in a hand."""
    run = Run("-T", *options, *here(), hands=hands)
    run.play(calls(run.game), at_turn(run.game, 4 * hand + 1, goes))
    run.ends(1)
    return run


@test
def a_match_goes_on_where_it_was():
    run = stopped_in_hand(2)
    kept, log = run.transactions(), run.log()
    want(len(log.splitlines()) == 3, "other hands in the log")
    # What a kill leaves: half a line in both files, or a hand that the log hasn't yet.
    (run.folder / "m.tlog").write_text(kept + "r300 17958")
    (run.folder / "m.log").write_text("".join(log.splitlines(True)[:-1]) + log.splitlines()[-1][:9])
    again = Run("-aT", *here(), hands=6, folder=run.folder)
    bots = again.play()
    again.ends(0)
    want(again.is_right().startswith(log), "the log begins otherwise")
    want(again.transactions().startswith(kept) and "17958\n" not in again.transactions(), "the transactions begin otherwise")
    want([bot.lines[0].split(":")[2] for bot in bots] == ["2", "2"], "the bots begin in another hand")
    whole = Run("-aT", *here(), hands=6, folder=run.folder)
    bots = whole.play()
    whole.ends(0)
    want(whole.is_right() == again.log() and not any(bot.ends() for bot in bots), "a match that is over goes on")


@rows("not resumed", [
    ("with a log of another seed", {"seed": 8}, None, "m.log: what is in it isn't what m.tlog plays: it is of another match"),
    ("with fewer hands", {"hands": 2}, None, "m.tlog: line 17 is of another match: the match is over before it"),
    ("with a line that is none", {}, "call ", "m.tlog: line 1 is no transaction: 'call "),
    ("with an action that isn't legal", {}, "r100 ", "m.tlog: line 1 is of another match: r100 is refused by 24 RaiseTooSmall 200"),
])
def not_resumed(other, first, text):
    """Nothing is asked of a bot then, and both files stay as they are. The first action may be another one."""
    run = stopped_in_hand(4)
    changed = run.transactions().replace("c ", first, 1) if first else run.transactions()
    (run.folder / "m.tlog").write_text(changed + "c 17")
    before = run.log(), run.transactions()
    again = Run("-aT", *here(), folder=run.folder, **{"hands": 6, **other})
    again.refuses(text)
    want((run.log(), run.transactions()) == before, "a file has changed")


@rows_with_nodes("limits go on", [("behind a resumption",)])
def limits_go_on_behind_a_resumption(nodes):
    """The transaction file tells of 7.9 s of bob's, where the whole match has 8 s."""
    run = stopped_in_hand(1, *nodes, hands=2)
    lines = run.transactions().splitlines(True)
    lines[0] = "c 1000.000000 1007.900000\n"
    (run.folder / "m.tlog").write_text("".join(lines))
    again = Run("-aT", *nodes, *here(), "--t_per_hand", "4000", hands=2, folder=run.folder)
    again.play(calls(again.game), at_turn(again.game, 0, waits(0.4)))
    # (a busy machine adds to the 0.4 s)
    again.fails(r"seat 2 \(bob\): out of time: all responses in this match took ([89]|\d\d)\.\d{3} s, and the limit is 8.000 s")


@test
def files_are_kept_by_a_alone():
    """Without -a they begin anew; with -a and without a transaction file the log stands behind what is there."""
    folder = Run(command="true").folder
    for number, options in enumerate((["-T"], ["-T"], ["-a"])):
        run = Run(*options, *here(), hands=1, folder=folder)
        run.play()
        run.ends(0)
        want(run.log().count("# name") == (2 if number == 2 else 1), f"run {number}: {run.log()}")
    want(len(run.transactions().splitlines()) == 8, "the transaction file of a run without -T has changed")


@test
def two_tools_have_no_match_together():
    one = Run("-T", *here(), hands=2)
    one.ports
    for options in (["-T"], ["-aT"], ["-q"], ["-lT"]):
        other = Run(*options, *here(), folder=one.folder, hands=2)
        other.refuses(f"{'m.tlog' if 'T' in options[0] else 'm.log'}: another dealer is writing this file")
    one.play()
    one.ends(0)
    one.is_right()


@test
def sixteen_play_at_once():
    runs = [Run("-qT", *here(), hands=20, seed=seed) for seed in range(AT_ONCE)]
    program = compiled(runs[0].folder)
    bots = [bot for seed, run in enumerate(runs) for bot in bots_in_c(run, program, seed, 99)]
    for run in runs:
        run.ends(0, 3 * WAIT)
        run.is_right()
    want([wait(bot, WAIT) for bot in bots] == [0] * 2 * AT_ONCE, "a bot ended otherwise than by 0")


@rows("children end with the tool", [(name, getattr(signal, name)) for name in ("SIGTERM", "SIGINT", "SIGKILL")])
def children_end_with_the_tool(number):
    """Stopped ones too: they don't end by themselves where their input ends."""
    run = Run(*here())
    run.ports
    started = children(run.process.pid)
    for child, _ in started:
        os.kill(int(child), signal.SIGSTOP)
    run.process.send_signal(number)
    want(wait(run.process, WAIT) in (1, -number), f"status {run.process.returncode}")
    want(len(started) == 2, f"children: {started}")
    waited(lambda: are_ended(started), f"the end of {started}")


@test
def a_match_ends_with_the_program():
    run = Run(*here(), hands=1000)
    run.play(calls(run.game), slow(run.game, 0.01))
    time.sleep(0.3)
    os.kill(int(children(run.process.pid)[0][0]), signal.SIGKILL)
    run.fails(r"holdem_table (hand|play) ended in the middle of the match \(status -9\)")


# What tools/league asks of the engine


class League(Watcher):
    """Starts a bot again so often, and then lets its seat go. It isn't coming where None was started."""

    def __init__(self, starts):
        self.starts, self.match, self.failures, self.lines = starts, None, [], []
        self.is_started = True

    def is_coming(self, seat):
        return self.is_started

    def failed(self, seat, why, restarts):
        self.failures.append((seat, why, restarts))
        if not self.starts[seat]:
            return DEFAULT
        act = self.starts[seat].pop(0)
        self.is_started = act is not None
        if self.is_started:
            Bot(self.match.ports[seat], act)
        return AGAIN

    def logged(self, line):
        self.lines.append(line)


def league_match(run, watcher, hands=5, **more):
    limits = Limits(LATE, 60000, 12000, 30000)
    settings = Settings(
        "m", str(run.folder / run.word), hands, ["alice", "bob"], PROGRAM, seed=7, limits=limits, log=run.folder / "e.log",
        transactions=run.folder / "e.tlog", may_return=True, **more,
    )
    watcher.match = Match(settings, watcher)
    return watcher.match


@test
def a_bot_may_return_and_then_its_seat_has_default_actions():
    """Bob ends in hand 1, can't be started at first, hangs in hand 2, and never comes again: he folds where he faces a bet."""
    run = Run(command="true")
    game = run.game
    watcher = League({0: [], 1: [None, at_turn(game, 3, hangs)]})
    with league_match(run, watcher) as match:
        Bot(match.ports[0], at_turn(game, 0, "c", otherwise="r600"))
        Bot(match.ports[1], at_turn(game, 5, goes))
        result = match.play()
    whys = [(seat, restarts, why) for seat, why, restarts in watcher.failures]
    want([row[:2] for row in whys] == [(1, 0), (1, 1), (1, 2)], f"failures {whys}")
    want(whys[1][2] == "the player's program ended" and f"no response came within {LATE / 1000:.3f} s" in whys[2][2], f"failures {whys}")
    log = (run.folder / "e.log").read_text()
    want(log == "# name/game/hands m " + str(run.folder / run.word) + " 5\n" + "".join(line + "\n" for line in watcher.lines), "another log")
    marks = [line.split()[-1] for line in (run.folder / "e.tlog").read_text().splitlines()]
    want(result.restarts == [0, 2] and marks.count("1") == 2, f"restarts {result.restarts}")
    want(result.defaults == [0, marks.count("default")] and marks.count("default") > 1, f"defaults {result.defaults}")
    want(result.mended == [marks.count("mended"), 0], f"mended {result.mended}")
    want(0 < result.worst[1] <= result.used[1], f"times {result}")
    return run


@rows("a transaction file is synced", [("at each hand's end", False), ("at each action", True)])
def a_transaction_file_is_synced(sync_actions):
    """Before the hand's line comes to the log."""
    run, seen = Run(command="true"), []
    with league_match(run, League({0: [], 1: []}), sync_actions=sync_actions) as match:
        match.transactions.sync = lambda: seen.append([len((run.folder / name).read_text().splitlines()) for name in ("e.tlog", "e.log")])
        [Bot(port, calls(run.game)) for port in match.ports]
        match.play()
    wanted = [[actions, 1 + (actions - 1) // 8] for actions in range(1, 41)]
    want(seen == (wanted if sync_actions else wanted[7::8]), f"synced where files have so many lines: {seen}")


@test
def a_resumption_knows_restarts_and_defaults():
    run = Run(command="true")
    game = run.game
    watcher = League({0: [], 1: [at_turn(game, 2, "r1")]})
    with league_match(run, watcher) as match:
        Bot(match.ports[0], calls(game))
        Bot(match.ports[1], at_turn(game, 1, goes))
        wanted = match.play()
    want(wanted.mended == [0, 1] and wanted.restarts == [0, 1] and wanted.defaults == [0, 0], f"figures {wanted}")
    kept, log = (run.folder / "e.tlog").read_text().splitlines(True), (run.folder / "e.log").read_text()
    (run.folder / "e.tlog").write_text("".join(kept[:12]) + kept[12].replace("\n", " default\n"))
    (run.folder / "e.log").write_text(log.splitlines(True)[0])
    with league_match(run, League({0: [], 1: []}), is_resumed=True) as match:
        want(match.restarts == [0, 1] and match.mended == [0, 1], f"figures {match.restarts} {match.mended}")
        want(match.defaults in ([1, 0], [0, 1]) and len(match.absent) == 1, f"defaults {match.defaults}")
    again = (run.folder / "e.log").read_text()
    want(log.startswith(again) and len(again.splitlines()) > 1, "the log is another one")
