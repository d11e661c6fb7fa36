"""Tests of tests/dealer_tool for what the original's scripts and users do: names, versions, line ends, signals, bots by commands, and
what ended dealers have left."""
import re
import signal
import sys
import tempfile
import time
from pathlib import Path

sys.dont_write_bytecode = True

import measuring
from dealer_nodes import kill_node
from dealer_runs import NODES, NOLIMIT_2P, TOP, Bot, Run, calls, here, memory_of, rows, rows_with_nodes, slow, test
from serving import FAST, free_ports, turn_of, waited, want

from match_engine import left

# So many hands have a thousand actions of players who call.
HANDS = 125
SAMPLE = f"{sys.executable} {TOP / 'tests/dealer_bot.py'} {{game}} {{seed}} {{host}} {{port}}"


@rows_with_nodes("self-play", [("has one name twice",)])
def self_play_has_one_name_twice(nodes):
    """The log tells the two apart, and `check` takes it."""
    run = Run(*nodes, *here(), names=["alice", "alice"], hands=2)
    run.play()
    run.ends(0)
    want(run.printed.endswith(":alice|alice.2\n") and "alice.2" in run.is_right(), f"it prints {run.printed}")
    want(run.warnings() == ["seat 2: another seat is called alice too; this one is alice.2 here"], f"warnings {run.warnings()}")


@test
def a_blank_behind_the_version():
    """The original reads three numbers, and what stands behind them doesn't matter."""
    run = Run(*here(), hands=1)
    bots = [Bot(port, calls(run.game), version=b"VERSION:2.0.0 \r\n") for port in run.ports]
    run.ends(0)
    want(all(len(bot.lines) > 1 for bot in bots), "a bot got no lines")


@rows_with_nodes("a player who dials at once", [("is not refused",)])
def a_player_who_dials_at_once(nodes):
    """He dials each 10 ms from the tool's start on: as soon as anybody listens there he has the seat, before the match is begun."""
    first = free_ports(2)
    run = Run("-p", f"{first},{first + 1}", *nodes, *here(), hands=1)
    bots = [waited(lambda port=port: came(port, run), "the port") for port in (first, first + 1)]
    want(run.ports == [first, first + 1], f"it prints {run.ports}")
    run.ends(0)
    want(all(bot.lines for bot in bots), "a bot got no lines")


def came(port, run):
    try:
        return Bot(port, calls(run.game))
    except ConnectionRefusedError:
        return None


@rows_with_nodes("standard error", [("has lines as they were sent",)])
def standard_error_has_lines_as_they_were_sent(nodes):
    """TO and FROM end with CR LF as the lines do, other notes with LF. A warning stands right behind the line that it is about."""
    run = Run(*nodes, *here(), hands=1)
    run.play(rude(run.game), rude(run.game))
    run.ends(0)
    lines = (run.folder / "m.notes").read_bytes().split(b"\n")[:-1]
    for line in lines:
        want(line.endswith(b"\r") == line.startswith((b"TO ", b"FROM ")), f"the end of {line}")
    texts = [line.decode().rstrip("\r") for line in lines]
    for at, text in enumerate(texts):
        if text.startswith("WARNING: seat "):
            seat, about = re.match(r"WARNING: seat (\d).*?: (.*)", text).groups()
            said = about.rpartition(": ")[2] if about.startswith("passed over") else about.split("'")[1]
            want(texts[at - 1].startswith(f"FROM {seat} ") and texts[at - 1].endswith(said), f"{texts[at - 1]}, and then {text}")


def rude(game):
    """A player who says something else before his first answer, which nobody can read; then he calls."""
    turns, act = [], calls(game)

    def acts(line):
        answer = act(line)
        turns.extend([line] if answer else [])
        return b"hello\r\n" + f"{line}:x\r\n".encode() if answer and len(turns) == 1 else answer

    return acts


class Doubled:
    """A player who calls, and says another legal action right behind it: in one write, 1 ms later, 20 ms later."""

    GAPS = (0, 0.001, 0.02)

    def __init__(self, game):
        self.game, self.count, self.bot = game, 0, None

    def __call__(self, line):
        betting = turn_of(self.game, line)
        if betting is None:
            return None
        waited(lambda: self.bot, "the bot")
        first, second = (f"{line}:{action}\r\n".encode() for action in ("c", "f" if betting.may_fold() else "r300"))
        gap, self.count = self.GAPS[self.count % 3], self.count + 1
        if not gap:
            return first + second
        self.bot.connection.sendall(first)
        time.sleep(gap)
        return second


@test
def second_answers_are_passed_over():
    """A thousand answers of two players are doubled: without nodes, and with three, of which one is killed each second. Both logs are one to
    the byte, and have calls alone. Each second answer is told but for the last ones, behind which nothing is read."""
    logs = []
    for nodes in ((), NODES):
        run, doubled = Run(*nodes, *here(), hands=HANDS), []
        for port in run.ports:
            doubled.append(Doubled(run.game))
            doubled[-1].bot = Bot(port, doubled[-1])
        while nodes and run.process.poll() is None:
            time.sleep(1)
            kill_node(run, len(run.said()) % 3)
        run.ends(0)
        logs.append(run.is_right())
        want(sum(it.count for it in doubled) == 8 * HANDS, f"{[it.count for it in doubled]} answers")
        told = sum("passed over, since " in text for text in run.warnings())
        want(8 * HANDS - 2 <= told <= 8 * HANDS, f"{told} of {8 * HANDS} second answers are told")
        want(not any("is changed to" in text for text in run.warnings()), "an action was changed")
    want(logs[0] == logs[1] and logs[0].count(":cc/cc/cc/cc:") == HANDS, "the logs differ, or have other actions")


@rows("a match that is asked to end", [(f"by {name}", getattr(signal, name), option) for name in ("SIGTERM", "SIGHUP", "SIGINT") for option in ("-T", "-t")])
def a_match_that_is_asked_to_end(number, option):
    """With a transaction file its stores stay, and -a -T goes on with them; without one nothing is left."""
    run = Run(option, *NODES, *here(), hands=1000)
    run.play(calls(run.game), slow(run.game, 0.02))
    waited(lambda: len(run.log().splitlines()) > 1, "a hand")
    run.process.send_signal(number)
    run.fails("interrupted")
    want(memory_of(run).exists() == (option == "-T"), f"{option}: the stores are {'kept' if memory_of(run).exists() else 'gone'}")


@test
def bots_that_the_tool_starts():
    """README's first match is one command. They end with the match, and their command may be wrong."""
    words = [SAMPLE.format(game="GAME", seed=seed, host="{host}", port="{port}") for seed in (1, 2)]
    run = started(*words_of(words))
    run.ports
    run.ends(0)
    run.is_right()
    gone = started("./nosuchbot {port}", "true {port}")
    gone.ports
    gone.fails("the bot ./nosuchbot can't be started: No such file or directory")
    early = started("true {port}", "true {port}")
    early.ports
    early.fails(r"seat 1 \(alice\): the player's program ended")


def started(*commands):
    """A match whose players the tool starts."""
    return Run(words=["m", NOLIMIT_2P, "3", "7", "alice", "bob", "-q", *here(), "--bots", *commands], hands=3)


def words_of(commands):
    return [command.replace("GAME", str(TOP / "examples" / NOLIMIT_2P)) for command in commands]


@test
def the_first_match_of_the_readme_is_as_typed():
    """Its lines are typed in a folder that has what the project's has, but with three hands. They print ports and score, and write the log."""
    blocks = re.findall(r"(?m)(?:^    \S.*\n)+", (TOP / "README.md").read_text())
    typed = next(block for block in blocks if "tools/dealer" in block)
    want(" 100 " in typed, f"the lines are {typed!r}")
    folder = Path(tempfile.mkdtemp(prefix="dealer.", dir=FAST))
    Run.folders.append(folder)
    for part in ("examples", "tools"):
        (folder / part).symlink_to(TOP / part)
    ran = measuring.run(["sh", "-ec", typed.replace(" 100 ", " 3 ")], cwd=folder, capture_output=True, text=True)
    found = re.fullmatch(r"\d+ \d+\n(SCORE:-?\d+\|-?\d+:alice\|bob\n)", ran.stdout)
    want(ran.returncode == 0 and found, f"status {ran.returncode}: {ran.stdout!r}, {ran.stderr!r}")
    want((folder / "tonight.log").read_text().endswith(found[1]), "the log doesn't end with the score")


@test
def what_ended_dealers_left_is_listed_and_removed():
    """One match runs, one was killed and can go on, one was killed and can't. --clean names all, and --yes removes two."""
    runs = [Run(option, *NODES, *here(), hands=1000, names=["alice", "bob"]) for option in ("-T", "-T", "-t")]
    for run in runs:
        run.play(calls(run.game), slow(run.game, 0.02))
        waited(lambda run=run: len(run.log().splitlines()) > 1, "a hand")
    for run in runs[1:]:
        run.kill()
    wanted = [f"{memory_of(run)}: {run.folder.resolve() / 'm'}: {state}" for run, state in zip(
        runs, ("in use", "-a -T could go on with it", "nothing can go on with it")
    )]
    listed = cleaned()
    want(set(wanted) <= set(listed), f"it lists {listed}, not {wanted}")
    want(all(memory_of(run).exists() for run in runs), "it removes what it lists")
    # (with --yes it would remove what others left on this machine)
    want(left.remove(left.left(memory_of(runs[2]))) and not memory_of(runs[2]).exists(), "it isn't removed")


def cleaned():
    return measuring.run([TOP / "tools/dealer", "--clean"], capture_output=True, text=True).stdout.splitlines()
