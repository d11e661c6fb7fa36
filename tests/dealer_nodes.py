"""Tests of tests/dealer_tool with nodes: nodes and tools that are killed, stores, resumptions, and the course of a match by its
traces."""
import os
import random
import shutil
import signal
import socket
import subprocess
import sys
import threading
import time
import unittest.mock
from pathlib import Path
from types import SimpleNamespace

sys.dont_write_bytecode = True

from dealer_files import bots_in_c, stopped_in_hand
from dealer_runs import (
    IS_LONG, MEMORY, NODES, NOLIMIT_2P, TOP, WAIT, Bot, Run, are_killed, at_turn, calls, children, compiled, game_of, goes, here, memory_of, rows,
    slow, test,
)
from measuring import wait
from serving import Wrong, free_ports, want, waited

from match_engine import node_files
from match_engine.course import Acted, Course, Ended
from match_engine.node_match import LONGEST_LOOK, LookTime
from match_engine.node_processes import FAILURES, Node
from match_engine.slots import FIRST, Slot, bound

# A random node is killed so often, in seconds.
KILL_EACH = 0.3
# tools/dealer as it is where it learns two seconds late what the relay of seat 1 told.
LATE_DEALER = f"""#!{sys.executable}
import os, runpy, sys, time
sys.path.insert(0, "{TOP}/tools")
from match_engine.relays import Relay
at_once, late = Relay.piece, []
def piece(relay, pipe):
    if relay.seat != 0 or pipe is not relay.process.stdout:
        return at_once(relay, pipe)
    try:
        late.append((time.monotonic() + 2, os.read(pipe.fileno(), 65536)))
    except BlockingIOError:
        pass
    if not late or late[0][0] > time.monotonic():
        time.sleep(0.005)
        return b""
    data = late.pop(0)[1]
    return data or at_once(relay, pipe)
Relay.piece = piece
runpy.run_path("{TOP}/tools/dealer", run_name="__main__")
"""
# tools/dealer as it is where it stands still once for seven seconds between its look at the traces and its judgement, at the moment
# that `WHEN` says of the match. It waits for nothing longer than five.
STANDING_DEALER = f"""#!{sys.executable}
import runpy, sys, time
sys.path.insert(0, "{TOP}/tools")
from match_engine import node_match
node_match.GRACE = node_match.UNTOLD = node_match.TRACED = 5.0
at_once, moments = node_match.NodeMatch.judge, [7]
def judge(match):
    if moments and (WHEN):
        time.sleep(moments.pop())
    at_once(match)
node_match.NodeMatch.judge = judge
runpy.run_path("{TOP}/tools/dealer", run_name="__main__")
"""
# tools/dealer as it is where node 1 hangs from its start on, for which it waits two seconds.
HANGING_DEALER = f"""#!{sys.executable}
import os, runpy, signal, sys
sys.path.insert(0, "{TOP}/tools")
from match_engine import node_match
from match_engine.node_processes import Node
node_match.HUNG = 2.0
at_once = Node.start
def start(node):
    at_once(node)
    if node.number == 1:
        os.kill(node.process.pid, signal.SIGSTOP)
Node.start = start
runpy.run_path("{TOP}/tools/dealer", run_name="__main__")
"""
# tools/dealer as it is where a second passes before it lets go of a port.
HOLDING_DEALER = f"""#!{sys.executable}
import runpy, socket, sys, time
sys.path.insert(0, "{TOP}/tools")
from match_engine import relays
at_once = socket.socket.close
def close(held):
    if held.family == socket.AF_INET and held.getsockname()[1] == PORT:
        time.sleep(1)
    at_once(held)
socket.socket.close = close
runpy.run_path("{TOP}/tools/dealer", run_name="__main__")
"""
# In the short form, and in the long one: matches whose nodes are killed, their hands, and tools that play at once.
MATCHES, HANDS, AT_ONCE = (200, 200, 16) if IS_LONG else (3, 60, 4)


def node_processes(run):
    """The processes of a run's nodes, by number."""
    found = {}
    for process, _ in children(run.process.pid):
        words = words_of(process)
        if words[1:2] == [b"node"]:
            found[int(words[3])] = int(process)
    return found


def relays_of(run):
    """The processes of a run's relays, by seat."""
    found = {}
    for process, _ in children(run.process.pid):
        words = words_of(process)
        if words[1:2] == [b"relay"]:
            found[words[words.index(b"--token-file") + 1]] = int(process)
    return [found[name] for name in sorted(found)]


def words_of(process):
    """A process's command line, by words; none where it has ended."""
    try:
        return Path(f"/proc/{process}/cmdline").read_bytes().split(b"\0")
    except OSError:
        return []


def kill(process):
    """Ends a process by signal 9; whether it was there."""
    try:
        os.kill(process, signal.SIGKILL)
    except ProcessLookupError:
        return False
    return True


def kill_node(run, number):
    """Ends a node by signal 9, if it runs."""
    process = node_processes(run).get(number)
    if process is not None:
        kill(process)


def script_match(folder, *options, hands, seed):
    """A match as play_match.pl has it: a link ./dealer in another folder, and bots that are given this machine's own address and
    a port; one is a program in C, one in Python."""
    run = Run(*options, folder=folder, command="./dealer", hands=hands, seed=seed)
    host = socket.gethostbyname(socket.gethostname())
    python = [sys.executable, TOP / "tests/dealer_bot.py", TOP / "examples" / NOLIMIT_2P, "6"]
    bots = [subprocess.Popen([*words, host, str(port)]) for words, port in zip(([folder / "dealer_bot", "5"], python), run.ports)]
    return run, bots


def linked_folder():
    """A folder with a link to the tool, and the bot in C."""
    folder = Run(command="true").folder
    (folder / "dealer").symlink_to(TOP / "tools/dealer")
    compiled(folder)
    return folder


@rows("nodes are killed", [(f"in match {number}", number) for number in range(MATCHES)])
def nodes_are_killed(number):
    """A random node is killed each 300 ms: score, log and actions are those without nodes."""
    calm, bots = script_match(linked_folder(), "-qT", hands=HANDS, seed=number)
    calm.ends(0, 3 * WAIT)
    want([wait(bot, WAIT) for bot in bots] == [0, 0], "a bot ended otherwise than by 0")
    run, bots = script_match(linked_folder(), "-qT", *NODES, hands=HANDS, seed=number)
    dice, kills, until = random.Random(number), 0, time.monotonic() + 3 * WAIT
    # (a quick machine may play all hands in less time than passes from kill to kill)
    waited(lambda: run.process.poll() is not None or len(run.log().splitlines()) > 1, "a hand")
    while run.process.poll() is None and time.monotonic() < until:
        running = node_processes(run)
        if running and kill(dice.choice(list(running.values()))):
            kills += 1
        time.sleep(KILL_EACH)
    run.ends(0)
    want(kills > 0 and [wait(bot, WAIT) for bot in bots] == [0, 0], f"a bot ended otherwise than by 0; {kills} nodes were killed")
    want(run.is_right() == calm.log(), "the log is another one")
    want(run.printed == calm.printed, "the score is another one")
    actions = [[line.split()[0] for line in it.transactions().splitlines()] for it in (calm, run)]
    want(actions[0] == actions[1], "other transactions")
    return f"{kills} nodes killed"


@test
def two_of_five_nodes_are_killed():
    """And come back no more, since their stores are gone; the match goes on. It isn't over before."""
    run, hands = Run("-T", "--nodes", "5", *here(), hands=8), 8
    act, out = slow(run.game, 0.01), lambda: [text for text in run.warnings() if "stays out" in text]

    def waits_at_last(line):
        if int(line.split(":")[2]) == hands - 1:
            waited(lambda: len(out()) == 2, "two nodes that stay out")
        return act(line)

    run.play(waits_at_last, waits_at_last)
    waited(lambda: len(run.log().splitlines()) > 2, "two hands")
    for number in (1, 4):
        spoil_store(run, number)
    run.ends(0)
    run.is_right()
    out = out()
    want(sorted(text.split()[1] for text in out) == ["1", "4"], f"warnings {run.warnings()}")


def spoil_store(run, number):
    """Ends a node, and takes its store away."""
    (memory_of(run) / f"stores/node{number}.journal").rename(memory_of(run) / f"stores/old{number}")
    kill_node(run, number)


@test
def a_match_ends_where_most_nodes_are_out():
    """What is left of it stays in memory."""
    run = Run("-T", *NODES, *here(), hands=1000)
    run.play(slow(run.game, 0.01), slow(run.game, 0.01))
    waited(lambda: len(run.log().splitlines()) > 1, "a hand")
    for number in (0, 2):
        spoil_store(run, number)
    run.fails(r"2 of 3 nodes are out; the last note of node 2: \d+ \w.*")
    want(sum("stays out: 1" in text or "stays out: 9" in text for text in run.warnings()) == 2, f"warnings {run.warnings()}")
    want(run.warnings()[-1] == f"the stores are kept in {memory_of(run)}", f"warnings {run.warnings()}")
    want(memory_of(run).is_dir(), "the stores are gone")


@test
def a_node_that_fails_slowly_stays_out():
    """Three seconds after each start, as on a busy machine; and not one that runs for half a minute each time."""
    quick, slow = (Node(None, SimpleNamespace(notes=lambda number: "none"), number) for number in range(2))
    for node, seconds in [(quick, 3), (slow, 30)] * FAILURES:
        node.begun = time.monotonic() - seconds
        node.take_end(1)
    want(quick.is_out and not slow.is_out, f"out: {quick.is_out}, {slow.is_out}")


# Stores


@test
def nobody_else_sees_the_stores():
    """The folder and the files in it are for their owner alone; nothing is left of a match that is over. It isn't over before that is
    looked at."""
    run, is_seen = Run("-T", *NODES, *here(), hands=3), threading.Event()
    run.play(calls(run.game), at_turn(run.game, 0, lambda line: is_seen.wait(WAIT) and "c"))
    waited(lambda: node_processes(run), "nodes")
    folder = memory_of(run)
    modes = {path.name: path.stat().st_mode & 0o777 for path in [MEMORY, folder, *folder.iterdir()]}
    is_seen.set()
    for name in (MEMORY.name, folder.name, "stores", "logs"):
        want(modes.pop(name) == 0o700, f"{name} is open to others")
    want({"key", "token0", "token1", "m.toml", "game", "made"} <= set(modes), f"there are {set(modes)}")
    want({modes[name] for name in ("key", "token0", "token1", "m.toml", "game", "made")} == {0o600}, f"modes {modes}")
    run.ends(0)
    want(not folder.exists(), "the folder is still there")


@test
def stores_on_a_disk():
    """They are kept where a match ends early, and removed where it is over."""
    place = Run(command="true").folder / "place"
    place.mkdir()
    run = stopped_in_hand(2, *NODES, "--stores", str(place))
    kept = list(place.iterdir())
    want(len(kept) == 1 and kept[0].stat().st_mode & 0o777 == 0o700, f"there are {kept}")
    want({path.name for path in (kept[0] / "stores").iterdir()} >= {f"node{node}.journal" for node in range(3)}, "no stores")
    again = Run("-aT", *NODES, "--stores", str(place), *here(), hands=6, folder=run.folder)
    again.play()
    again.ends(0)
    want(again.is_right().startswith(run.log()[: -len(run.printed) or None]), "the log begins otherwise")
    want(not list(place.iterdir()), "the stores are still there")


@test
def a_folder_of_others_is_refused():
    """A link in place of the folder, which another user may have put there, is not followed."""
    place = Run(command="true").folder / "place"
    (place / "elsewhere").mkdir(parents=True)
    run = Run("-T", *NODES, "--stores", str(place), *here())
    run.ports
    name = next(path.name for path in place.iterdir() if path.name != "elsewhere")
    run.kill()
    shutil.rmtree(place / name)
    (place / name).symlink_to(place / "elsewhere")
    again = Run("-T", *NODES, "--stores", str(place), *here(), folder=run.folder)
    again.refuses(f"{place / name}: expected a folder of this user's that nobody else may enter")


@test
def a_folder_that_another_dealer_removes_meanwhile_is_made():
    """Between the look whether it is there and the look whose it is."""
    place, at_once, removed = Run(command="true").folder / "place", os.mkdir, []

    def mkdir(path, mode):
        removed.append(path)
        if len(removed) == 1:
            raise FileExistsError
        at_once(path, mode)

    with unittest.mock.patch.object(node_files, "os", SimpleNamespace(**{**vars(os), "mkdir": mkdir})):
        node_files.own_folder(place)
    want(removed == [place, place] and place.stat().st_mode & 0o777 == 0o700, "it isn't made")


@test
def an_address_is_one_match_alone():
    one, other = Slot(3, 2), Slot(3, 2)
    try:
        want(one.address != other.address, "two matches have one address")
        try:
            bound(one.address, FIRST, True).close()
            raise Wrong("the lock can be taken twice")
        except OSError:
            pass
    finally:
        one.close()
        other.close()


# Resumptions


@test
def a_match_with_nodes_goes_on_where_it_was():
    """Also where a kill has left half a line in both files, or the log lacks a hand, or the transaction file actions."""
    run = stopped_in_hand(2, *NODES)
    kept, log = run.transactions(), run.log()
    want(len(log.splitlines()) == 3, "other hands in the log")
    (run.folder / "m.tlog").write_text("".join(kept.splitlines(True)[:-3]) + "r300 17958")
    (run.folder / "m.log").write_text("".join(log.splitlines(True)[:-1]) + log.splitlines()[-1][:9])
    again = Run("-aT", *NODES, *here(), hands=6, folder=run.folder)
    bots = again.play()
    again.ends(0)
    want(again.is_right().startswith(log), "the log begins otherwise")
    lines = again.transactions().splitlines()
    want(len(lines) == 48 and [line.split()[0] for line in lines] == ["c"] * 48, f"{len(lines)} transactions")
    want(lines[: len(kept.splitlines()) - 3] == kept.splitlines()[:-3], "the transactions begin otherwise")
    want([bot.lines[0].split(":")[2] for bot in bots] == ["2", "2"], "the bots begin in another hand")
    whole = Run("-aT", *NODES, *here(), hands=6, folder=run.folder)
    whole.refuses(f"{memory_of(run)}: there are no stores with which the match of m.tlog could go on")
    want(again.log() == whole.log() and not memory_of(run).exists(), "something has changed")


@test
def a_match_goes_on_while_a_node_hangs():
    """From its first moment to its end. It is killed then."""
    run = stopped_in_hand(2, *NODES)
    again = altered_run(HANGING_DEALER, "-aT", hands=6, folder=run.folder)
    again.play()
    again.ends(0)
    again.is_right()


@test
def a_match_goes_on_without_its_nodes():
    """By the transaction file alone, as after a lost power supply."""
    run = stopped_in_hand(2, *NODES)
    shutil.rmtree(memory_of(run))
    log = run.log()
    run = Run("-aT", *NODES, *here(), hands=6, folder=run.folder)
    run.refuses(f"{memory_of(run)}: there are no stores")
    run = Run("-aT", *here(), hands=6, folder=run.folder)
    run.play()
    run.ends(0)
    want(run.is_right().startswith(log), "the log begins otherwise")


def change(run, name, old, new):
    path = run.folder / name
    path.write_text(path.read_text().replace(old, new, 1))


@rows("with nodes not resumed", [
    ("with another seed", {"seed": 8}, None, "{folder}: the stores are of another match: look at game, seed, hands, names and --nodes"),
    ("with fewer hands", {"hands": 3}, None, "{folder}: the stores are of another match"),
    ("with other nodes", {"nodes": "5"}, None, "{folder}: the stores are of another match"),
    ("with another log", {}, ("m.log", "STATE:1:c", "STATE:1:r"), "m.log: what is in it isn't what the stores have"),
    ("with another action", {}, ("m.tlog", "c ", "f "), "m.tlog: line 1 is of another match: it has f, and the stores have c"),
    ("with a line that is none", {}, ("m.tlog", "c ", "call "), "m.tlog: line 1 is no transaction: 'call "),
])
def with_nodes_not_resumed(other, edit, text):
    """Nothing is asked of a bot then, and both files stay as they are."""
    run = stopped_in_hand(3, *NODES)
    if edit:
        change(run, *edit)
    before = run.log(), run.transactions()
    words = {"hands": 6, "seed": 7, "nodes": "3", **other}
    again = Run("-aT", "--nodes", words.pop("nodes"), *here(), folder=run.folder, **words)
    again.refuses(text.format(folder=memory_of(run)))
    want((run.log(), run.transactions()) == before, "a file has changed")
    want(memory_of(run).is_dir(), "the stores are gone")


@test
def two_tools_with_nodes_have_no_match_together():
    one = Run("-T", *NODES, *here(), hands=2)
    one.ports
    for options, text in (
        (["-T"], "m.tlog: another dealer is writing this file"), (["-aT"], "m.tlog: another dealer is writing this file"),
        (["-q"], "m.log: another dealer is writing this file"), (["-l"], f"{memory_of(one)}: another dealer is playing this match"),
    ):
        other = Run(*options, *NODES, *here(), folder=one.folder, hands=2)
        other.refuses(text)
    other = Run("-T", *here(), folder=one.folder, hands=2)
    other.refuses("m.tlog: another dealer is writing this file")
    one.play()
    one.ends(0)
    one.is_right()


@test
def several_with_nodes_play_at_once():
    runs = [Run("-qT", *NODES, *here(), hands=20, seed=seed) for seed in range(AT_ONCE)]
    program = compiled(runs[0].folder)
    bots = [bot for seed, run in enumerate(runs) for bot in bots_in_c(run, program, seed, 99)]
    for run in runs:
        run.ends(0, 3 * WAIT)
        run.is_right()
    want([wait(bot, WAIT) for bot in bots] == [0] * 2 * AT_ONCE, "a bot ended otherwise than by 0")


@rows("nodes and relays end with the tool", [(name, getattr(signal, name)) for name in ("SIGTERM", "SIGINT", "SIGKILL")])
def nodes_and_relays_end_with_the_tool(number):
    """Stopped ones too."""
    run = Run(*NODES, *here(), hands=1000)
    run.play(calls(run.game), slow(run.game, 0.02))
    waited(lambda: len(run.log().splitlines()) > 1, "a hand")
    started = children(run.process.pid)
    for child, _ in started:
        os.kill(int(child), signal.SIGSTOP)
    run.process.send_signal(number)
    want(wait(run.process, WAIT) in (1, -number), f"status {run.process.returncode}")
    want(len(started) == 5, f"children: {started}")
    waited(lambda: are_killed(started), f"the end of {started}")


@test
def a_match_with_nodes_ends_with_a_relay():
    run = Run(*NODES, *here(), hands=1000)
    run.play(calls(run.game), slow(run.game, 0.02))
    waited(lambda: len(run.log().splitlines()) > 1, "a hand")
    nodes = {str(process) for process in node_processes(run).values()}
    relay = next(process for process, _ in children(run.process.pid) if process not in nodes)
    os.kill(int(relay), signal.SIGKILL)
    run.fails(r"the relay of seat [12] was ended by SIGKILL: .*")


@test
def a_relay_that_is_late_at_the_end_is_waited_for():
    """Bob acts last. Alice's relay hangs as he does, for three seconds, while his ends with the match; so does hers then."""
    run = Run(*NODES, *here(), hands=1)
    run.ports
    relay = relays_of(run)[0]

    def last(line):
        stop_for(3, [relay])
        return "c"

    # (who calls has four turns in a hand; in the first hand alice is first behind the flop)
    begun = time.monotonic()
    run.play(calls(run.game), at_turn(run.game, 3, last))
    run.ends(0)
    want(time.monotonic() - begun >= 3, "the match is over before alice was told its end")
    run.is_right()


def altered_run(script, *options, hands, folder=None):
    """A run of a dealer that a script alters."""
    folder = folder or Run(command="true").folder
    dealer = folder / "altered_dealer"
    dealer.write_text(script)
    dealer.chmod(0o700)
    return Run(*NODES, *here(), *options, hands=hands, folder=folder, command=dealer)


def late_run(hands):
    """A run of a dealer that learns late what the relay of seat 1 told."""
    return altered_run(LATE_DEALER, hands=hands)


@rows("a trace is late where a bot ends", [("in a middle hand", 10), ("in the last hand", 15)])
def a_trace_is_late_where_a_bot_ends(turn):
    """The log has all hands before that in which bob ends, of four turns each."""
    run = late_run(4)
    run.play(calls(run.game), at_turn(run.game, turn, goes))
    run.fails(r"seat 2 \(bob\): the player ended the connection")
    want(len(run.log().splitlines()) == 1 + turn // 4, f"other hands in the log: {run.log()}")


def bots_of_whom_one_goes(run, turn, before=lambda: None):
    """Alice calls; so does bob, who at his last turn does something before he answers, and leaves then."""
    bots = []

    def goes_home(line):
        before()
        bots[0].connection.sendall(f"{line}:c\n".encode())
        goes(line)

    bots += [Bot(run.ports[1], at_turn(run.game, turn, goes_home)), Bot(run.ports[0], calls(run.game))]
    return bots


@test
def a_trace_is_late_where_a_bot_goes_when_all_is_done():
    """Bob acts last in the third hand, and has done then all that he had to."""
    run = late_run(3)
    bots_of_whom_one_goes(run, 11)
    run.ends(0)
    run.is_right()


@rows("the dealer stands still", [
    ("while players come", "True", ("--start_timeout", "4000")),
    ("while a bot answers", "any(True for _ in match.course.unanswered())", ("--t_response", "5000")),
])
def the_dealer_stands_still(when, options):
    """All do in time what they are to do, and the dealer reads of it later."""
    run = altered_run(STANDING_DEALER.replace("WHEN", when), *options, hands=2)
    run.ports
    time.sleep(0.5)
    run.play()
    run.ends(0)
    run.is_right()


@test
def a_bot_that_dials_early_has_its_seat():
    """Bob dials until he is connected, from before the dealer begins, and never again."""
    first = free_ports(2)
    run = altered_run(HOLDING_DEALER.replace("PORT", str(first + 1)), "-p", f"{first},{first + 1}", hands=2)
    bob = waited(lambda: dialled(first + 1, calls(run.game)), "a connection")
    Bot(run.ports[0], calls(run.game))
    run.ends(0)
    run.is_right()
    want(bob.ends(), "bob got no lines")


def dialled(port, act):
    """A bot that is connected to a port; nothing where nobody listens there."""
    try:
        return Bot(port, act)
    except ConnectionRefusedError:
        return None


def stop_for(seconds, processes):
    """Has processes stand still for so long."""
    for process in processes:
        os.kill(process, signal.SIGSTOP)
        threading.Timer(seconds, os.kill, (process, signal.SIGCONT)).start()


@test
def the_dealer_stands_still_where_a_bot_goes_when_all_is_done():
    """Two nodes do too, so that the last hand isn't over for them when the dealer sees that bob has left."""
    run = altered_run(STANDING_DEALER.replace("WHEN", "match.course.seats[1].is_gone"), hands=3)
    bots_of_whom_one_goes(run, 11, lambda: stop_for(2, list(node_processes(run).values())[:2]))
    run.ends(0)
    run.is_right()


@test
def the_dealer_stands_still_while_a_match_is_played():
    """Relays drop what they told last, which it didn't take. Bob goes when all is done, in hand 151; alice's relay ends later."""
    run, done = Run(*NODES, *here(), hands=151), threading.Event()
    run.ports
    relay = relays_of(run)[0]

    def stop_relay():
        os.kill(relay, signal.SIGSTOP)
        done.set()

    bots_of_whom_one_goes(run, 4 * 151 - 1, stop_relay)
    waited(lambda: len(run.log().splitlines()) > 1, "a hand")
    run.process.send_signal(signal.SIGSTOP)
    waited(done.is_set, "the end of the match", most=WAIT)
    time.sleep(1)
    run.process.send_signal(signal.SIGCONT)
    time.sleep(2)
    os.kill(relay, signal.SIGCONT)
    run.ends(0)
    run.is_right()


@test
def the_dealer_stands_still_at_the_end():
    """Alice's relay does too, so that her last line isn't traced when the log has the score. It is told in the end."""
    run = altered_run(STANDING_DEALER.replace("WHEN", "match.scored is not None"), hands=1)
    run.ports
    relay = relays_of(run)[0]
    bots = run.play(calls(run.game), at_turn(run.game, 3, lambda line: stop_for(2, [relay]) or "c"))
    run.ends(0)
    run.is_right()
    for seat, bot in enumerate(bots, start=1):
        want([line.split(" ", 4)[4] for line in run.said() if line.startswith(f"TO {seat} ")] == bot.ends(), f"seat {seat} got other lines")


@test
def decks_of_the_original_are_dealt_by_nodes_too():
    logs = []
    for options in ((), NODES):
        run = Run("--decks", "original", *options, *here(), hands=5, seed=5489)
        run.play()
        run.ends(0)
        logs.append(run.is_right())
    want(logs[0] == logs[1], "the logs differ")


# The course of a match


def line(position, hand, betting):
    return f"MATCHSTATE:{position}:{hand}:{betting}:|"


def told(course):
    """All that is known to have happened."""
    return list(iter(course.next, None))


@test
def a_course_waits_for_what_belongs_to_an_action():
    """Two players, of whom position 1 begins; hand 0, so that positions are seats."""
    course = Course(game_of(NOLIMIT_2P), 2)
    course.sent(0, 10, line(0, 0, ""))
    course.sent(1, 11, line(1, 0, ""))
    want([seat for seat, _ in course.unanswered()] == [1], "seat 1 isn't asked")
    # Seat 0 is sent the line behind the action before the trace of seat 1 has told it.
    course.sent(0, 14, line(0, 0, "r300"))
    want(told(course) == [], "an action is told before its seat's trace")
    want(course.received(1, 12, line(1, 0, "") + ":r299") is None, "the answer is passed over")
    want(told(course) == [], "an action is told before its line")
    want([seat for seat, _ in course.unanswered()] == [0], "seat 1 is asked again")
    course.sent(1, 13, line(1, 0, "r300"))
    want(told(course) == [Acted(1, "r300", "r299", 11, 12)], "another action")
    # A line was missed by seat 0, and the hand's end is known by the log alone.
    course.received(0, 15, line(0, 0, "r300") + ":c")
    course.sent(1, 19, line(1, 1, ""))
    course.sent(0, 19, line(0, 1, ""))
    want(told(course) == [], "what isn't known is told")
    course.logged("STATE:0:r300f:AcAd|KcKd:0|0:a|b")
    want(told(course) == [Acted(0, "f", "c", 14, 15), Ended("STATE:0:r300f:AcAd|KcKd:0|0:a|b")], "another end")
    want(course.place() == (1, 0) and not course.is_over(), "another place")


@rows("a course passes over", [
    ("an old line", line(1, 0, "c") + ":c", "it doesn't answer the newest line"), ("no answer", "x", "it doesn't answer the newest line"),
    ("the line alone", line(1, 0, ""), "it doesn't answer the newest line"), ("a comment", "# c", None),
])
def a_course_passes_over(said, why):
    course = Course(game_of(NOLIMIT_2P), 2)
    course.sent(1, 11, line(1, 0, ""))
    want(course.received(1, 12, said) == (why and f"passed over, since {why}: {said}"), "another warning")
    want([seat for seat, _ in course.unanswered()] == [1], "the seat isn't asked any more")


@test
def a_course_passes_over_a_second_answer_and_one_out_of_turn():
    course = Course(game_of(NOLIMIT_2P), 2)
    course.sent(1, 11, line(1, 0, ""))
    course.sent(0, 11, line(0, 0, ""))
    course.received(1, 12, line(1, 0, "") + ":c")
    again = course.received(1, 13, line(1, 0, "") + ":f")
    want(again == f"passed over, since the newest line was answered before: {line(1, 0, '')}:f", f"{again}")
    out = course.received(0, 13, line(0, 0, "") + ":c")
    want(out == f"passed over, since it isn't this seat's turn: {line(0, 0, '')}:c", f"{out}")
    course.sent(1, 14, line(1, 0, "c"))
    want(told(course) == [Acted(1, "c", "c", 11, 12)], "the first answer doesn't count")


@test
def a_course_is_told_where_a_player_has_left():
    """Nothing more comes of his trace then; what he did is known by the others'."""
    course = Course(game_of(NOLIMIT_2P), 1)
    course.sent(0, 10, line(0, 0, ""))
    course.sent(1, 10, line(1, 0, ""))
    course.sent(0, 14, line(0, 0, "f"))
    course.gone(1)
    course.logged("STATE:0:f:AcAd|KcKd:50|-50:a|b")
    want(told(course) == [Acted(1, "f"), Ended("STATE:0:f:AcAd|KcKd:50|-50:a|b")], "another course")
    want(course.is_told(), "the last line isn't told")


@test
def a_course_is_held_up_by_a_player_who_has_left():
    """Where all that is known was told, it is his turn, and he answered nothing there."""
    course = Course(game_of(NOLIMIT_2P), 1)
    course.gone(1)
    want(not course.is_held_up_by(1), "it is held up where no line is known")
    course.sent(0, 10, line(0, 0, ""))
    want(course.is_held_up_by(1) and not course.is_held_up_by(0), "it isn't held up at his turn")
    course.sent(0, 12, line(0, 0, "c"))
    want(not course.is_held_up_by(1), "it is held up where more is known")
    want(told(course) == [Acted(1, "c")] and not course.is_held_up_by(1), "it is held up at another's turn")
    course.gone(0)
    want(course.is_held_up_by(0), "it isn't held up by who has left too")
    course.sent(0, 13, line(0, 0, "cr300"))
    want(told(course) == [Acted(0, "r300")] and course.is_held_up_by(1), "it isn't held up at his second turn")
    course.logged("STATE:0:cr300f:AcAd|KcKd:100|-100:a|b")
    want(len(told(course)) == 2 and course.is_over() and not course.is_held_up_by(1), "it is held up where it is over")


@test
def a_course_asks_nobody_whose_answer_others_were_told():
    """Also where his own trace hasn't come so far, or lacks it. The newest place is that of the log, if no line is newer."""
    course = Course(game_of(NOLIMIT_2P), 3)
    course.sent(1, 10, line(1, 0, ""))
    want([seat for seat, _ in course.unanswered()] == [1] and course.newest() == (0, 0), "seat 1 isn't asked")
    course.sent(0, 12, line(0, 0, "c"))
    want([seat for seat, _ in course.unanswered()] == [0] and course.newest() == (0, 1), "others are asked")
    course.logged("STATE:1:cr300f:AcAd|KcKd:100|-100:a|b")
    want(not list(course.unanswered()) and course.newest() == (1, 3), "somebody is asked in a hand that is over")


@test
def a_look_that_takes_long_counts_little():
    looked = LookTime()
    looked.begin_look()
    before = looked.seconds
    time.sleep(1)
    looked.begin_look()
    want(abs(looked.seconds - before - LONGEST_LOOK) < 0.001, f"{looked.seconds - before} seconds count")


@test
def a_course_is_not_held_up_by_an_answer():
    course = Course(game_of(NOLIMIT_2P), 1)
    course.sent(1, 10, line(1, 0, ""))
    want(not course.is_held_up_by(1), "it is held up by who is there")
    course.received(1, 12, line(1, 0, "") + ":c")
    course.gone(1)
    want(not course.is_held_up_by(1), "it is held up, and its answer is on its way")
