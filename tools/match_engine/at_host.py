#!/usr/bin/env python3
"""What tools/league starts by ssh at another host: at_host.py WHAT, with a line of JSON on standard input that says all else.

  node   runs a node of a match: its log goes to standard output, its notes to standard error, and the status is the node's
  relay  runs the relay of a seat, with its output, notes and status
  bot    runs a player's program, with its output
  drop   removes the folder of a node or relay, and ends it
  sweep  ends what matches that nobody plays have left here, and removes their folders

It ends with its standard input, or when nothing came there for ten seconds, and with it what it runs. Words of a secret come by
standard input alone. Folders are below /dev/shm/holdem_table.UID, and their owner alone may enter them. Lines behind the first one:
`stop` and `cont` for a relay, `remove` for a node whose store isn't wanted any more.
"""
import base64
import fcntl
import json
import os
import queue
import shutil
import signal
import subprocess
import sys
import threading
import time
from pathlib import Path

sys.dont_write_bytecode = True
sys.path.insert(0, str(Path(__file__).resolve().parent.parent))

from match_engine.faults import MatchFault
from match_engine.files import begun_at
from match_engine.node_files import MEMORY, own_folder, write
from match_engine.program import end_with

# How often a log is looked at, how long who started this may say nothing, and how long a player's programs have to end, in seconds.
LOOK, SILENT, GRACE = 0.02, 10.0, 2.0
# The status of a node that has no store here, which must not be made anew.
NO_STORE = 2


class Told(threading.Thread):
    """Reads the lines behind the first one of standard input, and calls `take` with each word. Where nothing comes any more, or not
    for long, this process ends by `end`."""

    def __init__(self, take, end):
        super().__init__(daemon=True)
        self.take, self.end, self.heard = take, end, time.monotonic()
        self.start()
        threading.Thread(target=self.watch, daemon=True).start()

    def run(self):
        for line in sys.stdin:
            self.heard = time.monotonic()
            if line.strip():
                self.take(line.strip())
        self.end()

    def watch(self):
        while time.monotonic() < self.heard + SILENT:
            time.sleep(1)
        self.end()


def folder_at(name):
    """The folder of a match here."""
    base = MEMORY / f"holdem_table.{os.getuid()}"
    own_folder(base)
    return base / name


def hold(folder):
    """Locks a folder for this process, after what has it was ended. It says who it is: `sweep` and others end it by that."""
    held = os.open(folder / "holder", os.O_RDWR | os.O_CREAT, 0o600)
    while True:
        try:
            fcntl.flock(held, fcntl.LOCK_EX | fcntl.LOCK_NB)
            break
        except BlockingIOError:
            end_holder(folder)
            time.sleep(LOOK)
    os.ftruncate(held, 0)
    os.pwrite(held, f"{os.getpid()} {begun_at(os.getpid())}\n".encode(), 0)
    return held


def end_holder(folder):
    """Ends the process that has a folder: that of its number, if it began when it is said to."""
    try:
        number, begun = (folder / "holder").read_text().split()
    except (OSError, ValueError):
        return
    if begun_at(int(number)) == begun:
        os.kill(int(number), signal.SIGKILL)


def put(folder, files):
    """Writes files, by their names; their bytes come in base64."""
    for name, data in files.items():
        (folder / name).parent.mkdir(mode=0o700, exist_ok=True)
        write(folder / name, base64.b64decode(data))


def run_node(asked):
    """Runs a node. Its first store comes with what is asked, once; a store that was here and isn't any more isn't replaced."""
    folder = folder_at(asked["folder"])
    if not folder.is_dir() and "store" not in asked:
        print("the store of this node was here, and is gone: it stays out", file=sys.stderr)
        return NO_STORE
    own_folder(folder)
    held, told = hold(folder), queue.SimpleQueue()
    ended = []
    Told(told.put, lambda: (told.put("ended"), [process.kill() for process in ended]))
    if "store" in asked:
        shutil.rmtree(folder / "stores", ignore_errors=True)
        put(folder, asked["store"])
        print("the store is made here", file=sys.stderr, flush=True)
        if told.get() != "go":
            return 1
    put(folder, asked["files"])
    (folder / "logs").mkdir(mode=0o700, exist_ok=True)
    for log in (folder / "logs").iterdir():
        log.unlink()
    process = started([asked["program"], "node", asked["match"], str(asked["node"])], folder, stdout=subprocess.DEVNULL)
    ended.append(process)
    copy_log(folder / "logs" / f"node{asked['node']}.log", process)
    if "remove" in iter(lambda: None if told.empty() else told.get(), None):
        shutil.rmtree(folder, ignore_errors=True)
    os.close(held)
    return process.returncode


def copy_log(path, process):
    """Copies a log to standard output, until its writer has ended."""
    taken, is_ended = 0, False
    while True:
        is_ended = process.poll() is not None
        try:
            with open(path, "rb") as file:
                file.seek(taken)
                data = file.read()
        except FileNotFoundError:
            data = b""
        taken += len(data)
        while data:
            data = data[os.write(1, data) :]
        if is_ended:
            return
        time.sleep(LOOK)


def started(words, folder, **streams):
    parent = os.getpid()
    return subprocess.Popen(words, cwd=folder, stdin=subprocess.DEVNULL, preexec_fn=lambda: end_with(parent), **streams)


def run_relay(asked):
    """Runs a relay."""
    folder = folder_at(asked["folder"])
    own_folder(folder)
    held = hold(folder)
    put(folder, asked["files"])
    process = started([asked["program"], *asked["words"]], folder)
    signals = {"stop": signal.SIGSTOP, "cont": signal.SIGCONT}
    Told(lambda word: process.send_signal(signals[word]), process.kill)
    status = process.wait()
    shutil.rmtree(folder, ignore_errors=True)
    os.close(held)
    return status


def run_bot(asked):
    """Runs a player's program in a process group of its own, which ends with this process: asked to, and killed two seconds later."""
    try:
        process = subprocess.Popen(
            asked["words"], cwd=asked["folder"], stdin=subprocess.DEVNULL, stderr=subprocess.STDOUT, start_new_session=True,
        )
    except OSError as why:
        print(f"the program can't be started: {why.strerror}: {why.filename}", flush=True)
        return 1
    is_over = threading.Event()
    Told(lambda word: None, is_over.set)
    while not is_over.wait(LOOK) and is_group(process):
        continue
    end_group(process)
    return 0


def is_group(process):
    """Whether a process of a program's group is there."""
    process.poll()
    try:
        os.killpg(process.pid, 0)
    except ProcessLookupError:
        return False
    except PermissionError:
        pass
    return True


def end_group(process):
    for number, seconds in ((signal.SIGTERM, GRACE), (signal.SIGKILL, 0)):
        if not is_group(process):
            return
        try:
            os.killpg(process.pid, number)
        except PermissionError:
            return
        until = time.monotonic() + seconds
        while is_group(process) and time.monotonic() < until:
            time.sleep(LOOK)


def drop(asked):
    """Removes a folder, after what has it was ended."""
    folder = folder_at(asked["folder"])
    end_holder(folder)
    shutil.rmtree(folder, ignore_errors=True)
    return 0


def sweep(asked):
    """Ends what a league has left here, and removes it where the match doesn't go on. What is played now stays."""
    for folder in folder_at("").glob(asked["league"] + ".*"):
        match = folder.name.rpartition(".")[0]
        if match not in asked["played"]:
            end_holder(folder)
        if match not in asked["kept"]:
            shutil.rmtree(folder, ignore_errors=True)
    return 0


WHAT = {"node": run_node, "relay": run_relay, "bot": run_bot, "drop": drop, "sweep": sweep}


def main(words):
    if len(words) != 1 or words[0] not in WHAT:
        print(__doc__.strip())
        return 0 if words in (["-h"], ["--help"]) else 2
    asked = sys.stdin.readline()
    if not asked.endswith("\n"):
        return 1
    try:
        status = WHAT[words[0]](json.loads(asked))
    except (MatchFault, OSError) as why:
        print(f"at this host: {why}", file=sys.stderr)
        return 1
    # (a status of a signal is told as a failure that is tried again)
    return status if status >= 0 else 128 - status


if __name__ == "__main__":
    found = main(sys.argv[1:])
    sys.stdout.flush()
    # (a thread may still wait for standard input)
    os._exit(found)
