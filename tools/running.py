"""Runs commands of a script: each ends with it, also where that is interrupted, and says how long it took a processor."""
import os
import signal
import subprocess
import sys
import threading

SIGNALS = (signal.SIGINT, signal.SIGTERM, signal.SIGHUP)
# The commands that run now, and whether none may begin any more.
RUNNING, ONE, ENDED = set(), threading.RLock(), threading.Event()


class Took(threading.local):
    """The seconds of a processor that the commands took, with their children, that this thread has waited for."""

    seconds = 0.0


TOOK = Took()


class Interrupted(Exception):
    """The script is about to end, so nothing begins any more."""


class Ran:
    """What a command said on both outputs, its status (none if it ran out of time, below 0 a signal's number), and the
    seconds of a processor that it took."""

    def __init__(self, said, status, seconds):
        self.said, self.status, self.seconds = said, status, seconds


def end_with_its_commands(name):
    """From now on a signal that ends the script ends its commands first."""

    def end(*_):
        for it in SIGNALS:
            signal.signal(it, signal.SIG_IGN)
        ENDED.set()
        for command in list(RUNNING):
            stop(command)
        sys.exit(f"{name}: interrupted")

    for it in SIGNALS:
        signal.signal(it, end)


def stop(command):
    """Ends a command with all that it started, if it runs."""
    with ONE:
        if command in RUNNING:
            os.killpg(command.pid, signal.SIGTERM)


def start(words, **how):
    """Starts a command that ends with the script."""
    with ONE:
        if ENDED.is_set():
            raise Interrupted
        command = subprocess.Popen(words, start_new_session=True, **how)
        RUNNING.add(command)
    if ENDED.is_set():
        # The script was ended while this one began: nobody else saw it.
        stop(command)
    return command


def run(words, folder, seconds=None, env=None):
    """Runs a command in a folder, for so many seconds at most."""
    how = {"stdin": subprocess.DEVNULL, "stdout": subprocess.PIPE, "stderr": subprocess.STDOUT, "text": True, "errors": "replace"}
    command = start(words, cwd=folder, env=env, **how)
    is_late = threading.Event()
    timer = threading.Timer(seconds or threading.TIMEOUT_MAX, lambda: (is_late.set(), stop(command)))
    timer.daemon = True
    timer.start()
    try:
        with command.stdout as out:
            said = out.read()
        status, took = waited(command)
    finally:
        timer.cancel()
        stop(command)
    return Ran(said, None if is_late.is_set() else status, took)


def waited(command):
    """Waits until a command has ended: its status, and the seconds of a processor that it and its children took."""
    _, how, usage = os.wait4(command.pid, 0)
    return ended(command, how, usage)


def polled(command):
    """The status of a command that has ended; none while it runs."""
    if command.returncode is None:
        process, how, usage = os.wait4(command.pid, os.WNOHANG)
        if process:
            ended(command, how, usage)
    return command.returncode


def ended(command, how, usage):
    """Takes note of a command that has ended: its status, and the seconds of a processor that it and its children took."""
    with ONE:
        RUNNING.discard(command)
        command.returncode = -os.WTERMSIG(how) if os.WIFSIGNALED(how) else os.WEXITSTATUS(how)
    seconds = usage.ru_utime + usage.ru_stime
    TOOK.seconds += seconds
    return command.returncode, seconds
