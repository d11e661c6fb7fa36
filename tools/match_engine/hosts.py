"""Other hosts, on which nodes, relays and players of a match run: each by a process of ssh, which stands for what it runs there."""
import json
import os
import shlex
import subprocess
import threading
import time
from pathlib import Path

from .faults import MatchFault
from .program import end_with

# What runs there, at the same path as here.
AT_HOST = Path(__file__).resolve().parent / "at_host.py"
SSH = ["ssh", "-T", "-o", "BatchMode=yes", "-o", "ConnectTimeout=5", "-o", "ServerAliveInterval=3", "-o", "ServerAliveCountMax=3"]
# How often each process there is told that this one is there, in seconds.
BEAT = 1.0
# The status of ssh where it didn't reach the host, or lost it.
UNREACHED = 255
# How long what runs there has to end once it is told to, in seconds.
ENDING = 4.0


class HostLost(MatchFault):
    """A host can't be reached on which a player's bot and relay run."""

    def __init__(self, host, seat):
        super().__init__(f"host {host} of seat {seat + 1} isn't reached")
        self.host, self.seat = host, seat


def address_of(host):
    """The address of a host, which may be named as USER@ADDRESS."""
    return host.rpartition("@")[2]


def run_at(host, what, asked, before=lambda: None, **streams):
    """Starts something at a host; its process here. `asked` may have secrets: it goes by standard input. It ends with this process."""
    parent = os.getpid()

    def begin():
        end_with(parent)
        before()

    words = [*SSH, "--", host, f"exec python3 {shlex.quote(str(AT_HOST))} {what}"]
    try:
        process = subprocess.Popen(words, stdin=subprocess.PIPE, preexec_fn=begin, **streams)
    except OSError as why:
        raise MatchFault(f"ssh can't be started: {why.strerror}") from why
    Beats.first().begin(process, json.dumps(asked).encode() + b"\n")
    return process


class Beats(threading.Thread):
    """Tells all that runs at other hosts each second that this process is there. What has to be said is written by it alone: a host
    that takes nothing holds up nobody but this thread, and not the others."""

    one = None

    def __init__(self):
        super().__init__(daemon=True)
        self.lock, self.told, self.wakes = threading.Lock(), {}, threading.Event()

    @classmethod
    def first(cls):
        """The one of this process."""
        if cls.one is None or not cls.one.is_alive():
            cls.one = cls()
            cls.one.start()
        return cls.one

    def begin(self, process, text):
        os.set_blocking(process.stdin.fileno(), False)
        with self.lock:
            self.told[process] = text
        self.wakes.set()

    def say(self, process, text):
        """Says something behind what has been said."""
        with self.lock:
            if process in self.told:
                self.told[process] += text
        self.wakes.set()

    def end(self, process):
        """Says nothing more to a process: it ends."""
        with self.lock:
            rest = self.told.pop(process, b"")
            try:
                if rest:
                    os.write(process.stdin.fileno(), rest)
                process.stdin.close()
            except OSError:
                pass

    def run(self):
        at = time.monotonic()
        while True:
            self.wakes.wait(BEAT / 10 if any(self.told.values()) else max(0.01, at + BEAT - time.monotonic()))
            self.wakes.clear()
            with self.lock:
                if time.monotonic() >= at + BEAT:
                    at = time.monotonic()
                    self.told = {process: text or b"\n" for process, text in self.told.items()}
                for process in list(self.told):
                    self.write(process)

    def write(self, process):
        try:
            text = self.told[process]
            self.told[process] = text[os.write(process.stdin.fileno(), text) :] if text else text
        except BlockingIOError:
            pass
        except (OSError, ValueError):
            # It has ended, and its status says why.
            del self.told[process]


def say(process, word):
    """Says a word to what runs at a host."""
    Beats.first().say(process, word.encode() + b"\n")


def let_go(process):
    """Has what runs at a host end."""
    Beats.first().end(process)


def end(process):
    """Has what runs at a host end, and waits for that a while; then its ssh is ended."""
    let_go(process)
    try:
        process.wait(ENDING)
    except subprocess.TimeoutExpired:
        process.kill()
        process.wait()


def sweep(hosts, league, kept, played):
    """Removes from hosts what ended runs of a league have left there; which hosts weren't reached."""
    asked = {"league": league, "kept": kept, "played": played}
    swept = {host: run_at(host, "sweep", asked, stdout=subprocess.DEVNULL, stderr=subprocess.DEVNULL) for host in hosts}
    missed = []
    for host, process in swept.items():
        try:
            process.wait(20)
        except subprocess.TimeoutExpired:
            process.kill()
            process.wait()
        Beats.first().end(process)
        if process.returncode:
            missed.append(host)
    return missed
