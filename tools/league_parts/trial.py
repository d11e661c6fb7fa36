"""Plays some hands of each player against the sample player who calls, before a league begins."""
import os
import secrets
import shutil
import signal
import subprocess
import sys

from match_engine.program import TOP

from .bots import Keeper
from .faults import Unfinished
from .league_file import Player
from .one_match import Table, end_by_signals, lock, play, settings_of
from .running import default_jobs, end_with
from .words import counted, printable

HANDS = 20
CALLER = TOP / "examples/bots/caller"
MILLISECOND = 1000


class Trial(Table):
    """A table of which only the first player is looked at, who may not return."""

    def __init__(self, players, folder, keeper):
        super().__init__(players, 0, folder, keeper)
        self.answers, self.why, self.why_unstarted = 0, None, None

    def received(self, seat, at, line):
        self.answers += seat == 0 and line.startswith("MATCHSTATE:")

    def unstarted(self, seat, why):
        if seat == 0:
            self.why_unstarted = why
        super().unstarted(seat, why)

    def failed(self, seat, why, restarts):
        if seat == 0:
            self.why = why
        return super().failed(seat, why, restarts)


def callers(league, name):
    """The others at the table of a player: as many sample players as it takes."""
    names = [it for it in (f"caller{number}" for number in range(1, league.seats + 1)) if it != name]
    words = [sys.executable, str(CALLER), str(league.game_path), "{port}"]
    return [Player(it, words, TOP, None) for it in names[: league.seats - 1]]


def try_player(league, player, keeper):
    """Plays with a player; why he failed, if he did, and what was seen of him."""
    folder = league.folder / "tried" / player.name
    shutil.rmtree(folder, ignore_errors=True)
    folder.mkdir(mode=0o700, parents=True)
    players = [player, *callers(league, player.name)]
    table = Trial(players, folder, keeper)
    result = play(settings_of(league, "try", [it.name for it in players], HANDS, secrets.randbelow(2**63), folder), table)
    if table.why_unstarted is not None:
        return table.why_unstarted, None
    if table.why is not None:
        return f"{table.why}; what he wrote is in {folder / (player.name + '.out')}", None
    mean = result.used[0] / max(1, table.answers) / MILLISECOND
    mended = f"{counted(result.mended[0], 'mended action')}, see {folder / 'notes'}" if result.mended[0] else "no mended action"
    return None, (
        f"connected after {table.all_there - table.begun:.1f} s; {table.answers} responses of {mean:.1f} ms, "
        f"the longest {result.worst[0] / MILLISECOND:.1f} ms; {mended}"
    )


def try_one(league, name):
    """Tries a player, and tells how he did; the exit status, 1 where he failed."""
    end_by_signals()
    keeper = Keeper()
    try:
        why, seen = try_player(league, league.players[name], keeper)
    except Unfinished as fault:
        why, seen = str(fault), None
    finally:
        keeper.close()
    print(printable(f"{name}: {'failed: ' + why if why else seen}"), flush=True)
    return 1 if why else 0


def try_all(league, command):
    """Tries all players, some side by side, each in a process of its own, and tells of them in the file's order; the exit status.
    `command` gives the words that try one."""
    lock(league, "try")
    waiting, running, status, parent = list(league.players), {}, 0, os.getpid()
    blocked = signal.pthread_sigmask(signal.SIG_BLOCK, [])
    end_by_signals()
    try:
        while waiting or running:
            while waiting and len(running) < default_jobs(league):
                name = waiting.pop(0)
                running[name] = subprocess.Popen(
                    command(name), stdin=subprocess.DEVNULL, stdout=subprocess.PIPE, preexec_fn=lambda: end_with(parent, blocked)
                )
            first = next(iter(running))
            sys.stdout.write(running[first].communicate()[0].decode(errors="replace"))
            sys.stdout.flush()
            status = max(status, running.pop(first).returncode != 0)
    finally:
        for process in running.values():
            process.terminate()
        for process in running.values():
            process.communicate()
    return int(status)
