"""Pages on which the hands of the league's matches can be looked at: one for all finished meetings of the same players."""
import os
import subprocess
import sys
import time

import which_program

from .progress import Progress
from .words import in_words, of_all

REPLAY = which_program.TOP / "tools/replay"
# How often it is looked whether pages are made, in seconds.
LOOK = 0.05


def lanes():
    """How many pages are made at a time."""
    return len(os.sched_getaffinity(0))


class Pages:
    """The pages of hands that a league's page leads to, and how far their making is."""

    def __init__(self, standings, folder, is_revealed, most=None):
        """They are made in a folder. `most` is how many meetings a page has at most, the newest ones; none where it has all."""
        self.league, self.is_revealed, self.folder = standings.league, is_revealed, folder
        self.folder.mkdir(mode=0o700, exist_ok=True)
        self.matches = {
            players: [match for group in (found if most is None else found[-most:]) for match in group.matches]
            for players, found in standings.groups.items()
        }
        self.made = [players for players in self.matches if self.is_made(players)]
        self.lacking = [players for players in self.matches if players not in self.made]
        # How many pages were tried, when that began, and when the last of them was done.
        self.tried, self.begun, self.done, self.progress = 0, time.monotonic(), 0.0, Progress()

    def path(self, players):
        return self.folder / f"{'.'.join(players)}.html"

    def logs(self, players):
        return [match.log(self.league) for match in self.matches[players]]

    def list_of(self, players):
        """The file that says of which matches a page is: what was made of fewer is made anew."""
        return self.path(players).with_suffix(".list")

    def text_of_list(self, players):
        return "".join(f"{path.name}\n" for path in self.logs(players))

    def is_made(self, players):
        """Whether a page is there that has all its matches, and is younger than they are."""
        path, listed = self.path(players), self.list_of(players)
        if not path.exists() or not listed.exists() or listed.read_text() != self.text_of_list(players):
            return False
        return all(path.stat().st_mtime > (log.parent / "result.json").stat().st_mtime for log in self.logs(players))

    def make(self):
        """Makes the pages that aren't there yet, as many at a time as there are processors, and tells how far that is."""
        waiting, running = list(self.lacking), {}
        try:
            while waiting or running:
                while waiting and len(running) < lanes():
                    players = waiting.pop(0)
                    running[players] = self.begin(players)
                self.progress.tell(self.text)
                time.sleep(LOOK)
                for players in [players for players, process in running.items() if process.poll() is not None]:
                    self.take(players, running.pop(players))
        finally:
            for process in running.values():
                process.kill()
                process.communicate()
        self.progress.clear()

    def begin(self, players):
        """Begins to make a page."""
        self.list_of(players).write_text(self.text_of_list(players))
        words = [sys.executable, REPLAY, self.league.game_path, *self.logs(players), "--beside", "-o", self.path(players)]
        words += ["--all"] if self.is_revealed else []
        return subprocess.Popen(words, stdin=subprocess.DEVNULL, stdout=subprocess.DEVNULL, stderr=subprocess.PIPE)

    def take(self, players, process):
        """Takes a page that is done. Where that failed the league's page has no link to it."""
        said = process.communicate()[1].decode(errors="replace").strip()
        self.tried, self.done = self.tried + 1, time.monotonic()
        if process.returncode:
            self.list_of(players).unlink()
            self.progress.note(f"no page of hands {self.path(players).name}: {said}")
        else:
            self.made.append(players)

    def text(self):
        """How far it is, and how long the rest takes by the speed so far."""
        text, left = f"made {of_all(self.tried, len(self.lacking), 'page')} of hands", len(self.lacking) - self.tried
        if not self.tried:
            return text
        seconds = (self.done - self.begun) / self.tried * left - (time.monotonic() - self.done)
        return f"{text}, about {in_words(max(1, seconds))} left"

    def addresses(self):
        """By match the address of its hands, seen from the folder above that of the pages."""
        return {
            match.planned.name: f"{self.folder.name}/{self.path(players).name}" + (f"#{place}/0" if len(self.matches[players]) > 1 else "")
            for players in self.made
            for place, match in enumerate(self.matches[players], start=1)
        }


def make_replays(standings, folder, is_revealed, most=None):
    """Makes the pages that aren't there yet; by match the address of its hands, seen from the folder above. There are none where
    tools/replay isn't, or none are wanted. A meeting's matches are shown when all of them are finished: they have the same cards."""
    if not REPLAY.exists() or most == 0:
        return {}
    pages = Pages(standings, folder, is_revealed, most)
    pages.make()
    return pages.addresses()
