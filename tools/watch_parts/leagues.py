"""The matches of a league's folder, and its standings. Nothing is written there."""
import os
import sys
import time
from collections import defaultdict

from league_parts import groups, league_file, plan, table
from league_parts.faults import Stopped
from league_parts.standings import Standings
from league_parts.words import printable

from .follower import Follower
from .growing import GrowingLog
from .wrong import Wrong

# How many finished matches the page shows, and how often standings are reckoned at most, in seconds.
FINISHED_SHOWN, SECONDS_BETWEEN_STANDINGS = 10, 5


class LeagueSource:
    """The running matches of a league and the newest finished ones. Of a group with duplicates no card, no betting and no chips are
    shown before all its matches are finished: the other seatings have the same cards."""

    kind = "league"

    def __init__(self, path, words, hiding_of):
        try:
            self.path, self.league = path, league_file.read(path)
        except Stopped as why:
            raise Wrong(str(why)) from why
        self.title, self.delay, self.noted = self.league.name, words.delay, None
        self.hiding = hiding_of(self.league.game_path.read_text(encoding="latin-1"), words.reveal)
        self.planned, self.groups, self.plan_seen, self.finished, self.followers = {}, {}, None, {}, {}
        self.table, self.reckoned, self.is_stale = [], 0.0, True

    def look(self):
        """Whether the standings have changed; and the matches that have, each with its new hands."""
        self.read_plan()
        self.see_finished()
        self.choose()
        changed = []
        for follower in self.followers.values():
            hands, has_changed = follower.look()
            changed += [(follower, hands)] if hands or has_changed else []
        return self.reckon(), changed

    def read_plan(self):
        """Reads the plan if it has grown, lines that are whole, and the league's file, which may have more players then. Where one
        can't be read, the plan stays as it was."""
        path = self.league.folder / "plan"
        try:
            seen = path.stat().st_size
            if seen == self.plan_seen:
                return
            text = path.read_text(encoding="ascii")
        except OSError:
            return
        lines = text[: text.rfind("\n") + 1].splitlines()
        try:
            self.league = league_file.read(self.path)
            self.planned = {it.name: it for it in (plan.match(self.league, number, line) for number, line in enumerate(lines, start=1))}
        except Stopped as why:
            self.note(str(why))
            return
        self.groups = defaultdict(list)
        for it in self.planned.values():
            self.groups[it.group].append(it.name)
        self.plan_seen, self.is_stale = seen, True

    def note(self, text):
        """Tells something once on standard error."""
        if text != self.noted:
            self.noted = text
            print(printable(f"tools/watch: {text}"), file=sys.stderr, flush=True)

    def see_finished(self):
        """Sees which matches are finished; `finished` has them in the order in which they were seen."""
        try:
            names = [name for name in os.listdir(self.league.matches) if name in self.planned and name not in self.finished]
        except OSError:
            return
        found = {name: self.league.result_of(name) / "result.json" for name in names}
        times = {name: path.stat().st_mtime for name, path in found.items() if path.exists()}
        self.finished.update((name, True) for name in sorted(times, key=times.get))
        self.is_stale = self.is_stale or bool(times)

    def is_held(self, name):
        """Whether a match has the cards of another one that isn't finished."""
        if not self.league.duplicate:
            return False
        members = self.groups[self.planned[name].group]
        return len(members) < plan.group_size(self.league) or not all(member in self.finished for member in members)

    def choose(self):
        """Follows the running matches, and the newest finished ones that aren't held."""
        try:
            running = [name for name in os.listdir(self.league.folder / "running") if name in self.planned and name not in self.finished]
        except OSError:
            running = []
        newest = [name for name in reversed(self.finished) if not self.is_held(name)][:FINISHED_SHOWN]
        wanted = sorted(running) + newest
        self.followers = {name: self.followers.get(name) or self.follower_of(name) for name in wanted}
        for name, follower in self.followers.items():
            follower.is_held = self.is_held(name)

    def follower_of(self, name):
        paths = [self.league.folder / "running" / name / f"{name}.log", self.league.result_of(name) / f"{name}.log"]
        follower = Follower(f"{self.league.path.stem}.{name}", name, self.league.game, GrowingLog(paths), self.delay, self.hiding)
        follower.is_held = self.is_held(name)
        return follower

    def reckon(self):
        """Reckons the standings anew where a match was finished since, but not all the time; whether it did."""
        if not self.is_stale or not self.planned or time.monotonic() < self.reckoned + SECONDS_BETWEEN_STANDINGS:
            return False
        self.is_stale = False
        planned = plan.played(self.league, [*self.planned.values()])
        try:
            found = Standings(self.league, plan.counted_ones(self.league, planned), groups.played(self.league, planned))
        except Stopped:
            # (a match is just being put in its place: the next look finds it there)
            self.is_stale = True
            return False
        self.table, self.reckoned = table.values(found)["standings"], time.monotonic()
        return True

    def matches(self):
        return [*self.followers.values()]

    def standings(self):
        return [{"title": f"{self.title}, {self.league.hands} hands a match, in mbb/hand", "rows": self.table}] if self.table else []
