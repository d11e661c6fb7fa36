"""What a room keeps on the disk: a league without duplicates for each number of hands, and when each match began."""
import contextlib
import fcntl
import json
import os
import shlex
import time
from collections import Counter
from pathlib import Path
from typing import NamedTuple

from league_parts import league_file, plan
from league_parts.faults import Busy, Unfinished, Wrong
from league_parts.files import put_once, write_whole
from league_parts.league_file import League

# The file of a match's folder that names the players whose seats are given up.
GIVEN_UP = "given_up"
MILLISECONDS = 1000


class Begun(NamedTuple):
    """A match of a league, which is finished once its result is there."""

    league: League
    planned: plan.Planned

    @property
    def name(self):
        return self.planned.name

    @property
    def dialled(self):
        """The names of its players who dial in."""
        return [name for name in self.planned.seats if not self.league.players[name].command]

    def is_finished(self):
        return plan.is_finished(self.league, self.planned)

    def given_up(self):
        """The names of the players whose seats are given up, as far as its folder can be read."""
        try:
            return set((self.league.folder / "running" / self.name / GIVEN_UP).read_text().split())
        except OSError:
            return set()

    def score(self):
        return json.loads((self.league.result_of(self.name) / "result.json").read_text())["score"]


def day_of(seconds):
    """A day of UTC."""
    return time.strftime("%Y-%m-%d", time.gmtime(seconds))


class Leagues:
    """The leagues of a room, by their numbers of hands. This process alone has them until it ends."""

    def __init__(self, room):
        self.room, self.found = room, {}
        try:
            room.folder.mkdir(mode=0o700, parents=True, exist_ok=True)
            room.folder.chmod(0o700)
            self.held = self.lock()
            self.copy_game()
            for hands in room.hands:
                self.found[hands] = self.league(hands)
        except OSError as why:
            raise Unfinished(f"{why.filename or room.folder}: {why.strerror}") from why
        self.met, self.days = Counter(), Counter()
        for hands, league in self.found.items():
            for planned in plan.planned(league):
                self.met.update(self.pairs(hands, planned.players))
        for day, _, *names in map(str.split, self.lines()):
            self.days.update((day, name) for name in names)

    def lock(self):
        descriptor = os.open(self.room.folder / "lock", os.O_RDWR | os.O_CREAT | os.O_CLOEXEC, 0o600)
        try:
            fcntl.flock(descriptor, fcntl.LOCK_EX | fcntl.LOCK_NB)
        except BlockingIOError as why:
            os.close(descriptor)
            raise Busy(f"another process has the room {self.room.name} open ({self.room.folder})") from why
        return descriptor

    @property
    def game(self):
        """The room's own copy of the game: its name stands in each log."""
        return self.room.folder / self.room.game_path.name

    def copy_game(self):
        text = self.room.game_path.read_bytes()
        put_once(self.game, text)
        if self.game.read_bytes() != text:
            raise Wrong(f"{self.room.path.name}: game was another one when the room began ({self.game}); take another folder for this one")

    def league(self, hands):
        """The league of a number of hands, whose file is written anew: whoever played here is in it."""
        path = self.room.folder / f"hands{hands}.toml"
        names = [*self.room.tokens, *(name for name in self.known(path) if name not in self.room.tokens)]
        write_whole(path, self.text(hands, [name for name in names if name not in self.room.houses]))
        found = league_file.read(path)
        plan.prepare(found)
        return found

    def known(self, path):
        """The names of a league's plan."""
        try:
            lines = (path.with_suffix("") / "plan").read_text(encoding="ascii").splitlines()
        except FileNotFoundError:
            return []
        # (a kill may have left half of the last line, and the names of a match stand twice in its line)
        return sorted({name for line in lines for name in line.split(" ")[2 : 2 + self.room.game.players] if league_file.NAME.fullmatch(name)})

    def text(self, hands, names):
        """The text of a league's file. The start's limit is that of who takes longest: a house bot, or a player who dials again."""
        room = self.room
        start = max(room.limits.start, MILLISECONDS * (room.wait + 60))
        entries = {
            "name": room.name, "folder": f"hands{hands}", "game": self.game.name, "hands": hands, "meetings": 1, "duplicate": False, "room": True,
            "nodes": room.nodes, "t_response": room.limits.response, "t_hand": room.limits.hand, "t_per_hand": room.limits.per_hand,
            "start_timeout": start, "restarts": room.restarts,
        }
        houses = [
            {"name": name, "command": shlex.join(it.command), "folder": str(Path(it.folder).resolve())}
            for name, it in room.houses.items()
        ]
        lines = ["# tools/room writes this file anew at each start: tools/league takes it for plan, table and page.", *entry_lines(entries)]
        for player in [*({"name": name} for name in names), *houses]:
            lines += ["", "[[player]]", *entry_lines(player)]
        return "\n".join(lines) + "\n"

    @staticmethod
    def pairs(hands, players):
        """All that have met in a match, both ways round."""
        return [(hands, one, other) for one in players for other in players if one != other]

    def often(self, hands, one, other):
        """How often two have met over so many hands."""
        return self.met[hands, one, other]

    def lines(self):
        """The whole lines of the file of matches that have begun."""
        try:
            text = (self.room.folder / "begun").read_text(encoding="ascii")
        except FileNotFoundError:
            return []
        return text[: text.rfind("\n") + 1].splitlines()

    def today(self, name):
        """How many matches of a player have begun today."""
        return self.days[day_of(time.time()), name]

    def unfinished(self):
        """All matches that aren't finished."""
        found = [Begun(league, planned) for league in self.found.values() for planned in plan.planned(league)]
        return [it for it in found if not it.is_finished()]

    def begin(self, hands, players):
        """Plans the next match of some players, and notes that it begins today."""
        league = self.found[hands]
        planned, day = plan.add(league, players), day_of(time.time())
        self.met.update(self.pairs(hands, planned.players))
        self.days.update((day, name) for name in players)
        # (where the disk is full the count of a day lacks it, behind the next start alone)
        with contextlib.suppress(OSError), open(self.room.folder / "begun", "ab") as file:
            file.write(f"{day} {hands}.{planned.name} {' '.join(sorted(players))}\n".encode())
        return Begun(league, planned)

    def close(self):
        os.close(self.held)


def entry_lines(entries):
    """Entries as lines of TOML."""
    return [f"{key} = {json.dumps(value, ensure_ascii=False)}" for key, value in entries.items()]
