"""What a room's file says."""
import re
import tomllib
from pathlib import Path
from typing import Dict, NamedTuple, Tuple

from league_parts.faults import Wrong
from league_parts.league_file import COUNT, DEFAULTS, HANDS, LONGEST_MATCH, MILLISECONDS, TIMES, Player, Reader
from match_engine import Limits
from table import Game

LIMITS = {key: DEFAULTS[key] for key in (*TIMES, "restarts", "nodes")}
OWN = {"port": 0, "bind": "127.0.0.1", "wait": 60, "resume": 3600, "at_once": 16, "a_day": 0, "waiting": 8, "house_after": 30, "house": []}
KEYS = {"name", "folder", "game", "hands", "player", *LIMITS, *OWN}
PLAYER_KEYS, HOUSE_KEYS = {"name", "token"}, {"name", "command", "folder"}
# The word for any house bot, which is nobody's name.
HOUSE = "house"
DIGEST = re.compile("[0-9a-f]{64}")
PORTS, SECONDS, FROM_ONE = (0, 65535), (0, 86400), (1, 1000000)


class Room(NamedTuple):
    """A room. Times are in seconds, but for the limits of a match."""

    path: Path
    name: str
    folder: Path
    game_path: Path
    game: Game
    # How many hands a match has: what a bot may choose, the first one if he doesn't.
    hands: Tuple[int, ...]
    nodes: int
    limits: Limits
    restarts: int
    port: int
    bind: str
    # How long a seat is kept whose player is away, and how long players of a match that was interrupted are waited for.
    wait: int
    resume: int
    # The most players who play at once, and matches of a player on a day, 0 being any number.
    at_once: int
    a_day: int
    # The most connections of one address that don't play.
    waiting: int
    # How long somebody waits for others before a house bot plays him.
    house_after: int
    # By name what the SHA-256 of a player's token is, and the room's own bots.
    tokens: Dict[str, str]
    houses: Dict[str, Player]


def read(path):
    """The room that a file describes."""
    try:
        entries = tomllib.loads(Path(path).read_bytes().decode())
    except OSError as why:
        raise Wrong(f"{path} can't be read: {why.strerror}") from why
    except (UnicodeDecodeError, tomllib.TOMLDecodeError) as why:
        raise Wrong(f"{path} isn't a TOML file: {why}") from why
    return RoomReader(Path(path).resolve(), entries).room()


class RoomReader(Reader):
    """Reads the entries of a room's file, as those of a league's are read."""

    defaults = {**LIMITS, **OWN}

    def room(self):
        self.refuse_others(self.entries, KEYS, "")
        limits = Limits(**{field: self.number(key, *MILLISECONDS) for key, field in TIMES.items()})
        path, game = self.game()
        tokens, houses = self.tokens(), self.houses()
        self.refuse_names(tokens, houses, game.players)
        return Room(
            self.path, self.named("name", self.entries, "the room"), self.own_folder(), path, game, self.hands(), self.nodes(), limits,
            self.number("restarts", *COUNT), self.number("port", *PORTS), self.value("bind", str, "an address"),
            self.number("wait", *SECONDS), self.number("resume", *SECONDS), self.number("at_once", *FROM_ONE), self.number("a_day", *COUNT),
            self.number("waiting", *FROM_ONE), self.number("house_after", *SECONDS), tokens, houses,
        )

    def own_folder(self):
        """The room's own folder, which is closed to others: so it can't be one in which the file lies."""
        folder = self.place("folder", self.entries)
        if self.path.is_relative_to(folder.resolve()):
            raise self.wrong("folder is one that the room has to itself, and not one in which its file lies")
        return folder

    def hands(self):
        """A number of hands, or several of them."""
        found = self.entries.get("hands")
        if type(found) is not list:
            return (self.number("hands", *HANDS),)
        least, most = HANDS
        if not found or len(set(map(str, found))) < len(found) or not all(type(it) is int and least <= it <= most for it in found):
            raise self.wrong(f"hands is a number from {least} to {most}, or a list of different ones, not {found!r}")
        return tuple(found)

    def tables_of(self, key):
        tables = self.value(key, list, f"a list of tables, each begun by [[{key}]]")
        if not all(isinstance(entries, dict) for entries in tables):
            raise self.wrong(f"{key} is a list of tables, each begun by [[{key}]]")
        return tables

    def tokens(self):
        found = {}
        for entries in self.tables_of("player"):
            name = self.named("name", entries, "a player")
            self.refuse_others(entries, PLAYER_KEYS, f" in the table of {name}")
            token = self.value("token", str, f"the SHA-256 of the token of {name}, as 64 digits of hexadecimal", entries)
            if not DIGEST.fullmatch(token):
                raise self.wrong(f"the token of {name} is its SHA-256, as 64 digits of hexadecimal, small ones: tools/room --new-token draws one")
            if name in found or token in found.values():
                raise self.wrong(f"two players are called {name}" if name in found else f"{name} has the token of another player")
            found[name] = token
        return found

    def houses(self):
        found = {}
        for entries in self.tables_of("house"):
            name = self.named("name", entries, "a house bot")
            self.refuse_others(entries, HOUSE_KEYS, f" in the table of {name}")
            if name in found:
                raise self.wrong(f"two house bots are called {name}")
            found[name] = self.player(entries)
        return found

    def refuse_names(self, tokens, houses, seats):
        """Refuses names that stand for two, or are too long, or are too few for a match."""
        for name in (*tokens, *houses):
            if name == HOUSE or (name in tokens and name in houses):
                raise self.wrong(f"{name} is {'the word for any house bot' if name == HOUSE else 'a player and a house bot'}: take another name")
        lengths = sorted(map(len, (*tokens, *houses)), reverse=True)
        if len(lengths) < seats:
            raise self.wrong(f"a match of this game has {seats} players, and the file names {len(lengths)}")
        if sum(lengths[:seats]) + seats > LONGEST_MATCH:
            raise self.wrong(f"the names are too long: those of a match have {LONGEST_MATCH} letters at most, all together")
