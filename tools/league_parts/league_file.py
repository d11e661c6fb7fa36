"""What a league's file says."""
import re
import shlex
import tomllib
from pathlib import Path
from typing import Dict, List, NamedTuple, Optional

from match_engine import Limits
from table import Game

from .faults import Wrong

# Points join the names of a match, so they can't stand in a player's.
NAME = re.compile(r"[A-Za-z0-9_-]{1,32}")
# A match's name is a folder's: what a file system takes, less a margin for what is put behind it.
LONGEST_MATCH = 200
HANDS, MEETINGS, COUNT = (1, 10000), (1, 100000), (0, 1000000)
MILLISECONDS = (0, 2**53)
# One dealer process, or so many nodes, each in a process of its own.
NODES = (0, 3, 5)
TIMES = {"t_response": "response", "t_hand": "hand", "t_per_hand": "per_hand", "start_timeout": "start"}
DEFAULTS = {
    "duplicate": True, "nodes": 0, "t_response": 600000, "t_hand": 600000, "t_per_hand": 7000, "start_timeout": 60000, "restarts": 3, "hosts": [],
    "ports": 21000, "tables": 0, "swiss": 0, "rank_by": "plain", "room": False,
}
KEYS = {"name", "folder", "game", "hands", "meetings", "player", *DEFAULTS}
PLAYER_KEYS = {"name", "command", "folder", "at_once", "at", "withdrawn", "keep", "against"}
# By what players are ranked and told apart: by what they won, or by that less their luck.
RANKINGS = ("plain", "luck")
# Which finished groups of a player count who has withdrawn.
KEEPS = ("all", "complete", "none")
# A host as ssh takes it: USER@ADDRESS, or an address or name alone.
HOST = re.compile(r"([A-Za-z0-9_][A-Za-z0-9_.-]*@)?[A-Za-z0-9][A-Za-z0-9.-]*")
PORTS = (1024, 65000)
TABLES, ROUNDS = (0, 100000), (0, 1000)


class Player(NamedTuple):
    name: str
    # The words of the command, in which {host} and {port} aren't filled in yet. Who dials in to a room has neither command nor folder.
    command: List[str]
    folder: Optional[Path]
    # At most so many of it run at once; none where there is no bound.
    at_once: Optional[int]
    # The hosts at which it runs, the first one as long as that is there; none where it runs with the league.
    at: List[str] = []
    # Whether it has left the league, and which of its finished groups count then.
    withdrawn: bool = False
    keep: str = "all"
    # The only players whom it plays; none where it plays all.
    against: List[str] = []

    def words(self, host, port):
        """The words of the command for a port."""
        return [word.replace("{host}", host).replace("{port}", str(port)) for word in self.command]


class League(NamedTuple):
    path: Path
    name: str
    folder: Path
    # The game's path as the file has it, which stands in each log's head, and from the root.
    game_word: str
    game_path: Path
    game: Game
    hands: int
    meetings: int
    duplicate: bool
    limits: Limits
    restarts: int
    # How many nodes keep a match that hasn't begun; 0 is one dealer process.
    nodes: int
    # The hosts of the nodes, none where they run with the league, and the first port there.
    hosts: List[str]
    ports: int
    # How many tables a meeting has, 0 being all that there can be; and how many rounds are paired by results, 0 being none.
    tables: int
    swiss: int
    # One of RANKINGS.
    rank_by: str
    # Whether a room plans and plays the matches (tools/room).
    room: bool
    players: Dict[str, Player]

    @property
    def seats(self):
        """How many players sit in a match."""
        return self.game.players

    @property
    def withdrawn(self):
        """The names of the players who have withdrawn."""
        return {name for name, player in self.players.items() if player.withdrawn}

    @property
    def blind(self):
        """The greatest blind, in chips."""
        return max(self.game.blinds)

    @property
    def matches(self):
        """The folder of finished matches."""
        return self.folder / "matches"

    def result_of(self, name):
        return self.matches / name


def read(path):
    """The league that a file describes."""
    try:
        text = Path(path).read_bytes().decode()
        entries = tomllib.loads(text)
    except OSError as why:
        raise Wrong(f"{path} can't be read: {why.strerror}") from why
    except (UnicodeDecodeError, tomllib.TOMLDecodeError) as why:
        raise Wrong(f"{path} isn't a TOML file: {why}") from why
    return Reader(Path(path).resolve(), entries).league()


class Reader:
    """Reads the entries of a file. Paths in it count from the file's own folder."""

    defaults = DEFAULTS

    def __init__(self, path, entries):
        self.path, self.entries = path, entries

    def wrong(self, text):
        return Wrong(f"{self.path.name}: {text}")

    def league(self):
        self.refuse_others(self.entries, KEYS, "")
        limits = Limits(**{field: self.number(key, *MILLISECONDS) for key, field in TIMES.items()})
        path, game = self.game()
        league = League(
            self.path, self.named("name", self.entries, "the league"), self.folder(), self.entries["game"], path, game,
            self.number("hands", *HANDS), self.number("meetings", *MEETINGS), self.truth("duplicate"), limits,
            self.number("restarts", *COUNT), self.nodes(), self.hosts("hosts", self.entries), self.number("ports", *PORTS),
            self.number("tables", *TABLES), self.number("swiss", *ROUNDS), self.rank_by(), self.truth("room"), self.players(),
        )
        self.refuse_hosts(league)
        self.refuse_room(league)
        self.refuse_pairings(league)
        if len(league.players) < league.seats:
            raise self.wrong(f"a match of this game has {league.seats} players, and the file names {len(league.players)}")
        longest = sorted(map(len, league.players), reverse=True)[: league.seats]
        if sum(longest) + league.seats > LONGEST_MATCH:
            raise self.wrong(f"the players' names are too long: those of a match have {LONGEST_MATCH} letters at most, all together")
        return league

    def refuse_others(self, entries, keys, where):
        for key in entries:
            if key not in keys:
                raise self.wrong(f"no key is called {key!r}{where}; there are {', '.join(sorted(keys))}")

    def value(self, key, kind, what, entries=None):
        found = (self.entries if entries is None else entries).get(key, self.defaults.get(key))
        if found is None:
            raise self.wrong(f"{key} is missing")
        if type(found) is not kind:
            raise self.wrong(f"{key} is {what}, not {found!r}")
        return found

    def number(self, key, least, most):
        found = self.value(key, int, f"a number from {least} to {most}")
        if not least <= found <= most:
            raise self.wrong(f"{key} is a number from {least} to {most}, not {found}")
        return found

    def nodes(self):
        found = self.value("nodes", int, "0, 3 or 5")
        if found not in NODES:
            raise self.wrong(f"nodes is 0, 3 or 5, not {found}")
        return found

    def rank_by(self):
        found = self.value("rank_by", str, "plain or luck")
        if found not in RANKINGS:
            raise self.wrong(f"rank_by is plain or luck, not {found!r}")
        return found

    def refuse_pairings(self, league):
        """Refuses ways to pair players that don't go together, and opponents whom nobody knows."""
        if league.swiss and (league.seats != 2 or league.tables):
            raise self.wrong("swiss pairs two players by their results: it goes with a game for two, and without tables")
        for player in league.players.values():
            unknown = [name for name in player.against if name not in league.players or name == player.name]
            if unknown:
                raise self.wrong(f"against of {player.name} names {unknown[0]}, who is no other player of the file")
            if player.against and (league.swiss or league.tables):
                raise self.wrong(f"against of {player.name} goes with all tables that there can be: without tables and swiss")

    def names(self, key, entries):
        found = self.value(key, list, "a list of players' names", entries) if key in entries else []
        if not all(type(name) is str for name in found):
            raise self.wrong(f"{key} is a list of players' names, not {found!r}")
        return found

    def hosts(self, key, entries):
        found = self.value(key, list, "a list of hosts, each ADDRESS or USER@ADDRESS", entries) if key in entries else []
        for host in found:
            if type(host) is not str or not HOST.fullmatch(host):
                raise self.wrong(f"{key} is a list of hosts, each ADDRESS or USER@ADDRESS, not {host!r}")
        if len(set(found)) < len(found):
            raise self.wrong(f"{key} names a host twice")
        return found

    def refuse_hosts(self, league):
        """Refuses hosts of which one would have half of a match's nodes, or that have no nodes."""
        if league.hosts and not league.nodes:
            raise self.wrong("hosts are those of nodes: they go with nodes = 3 or nodes = 5")
        if league.hosts and 2 * -(-league.nodes // len(league.hosts)) >= league.nodes:
            raise self.wrong(f"{len(league.hosts)} hosts are too few for {league.nodes} nodes: one that is lost would take half of a match's nodes")
        for player in league.players.values():
            if player.at and not league.hosts:
                raise self.wrong(f"at of {player.name} goes with hosts: nodes of this machine alone can't be reached from there")

    def refuse_room(self, league):
        """Refuses what a room's league can't have: its players come when they like, and remember cards."""
        if league.room and (league.duplicate or league.tables or league.swiss or league.hosts):
            raise self.wrong("room goes with duplicate = false, and without tables, swiss and hosts")

    def truth(self, key):
        return self.value(key, bool, "true or false")

    def named(self, key, entries, whose):
        found = self.value(key, str, "a text", entries)
        if not NAME.fullmatch(found):
            raise self.wrong(f"the name of {whose} is 1 to 32 letters, digits, _ and -, not {found!r}")
        return found

    def place(self, key, entries):
        return self.path.parent / self.value(key, str, "a path", entries)

    def folder(self):
        """The league's own folder, which is closed to others: so it can't be one in which the file lies."""
        folder = self.place("folder", self.entries)
        if self.path.is_relative_to(folder.resolve()):
            raise self.wrong("folder is one that the league has to itself, and not one in which its file lies")
        return folder

    def game(self):
        path = self.place("game", self.entries)
        try:
            game = Game(path.read_bytes().decode("latin-1"))
        except OSError as why:
            raise self.wrong(f"the game {path} can't be read: {why.strerror}") from why
        except (KeyError, IndexError, ValueError) as why:
            raise self.wrong(f"{path} isn't a game file") from why
        if max(game.blinds, default=0) < 1 or game.players < 2:
            raise self.wrong(f"{path} isn't a game file: it has no players, or no blind")
        return path, game

    def players(self):
        tables = self.value("player", list, "a list of tables, each begun by [[player]]")
        players = {}
        for entries in tables:
            if not isinstance(entries, dict):
                raise self.wrong("player is a list of tables, each begun by [[player]]")
            player = self.player(entries)
            if player.name in players:
                raise self.wrong(f"two players are called {player.name}")
            players[player.name] = player
        return players

    def player(self, entries):
        name = self.named("name", entries, "a player")
        if self.entries.get("room") is True and "command" not in entries:
            self.refuse_others(entries, {"name"}, f" in the table of {name}, who dials in")
            return Player(name, [], None, None)
        for key in ("command", "folder"):
            if key not in entries:
                raise self.wrong(f"{key} is missing in the table of {name}")
        self.refuse_others(entries, PLAYER_KEYS, f" in the table of {name}")
        try:
            words = shlex.split(self.value("command", str, "a text", entries))
        except ValueError as why:
            raise self.wrong(f"the command of {name} can't be split into words: {why}") from why
        if not any("{port}" in word for word in words):
            raise self.wrong(f"the command of {name} has no {{port}}, so nobody would come to it")
        folder = self.place("folder", entries)
        if not folder.is_dir():
            raise self.wrong(f"the folder of {name}, {folder}, isn't there")
        at_once = entries.get("at_once")
        if at_once is not None and (type(at_once) is not int or at_once < 1):
            raise self.wrong(f"at_once of {name} is a number from 1 on, not {at_once!r}")
        withdrawn, keep = entries.get("withdrawn", False), entries.get("keep", KEEPS[0])
        if type(withdrawn) is not bool:
            raise self.wrong(f"withdrawn of {name} is true or false, not {withdrawn!r}")
        if keep not in KEEPS or ("keep" in entries and not withdrawn):
            raise self.wrong(f"keep of {name} goes with withdrawn = true and is {', '.join(KEEPS[:-1])} or {KEEPS[-1]}, not {keep!r}")
        return Player(name, words, folder, at_once, self.hosts("at", entries), withdrawn, keep, self.names("against", entries))
