"""What is followed: a match by its file, or the matches of a league or of a room."""
import contextlib
import re
import tomllib
from pathlib import Path

import shown_logs
from hand_formats.played import Game

from .follower import Follower
from .growing import GrowingLog
from .leagues import LeagueSource
from .wrong import Wrong

# The first line of a log: the match's name, and the path of its game.
HEAD = re.compile(rb"# name/game/hands ([\w.-]{1,32}) ([!-~]{1,200}) [1-9][0-9]*\n")


def hiding_of(text, is_revealed):
    """What takes the cards out of a hand's line that the table wasn't shown; where all are revealed, it takes none."""
    if is_revealed:
        return lambda line: line
    game = shown_logs.Game(text)
    return lambda line: game.without_hidden(line, None)


class MatchSource:
    """A match of `serve` or `node`, by the logs of its nodes in the folder of logs, and by copies of logs elsewhere."""

    kind = "match"

    def __init__(self, name, game, log, words):
        """`game` is the path of the game file."""
        self.title, text = name, read(game, "game file").decode("latin-1")
        hide = hiding_of(text, words.reveal)
        self.follower = Follower(name, name, game_of(text, game), log, words.delay, hide)

    def look(self):
        """Whether the standings have changed; and the matches that have, each with its new hands."""
        hands, has_changed = self.follower.look()
        return False, [(self.follower, hands)] if hands or has_changed else []

    def matches(self):
        return [self.follower]

    def standings(self):
        return []


class RoomSource:
    """A room: a league for each number of hands that its matches may have."""

    kind = "room"

    def __init__(self, path, entries, words):
        self.title, self.folder, self.words = text_of(entries, "name"), path.parent / text_of(entries, "folder"), words
        self.leagues = {}
        self.find()

    def find(self):
        """Finds the leagues that are there; one that can't be read yet is tried again."""
        for path in sorted(self.folder.glob("hands*.toml")):
            if path.name not in self.leagues:
                with contextlib.suppress(Wrong):
                    self.leagues[path.name] = LeagueSource(path, self.words, hiding_of)

    def look(self):
        self.find()
        looked = [league.look() for league in self.leagues.values()]
        return any(has for has, _ in looked), [it for _, changed in looked for it in changed]

    def matches(self):
        return [it for league in self.leagues.values() for it in league.matches()]

    def standings(self):
        return [it for league in self.leagues.values() for it in league.standings()]


def read(path, what):
    try:
        return Path(path).read_bytes()
    except OSError as why:
        raise Wrong(f"the {what} {path} can't be read: {why.strerror}") from why


class Lacking(Exception):
    """A file lacks a key, or its value is none of what is wanted."""


def text_of(entries, key):
    """The text of a key."""
    return entry_of(entries, key, str, "text")


def entry_of(entries, key, kind, what):
    """The value of a key, which is of a kind."""
    if type(entries.get(key)) is not kind:
        raise Lacking(f"{key} is missing, or is no {what}")
    return entries[key]


def game_of(text, path):
    try:
        return Game(text)
    except (KeyError, IndexError, ValueError) as why:
        raise Wrong(f"{path} isn't a game file") from why


def logs_of(entries, copies):
    """The logs of a match file's match, whose first line is known by the file."""
    name, game, hands = text_of(entries, "name"), text_of(entries, "game"), entry_of(entries, "hands", int, "number")
    own = [Path(text_of(entries, "logs")) / f"node{number}.log" for number in range(len(entries["node"]))]
    return GrowingLog(own, copies, f"# name/game/hands {name} {game} {hands}\n".encode())


def source_of(words):
    """What a file describes: it is a match's with nodes, a room's with a port, else a league's. A log is followed by itself."""
    text = read(words.file, "file")
    if head := HEAD.match(text):
        name, game = (word.decode() for word in head.groups())
        return MatchSource(name, game, GrowingLog([Path(words.file)], words.logs), words)
    try:
        entries = tomllib.loads(text.decode())
    except (UnicodeDecodeError, tomllib.TOMLDecodeError) as why:
        raise Wrong(f"{words.file} isn't a TOML file: {why}") from why
    try:
        if isinstance(entries.get("node"), list):
            return MatchSource(text_of(entries, "name"), text_of(entries, "game"), logs_of(entries, words.logs), words)
        if words.logs:
            raise Wrong("--log goes with the file of a match")
        if "player" in entries and "port" in entries:
            return RoomSource(Path(words.file).resolve(), entries, words)
        return LeagueSource(Path(words.file).resolve(), words, hiding_of)
    except Lacking as why:
        raise Wrong(f"{words.file}: {why}") from why
