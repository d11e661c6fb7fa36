"""One match of a league: played in a local folder, and put in place among the finished ones by one rename."""
import errno
import fcntl
import hashlib
import json
import os
import platform
import shutil
import signal
import socket
import time
from collections import Counter

import which_program
from match_engine import AGAIN, DEFAULT, PASSED_OVER, InUse, Match, MatchFault, NodeMatch, Settings, Watcher
from match_engine.hosts import HostLost

from . import deals, lucks, nodes
from .bots import INTERRUPTS, Bot, Keeper, digest, end_all
from .faults import Busy, Interrupted, Unfinished
from .files import write_whole
from .logs import hand_chips
from .plan import is_finished
from .words import counted

HOST = "127.0.0.1"
# The most bytes of a match's notes.
MOST_NOTES = 16 * 2**20
# What another process does that has a lock, where it isn't a match's.
LOCKED = {"run": "another process runs this league", "try": "another process tries the players of this league"}
# Why a program isn't started where the machine is at fault, and not the player.
OF_MACHINE = {errno.EAGAIN, errno.ENOMEM, errno.EMFILE, errno.ENFILE}


def lock(league, name):
    """Takes the lock of a match, or of the league's runs or trials, until this process and those that it forked have ended.
    Busy where another one has it."""
    descriptor = os.open(league.folder / "locks" / name, os.O_RDWR | os.O_CREAT, 0o600)
    try:
        fcntl.flock(descriptor, fcntl.LOCK_EX | fcntl.LOCK_NB)
    except BlockingIOError as why:
        os.close(descriptor)
        raise Busy(LOCKED.get(name, f"another process plays {name}")) from why
    return descriptor


def is_locked(league, name):
    """Whether another process has a lock of the league."""
    try:
        os.close(lock(league, name))
    except Busy:
        return True
    return False


def end_by_signals():
    """Has the first SIGINT, SIGTERM or SIGHUP raise Interrupted here; those behind it do nothing."""
    def interrupted(number, frame):
        for it in INTERRUPTS:
            signal.signal(it, signal.SIG_IGN)
        raise Interrupted()

    for number in INTERRUPTS:
        signal.signal(number, interrupted)


class Table(Watcher):
    """The players of a match, and the notes of what they do."""

    def __init__(self, players, restarts, folder, keeper):
        """`restarts` is how often a player may be started again."""
        self.players, self.restarts, self.folder, self.keeper = players, restarts, folder, keeper
        self.bots, self.ports = [None] * len(players), []
        self.notes = open(folder / "notes", "a", encoding="utf-8", buffering=1)
        self.begun = self.all_there = None
        # By seat the host at which the player runs, none where that is here.
        self.at = [None] * len(players)
        # By seat how many lines were passed over, also before the match was resumed.
        self.passed = noted_as_passed(folder / "notes", players)

    def note(self, text):
        if self.notes.tell() < MOST_NOTES:
            self.notes.write(f"{time.strftime('%Y-%m-%d %H:%M:%S')} {text}\n")

    def start_all(self, ports):
        self.ports, self.begun = ports, time.monotonic()
        for seat in range(len(self.players)):
            self.start(seat)

    def start(self, seat):
        """Starts a seat's player. Where his program can't be started the notes say why, and nobody comes."""
        player = self.players[seat]
        try:
            self.bots[seat] = Bot(player, HOST, self.ports[seat], self.folder / f"{player.name}.out", self.keeper, self.at[seat])
        except OSError as why:
            if why.errno in OF_MACHINE:
                raise
            self.unstarted(seat, f"the program can't be started: {why.strerror}: {why.filename}")

    def unstarted(self, seat, why):
        self.note(f"{self.players[seat].name}: {why}")

    def started(self, at):
        self.all_there = time.monotonic()

    def is_coming(self, seat):
        """Whether the player may still come: his program, or one that it started, is there."""
        return self.bots[seat] is not None and self.bots[seat].is_running()

    def warned(self, seat, text):
        self.passed[seat] += text.startswith(PASSED_OVER)
        self.note(f"{self.players[seat].name}: {text}")

    def troubled(self, text):
        self.note(text)

    def dropped(self, seat):
        self.end([seat])

    def failed(self, seat, why, restarts):
        is_again = restarts < self.restarts
        then = f"started again ({restarts + 1} of {self.restarts})" if is_again else "folds or calls from now on"
        self.note(f"{self.players[seat].name}: {why}: {then}")
        if is_again:
            self.start(seat)
        return AGAIN if is_again else DEFAULT

    def end(self, seats):
        """Ends the programs of some seats."""
        end_all([self.bots[seat] for seat in seats if self.bots[seat] is not None])
        for seat in seats:
            self.bots[seat] = None

    def finished(self, at):
        for player, count in zip(self.players, self.passed):
            if count:
                self.note(f"{player.name}: {counted(count, 'line')} passed over in all")

    def end_all(self):
        self.end(range(len(self.players)))


def noted_as_passed(notes, players):
    """How many lines of each player a file of notes says were passed over."""
    found = Counter()
    with open(notes, encoding="utf-8", errors="replace") as file:
        for line in file:
            _, _, text = line.partition(" ")[2].partition(" ")
            name, is_named, said = text.partition(": ")
            found[name] += bool(is_named) and said.startswith(PASSED_OVER)
    return [found[player.name] for player in players]


def play(settings, table):
    """Plays a match with the players of a table; its Result. Their programs are ended before its ports are closed, since
    one that dials again could come to a port that is another match's by then."""
    try:
        with (NodeMatch if settings.nodes else Match)(settings, table) as match:
            try:
                table.start_all(match.ports)
                result = match.play()
                match.take_leave()
            finally:
                table.end_all()
    except InUse as why:
        raise Busy(str(why)) from why
    except HostLost:
        raise
    except (MatchFault, OSError) as why:
        raise Unfinished(str(why)) from why
    finally:
        table.notes.close()
    return result


def settings_of(league, name, names, hands, seed, folder):
    """What a match is played by. Its path, and not its name alone, says where stores of nodes are: two leagues may have one of this name."""
    return Settings(
        name=str(folder / name), game=league.game_word, hands=hands, names=names, program=which_program.chosen(), seed=seed, limits=league.limits,
        listen=HOST,
        log=folder / f"{name}.log", transactions=folder / f"{name}.tlog", is_resumed=True, may_return=True,
    )




def play_planned(league, planned, local, is_again, seated=Table):
    """Plays a match of the plan, or resumes it, in a local folder, and puts its result in place. `seated` makes the table at which its
    players sit. Returns what to say of it."""
    held = lock(league, planned.name)
    if is_again:
        put_away(league, planned, local)
    if is_finished(league, planned):
        os.close(held)
        return "finished before"
    folder = local / "running" / planned.name
    try:
        folder.mkdir(mode=0o700, parents=True, exist_ok=True)
        if not (folder / "result.json").exists():
            to_some_end(league, planned, local, seated)
        score = json.loads((folder / "result.json").read_text())["score"]
        put_in_place(folder, league.result_of(planned.name))
    except OSError as why:
        raise Unfinished(f"{planned.name}: {why.filename or folder}: {why.strerror}") from why
    return f"finished, {score}"


def to_some_end(league, planned, local, seated):
    """Plays a match and writes down how it ended. Where a host is lost at which a player runs, the match begins again with the same
    cards and that player at his next host; what there was of it is kept among what was replaced, if anybody had acted."""
    folder, places = local / "running" / planned.name, {name: 0 for name in planned.seats}
    tries = sum(len(league.players[name].at) for name in planned.seats)
    while True:
        try:
            to_the_end(league, planned, folder, places, seated)
            return
        except HostLost as why:
            tries -= 1
            if tries <= 0:
                raise Unfinished(f"{planned.name}: {why}") from why
            places[planned.seats[why.seat]] += 1
            with open(folder / "notes", "a", encoding="utf-8") as notes:
                notes.write(f"{time.strftime('%Y-%m-%d %H:%M:%S')} {why}: the match begins again\n")
            if nodes.is_begun(folder / f"{planned.name}.tlog"):
                replace(league, planned, folder)
                folder.mkdir(mode=0o700)


def to_the_end(league, planned, folder, places, seated=Table):
    """Plays a match and writes down how it ended. `places` says by a player which of his hosts he runs at."""
    keeper = Keeper()
    try:
        players = [league.players[name] for name in planned.seats]
        files = {player.name: digest(player.folder) for player in players if player.folder is not None}
        seed = deals.seed(deals.secret(league), planned.players, planned.meeting)
        table = seated(players, league.restarts, folder, keeper)
        table.at = [it.at[places[it.name] % len(it.at)] if it.at else None for it in players]
        begun = time.time()
        settings = settings_of(league, planned.name, list(planned.seats), league.hands, seed, folder)
        settings = nodes.added(league, planned, settings, folder, table)
        result = play(settings, table)
    except HostLost:
        nodes.remove(settings)
        raise
    finally:
        keeper.close()
    write_whole(folder / "result.json", result_text(league, planned, result, files, begun, folder, table, settings))
    nodes.forget(folder)


def result_text(league, planned, result, files, begun, folder, table, settings):
    """What a result says; lists are by seat, times in microseconds. Hands and chips are the log's."""
    chips = hand_chips(folder / f"{planned.name}.log", planned.seats)
    return json.dumps({
        "match": planned.name, "number": planned.number, "seats": planned.seats, "hands": len(chips[0]),
        "score": result.score, "chips": [sum(hands) for hands in chips], "squares": [sum(it * it for it in hands) for hands in chips],
        **luck_figures(league, planned, folder), "used": result.used, "worst": result.worst, "restarts": result.restarts, "defaults": result.defaults, "mended": result.mended,
        "passed": table.passed, "nodes": settings.nodes, "hosts": list(settings.hosts), "at": dict(zip(planned.seats, table.at)),
        "limits": league.limits._asdict(), "restarts_allowed": league.restarts,
        "host": socket.gethostname(), "processors": os.cpu_count(), "load": [round(it, 2) for it in os.getloadavg()],
        "began": round(begun, 3), "ended": round(time.time(), 3),
        "versions": versions(which_program.chosen()),
        "commands": {name: league.players[name].command for name in planned.seats}, "files": files,
    }, indent=1) + "\n"


def luck_figures(league, planned, folder):
    """What a result says of luck; nothing where an earlier program dealt, which doesn't tell it."""
    log, path = (folder / f"{planned.name}.{kind}" for kind in ("log", "luck"))
    if not lucks.write(which_program.chosen(), league.game_path, log, path):
        return {}
    return lucks.figures(lucks.read(path, planned.seats), planned.seats)


def versions(program):
    """What a match was played by. Of a program that says so of itself, nothing is proved."""
    unproved = {"unproved": True} if which_program.is_unproved(program) else {}
    return {"program": sha256(program), **unproved, "python": platform.python_version(), "system": platform.platform()}


def sha256(path):
    with open(path, "rb") as file:
        return hashlib.file_digest(file, "sha256").hexdigest()


def put_in_place(folder, place):
    """Has a finished match's folder appear whole at its place. Where one is there already, that one stays."""
    try:
        os.rename(folder, place)
        return
    except OSError as why:
        if why.errno in (errno.ENOTEMPTY, errno.EEXIST):
            shutil.rmtree(folder)
            return
        if why.errno != errno.EXDEV:
            raise
    # Who holds the match's lock is alone here: what is there was left by a process that was killed.
    copy = place.with_name(f".{place.name}")
    shutil.rmtree(copy, ignore_errors=True)
    shutil.copytree(folder, copy)
    os.chmod(copy, 0o700)
    os.sync()
    put_in_place(copy, place)
    shutil.rmtree(folder)


def put_away(league, planned, local):
    """Moves what there is of a match to the league's folder `replaced`, and forgets what isn't finished of it."""
    shutil.rmtree(local / "running" / planned.name, ignore_errors=True)
    if league.result_of(planned.name).exists():
        replace(league, planned, league.result_of(planned.name))


def replace(league, planned, place):
    """Moves what there is of a match at a place to the league's folder `replaced`."""
    away = league.folder / "replaced"
    away.mkdir(mode=0o700, exist_ok=True)
    numbers = [int(number) for name, _, number in (path.name.rpartition(".") for path in away.iterdir()) if name == planned.name]
    shutil.move(place, away / f"{planned.name}.{max(numbers, default=0) + 1}")
