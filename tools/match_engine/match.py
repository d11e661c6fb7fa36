"""A match from its files and ports to its score."""
import re
import time
from pathlib import Path
from typing import Iterable, List, NamedTuple, Optional, Sequence

from .course import PASSED_OVER
from .faults import Failed, MatchFault, SeatFault
from .files import File, Restart, Transaction, transactions, whole_lines
from .program import Dealer, Draw
from .seats import Seat, take_leave

# What a watcher answers where a player failed who may return.
AGAIN, DEFAULT = "again", "default"
THOUSAND = 1000
# The greatest amount that the program reads.
MOST = 4294967295


class Limits(NamedTuple):
    """The most time for one response, for a seat's responses in a hand, and for those in the match by its number of hands;
    how long players are waited for at the start, below 0 without end. In milliseconds."""

    response: int = 600000
    hand: int = 600000
    per_hand: int = 7000
    start: int = -1


class Settings(NamedTuple):
    """A match, and how it is played. `game` is the path of the game file. Cards come from `deals`, a text for each hand, or
    else from `seed`. Ports that are missing are free ones."""

    name: str
    game: str
    hands: int
    names: Sequence[str]
    # The program that deals, by its path (tools/which_program.py).
    program: Path
    seed: int = 0
    deals: Optional[Iterable[str]] = None
    limits: Limits = Limits()
    listen: str = "127.0.0.1"
    ports: Sequence[int] = ()
    # The log and the transaction file; none is written where there is no path.
    log: Optional[Path] = None
    transactions: Optional[Path] = None
    # Files that are there are kept; where there is a transaction file, the match goes on from what it tells.
    is_resumed: bool = False
    # The transaction file is synced at each action, and not at each hand's end alone.
    sync_actions: bool = False
    # The watcher is asked what becomes of a seat whose player failed; else the match ends.
    may_return: bool = False
    # How many nodes keep the match, each in a process of its own, and the folder of their stores, else in memory; 0 is none.
    nodes: int = 0
    stores: Optional[Path] = None
    # By node the host at which it runs, by ssh, and by seat that of its player and his relay, or none; with nodes here there are none.
    # The first port of the match at each host, and the name of its folders there.
    hosts: Sequence[str] = ()
    at: Sequence[Optional[str]] = ()
    first_port: int = 0
    place: str = ""


class Result(NamedTuple):
    """A match that is over: the log's last line, and figures by seat. Times are in microseconds."""

    score: str
    used: List[int]
    worst: List[int]
    mended: List[int]
    restarts: List[int]
    defaults: List[int]


class Watcher:
    """Is told what happens. Seats count from 0, times are in microseconds since 1970."""

    def started(self, at):
        """All players are there."""

    def sent(self, seat, at, line):
        """A line was sent to a seat's player."""

    def received(self, seat, at, line):
        """A line came from him, as printable text."""

    def warned(self, seat, text):
        """What he said was passed over, or changed."""

    def logged(self, line):
        """A line was added to the log, which resumption didn't play again."""

    def finished(self, at):
        """The last hand is over, and all lines are sent."""

    def troubled(self, text):
        """With nodes: one ended, and what becomes of it; or the match has failed, and where its stores are."""

    def is_coming(self, seat):
        """Asked now and then while a player's connection is waited for: False where it won't come."""
        return True

    def dropped(self, seat):
        """A player who failed and may return has lost his connection. What programs he has are to end here: one could come to
        his port again."""

    def failed(self, seat, why, restarts):
        """Asked only where players may return: AGAIN where the player was started once more, who is then waited for; DEFAULT
        where the seat folds where it faces a bet and else calls, to the match's end."""
        return DEFAULT


class Clock:
    """Microseconds since 1970 that never go back."""

    def __init__(self):
        self.offset = time.time_ns() - time.monotonic_ns()

    def now(self):
        return (time.monotonic_ns() + self.offset) // THOUSAND

    def moment(self, at):
        """The same moment on the monotonic clock, in seconds."""
        return (at * THOUSAND - self.offset) / 1e9


class Times:
    """How long the seats took for their responses, in microseconds."""

    def __init__(self, limits, hands, players):
        self.limits, self.match = limits, limits.per_hand * hands
        self.used, self.worst, self.in_hand = ([0] * players for _ in range(3))

    def begin_hand(self):
        self.in_hand = [0] * len(self.used)

    def add(self, seat, time):
        self.used[seat] += time
        self.in_hand[seat] += time
        self.worst[seat] = max(self.worst[seat], time)

    def check(self, seat, time):
        """Fails where a response of so long is above a limit, alone or with those before it."""
        for what, taken, limit in (
            ("the response", time, self.limits.response),
            ("all responses in this hand", self.in_hand[seat] + time, self.limits.hand),
            ("all responses in this match", self.used[seat] + time, self.match),
        ):
            if taken > limit * THOUSAND:
                raise Failed(f"out of time: {what} took {taken / 1e6:.3f} s, and the limit is {limit / 1e3:.3f} s")


def header(settings):
    """A log's first line. What may not stand in its name, or in its word for the game, becomes _, and is cut where it is long."""
    name = re.sub(r"[^A-Za-z0-9_.-]", "_", Path(settings.name).name)[:32] or "_"
    return f"# name/game/hands {name} {re.sub('[^!-~]', '_', settings.game)[-200:]} {settings.hands}"


def game_at(path):
    """The bytes of a game file."""
    try:
        return Path(path).read_bytes()
    except OSError as why:
        raise MatchFault(f"the game file {path} can't be read: {why.strerror}") from why


class Match:
    """A match on its way."""

    def __init__(self, settings, watcher=None):
        """Starts the program, listens, takes the files, and plays the transaction file's actions again. InUse where another
        dealer has the files, MatchFault where anything else is wrong."""
        self.settings, self.watcher = settings, watcher or Watcher()
        self.players = len(settings.names)
        self.clock, self.open = Clock(), []
        self.times = Times(settings.limits, settings.hands, self.players)
        self.mended, self.restarts, self.defaults = ([0] * self.players for _ in range(3))
        # Seats that have default actions to the match's end, and why seats failed that haven't been to act since.
        self.absent, self.lost = set(), {}
        self.sent = [0] * self.players
        self.seats, self.score, self.logged = [], None, []
        try:
            self.prepare()
        except BaseException:
            self.close()
            raise

    def prepare(self):
        """Ports come first: a player who is there as early as this isn't refused. Files come last: where anything else is wrong, what an
        earlier match left is as it was."""
        settings = self.settings
        for port in [*settings.ports, *[0] * self.players][: self.players]:
            self.seats.append(self.kept(Seat(settings.listen, port)))
        game = game_at(settings.game)
        self.dealer = self.kept(Dealer(settings.program, settings.game, game, settings.hands, settings.names))
        self.deals = iter(settings.deals) if settings.deals is not None else self.kept(
            Draw(settings.program, game, settings.hands, self.players, settings.seed)
        )
        is_told = settings.is_resumed and settings.transactions is not None and settings.transactions.exists()
        self.transactions = self.file(settings.transactions)
        self.log = self.file(settings.log)
        self.begin_files(is_told)

    def begin_files(self, is_told):
        """The log's beginning is its header, with what the transaction file tells. What is there of a match that goes on must
        be the beginning of that; where nothing goes on but files are kept, it stands behind what is there."""
        told = whole_lines(self.transactions.content()) if is_told else b""
        logged = [header(self.settings), *self.replayed(told)]
        text = "".join(line + "\n" for line in logged)
        old = self.log.content().decode("latin-1") if is_told and self.log is not None else ""
        if not text.startswith(old):
            raise MatchFault(f"{self.log.path}: what is in it isn't what {self.transactions.path} plays: it is of another match")
        for file, size in ((self.transactions, len(told)), (self.log, len(old))):
            if file is not None and (is_told or not self.settings.is_resumed):
                file.cut(size)
        if self.log is not None:
            self.log.append(text[len(old) :])

    def kept(self, part):
        """A part that is closed with the match."""
        self.open.append(part)
        return part

    def file(self, path):
        return None if path is None else self.kept(File(path))

    @property
    def ports(self):
        return [seat.port for seat in self.seats]

    def replayed(self, content):
        """Plays what whole lines of the transaction file tell; the log's lines of it."""
        logged = []
        for number, told in transactions(self.settings.transactions, content):
            try:
                logged += self.replay(told)
            except (LookupError, MatchFault) as why:
                raise MatchFault(f"{self.settings.transactions}: line {number} is of another match: {why}") from why
        return logged

    def replay(self, told):
        """Plays a line of the transaction file; the lines that came to the log."""
        if isinstance(told, Restart):
            self.restarts[told.seat] += 1
            return []
        if self.dealer.is_over():
            raise MatchFault("the match is over before it")
        if self.dealer.turn is None:
            self.deal()
        seat = self.dealer.turn
        refusal, logged = self.dealer.act(told.action)
        if refusal:
            raise MatchFault(f"{told.action} is refused by {refusal}")
        self.count(seat, told)
        return self.noted(logged)

    def count(self, seat, told):
        """Adds an action to the seat's figures."""
        self.times.add(seat, told.received - told.sent)
        if told.mark == "mended":
            self.mended[seat] += 1
        if told.mark == "default":
            self.defaults[seat] += 1
            self.absent.add(seat)

    def noted(self, logged):
        """The same lines, of which the score is kept."""
        self.score = next((line for line in logged if line.startswith("SCORE:")), self.score)
        return logged

    def deal(self):
        cards = next(self.deals, None)
        if cards is None:
            raise MatchFault(f"there is no deal for hand {self.dealer.hand + 1}")
        self.dealer.deal(cards)
        self.times.begin_hand()

    def play(self):
        """Waits for the players and plays to the end; the Result. SeatFault where a seat failed that may not return."""
        limit = self.settings.limits.start
        until = None if limit < 0 else time.monotonic() + limit / THOUSAND
        for seat in range(self.players):
            self.attempt(seat, self.admit, seat, until)
        self.watcher.started(self.clock.now())
        while not self.dealer.is_over():
            if self.dealer.turn is None:
                self.deal()
            self.tell()
            self.take_turn()
            if self.dealer.turn is None:
                self.tell()
        self.watcher.finished(self.clock.now())
        return Result(self.score, self.times.used, self.times.worst, self.mended, self.restarts, self.defaults)

    def admit(self, seat, until):
        self.seats[seat].admit(until, not self.settings.may_return, lambda: self.watcher.is_coming(seat))

    def attempt(self, seat, call, *words):
        """The value of a call that may fail by the seat's player; none where it failed and he may return, or the match is
        over. Why it did is kept for the seat's next turn."""
        try:
            return call(*words)
        except Failed as why:
            if not self.settings.may_return and not self.dealer.is_over():
                raise SeatFault(seat, str(why)) from why
            self.lost[seat] = str(why)
            return None

    def tell(self):
        """Sends each seat what it sees."""
        for seat in range(self.players):
            if seat not in self.absent and seat not in self.lost:
                self.attempt(seat, self.send, seat)

    def send(self, seat):
        line = self.dealer.lines[seat]
        self.seats[seat].send(line)
        self.sent[seat] = self.clock.now()
        self.watcher.sent(seat, self.sent[seat], line)

    def take_turn(self):
        """Has the seat act whose turn it is."""
        seat, answer = self.dealer.turn, None
        while answer is None and seat not in self.absent:
            if seat in self.lost:
                self.recover(seat)
            else:
                answer = self.attempt(seat, self.answer, seat)
        if answer is None:
            self.sent[seat] = now = self.clock.now()
            self.note(seat, Transaction(self.carried_out("f"), now, now, "default"))
            return
        text, received = answer
        action = self.carried_out(self.reading(text))
        if action != text:
            self.watcher.warned(seat, f"the action {text!r} is changed to {action}")
        self.note(seat, Transaction(action, self.sent[seat], received, None if action == text else "mended"))

    def answer(self, seat):
        """The action that the seat's player answers to the newest line, as he wrote it, and when it came."""
        begin = self.dealer.lines[seat] + ":"
        until = self.clock.moment(self.sent[seat]) + self.settings.limits.response / THOUSAND
        late = f"out of time: no response came within {self.settings.limits.response / THOUSAND:.3f} s"
        while True:
            line = self.seats[seat].line(until, late)
            received = self.clock.now()
            self.watcher.received(seat, received, line)
            if line.startswith(begin):
                self.times.check(seat, received - self.sent[seat])
                return line[len(begin) :], received
            if line[:1] not in ("#", ";"):
                self.watcher.warned(seat, f"{PASSED_OVER}it doesn't answer the newest line: {line}")
            if self.clock.moment(received) > until:
                raise Failed(late)

    def reading(self, text):
        """The action of a script that a player's text means: a call where it can't be read."""
        found = re.match("[fc]|r[0-9]*", text)
        action = found[0] if found else "c"
        if action[0] != "r" or self.dealer.game.is_limit:
            return action[0]
        return f"r{min(int(action[1:]), MOST)}" if len(action) > 1 else "c"

    def carried_out(self, action):
        """Has the program carry out an action, and answers what was carried out: for an amount outside the range its nearest
        end, for any other action that may not be made a call. The log's lines are kept for `note`."""
        refusal, self.logged = self.dealer.act(action)
        nearest = re.fullmatch(r"2[45] \w+ (\d+)", refusal or "")
        if nearest and not self.dealer.game.is_limit:
            action = f"r{nearest[1]}"
            refusal, self.logged = self.dealer.act(action)
        if refusal:
            action = "c"
            refusal, self.logged = self.dealer.act(action)
        if refusal:
            raise MatchFault(f"holdem_table hand refuses a call: {refusal}")
        return action

    def note(self, seat, told):
        """Writes what was carried out: first the transaction, at a hand's end down to the disk, and then the log's lines."""
        self.count(seat, told)
        if self.transactions is not None:
            kept = told if self.settings.may_return else told._replace(mark=None)
            self.transactions.append(kept.text() + "\n")
            if self.settings.sync_actions or self.logged:
                self.transactions.sync()
        for line in self.noted(self.logged):
            if self.log is not None:
                self.log.append(line + "\n")
            self.watcher.logged(line)

    def recover(self, seat):
        """Asks what becomes of a seat whose player failed, and waits for one who was started again."""
        self.seats[seat].drop()
        self.watcher.dropped(seat)
        self.seats[seat].drop()
        if self.watcher.failed(seat, self.lost.pop(seat), self.restarts[seat]) != AGAIN:
            self.absent.add(seat)
            return
        self.restarts[seat] += 1
        if self.transactions is not None:
            self.transactions.append(Restart(seat).text() + "\n")
        limit = self.settings.limits.start
        self.attempt(seat, self.admit, seat, None if limit < 0 else time.monotonic() + limit / THOUSAND)
        if seat not in self.lost:
            self.attempt(seat, self.send, seat)

    def take_leave(self):
        """Says to the players that nothing more comes, and waits a moment until they have read what came. Ports stay open."""
        take_leave(self.seats)

    def close(self):
        """Takes leave of the players where the match is over, and ends all that belongs to it."""
        if self.score is not None:
            self.take_leave()
        for part in reversed(self.open):
            part.close()
        self.open = []

    def __enter__(self):
        return self

    def __exit__(self, *_):
        self.close()
