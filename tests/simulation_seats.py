"""The rules of tests/simulation on seats: what bots say and are told, and when a seat is played for."""
from simulation_covered import NUMBERS
from simulation_links import Links
from simulation_list import ACT, DEAL
from simulation_served import token_of
from simulation_status import LINE, StatusLines
from simulation_trace import Wrong, bytes_of, limits_of_wires

# How long a seat that is given up is waited for, for so many turns.
GIVEN_UP, SLOW_TURNS = 500_000, 20

# By which words a node parts with a bot that asked for its lines.
WORDS = ("#OVER", "#OTHER", "#WAIT")

# A line to which a node hasn't come is awaited so long at least, and until its process has run for so long.
SETTLED, REPLAYED = 2_000_000, 30_000_000

# What is read, in bytes. In a turn a process reads of a bot one piece of 512, and of another node's connection 64 KiB (docs/DECISIONS.md), as
# many as can wait there. Of one who hasn't shown the token it reads the line for that, 73 with its end (docs/FORMATS.md), and of one who asks
# for the status nothing. Behind a line above 4,096 it reads nothing more of a bot (docs/FAULTS.md, 81 LineTooLong).
PIECE, TOKEN_LINE = 512, 73
MOST_READ = {"node": 65_536, "seat": PIECE, "guest": TOKEN_LINE, "status client": 0}

# Who is at the other end of a connection, by its place among the lines of a process: those that it dials and that dialled it, then seats,
# guests and status clients.
PLACES = limits_of_wires()
BEHIND_NODES = [kind for name, kind in (("SEATS", "seat"), ("GUESTS", "guest"), ("ASKERS", "status client")) for _ in range(PLACES[name])]
KINDS_OF_PLACES = ["node"] * (PLACES["LINES"] - len(BEHIND_NODES)) + BEHIND_NODES
FIRST_SEAT = KINDS_OF_PLACES.index("seat")


class Reading:
    """What a process has read of one who came to it: who he is, how much of a guest, and how long the last line of a bot is so far."""

    def __init__(self):
        self.kind, self.seat, self.shown, self.line, self.is_too_long = "node", None, 0, 0, False
        # What was told to one who is no bot, and is no whole line yet.
        self.told = ""

    def read(self, data):
        """What is wrong with it that this is read; None where nothing is."""
        if self.kind == "guest":
            self.shown += len(data)
            return f"{self.shown} bytes of a guest" if self.shown > TOKEN_LINE else None
        if self.kind != "seat":
            return None if self.kind == "node" else f"{len(data)} bytes of one who asks for the status"
        if len(data) > PIECE or self.is_too_long:
            return f"{len(data)} bytes behind a line of {self.line} of a bot"
        *lines, rest = data.split(b"\n")
        ends = [self.line + len(lines[0]), *map(len, lines[1:])] if lines else []
        self.line = len(rest) if lines else self.line + len(rest)
        self.is_too_long = max([self.line, *ends]) > LINE
        return None


class Order:
    """That a seat is played for, as a node told it: when, whether the seat sits there, and when it first sat down there behind the last
    command, if it did; and when its bot was turned away there last, if it sits nowhere and was."""

    def __init__(self, moment, sits, sat_down, crowded):
        self.moment, self.sits, self.sat_down, self.crowded = moment, sits, sat_down, crowded


class Seats(Links, StatusLines):
    """The rules on seats, and on the commands of which they are shown."""

    def count_faults(self, where, names):
        for name in names:
            if (where, name) in NUMBERS:
                self.count_one(f"fault {NUMBERS[where, name]}")

    # What came of a seat.

    def on_take(self, row):
        place, process, connection = int(row[4]), self.processes[int(row[1])], self.connection(row)
        # Where seats have tokens, who shows one is no guest for long.
        if KINDS_OF_PLACES[place] != "guest":
            self.taken(row[0], int(row[3]))
        kind, reading = KINDS_OF_PLACES[place], self.readings.setdefault(int(row[3]), Reading())
        reading.kind = kind
        if kind == "seat":
            reading.seat = seat = place - FIRST_SEAT
            process.took.setdefault(seat, []).append(row[0])
            process.seated[seat] = int(row[3])
        if connection is not None:
            connection.processes[row[1]], connection.known, connection.taken_at = process, process.known, row[0]

    def on_shut(self, row):
        process, connection = self.processes[int(row[1])], self.connection(row)
        if connection is not None and connection.seat is not None:
            self.turn_away(row[0], int(row[1]), process, int(row[3]), connection)
            self.part(row[0], int(row[1]), process, int(row[3]), connection)
        for seat in [seat for seat, number in process.seated.items() if number == int(row[3])]:
            del process.seated[seat]
            process.freed[seat] = row[0]

    def on_read(self, row):
        data, reading = bytes_of(row[4]), self.readings.setdefault(int(row[3]), Reading())
        wrong = reading.read(data)
        if wrong is not None:
            raise Wrong("queue", row[0], f"node {row[1]} reads {wrong}")
        connection = self.connection(row)
        if connection is None:
            return
        node = int(row[1])
        self.look_at_seat(row[0], node, self.processes[node], connection.seat, int(row[3]))
        if not connection.unread.startswith(data):
            raise Wrong("wire", row[0], f"node {node} reads what seat {connection.seat} didn't say: {data!r}")
        connection.unread, connection.unread_since = connection.unread[len(data) :], row[0]
        *lines, connection.partial = (connection.partial + data).split(b"\n")
        for line in lines:
            connection.resumed = connection.resumed or line.startswith(b"#RESUME ")
            connection.named = connection.named or not line.startswith(b"#")
            if reading.kind == "seat":
                self.take_answer(row[0], node, connection.seat, line.rstrip(b"\r").decode("latin-1"))

    def take_answer(self, moment, node, seat, line):
        """A node has read a whole line of a seat: perhaps an answer, which waits there where it is to the newest line of the list."""
        state, _, action = line.rpartition(":")
        if not state.startswith("MATCHSTATE:"):
            return
        self.answers.setdefault((seat, state), set()).add(action)
        if self.dealt.to_act() == seat and self.dealt.last[seat] == state and self.dealt.command(action) is not None:
            process = self.processes[node]
            if process.answered.get(seat) != state:
                process.answered[seat], process.answers_at[seat] = state, moment

    def on_most(self, row):
        """What a process read over one connection in one turn is bounded."""
        for (kind, most), count in zip(MOST_READ.items(), map(int, row[3:])):
            if count > most:
                raise Wrong("queue", row[0], f"node {row[1]} read {count} bytes of a {kind} in a turn")
            if count == most > 0:
                self.count_one(f"all that is read of a {kind}")

    def hear(self, moment, connection, data):
        """A bot says something: perhaps from which line on it asks to be told."""
        if not connection.unread:
            connection.unread_since = moment
        connection.unread += data
        *lines, connection.said = (connection.said + data).split(b"\n")
        for line in lines:
            if line.startswith(b"#TOKEN "):
                connection.token = line.strip().decode("latin-1")[len("#TOKEN ") :]
            if line.startswith(b"#RESUME "):
                connection.asked, connection.asked_at = line.rstrip(b"\r").decode("latin-1")[len("#RESUME ") :], moment
                self.count_one("bot asks for " + ("a line" if connection.asked.startswith("MATCHSTATE") else connection.asked))

    # What a seat is told.

    def say_to_seat(self, row, connection, data):
        process = self.own(row, connection)
        self.look_at_seat(row[0], int(row[1]), process, connection.seat, int(row[3]))
        if self.has_tokens and connection.token != token_of(connection.seat):
            raise Wrong("token", row[0], f"node {row[1]} tells seat {connection.seat}, whose token wasn't shown, {data!r}")
        *lines, connection.told = (connection.told + data).split(b"\r\n")
        for line in lines:
            line = line.decode("latin-1")
            if connection.word is not None:
                raise Wrong("word", row[0], f"node {row[1]} tells seat {connection.seat} {line!r} behind {connection.word}")
            if line.startswith("#"):
                self.word(row, connection, process, line)
            else:
                self.line(row, connection, process, line)

    def say_to_stranger(self, row, data):
        """What is said to one who isn't a bot nor a node: a status, or where seats have no tokens lines of the seat that he took."""
        reading = self.readings.get(int(row[3]), Reading())
        if reading.kind == "status client":
            self.status(row[0], int(row[1]), data.decode("latin-1"))
            return
        if self.has_tokens or reading.kind != "seat":
            raise Wrong("token", row[0], f"node {row[1]} tells somebody who is no bot {data!r}")
        *lines, reading.told = (reading.told + data.decode("latin-1")).split("\r\n")
        for line in lines:
            if line not in WORDS and line not in self.dealt.order[reading.seat]:
                raise Wrong("one-list", row[0], f"node {row[1]} tells somebody at seat {reading.seat} {line!r}, which is no line of the list")

    def line(self, row, connection, process, line):
        """A line that was written to a seat is that of a beginning of the list, and none from before what it was shown."""
        places = self.dealt.lines[connection.seat].get(line, ())
        later = [place for place in places if place >= connection.at]
        if not later:
            raise Wrong("one-list", row[0], f"node {row[1]} tells seat {connection.seat} {line!r}, which is no line of the list behind {connection.at} of {self.front}")
        connection.at = later[0]
        process.learn(row[0], later[0])
        self.told += 1
        self.no_gap(row, connection, line)

    def no_gap(self, row, connection, line):
        """The first line of a connection is the one that was asked for, and each other one is the seat's next."""
        place = self.dealt.order[connection.seat][line]
        wanted = self.wanted(connection, place)
        if place != wanted:
            raise Wrong("no-gap", row[0], f"node {row[1]} tells seat {connection.seat} its line {place} in place of {wanted}, asked for {connection.asked}")
        connection.place = place

    def wanted(self, connection, place):
        """Which line of its seat a connection is to be told next, where it is told the one of this place."""
        if connection.place is not None:
            return connection.place + 1
        if connection.asked == "FIRST":
            return 0
        if connection.asked not in (None, "NEWEST"):
            return self.dealt.order[connection.seat].get(connection.asked, place)
        # The newest one, of those that there are since the node took the bot in.
        places = self.dealt.places[connection.seat]
        newest = max((at for at, begun in enumerate(places) if begun <= connection.known), default=0)
        return max(place, newest)

    def word(self, row, connection, process, word):
        """A word of a node to a bot that said from which line on it asks. The match is over once all lines were told."""
        self.count_one("told " + word)
        if not connection.resumed or word not in WORDS:
            raise Wrong("word", row[0], f"node {row[1]} tells seat {connection.seat} {word!r}, of which it read no #RESUME")
        connection.word = word
        if word == "#WAIT":
            self.look_at_wait(row[0], int(row[1]), process, connection)
        if word == "#OVER" and not (self.dealt.is_over() and connection.place == len(self.dealt.order[connection.seat]) - 1):
            raise Wrong("word", row[0], f"node {row[1]} tells seat {connection.seat} that the match is over behind line {connection.place}")
        if word == "#OTHER":
            # A bot names a line that it was told. Only a node that is behind that line may take it for another match's. It waits for
            # two seconds first, and until it can't be replaying the match any more.
            places = self.dealt.lines[connection.seat].get(connection.asked)
            waited, ran = row[0] - connection.asked_at, row[0] - process.began
            if places is None or places[0] <= process.known or waited < SETTLED or ran < REPLAYED:
                raise Wrong("word", row[0], f"node {row[1]}, behind {process.known} commands, tells seat {connection.seat} after {waited} that its line is none: {connection.asked}")

    # Commands of the list, as they are chosen.

    def check_command(self, moment, command):
        """The next command of the list, where it does something, is a node's own deal, said by who is to act, or ordered."""
        if not self.dealt.fits(command):
            self.count_one("command of no account")
            return False
        self.count_one(("deal", "act", "away")[command[0] - 1])
        if command[0] == DEAL:
            self.check_deal(moment, command)
        elif command[0] == ACT:
            self.check_act(moment, command)
        else:
            self.check_default(moment, command)
        self.acted = moment
        self.orders.clear()
        return True

    def check_deal(self, moment, command):
        """A deal is of the cards of the node by whose ballot it was first proposed."""
        node = self.origins[self.front, command][1]
        if node >= self.count or self.decks[node].hand(index_of_deal(command)) != command:
            raise Wrong("deal", moment, f"a deal of hand {index_of_deal(command)} that isn't node {node}'s own: {command.hex()}")

    def check_act(self, moment, command):
        seat = self.dealt.to_act()
        said = self.answers.get((seat, self.dealt.last[seat]), ())
        if all(self.dealt.command(action) != command for action in said):
            raise Wrong("said", moment, f"an act of seat {seat} that it didn't say: {command.hex()}, of {sorted(said)}")
        self.defaults[seat] = 0

    def check_default(self, moment, command):
        seat = self.dealt.to_act()
        self.defaults[seat] += 1
        if self.patience is None:
            raise Wrong("ordered", moment, f"a default action of seat {seat}, though all wait")
        if len(self.came) < len(self.names) and (self.quorum is None or moment - self.quorum < self.start):
            raise Wrong("early", moment, f"a default action, though only {sorted(self.came)} have come")
        shown, process = self.shown[command]
        if self.orders.get(seat):
            if not any(self.is_fair(order, self.defaults[seat] - 1) for order in self.orders[seat]):
                raise Wrong("late", moment, f"seat {seat} is played for behind {[order.moment - self.acted for order in self.orders[seat]]}, with a patience of {self.patience}")
        elif process in self.processes.values():
            raise Wrong("ordered", moment, f"a default action of seat {seat} that no node told, behind {self.acted}")
        elif shown - self.acted < self.least_wait(self.defaults[seat] - 1, False):
            # Who ordered it died before he told so.
            raise Wrong("late", moment, f"seat {seat} is played for {shown - self.acted} behind the command before it, with a patience of {self.patience}")

    def is_fair(self, order, turns):
        """Whether a seat of which so many turns in a row were played for was waited for until it was ordered. Where it sat down at the node
        behind the last command, or was turned away there, the time begins anew, but for so many patiences as there are nodes and one more."""
        wait, waited = self.least_wait(turns, order.sits), order.moment - self.acted
        # A seat that acted last by itself isn't given up.
        anew = order.crowded if order.crowded is not None and not turns else order.sat_down
        if anew is None:
            return waited >= wait
        return order.moment - anew >= wait or waited >= (self.count + 1) * self.patience

    def least_wait(self, turns, sits):
        """How long a seat is waited for at least of which so many turns in a row were played for. One that acted last by itself, or sits at
        the node, has the whole patience. Another one may be given up, if it sits at no node that is there, unless the match file says that it
        isn't: it has half a second, and behind twenty turns nothing."""
        if not turns or sits or self.waits:
            return self.patience
        return min(self.patience, GIVEN_UP) if turns <= SLOW_TURNS else 0

    def show_default(self, moment, node, command):
        """A default action is shown by a node, by its vote or to others."""
        self.shown.setdefault(command, (moment, self.processes[node]))

    def order_default(self, moment, node, seat):
        """A node tells that it ordered the default action of a seat."""
        self.count_one("due order")
        process = self.processes[node]
        self.look_at_nodes(moment)
        self.look_at_answers(moment, node, seat)
        if self.dealt.to_act() == seat and process.answered.get(seat) == self.dealt.last[seat]:
            raise Wrong("answered", moment, f"node {node} plays for seat {seat}, whose answer to {self.dealt.last[seat]} it has")
        sat_down = [taken for taken in process.took.get(seat, ()) if taken > self.acted] if seat in process.sits else []
        crowded = None if any(seat in other.sits for other in self.processes.values()) else process.crowded.get(seat)
        self.orders.setdefault(seat, []).append(Order(moment, seat in process.sits, min(sat_down, default=None), crowded))


def index_of_deal(command):
    return int.from_bytes(command[1:5], "big")
