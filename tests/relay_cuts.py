"""What tests/relay tries of nodes between which all ways are cut: none has a quorum meanwhile, and once one has it again the next
line comes at once, to stock bots behind relays and to the sample bots, which dial the nodes themselves. Neither a relay nor a bot is
touched, and no seat is played for."""
import re
import subprocess
import time

from measuring import in_time, want
from processes_match import Match
from serving import TOP, patience, waited

from relay_match import GAME, RelayMatch, test

# How long all ways are cut, in seconds, and in the long form.
CUTS, LONG_CUTS = (5, 45), (5, 45, 200)
# The next line comes within so long of the quorum, in seconds.
SOON = 2.0
# So many lines come before a cut and behind it.
FEW = 20
LOST, REGAINED, ORDERED = "quorum lost", "quorum: more than half", "timed out, default action ordered"


class Parted:
    """What is common to matches whose ways are cut: how often notes told of a quorum, and cuts of all ways."""

    def entries(self):
        return ["patience = 20"]

    def told(self, text):
        """How often notes of nodes have told this."""
        return sum(text in note for node in range(self.count) for note in self.notes(node))

    def comes_to(self, lines):
        """Waits until bots got so many lines more."""
        goal = self.got() + lines
        waited(lambda: self.is_alive() and self.got() >= goal, f"{lines} lines more", self.last_notes, seen=self.got)

    def is_parted(self, seconds):
        """All ways are cut for so long. How long behind the quorum the next line came."""
        pairs = {(one, other) for one in range(self.count) for other in range(self.count) if one != other}
        lost = self.told(LOST) + self.count
        until = time.monotonic() + seconds
        self.ways.silent = pairs
        waited(lambda: self.told(LOST) >= lost, "the loss of all quorums", self.last_notes)
        time.sleep(max(0.0, until - time.monotonic()))
        before, got = self.told(REGAINED), self.got()
        self.ways.silent = set()
        waited(lambda: self.told(REGAINED) > before, "a quorum", self.last_notes)
        begun = time.monotonic()
        waited(lambda: self.is_alive() and self.got() > got, "a line behind the quorum", self.last_notes)
        return time.monotonic() - begun

    def goes_through(self, is_long):
        """All cuts, and the match's end. What they came to."""
        self.comes_to(FEW)
        found = []
        for seconds in LONG_CUTS if is_long else CUTS:
            found.append((seconds, self.is_parted(seconds)))
            self.comes_to(FEW)
        self.ends()
        figures = ", ".join(f"{took:.2f} s behind {seconds} s" for seconds, took in found)
        want(self.told(ORDERED) == 0, f"{self.told(ORDERED)} default actions of bots that are there; {figures}")
        in_time(all(took <= SOON for _, took in found), f"the next line: {figures}")
        return f"the next line: {figures}"


class PartedRelays(Parted, RelayMatch):
    """Stock bots behind relays."""

    def got(self):
        return sum(bot.record().count(b"\n") for bot in self.stock)


class SampleBots(Parted, Match):
    """The sample bots, which dial all nodes themselves."""

    def begin(self):
        self.set_up()
        for seat in range(2):
            places = [f"{self.address(node)}:{self.seats[node] + seat}" for node in range(self.count)]
            words = [TOP / "examples/bots/caller", TOP / "examples" / GAME, *places, "--record", self.folder / f"bot{seat}.record"]
            self.others.append(subprocess.Popen(words, stdin=subprocess.DEVNULL, stderr=subprocess.DEVNULL))
        return self

    def got(self):
        files = [self.folder / f"bot{seat}.record" for seat in range(2)]
        return sum(len(re.findall(rb"^[0-9.]+ TO ", file.read_bytes(), re.M)) for file in files if file.exists())

    def ends(self):
        super().ends()
        want([bot.wait(patience()) for bot in self.others] == [0, 0], "a bot ended otherwise than by 0")


# So many hands are enough for all cuts of the match, at the pace of its bots.
HANDS, LONG_HANDS = 400, 1000


@test()
def all_ways_cut(folder, seed, is_long):
    match = PartedRelays(LONG_HANDS if is_long else HANDS, seed, pace=0.01, proxied=True).begin()
    told = match.goes_through(is_long)
    match.are_whole()
    return told


@test()
def all_ways_cut_and_bots_alone(folder, seed, is_long):
    return SampleBots(hands=LONG_HANDS if is_long else HANDS, game=GAME, proxied=True).begin().goes_through(is_long)
