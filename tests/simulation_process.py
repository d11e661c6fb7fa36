"""A process of a node in a trace of tests/simulation: what is known of it while it runs."""
import bisect

from simulation_trace import Disk


class Process:
    """A process of a node, while it runs."""

    def __init__(self, image, moment):
        self.disk, self.log, self.is_failed, self.began = Disk(image), "", False, moment
        # Whether its store is open: its begin syncs.
        self.is_open = False
        # What its disk keeps where that is no store.
        self.spoilt = None
        # The moment of the first frame that was said to each peer, and the peers that were told to be there.
        self.spoken, self.joined = {}, set()
        # The last connection to each peer over which something was said behind the greeting.
        self.open = {}
        # Each connection over which it has spoken behind the greeting, by what rows say of it: with the peer, the number and the reader of
        # what it says.
        self.ways = {}
        # Its campaigns since its front moved: the front, how many, and the moment of the last; and the moment of each ballot whose
        # Prepare isn't said yet.
        self.front, self.ballots, self.last, self.begun = None, 0, 0, {}
        # The last ballot in which it proposed, and when it last kept a vote.
        self.proposed, self.voted = None, 0
        # The first slot of the last ballot that it began.
        self.first = 0
        # How many commands it has at least, by all that it says, and since when it has so many.
        self.known, self.knew, self.learned = 0, [0], [moment]
        # What its last beat said, its front and its seats, and since when its beats have told of other seats than notes did.
        self.beat, self.beat_front, self.beat_seats, self.doubted = None, 0, 0, None
        # What may be said again, and is right then: by connections what each last beat said, and of what was said without a key and has
        # nothing but frames that stay right, what is counted of it.
        self.beats, self.lasting = {}, {}
        # The seats that sit here, when each was taken in, and the line of each to which an answer came that waits, with the moment.
        self.sits, self.took, self.answered, self.answers_at = set(), {}, {}, {}
        # The number of the connection that is taken in at each seat, when each seat last sat down, and when its place was last left. When a
        # bot of a seat was last turned away.
        self.seated, self.seated_at, self.freed, self.crowded = {}, {}, {}, {}
        # It has a quorum, by its notes; and when it closed connections of seats without a word since it told so.
        self.is_quorate, self.hung = False, []

    def learn(self, moment, count):
        """It says that it has so many commands."""
        if count > self.known:
            self.known = count
            self.knew.append(count)
            self.learned.append(moment)

    def image(self, kept):
        """What its disk keeps once it is gone, where that is a store."""
        return kept if self.spoilt is None else self.spoilt

    def forget_beat(self):
        """The next beat of each connection is judged again."""
        self.beat = None
        self.beats.clear()

    def sits_now(self):
        """Who sits here by its notes, a bit each."""
        return sum(1 << seat for seat in self.sits)

    def settle_beat(self):
        """A note tells who sits here: that may be what its last beat said before."""
        self.forget_beat()
        if self.beat_seats == self.sits_now():
            self.doubted = None

    def knew_at(self, moment):
        """How many commands it had at least at a moment."""
        return self.knew[max(bisect.bisect_right(self.learned, moment) - 1, 0)]
