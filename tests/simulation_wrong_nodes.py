"""Wrong traces of tests/simulation: the list and the logs, votes and frames, campaigns, processes and status lines."""
import re

from simulation_edits import NEVER, NoPlace, vote, votes_of, wrong
from simulation_list import ACT, DEAL
from simulation_trace import bytes_of


# The list, and what is shown of it.


@wrong("deal")
def a_deal_of_nobody(it):
    """Two cards of a deal have changed their places wherever it stands."""
    place = it.first(lambda row: row[2] == "write" and (votes_of(row) or (0, 0, [b"0"]))[2][0][0] == DEAL)
    command = votes_of(it.rows[place])[2][0]
    it.replace(command, command[:6] + bytes([command[7], command[6]]) + command[8:])


@wrong("one-log")
def a_chip_more(it):
    """A log has one chip more for the first player of a hand."""
    place = it.first(lambda row: row[2] == "log" and bytes_of(row[3]).startswith(b"STATE"))
    words = bytes_of(it.rows[place][3]).split(b":")
    first, _, rest = words[4].partition(b"|")
    words[4] = b"%d|" % (int(first) + 1) + rest
    it.rows[place][3] = b":".join(words).hex()


@wrong("one-log")
def a_log_ahead_of_stores(it):
    """A node's log has a hand before the vote for its last act is on a second disk."""
    place = it.first(lambda row: row[2] == "log" and bytes_of(row[3]).startswith(b"STATE"))
    row = it.rows.pop(place)
    row[0] = str(int(row[0]) - 1_500)
    it.rows.insert(it.first(lambda other: int(other[0]) > int(row[0])), row)


@wrong("whole-log")
def the_last_hand_is_not_logged(it):
    """A process ends well, and its log has no last hand."""
    del it.rows[it.last(lambda row: row[2] == "log")]


# Votes, promises and what is said of them.


def a_vote(it, behind=-1):
    """Behind which sync a node keeps a vote: the place, the node, and the vote."""
    write = it.first(lambda row: row[2] == "write" and votes_of(row) is not None, behind)
    node = it.rows[write][1]
    is_sync = lambda row: row[1] == node and row[2] == "sync"
    return it.first(is_sync, it.first(is_sync, write)), node, votes_of(it.rows[write])


@wrong("one-value")
def a_vote_changes(it):
    """A node votes for another command in the same ballot."""
    place, node, (ballot, slot, commands) = a_vote(it)
    it.append(place, node, vote(ballot, slot, commands[0][:-1] + bytes([commands[0][-1] ^ 1])))


@wrong("agree")
def another_vote_where_one_is_chosen(it):
    """Above a ballot in which a command was chosen a node votes for another one."""
    place = it.first(lambda row: row[2] == "say" and row[1].isdigit() and b"STATE" in bytes_of(row[4]))
    _, _, (ballot, slot, commands) = a_vote(it)
    it.append(place, 2, vote((ballot[0] + 7, 2), slot, commands[0][:-1] + bytes([commands[0][-1] ^ 1])))


@wrong("ballot")
def a_ballot_goes_back(it):
    """A node votes in a ballot below the one that it promised."""
    place, node, (ballot, slot, commands) = a_vote(it)
    it.append(place, node, vote((ballot[0] - 1, 2), slot + 1, commands[0]))


@wrong("backed")
def a_vote_without_sync(it):
    """A node says that it voted, and the second sync of its vote is left out."""
    place, _, _ = a_vote(it)
    del it.rows[place]


@wrong("backed", "key")
def a_vote_without_sync_with_a_key(it):
    """The same where what nodes say can only be read with their key."""
    place, _, _ = a_vote(it)
    del it.rows[place]


@wrong("backed")
def another_vote_than_the_stored_one(it):
    """A node says that it accepted another command than the one that its disk has."""
    place, begin, end = it.frame("Accepted", lambda body: body[10] == ACT)
    it.change(place, end - 5, b"\0")


@wrong("backed")
def a_promise_without_sync(it):
    """A node promises, and the second sync of that is left out."""
    place = it.first(lambda row: row[2] == "sync" and row[1] == "1" and row[0] > "1000" and int(row[0]) > 1_000)
    del it.rows[it.first(lambda row: row[2] == "sync" and row[1] == "1", place)]


@wrong("own")
def another_nodes_ballot(it):
    """A node prepares a ballot of another one."""
    place, begin, _ = it.frame("Prepare")
    it.change(place, begin + 4, bytes([(bytes_of(it.rows[place][4])[begin + 4] + 1) % 3]))


@wrong("quorum")
def a_leader_without_promises(it):
    """The promises to a leader are left out."""
    it.rows = [row for place, row in enumerate(it.rows) if place not in {place for place, _, _ in it.frames("Promise")}]


@wrong("front")
def a_front_ahead_of_the_list(it):
    """A node prepares from a slot on to which the list hasn't come."""
    place, begin, _ = it.frame("Prepare")
    it.change(place, begin + 5, (1_000).to_bytes(4, "big"))


@wrong("beat")
def a_beat_ahead_of_the_list(it):
    place = it.last(lambda row: row[2] == "say" and row[4].startswith("0000001003") and len(row[4]) == 40)
    it.rows[place][4] = it.rows[place][4][:26] + "00001000" + it.rows[place][4][34:]


@wrong("beat", "killed")
def a_beat_of_an_earlier_front(it):
    """A beat tells a front below that of the beat before."""
    place = it.last(lambda row: row[2] == "say" and row[4].startswith("0000001003") and len(row[4]) == 40)
    it.rows[place][4] = it.rows[place][4][:26] + "00000000" + it.rows[place][4][34:]


@wrong("chosen", "killed")
def another_command_is_chosen(it):
    """A node tells one that came back of another command than the chosen one."""
    place, begin, _ = it.frame("Chosen")
    it.change(place, begin + 8, bytes([bytes_of(it.rows[place][4])[begin + 8] ^ 1]))


@wrong("tag", "key")
def a_wrong_tag(it):
    """A bit of a record is another one than its tag is of."""
    ends = it.between()
    place = it.last(lambda row: row[2] == "say" and row[3] in ends)
    it.change(place, 6, bytes([bytes_of(it.rows[place][4])[6] ^ 1]))


@wrong("lives")
def another_life(it):
    """A node tells another life of a store than that store has."""
    place = it.first(lambda row: row[2] == "say" and row[4].startswith("0000003104") and row[1].isdigit())
    it.change(place, 5, b"\7")


@wrong("old", "killed")
def a_frame_of_an_old_process(it):
    """A process speaks over the connection of the one before it."""
    place = it.first(lambda row: row[2] == "begin" and row[1] == "0" and row[0] != "0")
    said = it.first(lambda row: row[1] == "0" and row[2] == "say" and row[4].startswith("0000001003"), place)
    old = it.first(lambda row: row[1] == "0" and row[2] == "say" and row[4].startswith("0000001003"))
    it.rows[said][3] = it.rows[old][3]


@wrong("old", "killed")
def a_beat_over_an_earlier_connection(it):
    """A node speaks to one that came back over the connection to the process before it."""
    begun = it.first(lambda row: row[2] == "begin" and row[1] == "0" and row[0] != "0")
    ends = it.between()
    is_beat = lambda row: row[1] == "1" and row[2] == "say" and row[4].startswith("0000001003") and "0" in ends[row[3]]
    later = it.first(lambda row: is_beat(row) and row[3] != it.rows[it.first(is_beat)][3], begun)
    said = it.first(is_beat, later)
    it.rows[said][3] = it.rows[it.first(is_beat)][3]


# Campaigns.


def campaigns(it, node):
    """Of each ballot that a node begins the places of its first write and of the first Prepare."""
    found = {}
    for place, begin, _ in it.frames("Prepare"):
        row = it.rows[place]
        if row[1] == node:
            found.setdefault(bytes_of(row[4])[begin : begin + 5], place)
    return [(it.first(lambda row: row[1] == node and row[2] == "write" and (b"\1" + ballot).hex() in row[4]), place) for ballot, place in found.items()]


@wrong("ballots", "deaf")
def a_wait_that_does_not_double(it):
    """A node that campaigns in vain does so again too soon."""
    *_, (first, _), (begun, said) = campaigns(it, "0")[:4]
    node, earlier = it.rows[begun][1], int(it.rows[begun][0]) - int(it.rows[first][0]) - 250_000
    for row in it.rows[begun : said + 1]:
        if row[1] == node:
            row[0] = str(int(row[0]) - earlier)
            if row[2] == "sync":
                row[3] = str(int(row[3]) - earlier)
    it.rows.sort(key=lambda row: int(row[0]))


@wrong("twice", "deaf")
def a_ballot_is_said_behind_the_next(it):
    """A node says that it began a ballot when it has begun the next one."""
    (_, said), (_, next_said), *_ = campaigns(it, "0")[1:]
    first, following = it.rows[said], it.rows[next_said]
    it.rows = [row for row in it.rows if row[1:3] != ["0", "say"] or row[4] != first[4]]
    first[0] = following[0]
    it.rows.insert(it.first(lambda row: row is following), first)


# Processes.


@wrong("trace")
def a_process_that_never_began(it):
    """A process does something and hasn't begun."""
    del it.rows[it.first(lambda row: row[2] == "begin")]


@wrong("trace")
def a_frame_of_another_length(it):
    """A frame says that it is longer than its record."""
    place, begin, _ = it.frame("Accepted")
    it.change(place, begin - 4, b"\x01")


@wrong("image", "killed")
def another_image(it):
    """A process begins on another image than its disk kept."""
    place = it.first(lambda row: row[2] == "begin" and row[0] != "0")
    it.rows[place][3] = it.rows[place][3][:-2] + "00" * 5


@wrong("store")
def a_record_without_a_ballot(it):
    """A record of a store is too short for a ballot."""
    it.append(it.last(lambda row: row[1] == "0" and row[2] == "sync"), 0, bytes([1, 0]))


@wrong("store", "killed")
def no_store(it):
    """A gate is opened of a record that isn't written."""
    place = it.first(lambda row: row[2] == "write" and votes_of(row) is not None)
    del it.rows[place]


@wrong("ends", "killed")
def an_end_by_a_fault(it):
    """A process ends by its disk, of which no call failed, behind an order by which none fails."""
    place = it.first(lambda row: row[1] == "-" and row[2] == "fail" and row[4] == str(NEVER))
    it.insert(place + 5, it.rows[place][3], "ended", "Failed(Store(Disk))")


@wrong("opens", "killed")
def a_start_by_a_fault(it):
    """A process can't begin, though no call of its disk is to fail."""
    place = it.first(lambda row: row[2] == "begin" and row[0] != "0")
    it.insert(place, it.rows[place][1], "refused", "91", "Store", "63", "Disk")


@wrong("joined")
def nobody_is_told_of(it):
    """A process never tells that a peer is there."""
    it.rows = [row for row in it.rows if row[1:4] != ["1", "note", "Joined"]]


@wrong("peers")
def a_peer_is_refused(it):
    place = it.first(lambda row: row[2:4] == ["note", "Joined"])
    it.insert(place, it.rows[place][1], "note", "Refused", "{", "peer:", "2,", "fault:", "WrongTag,", "source:", "None", "}")


@wrong("memory")
def much_memory(it):
    """The run takes a gigabyte."""
    it.peak = 1 << 30


@wrong("progress")
def no_end(it):
    """A process doesn't end."""
    del it.rows[it.last(lambda row: row[2] == "ended")]


@wrong("gap")
def late_progress_in_a_window(it):
    """A command comes fifteen seconds late, before the last order of the script."""
    it.move(it.last(lambda row: row[2] == "write" and votes_of(row) is not None), 15_000_000)


@wrong("gap", "killed")
def late_progress(it):
    """In calm the next command comes half a minute later."""
    place = it.last(lambda row: row[2] == "write" and votes_of(row) is not None)
    it.move(place, 30_000_000)


# Status lines.


def status_edit(old, new):
    """The edit of one word of a status line."""

    def edit(it):
        place = it.first(lambda row: row[2] == "say" and bytes_of(row[4]).startswith(b"node "))
        text = bytes_of(it.rows[place][4]).decode()
        changed = re.sub(old, new, text)
        if changed == text:
            raise NoPlace
        it.rows[place][4] = changed.encode().hex()

    edit.__name__ = f"a_status_with_{new.replace(' ', '_')}"
    edit.__doc__ = f"A status line says: {new}."
    return edit


for old, new in ((r"front \d+", "front 99"), (r"front \d+", "front 0"), (r"hand \d+", "hand 3"), ("over no", "over yes"), (r"promised 1\.0", "promised 2.0"), (r"peers 1:\d+", "peers 1:99"), ("quorum yes peers [^ ]+", "quorum yes peers 1:gone,2:gone"), (r"1:\d+", "1:gone"), ("quorum yes", "quorum no"), ("replaying no", "replaying yes"), ("bob:[a-z]+", "bob:away"), ("alice:[a-z]+,bob", "bob:seated,alice"), ("leads yes", "leads no"), ("pending no", "pending yes"), ("alice:seated", "alice:away"), (r"backlog \d+", "backlog 99999")):
    wrong("queue" if "backlog" in new else "status")(status_edit(old, new))
