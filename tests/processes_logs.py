"""What tests/processes tries of logs that a node kept: one that a start can't contradict, and one that it does."""
from serving import waited, want

from processes_match import PACE, Match, test
from table import Game, turn_of

# How many hands a match has whose nodes learn it again and again.
HANDS = 4
ZEROS = "\0" * 4096


def files_of(match, node):
    """The log of a node, and those that it kept."""
    logs = match.home(node) / "logs"
    return [*logs.glob("node*.log"), *logs.glob("node*.log.*")]


def keep(match, node, text):
    """A node has this kept log and no other."""
    for file in files_of(match, node):
        file.unlink()
    (match.home(node) / f"logs/node{node}.log.1").write_text(text)


def played(count):
    """A match that is over at all its nodes, and its log."""
    match = Match(count, hands=HANDS)
    match.begin()
    match.ends()
    return match, match.log(0)


def learn_again(match, log, kept):
    """All nodes learn the match again, without bots, each with one of these kept logs: it is no harm."""
    for node, text in enumerate(kept):
        keep(match, node, text)
    match.start(*range(match.count))
    waited(lambda: all(process.poll() is not None for process in match.processes), "the end of all", match.last_notes)
    want(all(process.returncode == 0 for process in match.processes), f"a start doesn't go on: {match.last_notes()}")
    want(all(match.log(node) == log for node in range(match.count)), "a log isn't that of the match")


@test()
def kept_logs_that_were_cut(seed, is_long):
    """They were cut at each byte of their last two lines, or end in zeros, or have them in the middle: each node goes on."""
    match, log = played(7)
    lines = log.splitlines(keepends=True)
    begin = len(log) - len(lines[-1]) - len(lines[-2])
    texts = [log[:cut] for cut in range(begin, len(log) + 1)]
    texts += [text + ZEROS for text in ("", *(log[:cut] for cut in range(begin, len(log) + 1, 1 if is_long else 16)))]
    texts += [log[: begin + 9] + ZEROS + log[begin + 9 :], log[: begin + 9] + "\0" * 20 + log[begin + 29 :], log[:begin] + "\n" + log[begin:]]
    for place in range(0, len(texts), 7):
        batch = texts[place : place + 7]
        learn_again(match, log, batch + [log] * (7 - len(batch)))
    return f"{len(texts)} kept logs"


def with_other(lines, place):
    """The lines of a log, of which one ends in another name."""
    return "".join([*lines[:place], f"{lines[place][:-2]}x\n", *lines[place + 1 :]])


@test()
def kept_logs_that_differ(seed, is_long):
    """Each of their lines is another one: the node that keeps such a log ends at that hand, at each start. Where nothing says
    that the log is of its store it goes on."""
    match, log = played(3)
    lines = log.splitlines(keepends=True)
    for place in range(1, len(lines)):
        keep(match, 0, with_other(lines, place))
        match.start(1, 2)
        for _ in range(2):
            ends_by_difference(match, 0, place - 1)
            got = match.log(0)
            want(log.startswith(got) and lines[place] not in got, f"with another line {place} the log is {got!r}")
        match.kill(1, 2)
    (match.home(0) / "logs/node0.logs.kept").unlink()
    learn_again(match, log, [with_other(lines, 2)])


def ends_by_difference(match, node, hand):
    """A process of a node ends since this hand of its log would differ from that of its first kept one."""
    ran = match.run(node, "node", "m.toml", str(node))
    told = [f"logs/node{node}.log: hand {hand} differs from that of logs/node{node}.log.1", "129 LogDiffers"]
    want((ran.returncode, ran.stderr.splitlines()[-2:]) == (3, told), f"node {node} ended with {ran.returncode}: {ran.stderr}, not {told}")


@test()
def kept_logs_of_another_init(seed, is_long):
    """Logs of an earlier match of the same file came there, one in the place of the node's log: its own are those behind
    them, and it goes on."""
    match = Match(hands=40, pace=PACE / 4)
    for node in range(match.count):
        match.init(node)
    logs = match.home(0) / "logs"
    other = f"# name/game/hands m1 {match.word} {match.hands}\nSTATE:0:f:TdAs|8hTc:5|-5:alice|bob\n"
    (logs / "node0.log.1").write_text(other)
    (logs / "node0.log").write_text(other + "STATE:1:f:8hTc|TdAs:5|-5:bob|alice\n")
    match.start(*range(match.count))
    match.choice = calls(match)
    match.let_bots_come()
    match.await_hands(0, 3)
    kept = (logs / "node0.logs.kept").read_text()
    want(kept.endswith("\nfirst 3\n"), f"node0.logs.kept has {kept!r}")
    for _ in range(2):
        match.kill(0)
        starts = match.starts(0)
        match.start(0)
        match.await_start(0, starts)
        match.goes_on()
    want((logs / "node0.log.3").exists(), "the node's log wasn't kept")
    want((logs / "node0.logs.kept").read_text() == kept, "node0.logs.kept was changed")
    for number in (1, 2):
        (logs / f"node0.log.{number}").unlink()
    match.ends()


def calls(match):
    """What bots choose who call."""
    game = Game(match.game)
    return lambda seat, line: "c" if turn_of(game, line) else None


def folds(match):
    """What bots choose who fold where they can, and else call."""
    game = Game(match.game)

    def choice(seat, line):
        betting = turn_of(game, line)
        return None if betting is None else "f" if betting.may_fold() else "c"

    return choice


@test()
def replaced_store(seed, is_long):
    """A store is lost with all else of its node, and made anew by a tired operator; a node that never met the old one plays
    another match with it. Whoever kept a log of the first match goes no further."""
    match = Match(pace=PACE / 4).begin(0, 1)
    match.await_hands(0, 5)
    match.kill(0, 1)
    first = match.log(0)
    stores = match.home(1) / "stores"
    for file in [*stores.glob("node1.*"), *files_of(match, 1), *(match.home(1) / "logs").glob("*.kept")]:
        file.unlink()
    match.init(1)
    match.choice = folds(match)
    match.start(1, 2)
    match.await_hands(2, 20)
    # (or the other match may be over before node 0 is there)
    match.may_act.clear()
    ends_by_difference(match, 0, 0)
    want((match.home(0) / "logs/node0.log.1").read_text() == first, "the log of the first match was changed")
    want(match.log(0).count("\n") <= 1, f"a hand of the other match was logged: {match.log(0)!r}")
    ends_by_difference(match, 0, 0)
