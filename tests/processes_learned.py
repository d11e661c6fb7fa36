"""What tests/processes tries of matches that their nodes learn again: all processes were killed, and are started."""
import time

from measuring import in_time, want
from serving import waited

from processes_keys import League
from processes_match import test

# How many commands the match has when all are killed, and how long a seat may hold the table, in seconds.
COMMANDS, LONG_COMMANDS, PATIENCE = 2000, 30_000, 1
# How long it may take until all logs are as long as the longest one was, in seconds, on a machine that does much else.
LEARNT, LONG_LEARNT = 2, 20


def orders(match, node):
    """How many notes of a node tell that a seat was played for."""
    return sum("default action ordered" in note for note in match.notes(node))


def killed_after(commands):
    """A match that stands after so many commands, and whose processes were killed then; how long its longest log was."""
    match = League(hands=commands // 9 + 60, wait=PATIENCE)
    match.stop_at = commands
    match.begin()
    while len(match.seen) < commands:
        match.goes_on(min(20, commands - len(match.seen)))
    match.kill(*range(match.count))
    match.send_bots_away()
    return match, max(len(match.log(node)) for node in range(match.count))


def learned(match, length, most, seats, think):
    """Starts all, with bots at these seats that think for so long; how long it took until each log was as long as this, in
    seconds. Then all are killed again. No node orders anything before its log is."""
    match.pace, ordered = think, [orders(match, node) for node in range(match.count)]
    files = [match.home(node) / f"logs/node{node}.log" for node in range(match.count)]
    for file in files:
        file.unlink()

    def are_whole():
        now = [orders(match, node) for node in range(match.count)]
        whole = [file.exists() and file.stat().st_size >= length for file in files]
        early = [node for node in range(match.count) if now[node] != ordered[node] and not whole[node]]
        want(not early, f"nodes {early} played for a seat before they knew the match: {match.last_notes()}")
        return match.is_alive() and all(whole)

    started = time.monotonic()
    match.start(*range(match.count))
    match.let_bots_come(seats)
    waited(are_whole, "logs", match.last_notes)
    took = time.monotonic() - started
    in_time(took <= most, f"it took {took:.2f} s to learn the match again")
    match.kill(*range(match.count))
    match.send_bots_away()
    return took


@test()
def learned_again(seed, is_long):
    """Nodes that were all killed learn their match by themselves, with no bot, with one and with bots that think for a
    second, and nobody is played for meanwhile."""
    commands, most = (LONG_COMMANDS, LONG_LEARNT) if is_long else (COMMANDS, LEARNT)
    match, length = killed_after(commands)
    kinds = (("no bot", [], 0.0), ("one bot", [0], 0.0), ("bots that think", [0, 1], 1.0))
    told = [f"{learned(match, length, most, seats, think):.2f} s with {name}" for name, seats, think in kinds]
    match.pace = 0.0
    match.start(*range(match.count))
    match.let_bots_come()
    match.ends()
    return f"{commands} commands: {', '.join(told)}"
