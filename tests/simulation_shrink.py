"""Smaller scripts of tests/simulation that still fail by the same rule."""
import re
import sys

from simulation_runs import judged


def failure(program, script):
    """The rule by which a script's run fails and the moment; none where it passes."""
    found = judged((program, "", script))
    return (found.rule, int(found.words.partition(" at ")[2].partition(":")[0])) if found.rule else None


def fails(program, script, rule):
    found = failure(program, script)
    return found is not None and found[0] == rule


def fewer_hands(program, script, rule):
    """As few hands as by which it still fails."""
    words = script[0].split(" ")
    for hands in (1, 2, 4, 8, 16):
        if hands < int(words[2]):
            tried = [" ".join([*words[:2], str(hands), *words[3:]]), *script[1:]]
            if fails(program, tried, rule):
                return tried
    return script


def fewer_players(program, script, rule):
    """Two players in place of more, if it still fails."""
    words = script[0].split(" ")
    if "|" not in words[7].partition("|")[2]:
        return script
    game = re.sub(r"\d\.game", "2.game", words[6]) if "/l" in words[6] or "/n" in words[6] else words[6].replace("3p.", "2p.reverse_blinds.")
    lines = [line for line in script[1:] if line.split(" ")[1] not in ("bot", "think", "leave", "hush") or line.split(" ")[2] in ("0", "1")]
    tried = [" ".join([*words[:6], game, "alice|bob", *words[8:]]), *lines]
    return tried if fails(program, tried, rule) else script


def fewer_lines(program, script, rule):
    """Without each piece of lines, from half of all down to one, without which it still fails."""
    first, lines = script[0], script[1:]
    size = max(1, len(lines) // 2)
    while size:
        at = 0
        while at < len(lines):
            tried = lines[:at] + lines[at + size :]
            if fails(program, [first, *tried], rule):
                lines = tried
            else:
                at += size
        size //= 2
    return [first, *lines]


def shrunk(program, script):
    """Fewer lines, hands and players by which the same rule still fails. What lies behind the moment at which it fails is dropped first,
    unless the rule is that something comes."""
    found = failure(program, script)
    if found is None:
        sys.exit("tests/simulation: this script passes")
    rule, moment = found
    if rule not in ("progress", "gap"):
        shorter = [script[0], *(line for line in script[1:] if int(line.split(" ")[0]) <= moment), f"{moment + 1} end"]
        script = shorter if fails(program, shorter, rule) else script
    return fewer_lines(program, fewer_players(program, fewer_hands(program, script, rule), rule), rule)
