"""Wrong traces: edits of the traces of a few short scripts, each with the rule that is to refuse it. `tests/simulation --wrong` tries them all."""
import itertools
import random

import chacha20
import second_dealer as dealer
import second_nodes as nodes
import simulation_codes
import simulation_wrong_nodes  # noqa: F401, for its wrong traces
import simulation_wrong_seats  # noqa: F401, for its wrong traces
import simulation_wrong_served  # noqa: F401, for its wrong traces
from simulation_edits import SCRIPTS, WRONG, Edited, NoPlace
from simulation_rules import RULES, Checker
from simulation_trace import VALUE_BY_FIVES, Wrong, value_of

# So many hands have their values compared.
HANDS = 400


def refusal(edited):
    """What the checker says of an edited trace: the rule that refuses it and its words; none where it passes."""
    try:
        Checker(edited.script, edited.text, edited.peak).run()
    except Wrong as found:
        return found.rule, str(found)
    return None, "passes"


def results(traces):
    """Of the trace of each script that it passes, and of each wrong trace that its rule refuses it: a name and what is otherwise."""
    for name, text in traces.items():
        rule, words = refusal(Edited(SCRIPTS[name], text))
        yield f"the trace of {name}", rule and words
    for rule, script, edit in WRONG:
        edited = Edited(SCRIPTS[script], traces[script])
        try:
            edit(edited)
        except NoPlace:
            yield edit.__name__, f"there is nothing to edit in the trace of {script}"
            continue
        found, words = refusal(edited)
        yield edit.__name__, None if found == rule else f"to be refused by {rule}: {words}"
    for rule in sorted(set(RULES) - {rule for rule, _, _ in WRONG}):
        yield f"the rule {rule}", "no wrong trace is refused by it"


def second_writings():
    """The keystream and the decks are those of chacha20.py and second_frames.py, which compute them block by block, and values of hands those
    of second_dealer.py."""
    key, seed = bytes(range(32)), 3 << 40
    stream, keystream = chacha20.Stream(key), simulation_codes.Keystream(key)
    for count in (1, 5, 64, 1_100, 47, 3):
        if stream.bytes(count) != keystream.take(count):
            yield "the keystream", f"another one behind {count} bytes"
            return
    for hand, words in enumerate(simulation_codes.words_of(seed, range(3))):
        if tuple(itertools.islice(nodes.words_of(seed, hand), 16)) != words:
            yield "decks", f"another one of hand {hand}"
            return
    yield "the keystream and decks", None
    for number in range(HANDS):
        # Of all cards, of five ranks, or of two suits.
        among = (range(52), range(number % 32, number % 32 + 20), [place for place in range(52) if place % 4 < 2])[number % 3]
        cards = [dealer.CARDS[place] for place in random.Random(number).sample(among, 7)]
        if value_of(tuple(cards)) != VALUE_BY_FIVES(cards):
            yield "values of hands", f"another one of {' '.join(cards)}"
            return
    yield "values of hands", None
