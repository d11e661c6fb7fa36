"""The built programs at work, and what came of the inputs of a kind."""
import re
import subprocess
from collections import Counter

from .faults import is_named
from .models import TOP

PROGRAM = TOP / "crates/holdem_table/out/holdem_table"
WORKLOAD = TOP / "crates/workload/out/workload"
# The most that a run takes, in seconds: one of a single input, and one of many.
SECONDS, LONG_RUN = 60, 300
# How many inputs a process of tests/inputs takes at once.
AT_ONCE = 20
# A line that says nothing: what is printed for it ends the answer to what stands before it.
MARK, MARKED = b"?", b"E 110 BadScript"


def shown(data):
    """An input as a literal, cut in its middle."""
    text = repr(data)
    return text if len(text) < 600 else f"{text[:400]} .. {text[-150:]} ({len(data)} bytes)"


class Tally:
    """What came of the inputs of a kind."""

    def __init__(self, kind):
        self.kind, self.met, self.wrong, self.given = kind, Counter(), [], 0

    def take(self, data, got, wanted, faults):
        """An input, what was answered and what is wanted; the faults in the answer, none where the input is right."""
        self.given += 1
        self.met.update(faults or ["read"])
        strange = [fault for fault in faults if not is_named(fault)]
        if got != wanted:
            self.wrong.append(f"{shown(data)}: {shown(got)}, not {shown(wanted)}")
        elif strange:
            self.wrong.append(f"{shown(data)}: docs/FAULTS.md doesn't name {strange}")

    def want(self, faults):
        """Sees that these faults were met, and right input."""
        met = " ".join(self.met)
        self.wrong += [f"no input was answered by {fault}" for fault in faults if fault not in met]

    def tell(self):
        kinds = Counter()
        for fault, count in self.met.items():
            kinds[re.sub(r" \d+$", "", fault)] += count
        print(f"{self.kind}: {self.given} inputs; {', '.join(f'{name} {count}' for name, count in sorted(kinds.items()))}", flush=True)
        for text in self.wrong[:20]:
            print(f"tests/inputs: {self.kind}: {text}")
        return max(0, self.given - len(self.wrong)), len(self.wrong)


def run(words, folder, stdin=b"", seconds=SECONDS):
    """How a run ended: its status, standard output and standard error; a text where it took too long."""
    try:
        ran = subprocess.run(words, input=stdin, capture_output=True, cwd=folder, timeout=seconds)
    except subprocess.TimeoutExpired:
        return f"it ran for more than {seconds} seconds"
    return ran.returncode, ran.stdout, ran.stderr


def take_lines(tally, folder, words, first, lines, head=b""):
    """Runs a script of nodes with a mark behind each line, and compares the answers to the lines that are inputs."""
    stdin = head + MARK + b"\n" + b"".join(line + b"\n" + MARK + b"\n" for line, _, _ in lines)
    got = run(words, folder, stdin, LONG_RUN)
    if isinstance(got, str) or (got[0], got[2]) != (0, b""):
        tally.wrong.append(f"a script of {len(lines)} lines ended with {shown(got)}")
        return
    pieces = (b"\n" + got[1]).split(b"\n" + MARKED)
    told = [piece.split(b"\n")[1:] for piece in pieces]
    if len(told) != len(lines) + 2 or sorted(told[0]) != sorted(first):
        tally.wrong.append(f"{len(lines)} lines have {len(told) - 2} answers behind {shown(told[0])}")
        return
    for (line, wanted, data), answer in zip(lines, told[1:]):
        faults = [text.decode("latin-1").partition(" E ")[2] for text in wanted if re.match(rb"\d (\d )?E ", text)]
        if data is not None:
            tally.take(data, answer, wanted, faults)
        elif answer != wanted:
            tally.wrong.append(f"{shown(line)}: {answer}, not {wanted}")
