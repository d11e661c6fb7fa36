"""What ./check does: the texts of mutants, proofs, mutants of the gate and scripts, one after another, and what it counts of each."""
import math
import os
import re
import shutil
import subprocess
import sys
import time
from pathlib import Path
from typing import NamedTuple, Sequence

import check_quick
import check_steps
import repository
import running
from check_steps import Ended
from check_times import Times, gaps, processor_minutes, reckoned, table

TOP = Path(__file__).resolve().parent.parent
OUT = TOP / "out"

# How a step's output ends, and how it names a row that wasn't measured.
LAST = re.compile(r"^(\d+) passed, (\d+) failed(?:, (\d+) skipped)?$", re.M)
UNMEASURED = re.compile(r"^not measured: (.+)$", re.M)
# How much longer it was seen to take where the host of the machine is busy with others.
BUSY = 2
# How many steps are named that took a processor longest.
MOST = 10
# How long --quick takes, and on which machine; README.md says it too.
QUICK = (
    "some 40 minutes on four free processors. That was measured without tests/simulation, and over programs that aren't\noptimised, by "
    "which a match takes three times as much of a processor"
)


def say(started, text):
    seconds = int(time.monotonic() - started)
    print(f"check: {seconds // 60:3}:{seconds % 60:02}  {text}", flush=True)


def rounded(minutes):
    return 5 * math.ceil(minutes / 5)


def here():
    """How long the gate takes here if nothing is kept: by the newer of the two tables, the processors and the load."""
    measured = repository.measured()
    is_newer = measured and repository.TIMES.stat().st_mtime > repository.PAGE.stat().st_mtime
    lanes, load, processors = repository.lanes(), os.getloadavg()[0], len(os.sched_getaffinity(0))
    figures = measured if is_newer else repository.in_page()
    least = reckoned(figures, lanes) * max(1, (lanes + load) / processors)
    where = f"{lanes} checks side by side on {processors} processors with a load of {load:.1f}"
    return f"between {rounded(least)} and {rounded(BUSY * least)} minutes{gaps(figures)}, {where}"


def told(line, crates, proved):
    """What is said of a line that `rt ci` printed, if anything."""
    found = re.match(r"rt: (\w+) is kept: an earlier run", line)
    if found:
        proved.append(found[1])
        return f"{found[1]} kept from an earlier run ({len(proved)} of {crates} crates)"
    found = re.match(r"rt: (\w+)(: its tests)? proved$", line)
    if found:
        proved += [] if found[2] else [found[1]]
        return f"{found[1]}{': its tests' if found[2] else ''} proved ({len(proved)} of {crates} crates)"
    found = re.match(r"rt: (\w+): trying its must-fail edits \((\d+)\)$", line)
    if found:
        return f"{found[1]}: {found[2]} mutants begun"
    if re.match(r"rt: .*(NOT PROVED|NOT REFUSED|BAD EDIT|FAILED)", line):
        return line[len("rt: ") :].strip()[:200]
    return None


def texts(started):
    """Sees that each mutant can still be applied; how many passed (one if all can), failed and were skipped."""
    tried, others = zip(*map(repository.of_check, repository.crates()))
    folders = [folder for name in repository.crates() for folder in repository.places(name)]
    wrong = [it for folder in folders for it in repository.faults(folder)] + [*repository.strangers()]
    for file, why in wrong:
        say(started, f"{file}: {why}")
    how = f"{len(wrong)} can't be applied" if wrong else "each fits its crate"
    lacking = len([*repository.untried(edit for edits in others for edit in edits)])
    say(started, f"mutants: {sum(map(len, tried))} that ./check tries, {sum(map(len, others))} others; {how}; {lacking} of the latter weren't tried over these files")
    return Count("texts of mutants", 0 if wrong else 1, len(wrong))


def spoken(words, log, tell, env=None):
    """Runs a command, writes what it says to the log, and tells of its lines; its status."""
    how = {"stdin": subprocess.DEVNULL, "stdout": subprocess.PIPE, "stderr": subprocess.STDOUT, "text": True, "errors": "replace"}
    with running.start(words, cwd=TOP, env=env, **how) as ran:
        for line in ran.stdout:
            log.write(line)
            tell(line)
        return running.waited(ran)[0]


def proofs(started, log, flags):
    """Runs `rt ci`, telling how far it is; its status, and what it says of how much was done, if all passed."""
    crates, proved, said = len(repository.crates()), [], {"last": None, "done": None}

    def tell(line):
        text = told(line, crates, proved)
        if text and text != said["last"]:
            say(started, text)
            said["last"] = text
        if line.startswith("rt: ok;"):
            said["done"] = line[len("rt: ") :].strip()

    return spoken(["rt", "ci", *flags], log, tell, repository.surroundings()), said["done"]


def gate(started, log, flags):
    """Proves all, and tries the mutants of the gate. The counts, the processor minutes, and what `rt ci` says of how much was done."""
    times = Times(os.getpid())
    times.start()
    with repository.libraries_aside():
        begun = log.tell()
        status, done = proofs(started, log, flags)
        counts = [count("rt ci", status, said_since(log, begun), started)]
        if done:
            say(started, f"rt ci: {done}")
            counts.append(mutants(started, log))
        else:
            say(started, "the mutants of the gate aren't tried, since rt ci failed")
    return counts, times.minutes(), done


def mutants(started, log):
    """Tries the mutants of the gate over the libraries that `rt ci` left; the counts."""
    begun = log.tell()
    tell = lambda line: say(started, line.strip()[:200]) if not LAST.match(line) else None
    status = spoken([TOP / "tools/wrong_bodies", "--gate"], log, tell)
    return count("tools/wrong_bodies --gate", status, said_since(log, begun), started)


def said_since(log, place):
    """What was written to the log from a place on."""
    log.seek(place)
    return log.read()


def step(name, top=TOP):
    """Runs a script of a tree with its words; what came of it."""
    script, *words = name.split()
    kind = check_steps.kind_of(top / script)
    if kind is None:
        lines = "; ".join(repr(kind.value) for kind in check_steps.Kind)
        return Ended(name, 1, f"none of its first lines says '# ./check: WHAT', where WHAT is one of {lines}\n0 passed, 1 failed\n")
    ran = running.run([*(["nice", "-n", "19"] if kind.is_computing else []), top / script, *words], top)
    return Ended(name, ran.status, ran.said, ran.seconds)


def steps(is_long):
    """Runs the scripts, those with clocks one after another and others beside them; what came of each, as they end."""
    return check_steps.side_by_side(check_steps.steps(is_long), step)


class Count(NamedTuple):
    """How many rows of a step passed, failed and were skipped, and those that weren't measured."""

    name: str
    passed: int
    failed: int
    skipped: int = 0
    unmeasured: Sequence[str] = ()
    seconds: float = 0.0


def count(name, status, said, started, seconds=None):
    """The counts of a step by the last line of what it said, with the seconds of a processor that it took, where these are known. A step
    that ends otherwise has failed."""
    lines, took = LAST.findall(said), "" if seconds is None else f", {seconds:.0f} s of a processor"
    passed, failed, skipped = (int(number or 0) for number in lines[-1]) if lines else (0, 0, 0)
    if not lines or (status != 0 and failed == 0):
        failed += 1
    if failed or status != 0:
        say(started, f"{name} failed (status {status}); the end of what it said:")
        print("\n".join(said.splitlines()[-60:]), flush=True)
    else:
        say(started, f"{name}: {passed} passed" + (f", {skipped} skipped" if skipped else "") + took)
    return Count(name, passed, failed, skipped, UNMEASURED.findall(said) if skipped else (), seconds or 0.0)


def help_text(text):
    """The text of --help, with what it takes by the table and here."""
    figures = repository.in_page()
    whole = round(sum(sum(column.values()) for column in processor_minutes(figures)))
    return text.strip().format(minutes=rounded(reckoned(figures, 4)), processor_minutes=whole, gaps=gaps(figures), here=here(), quick=QUICK)


def anew():
    """The words by which `rt ci` proves all from nothing: a kit that keeps nothing does so without any."""
    said = subprocess.run(["rt", "--help"], stdout=subprocess.PIPE, stderr=subprocess.STDOUT, text=True, errors="replace").stdout
    return ["--anew"] if "--anew" in said else []


def whole(started, log, words):
    """Proves and tests everything; the counts, and the table of minutes."""
    is_anew = "--anew" in words
    kept = "what an earlier run on this machine passed of the same files is kept, if the kit keeps it; the rest is proved from nothing, and if nothing is kept that takes"
    say(started, f"{'every crate is proved from nothing and every mutant of the gate tried, which takes' if is_anew else kept} {here()}; then come the scripts")
    counts, minutes, done = gate(started, log, anew() if is_anew else [])
    lines = table(minutes, time.monotonic() - started, done)
    repository.TIMES.write_text("\n".join(lines) + "\n")
    begun = time.monotonic()
    counts += [counted(ended, log, started) for ended in steps("--long" in words)]
    lines.append(f"The scripts took {(time.monotonic() - begun) / 60:.0f} minutes more.")
    repository.TIMES.write_text("\n".join(lines) + "\n")
    return counts, lines


def quick(started, log, is_long):
    """Tests everything over unproved programs; the counts."""
    say(started, f"nothing is proved: the crates of tests go by rt try, the scripts over unproved programs in a copy of the tree; that takes {QUICK}")
    counts = [counted(ended, log, started) for ended in check_quick.run(check_steps.steps(is_long), step)]
    say(started, took(counts))
    return counts


def took(counts):
    """How long a processor worked for all, and for which most, in words."""
    longest = sorted(counts, key=lambda it: -it.seconds)[:MOST]
    return f"a processor worked for {sum(it.seconds for it in counts) / 60:.0f} minutes, most of them for " + ", ".join(f"{it.name} ({it.seconds / 60:.1f})" for it in longest)


def counted(ended, log, started):
    """The counts of a step that ended; what it said is written to the log."""
    it = Ended(*ended)
    log.write(it.said)
    return count(it.name, it.status, it.said, started, it.seconds)


def told_at_the_end(counts):
    """Names each row that wasn't measured, and prints the sums; the status."""
    for it in counts:
        for row in it.unmeasured or (["its last line names some, and nothing above it does"] if it.skipped else []):
            print(f"not measured: {it.name}: {row}")
    passed, failed, skipped = (sum(numbers) for numbers in zip(*(it[1:4] for it in counts)))
    print(f"{passed} passed, {failed} failed, {skipped} skipped")
    return 0 if failed == 0 and passed > 0 else 1


def main(words, text):
    """Does what the words of ./check say, whose --help has the text; the status."""
    if "-h" in words or "--help" in words:
        print(help_text(text))
        return 0
    unknown = [word for word in words if word not in ("--anew", "--times", "--quick", "--long")]
    if unknown or ("--quick" in words and {*words} - {"--quick", "--long"}):
        print(f"check: {f'what is {unknown[0]!r}?' if unknown else '--quick goes with --long alone:'} ./check --help says what it takes", file=sys.stderr)
        return 2
    if shutil.which("rt") is None:
        print("check: the command rt of the Rattle kit is not on the PATH (see README.md)", file=sys.stderr)
        return 2
    OUT.mkdir(exist_ok=True)
    running.end_with_its_commands("check")
    started = time.monotonic()
    counts, lines = [texts(started)], []
    with open(OUT / "check.log", "w+", encoding="utf-8", buffering=1) as log:
        if "--quick" in words:
            counts += quick(started, log, "--long" in words)
        else:
            more, lines = whole(started, log, words)
            counts += more
    if "--times" in words:
        print("\n".join(lines))
    return told_at_the_end(counts)
