"""What came of a row of the tests: it passed, it failed, or it wasn't measured. And whether its programs had a processor
meanwhile, by the counters of Linux's /proc."""
import contextlib
import os
import shutil
import subprocess
import sys
import tempfile
import threading
import time
import traceback
from pathlib import Path
from typing import NamedTuple, Optional

# How often a row is tried that was late; and for how long again and again where that was for want of a processor, in seconds.
TRIES, LONG = 3, 60
# How often the processes are looked at, in seconds.
EVERY = 0.5
# Who waited for a processor for less than this excuses no row, in seconds.
LEAST = 0.1
# Who waits for less than this part of a time isn't held up by it.
HELD_UP = 0.1
# How many times as long a pause may take where programs wait for a processor, and five seconds more.
LONGEST, MORE = 10, 5
# How long a command may take that has to end, in seconds.
COMMAND = 60
# What the process of the tests is called among the programs that it started.
SELF = "the test"


class Wrong(Exception):
    """What a test found otherwise than it must be."""


class NotMeasured(Exception):
    """Why a row can't be measured here: it has neither passed nor failed."""


class Late(NamedTuple):
    """What took longer than it may; and who waited longer for a processor than he ran, in words, if somebody did."""

    text: str
    starved: Optional[str]


class Times(NamedTuple):
    """How long programs ran on a processor, and how long they waited for one, in seconds."""

    ran: float
    waited: float

    def since(self, before):
        return Times(self.ran - before.ran, self.waited - before.waited)

    def share(self):
        """The part of what they wanted of a processor that they got."""
        return self.ran / (self.ran + self.waited)


class Task(NamedTuple):
    """A thread as it was seen: its times, and whether it ran or waited for a processor just then."""

    times: Times
    is_runnable: bool


def fields_of(folder):
    """The name, the state, the parent and the beginning of a process, or of a thread of it."""
    head, _, rest = (folder / "stat").read_text(errors="replace").rpartition(")")
    fields = rest.split()
    return head.partition("(")[2], fields[0], int(fields[1]), int(fields[19])


def tasks_of(process):
    """The threads of a process, by the process, their numbers and their beginnings: numbers come again."""
    found = {}
    with contextlib.suppress(OSError):
        for folder in Path(f"/proc/{process}/task").iterdir():
            with contextlib.suppress(OSError, ValueError, IndexError):
                ran, waited, _ = map(int, (folder / "schedstat").read_text().split())
                _, state, _, begun = fields_of(folder)
                found[process, folder.name, begun] = Task(Times(ran / 1e9, waited / 1e9), state == "R")
    return found


def family_of(root):
    """A process, and all that it and its children started, with their names."""
    below, names = {}, {}
    for process in map(int, filter(str.isdigit, os.listdir("/proc"))):
        with contextlib.suppress(OSError, ValueError, IndexError):
            names[process], _, parent, _ = fields_of(Path(f"/proc/{process}"))
            below.setdefault(parent, []).append(process)
    found, left = {root: SELF}, [root]
    while left:
        for child in below.get(left.pop(), []):
            found[child] = names[child]
            left.append(child)
    return found


class Watch(threading.Thread):
    """Adds up how long this process and the programs below it run on a processor, and how long they wait for one. A program that
    has ended counts as it was seen last."""

    own, making = None, threading.Lock()

    def __init__(self):
        super().__init__(daemon=True)
        self.process, self.names, self.tasks, self.looking = os.getpid(), {}, {}, threading.Lock()
        # The seconds in which nobody was held up for want of a processor, until when it was looked last.
        self.fair, self.looked = 0.0, time.monotonic()
        self.look()
        self.start()

    @classmethod
    def here(cls):
        """The watch of this process, which has another than the one that started it."""
        with cls.making:
            if not cls.is_here():
                cls.own = cls()
        return cls.own

    @classmethod
    def is_here(cls):
        return cls.own is not None and cls.own.process == os.getpid()

    def run(self):
        while True:
            time.sleep(EVERY)
            self.look()

    def look(self):
        """Looks at all programs now; the times of each name so far."""
        with self.looking:
            before, family, seen = self.totals(), family_of(self.process), {}
            self.names.update(family)
            for process in family:
                seen.update(tasks_of(process))
            is_stuck = any(task.is_runnable and self.tasks.get(number) == task for number, task in seen.items())
            self.tasks.update(seen)
            now, totals = time.monotonic(), self.totals()
            seconds, self.looked = now - self.looked, now
            self.fair += 0.0 if is_stuck else seconds * least_share(differences(before, totals), seconds)
            return totals

    def totals(self):
        """The times of each name, as they were seen last."""
        found = {}
        for (process, *_), task in self.tasks.items():
            ran, waited = found.get(self.names[process], (0.0, 0.0))
            found[self.names[process]] = Times(ran + task.times.ran, waited + task.times.waited)
        return found

    def now(self):
        """The fair seconds until now."""
        self.look()
        return self.fair


def differences(before, after):
    """The times between two looks."""
    return {name: times.since(before.get(name, Times(0.0, 0.0))) for name, times in after.items()}


def least_share(times, seconds):
    """What who had least of a processor got of what he wanted, within so many seconds."""
    return min([1.0, *(it.share() for it in times.values() if it.waited > HELD_UP * seconds)])


def clock():
    """Seconds that go by only as far as the programs of this process, and it itself, get a processor when they want one; those of
    the wall where no row runs."""
    return Watch.own.fair if Watch.is_here() else time.monotonic()


class Row(threading.local):
    """What the row that this thread tries has noted so far."""

    def __init__(self):
        self.late, self.lacking, self.windows, self.before = [], [], [], {}

    def begin(self):
        self.late, self.lacking, self.windows, self.before = [], [], [], Watch.here().look()

    def starved(self):
        """Who waited longer for a processor than he ran, since the row began or while it measured, in words; nothing if nobody."""
        found = []
        for times in [differences(self.before, Watch.here().look()), *self.windows]:
            found += [(name, it) for name, it in times.items() if it.waited > max(it.ran, LEAST)]
        words = [f"{name} waited {it.waited:.1f} s for a processor and ran {it.ran:.1f} s" for name, it in found[-2:]]
        return " and ".join(words) or None


ROW = Row()


def want(is_so, text):
    if not is_so:
        raise Wrong(text)


def in_time(is_so, text):
    """Notes what has to be so where nobody waits for a processor. The row goes on: what stands behind it is asked in any case."""
    if not is_so:
        ROW.late.append(Late(text, ROW.starved()))


def lacks(text):
    """Notes what the row does without, since it isn't here: it is tried as far as it can be, and counts as not measured."""
    ROW.lacking.append(text)


class Window:
    """The times of programs, by their names, within a block that measures something."""

    def __init__(self):
        self.times = {}

    def of(self, program):
        """The times of a program, whose name the system keeps the first 15 letters of."""
        return self.times.get(Path(program).name[:15], Times(0.0, 0.0))


@contextlib.contextmanager
def measured():
    """A block in which something is measured: who had no processor then excuses what was late."""
    window, before = Window(), Watch.here().look()
    yield window
    window.times = differences(before, Watch.here().look())
    ROW.windows.append(window.times)


def pause(seconds):
    """Waits until the programs had a processor for so long, as far as they wanted one. So 'nothing came' isn't said of those that
    could do nothing."""
    watch = Watch.here()
    begun, until = watch.now(), time.monotonic() + LONGEST * seconds + MORE
    while (left := seconds - (watch.now() - begun)) > 0 and time.monotonic() < until:
        time.sleep(max(left, 0.01))
    in_time(left <= 0, f"programs got a processor for no {seconds:g} s in which nothing may come")


def patiently(wait, timeout, words):
    """What `wait` comes to, which waits for so many seconds at a time for a command. Time in which that, or another program of the test,
    waits for a processor doesn't count for the limit."""
    watch = Watch.here()
    until = watch.fair + timeout
    while True:
        try:
            return wait(EVERY)
        except subprocess.TimeoutExpired:
            if watch.fair >= until:
                raise subprocess.TimeoutExpired(words, timeout) from None


def wait(process, timeout=COMMAND):
    """The status of a process that has to end."""
    return patiently(process.wait, timeout, process.args)


def communicate(process, timeout=COMMAND, input=None):
    """What a process that has to end prints, and what it says of errors, as its own `communicate` tells it."""
    # (what is left of the input behind the first wait the process's own one knows)
    given = [input]
    return patiently(lambda seconds: process.communicate(given.pop() if given else None, seconds), timeout, process.args)


def run(words, timeout=COMMAND, input=None, capture_output=False, check=False, **how):
    """Runs a command as subprocess.run does, but for its limit: it is waited for patiently."""
    piped = {"stdin": subprocess.PIPE} if input is not None else {}
    piped.update({"stdout": subprocess.PIPE, "stderr": subprocess.PIPE} if capture_output else {})
    with subprocess.Popen(words, **piped, **how) as process:
        try:
            printed, said = communicate(process, timeout, input)
        except BaseException:
            process.kill()
            raise
    ran = subprocess.CompletedProcess(words, process.returncode, printed, said)
    if check:
        ran.check_returncode()
    return ran


class Result(NamedTuple):
    """What came of a row: what was wrong, or why it wasn't measured, or neither; and what it tells besides."""

    failed: Optional[str] = None
    skipped: Optional[str] = None
    told: Optional[str] = None

    def words(self):
        """What stands behind the row's name."""
        found = f" ({self.told})" if self.told else ""
        return found + (f": {self.failed}" if self.failed else f": not measured: {self.skipped}" if self.skipped else "")


def attempt(once):
    """What came of one try, but for what it noted."""
    try:
        told = once()
        return Result(skipped="; ".join(ROW.lacking) or None, told=told if isinstance(told, str) else None)
    except NotMeasured as why:
        return Result(skipped=str(why))
    except Wrong as why:
        return Result(failed=str(why) or "it isn't so")
    except Exception:
        return Result(failed=traceback.format_exc())


def result(once):
    """What came of a row. One that was late is tried again. If each try was late it has failed, or wasn't measured where in each the
    counters say that somebody waited longer for a processor than he ran."""
    late, begun = [], time.monotonic()
    for _ in range(TRIES):
        ROW.begin()
        found, noted = attempt(once), ROW.late
        late += noted
        is_starved = all(it.starved for it in late)
        if found.failed or not noted or is_starved and time.monotonic() - begun > LONG:
            break
    texts = [f"late: {it.text}" + (f" ({it.starved})" if it.starved else "") for it in late]
    if found.failed or not noted:
        return found._replace(told="; ".join(filter(None, [found.told, *texts])) or None)
    reasons = [text for text, it in zip(texts, late) if it.starved is None]
    return found._replace(failed="; ".join(reasons)) if reasons else found._replace(skipped=texts[-1])


class Tally:
    """Counts the rows of a script as they end, and prints them."""

    def __init__(self, script):
        self.script, self.passed, self.faults, self.skipped = script, 0, [], []

    def add(self, row, found, seconds=None):
        """Tells what came of a row, and how long it took."""
        took = "" if seconds is None else f" {seconds:5.1f} s "
        print(f"{self.script}:{took} {row}{found.words()}", flush=True)
        if found.failed:
            self.faults.append(f"{row}{found.words()}")
        elif found.skipped:
            self.skipped.append(f"{row}: {' '.join(found.skipped.split())}")
        else:
            self.passed += 1

    def count(self):
        """How many rows came."""
        return self.passed + len(self.faults) + len(self.skipped)

    def end(self):
        """Prints which rows weren't measured, which failed, so that the end of a long output names them, and the last line; the
        script's status."""
        for text in self.skipped:
            print(f"not measured: {text}")
        for text in self.faults:
            print(f"failed: {text}")
        print(f"{self.passed} passed, {len(self.faults)} failed, {len(self.skipped)} skipped")
        return 1 if self.faults else 0


def in_room(script, function):
    """Runs a test in a folder of its own, which goes behind it."""
    room = Path(tempfile.mkdtemp(prefix=f"{script}."))
    try:
        return function(room)
    finally:
        shutil.rmtree(room, ignore_errors=True)


def run_in_rooms(script, tests):
    """Runs the tests of a script, and tells what came of them; the script's status. With --help it prints what the script says of itself."""
    if {"-h", "--help"} & set(sys.argv[1:]):
        print(sys.modules["__main__"].__doc__.strip())
        return 0
    tally = Tally(script)
    for function in tests:
        tally.add(function.__name__.replace("_", " "), result(lambda: in_room(script, function)))
    return tally.end()
