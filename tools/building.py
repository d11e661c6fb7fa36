"""How the program is built: its crates are proved side by side, or an unproved one is made. tools/build, tools/release and ./demo do it."""
import contextlib
import fcntl
import os
import re
import shutil
import signal
import subprocess
import sys
import tempfile
import time
from pathlib import Path

import repository
import unproved
from which_program import UNPROVED

TOP = Path(__file__).resolve().parent.parent
CRATES, LIST, LOG = TOP / "crates", TOP / "crates.txt", TOP / "out/build.log"
NAME = "holdem_table"
PROGRAM = CRATES / NAME / "out" / NAME
# How long a build from nothing takes, and on which machine; ./demo --help says it too, and README.md.
MEASURED = "about half an hour on four processors of a shared host (Intel Xeon at 2.5 GHz under KVM, 2026-11-26)"
# The same of an unproved program.
UNPROVED_MEASURED = "two minutes on four free processors"
# More processors than these hardly hasten the proof of one crate.
MOST = 4
# How often it is looked which crates are done, and after what silence it is told how far they are, in seconds.
EVERY, SILENCE = 0.2, 60
# What a library is made from.
PARTS = ("src", "specs", "proofs")
# How many lines are shown of what was said of a crate that isn't built, and how much of each.
SHOWN, WIDTH = 40, 400


class Failed(Exception):
    """Why a build ends without a program."""


def clock(seconds):
    return f"{int(seconds) // 60}:{int(seconds) % 60:02}"


def rows():
    """The lines of crates.txt that name a crate, and behind a colon what it stands on."""
    return [line for line in LIST.read_text().splitlines() if ":" in line]


def name_of(row):
    return row.partition(":")[0].split()[0]


def crates_of(name):
    """The crates that one stands on, and itself: by name, those that each of them names in crates.txt."""
    named = {name_of(row): row.partition(":")[2].split() for row in rows()}
    found, left = {}, [name]
    while left:
        at = left.pop()
        if at not in found:
            found[at] = [other for other in named[at] if other in named]
            left += found[at]
    return found


def chains(crates):
    """By crate: how long the longest chain of crates is that begins with it, each named by the next, in lines of code.

    The time of a proof goes by them; a hundred stand for what any crate takes.
    """
    found = {}

    def chain(name):
        if name not in found:
            own = sum(len(file.read_bytes().splitlines()) for file in (CRATES / name).glob("src/**/*.rt"))
            found[name] = 100 + own + max((chain(other) for other in crates if name in crates[other]), default=0)
        return found[name]

    return {name: chain(name) for name in crates}


def free_memory():
    """How many bytes of memory are free; none where the system doesn't say."""
    try:
        return int(re.search(r"^MemAvailable:\s+(\d+) kB$", Path("/proc/meminfo").read_text(), re.M)[1]) * 1024
    except (OSError, TypeError):
        return None


def processors(used=0):
    """How many processors work at the build: as many as there are, and one for each so much memory that is free, or used by its own proofs."""
    found, free = len(os.sched_getaffinity(0)), free_memory()
    if free is None:
        return found
    return min(found, max(1, (free + used - repository.RESERVE) // repository.MEMORY))


def shares(ready, idle, is_longest):
    """Which crates begin, and with how many of the idle processors each: one, and the first with those that are over.

    Where the longest chain begins with the first, it has two if there are two: all others end before that chain does.
    """
    for place, name in enumerate(ready[:idle]):
        least = 2 if place == 0 and is_longest else 1
        share = min(MOST, idle, max(least, idle - (len(ready) - place - 1)))
        yield name, share
        idle -= share
        if idle == 0:
            return


@contextlib.contextmanager
def locked(crates):
    """Keeps every other `rt` out of the crates' folders, as `rt` does it itself, and waits for those that are there."""
    held = []
    try:
        for name in sorted(crates):
            held.append(os.open(CRATES / name, os.O_RDONLY))
            try:
                fcntl.flock(held[-1], fcntl.LOCK_EX | fcntl.LOCK_NB)
            except BlockingIOError:
                print(f"build: waiting for another rt to finish in crates/{name}", flush=True)
                fcntl.flock(held[-1], fcntl.LOCK_EX)
        yield
    finally:
        for folder in held:
            os.close(folder)


def link(file, to):
    """Gives a file a second name, or copies it where that can't be. `rt lib` writes into no file that is there."""
    try:
        os.link(file, to)
    except OSError:
        shutil.copy2(file, to)


def move(folder, to):
    """Puts a folder, if it is there, in the place of another."""
    if folder.is_dir():
        shutil.rmtree(to, ignore_errors=True)
        to.parent.mkdir(exist_ok=True)
        shutil.move(str(folder), str(to))


def stamp_of(crate):
    """When the library of a crate's folder was built; none where it isn't."""
    stamp = crate / "out/rlib/stamp"
    return stamp.stat().st_mtime_ns if stamp.is_file() else None


class Run:
    """An `rt` at work, in a session of its own, so that it is ended with all that it started."""

    def __init__(self, words, folder, given=""):
        self.started, self.said = time.monotonic(), tempfile.NamedTemporaryFile()
        with tempfile.TemporaryFile("w+") as read:
            read.write(given)
            read.seek(0)
            self.process = subprocess.Popen(
                ["rt", *words], cwd=folder, stdin=read, stdout=self.said, stderr=subprocess.STDOUT, start_new_session=True
            )

    def status(self):
        return self.process.poll()

    def wait(self):
        """Its status, once it has ended, or is ended here since this program is to end."""
        try:
            return self.process.wait()
        finally:
            self.end()

    def took(self):
        return clock(time.monotonic() - self.started)

    def text(self):
        """What was said so far."""
        return Path(self.said.name).read_text(errors="replace")

    def progress(self):
        """How far it is, where it says so."""
        found = re.findall(r"^so far: ([1-9]\d*) of (\d+) functions", self.text(), re.M)
        return " (%s of %s functions)" % found[-1] if found else ""

    def end(self):
        """Ends it, if it goes on, and waits a while for what it started, which ends by itself when `rt` has."""
        if self.status() is not None:
            return
        os.killpg(self.process.pid, signal.SIGTERM)
        self.process.wait()
        until = time.monotonic() + 5
        while self.has_left() and time.monotonic() < until:
            time.sleep(0.05)

    def processes(self):
        """What /proc tells, behind the name, of each process of its session that is still at work."""
        for process in filter(str.isdigit, os.listdir("/proc")):
            with contextlib.suppress(OSError):
                fields = Path(f"/proc/{process}/stat").read_text().rpartition(")")[2].split()
                if int(fields[3]) == self.process.pid and fields[0] not in "ZX":
                    yield fields

    def has_left(self):
        """Whether anything of its session is still at work."""
        return any(True for _ in self.processes())

    def memory(self):
        """How many bytes of memory its processes have."""
        return sum(int(fields[21]) for fields in self.processes()) * os.sysconf("SC_PAGE_SIZE")


class Room:
    """A copy of the tree, where one crate after another is proved.

    `rt lib` keeps every other `rt` out of its crate's folder and of those of all crates below. So two in one tree that share
    a crate wait for each other, but not two in copies. What is built or kept of a proof goes back to the tree.
    """

    def __init__(self, place, crates):
        self.folder = Path(tempfile.mkdtemp(dir=place))
        self.name, self.share, self.run, self.was = None, 0, None, None
        (self.folder / LIST.name).write_text("".join(f"{row}\n" for row in rows() if name_of(row) in crates))
        for name in crates:
            for part in PARTS:
                if (CRATES / name / part).is_dir():
                    shutil.copytree(CRATES / name / part, self.crate(name) / part, copy_function=link)

    def crate(self, name):
        return self.folder / "crates" / name

    def begin(self, name, below, share):
        """Proves a crate, over the libraries that the tree has."""
        self.name, self.share, self.was = name, share, stamp_of(CRATES / name)
        for other in [*below, name]:
            if (CRATES / other / "out/rlib").is_dir() and not (self.crate(other) / "out/rlib").is_dir():
                shutil.copytree(CRATES / other / "out/rlib", self.crate(other) / "out/rlib", copy_function=link)
        move(CRATES / name / "out/incremental", self.crate(name) / "out/incremental")
        self.run = Run(["lib", "--jobs", str(share)], self.crate(name))

    def leave(self):
        """Ends the proof, if it goes on, and gives the tree what came of it. The `rt`, and whether the crate was built before."""
        run, out = self.run, self.crate(self.name) / "out"
        if run is not None:
            run.end()
        move(out / "incremental", CRATES / self.name / "out/incremental")
        is_old = self.was is not None and stamp_of(out.parent) == self.was
        if run is not None and run.status() == 0 and not is_old:
            move(out / "rlib", CRATES / self.name / "out/rlib")
        self.name, self.share, self.run = None, 0, None
        return run, is_old


class Build:
    """What is done of a build, and what is at work.

    `rt all check --jobs N` would prove crates side by side too, but gives each one processor: then the longest chain alone,
    35 of 58 processor minutes, takes longer than all the rest, and processors idle beside it. Here they help it; that costs
    a crate half as much processor time again, and of four processors saves a third of the whole time.
    """

    def __init__(self, place, log):
        self.started, self.place, self.log = time.monotonic(), place, log
        self.crates, self.processors = crates_of(NAME), processors()
        self.length = chains(self.crates)
        self.left = sorted({*self.crates} - {NAME}, key=lambda name: -self.length[name])
        self.done, self.rooms, self.told = [], [], self.started

    def say(self, text):
        self.told = time.monotonic()
        seconds = int(self.told - self.started)
        print(f"build: {seconds // 60:3}:{seconds % 60:02}  {text}", flush=True)

    def below(self, name):
        """All crates that one stands on."""
        return {*self.crates[name]}.union(*(self.below(other) for other in self.crates[name]))

    def at_work(self):
        return [room for room in self.rooms if room.name is not None]

    def room(self):
        """A room where nothing is at work."""
        for room in self.rooms:
            if room.name is None:
                return room
        self.rooms.append(Room(self.place, self.crates))
        return self.rooms[-1]

    def libraries(self):
        """Proves all crates but the program's, side by side."""
        count = len(self.left)
        try:
            self.begin()
            while len(self.done) < count:
                time.sleep(EVERY)
                told = [self.take(room) for room in self.at_work() if room.run.status() is not None]
                if told:
                    self.begin()
                for text in told:
                    self.say(f"{text}; {self.rest()}")
                self.break_silence(self.rest)
        finally:
            for room in self.at_work():
                room.leave()

    def begin(self):
        """Begins with crates for which processors are idle, by the memory that there is now."""
        self.processors = processors(sum(room.run.memory() for room in self.at_work()))
        ready = [name for name in self.left if all(other in self.done for other in self.crates[name])]
        is_longest = bool(ready) and self.length[ready[0]] >= max((self.length[room.name] for room in self.at_work()), default=0)
        idle = max(0, self.processors - sum(room.share for room in self.rooms))
        for name, share in shares(ready, idle, is_longest):
            self.left.remove(name)
            self.room().begin(name, self.below(name), share)

    def take(self, room):
        """Takes what came of the crate of a room, where it is proved. What is to be said of it."""
        name = room.name
        run, is_old = room.leave()
        self.judge(name, run, run.status() == 0, room.folder)
        self.done.append(name)
        return f"{self.count()}  {name} {'was built before' if is_old else 'built in ' + run.took()}"

    def count(self):
        return f"{len(self.done):2} of {len(self.crates)}"

    def rest(self):
        """What is left to do; the program's own crate is none of those that are left to be begun side by side."""
        at_work = ", ".join(room.name + room.run.progress() for room in self.at_work())
        return f"at work: {at_work}; {len(self.left) + 1} more" if at_work else f"{len(self.left) + 1} left"

    def break_silence(self, text):
        """Tells how far the build is where nothing was told for a while."""
        if time.monotonic() - self.told > SILENCE:
            self.say(f"{self.count()}  {text()}")

    def judge(self, name, run, is_well, folder=TOP):
        """Logs what was said of a crate in a copy of the tree, and ends the build where it isn't built."""
        said = run.text().replace(str(folder), str(TOP))
        self.log.write(f"== {name}, in {run.took()}\n{said}")
        if not is_well:
            lines = [line[:WIDTH] for line in said.splitlines() if not line.startswith("statements ")]
            self.say(f"{name} isn't built (status {run.status()}). The end of what rt said in crates/{name}:")
            raise Failed("\n".join([*lines[-SHOWN:], f"build: {LOG.relative_to(TOP)} has all that rt said"]))

    def program(self):
        """Proves the program's own crate, and makes the program."""
        run = Run(["run", "--jobs", str(min(MOST, self.processors)), "--", "--version"], CRATES / NAME)
        try:
            while run.status() is None:
                time.sleep(EVERY)
                self.break_silence(lambda: f"at work: {NAME}{run.progress()}")
        finally:
            run.end()
        self.judge(NAME, run, run.status() == 0 and PROGRAM.is_file())
        self.done.append(NAME)
        self.say(f"{self.count()}  {NAME} built in {run.took()}: {PROGRAM.relative_to(TOP)}")


def place():
    """Where rooms are: outside of the tree, and on its disk where that can be, so that a file there may have two names."""
    for folder in (tempfile.gettempdir(), "/var/tmp", TOP.parent):
        if os.access(folder, os.W_OK) and os.stat(folder).st_dev == CRATES.stat().st_dev:
            return folder
    return None


def build():
    """Builds the program; 0, or 1 where a crate isn't proved."""
    LOG.parent.mkdir(exist_ok=True)
    rooms = tempfile.mkdtemp(prefix="build-", dir=place())
    try:
        with open(LOG, "w", encoding="utf-8", buffering=1) as log:
            made = Build(rooms, log)
            with locked(made.crates):
                made.say(f"{len(made.crates)} crates to prove; {made.processors} processors work at it")
                made.libraries()
            made.program()
    except Failed as why:
        print(f"{why}; the program isn't built", flush=True)
        return 1
    finally:
        # A disk may take seconds for so many folders; nobody has to wait for that, nor whoever reads what is printed here.
        quiet = {"stdin": subprocess.DEVNULL, "stdout": subprocess.DEVNULL, "stderr": subprocess.DEVNULL}
        subprocess.Popen(["rm", "-rf", rooms], start_new_session=True, **quiet)
    return 0


@contextlib.contextmanager
def interruptible(text):
    """Lets a signal end what is at work by an exception, and prints a text then; further ones are of no account."""

    def end(number, _):
        for other in before:
            signal.signal(other, signal.SIG_IGN)
        print(f"\n{text}", flush=True)
        sys.exit(128 + number)

    before = {number: signal.signal(number, end) for number in (signal.SIGINT, signal.SIGTERM, signal.SIGHUP)}
    try:
        yield
    finally:
        for number, handler in before.items():
            signal.signal(number, handler)


def build_unproved():
    """Makes the unproved program; 0, or 1 where the kit gives none."""
    started = time.monotonic()
    print(f"build: {UNPROVED.relative_to(TOP)} is made where it isn't there or its sources have changed; that takes {UNPROVED_MEASURED}", flush=True)
    try:
        is_new = unproved.kept(NAME, UNPROVED, is_marked=True)
    except unproved.NoProgram as why:
        print(f"{why}; no unproved program is to be had of this kit. Take a release, or tools/build, which proves all of it", flush=True)
        return 1
    how = f"made in {clock(time.monotonic() - started)}" if is_new else "made before of the same sources"
    print(f"build: {UNPROVED.relative_to(TOP)} {how}. Nothing of it is proved; tools/build proves and builds the program", flush=True)
    return 0


def by_kit(is_unproved=False):
    """Builds the program, or makes an unproved one, where the kit is at hand; the status of tools/build."""
    if shutil.which("rt") is None:
        print("build: the command rt of the Rattle kit isn't on the PATH", file=sys.stderr)
        return 2
    if is_unproved:
        with interruptible("build: interrupted; no unproved program is made"):
            return build_unproved()
    with interruptible("build: interrupted; the next one goes on from here"):
        return build()
