"""What ./check knows of time: the processor minutes that each crate took, and how long the gate takes by them."""
import functools
import os
import threading
from pathlib import Path

import repository

# How often the processor time of the running checks is looked at, in seconds.
EVERY = 0.5
# What the folders are called in which mutants are tried: those of `rt ci`, and those of tools/wrong_bodies.
OF_MUTANTS = ("rt-edit-", "wrong_bodies-")


def stat_of(process):
    """The parent of a process, and the processor ticks that it and its ended children took."""
    fields = Path(f"/proc/{process}/stat").read_text().rpartition(")")[2].split()
    return int(fields[1]), sum(map(int, fields[11:15]))


def task_of(process):
    """The crate that a process checks, and whether for its proofs or for a mutant; none of any other process."""
    words = Path(f"/proc/{process}/cmdline").read_bytes().decode(errors="replace").split("\0")
    if "--crate-name" not in words:
        return None
    is_edit = any(name in os.readlink(f"/proc/{process}/cwd") for name in OF_MUTANTS)
    return words[words.index("--crate-name") + 1], "edits" if is_edit else "proofs"


class Times(threading.Thread):
    """Adds up, crate by crate, the processor time of the checks that run below a process, as Linux's /proc tells it."""

    def __init__(self, root):
        super().__init__(daemon=True)
        self.root, self.ended, self.ticks, self.tasks = root, threading.Event(), {}, {}

    def run(self):
        while Path("/proc/self/stat").is_file() and not self.ended.wait(EVERY):
            self.look()

    def look(self):
        stats = {}
        for process in filter(str.isdigit, os.listdir("/proc")):
            try:
                stats[int(process)] = stat_of(process)
            except (OSError, ValueError, IndexError):
                continue
        for process, (_, ticks) in stats.items():
            owner = self.owner(process, stats)
            if owner is not None:
                self.ticks[owner, process] = max(ticks, self.ticks.get((owner, process), 0))

    def owner(self, process, stats):
        """The check that a process belongs to: the topmost one of it and the processes above it; none of any other."""
        found, at = None, process
        while at in stats and at != self.root:
            if at not in self.tasks:
                self.read_task(at)
            found = at if at in self.tasks else found
            at = stats[at][0]
        return found if at == self.root else None

    def read_task(self, process):
        try:
            task = task_of(process)
        except OSError:
            task = None
        if task:
            self.tasks[process] = task

    def minutes(self):
        """Processor minutes by crate and kind. What an ended child took stands in its check's own ticks."""
        self.ended.set()
        whole = {}
        for (owner, process), ticks in self.ticks.items():
            if owner == process:
                crate, kind = self.tasks[owner]
                row = whole.setdefault(crate, {"proofs": 0.0, "edits": 0.0})
                row[kind] += ticks / os.sysconf("SC_CLK_TCK") / 60
        return whole


def table(minutes, wall, done):
    """The crates' processor minutes as lines of a table, and how much was done in that time."""
    lines = ["| crate | " + " | ".join(repository.KINDS) + " |", "|---|---|---|"]
    for crate in [name for name in repository.crates() if name in minutes]:
        lines.append(f"| `{crate}` | {minutes[crate]['proofs']:.1f} | {minutes[crate]['edits']:.1f} |")
    both = [sum(row[kind] for row in minutes.values()) for kind in ("proofs", "edits")]
    lines.append(f"| together | {both[0]:.1f} | {both[1]:.1f} |")
    return lines + ["", f"Processor minutes; proofs and mutants took {wall / 60:.0f} minutes on {os.cpu_count()} processors: {done or 'it failed'}."]


def processor_minutes(figures):
    """What each crate takes, its proofs and its mutants: one without a figure counts as the mean of the others."""
    names, columns = [*repository.crates()], []
    with_edits = [name for name in names if repository.of_check(name)[0]]
    for kind, some in zip(repository.KINDS, (names, with_edits)):
        known = [figures[name][kind] for name in some if kind in figures.get(name, {})]
        mean = sum(known) / max(len(known), 1)
        columns.append({name: figures.get(name, {}).get(kind, mean) for name in some})
    return columns


def reckoned(figures, lanes):
    """Minutes on so many free processors: a share of all that is to do, but no less than the longest chain of proofs."""
    (proofs, edits), below = processor_minutes(figures), repository.crates()

    @functools.lru_cache(maxsize=None)
    def chain(name):
        return proofs[name] + max(map(chain, below[name]), default=0)

    return max((sum(proofs.values()) + sum(edits.values())) / lanes, *map(chain, below))


def gaps(figures):
    """Says which kind of minutes no crate has a figure for: what is reckoned is without it."""
    lacking = [kind.split()[-1] for kind in repository.KINDS if not any(kind in row for row in figures.values())]
    return f" (without {' and '.join(lacking)}: no minutes of them are known)" if lacking else ""
