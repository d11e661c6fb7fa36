"""Tries the mutants of the gate, crates side by side, right behind a passed `rt ci`: `tools/wrong_bodies --help` says how.

The libraries that `rt ci` leaves in crates/*/out/rlib have no stamp, so `rt check` would build all below a crate again. So
the prover of the kit is called as `rt` itself calls it, over these libraries: a check costs what the functions cost that
it looks at, and what reading the crate costs.
"""
import re
import shutil
import subprocess
import tempfile
import threading
from concurrent.futures import ThreadPoolExecutor
from pathlib import Path

import repository
import running
import together

# How long a check may take, in seconds.
LONGEST = 30 * 60
# The status of a check that was killed, for memory most likely.
KILLED = -9
# What a check says, with status 2, of a name that several functions have.
SEVERAL = re.compile(r"several functions are named `(\S+?)`: help: write one of (.*)")
PARTS = ("src", "specs", "proofs")


def kit():
    """The folder of the Rattle kit: `rt doc` prints the path of a page in it."""
    ran = subprocess.run(["rt", "doc"], stdin=subprocess.DEVNULL, stdout=subprocess.PIPE, text=True)
    return Path(ran.stdout.strip()).parent


def why_no_library(name):
    """Why a crate's library isn't one that `rt ci` left of today's files, none if it is."""
    found = repository.library(name)
    if not found.is_dir():
        return f"no library of {name} is built: run rt ci before"
    if (found.parent / "stamp").is_file():
        return f"the library of {name} is of rt check: remove crates/*/out/rlib and run rt ci before"
    made, files = found.stat().st_mtime, [file for part in PARTS for file in (repository.TOP / "crates" / name / part).rglob("*")]
    newer = [file for file in files if file.stat().st_mtime > made]
    return f"the library of {name} is older than {newer[0].relative_to(repository.TOP)}: run rt ci before" if newer else None


def below(name, crates):
    """The crates that a crate rests on."""
    found, left = set(), [name]
    while left:
        new = {*crates[left.pop()]} - found
        found |= new
        left += new
    return [it for it in crates if it in found]


def words(name, kit_folder, crates):
    """The words of a check of a crate, as `rt` has them: what it names, where what that names is, the logic, one job."""
    is_program = (repository.TOP / "crates" / name / "src/main.rt").is_file()
    found = [str(kit_folder / "bin/rattle"), "check", "--crate-name", name, "src/main.rt" if is_program else "src/lib.rt"]
    for it in ["std", *repository.of_kit(name)]:
        found += ["--extern", f"{it}={kit_folder / 'rlibs' / it}.rlib"]
    found += ["-L", f"dependency={kit_folder / 'rlibs'}"]
    for it in crates[name]:
        found += ["--extern", f"{it}={repository.library(it)}"]
    for it in below(name, crates):
        found += ["-L", f"dependency={repository.library(it).parent}"]
    found += ["--antt-project", str(kit_folder / "rattle/logic/antt-project.json"), "--logic-built", str(kit_folder / "logic_built")]
    return [*found, "--jobs", "1", "--links", f"{name}="]


class Crate:
    """The mutants of a crate that the gate tries, and what each came to."""

    def __init__(self, name, kit_folder, crates):
        self.name, self.folder, self.words = name, repository.TOP / "crates" / name, words(name, kit_folder, crates)
        self.edits, self.verdicts, self.controls, self.seconds = repository.of_gate(name), {}, {}, 0.0
        self.lacking = next(filter(None, map(why_no_library, below(name, crates))), None)
        # The whole names of functions whose name's end others have too, and how many tasks are left.
        self.whole, self.left, self.one = {}, 0, threading.Lock()

    def tasks(self):
        """What is to be done, as lists of groups that are tried in turn: one of those that are tried alone, over what their
        checks keep, and one for each group of bodies. Those that can't be tried have their verdicts."""
        fitting = []
        for edit in self.edits:
            why = repository.stale(edit)
            if why or self.lacking:
                self.verdicts[edit.stem] = f"stale: {why}" if why else f"not tried: {self.lacking}"
            else:
                fitting.append(together.Mutant(edit, self.folder))
        self.choice = together.Controls(self.folder) if fitting else None
        whole = [[it] for it in fitting if not it.functions]
        found = ([whole] if whole else []) + [[group] for group in together.groups([it for it in fitting if it.functions])]
        self.left = len(found)
        return found

    def work(self, groups):
        """Tries groups in turn, and those that come of them; whether this was the crate's last task."""
        with tempfile.TemporaryDirectory(prefix="wrong_bodies-") as room:
            copy = Path(room) / self.name
            for part in PARTS:
                if (self.folder / part).is_dir():
                    shutil.copytree(self.folder / part, copy / part)
            groups = list(groups)
            while groups:
                groups[:1] = self.tried(groups[0], copy)
        with self.one:
            self.left -= 1
            return self.left == 0

    def tried(self, group, copy):
        """Tries a group; the groups in which those are to be tried that nothing is known of then."""
        control = self.choice.of(group) if group[0].functions else None
        if group[0].functions and control is None:
            return self.told(group, "not tried: no other function of the crate has a contract, for a control")
        before = together.apply(group, copy)
        try:
            ran = self.checked(group, control, copy)
        finally:
            for path, text in before.items():
                (copy / path).write_text(text, encoding="utf-8")
        came_to = together.come_to(group, ran.said, ran.status)
        if ran.status == 1 and not together.unread(ran.said):
            named = control.asked_for() if control else "any function"
            if not together.is_proved(ran.said, control):
                return self.told(group, f"not tried: the same check doesn't prove its control, {named}")
            self.controls[named] = self.controls.get(named, 0) + 1
        for mutant, verdict in came_to.items():
            self.told([mutant], verdict)
        if len(group) == 1 and not came_to:
            said = "it ran out of time" if ran.status is None else f"status {ran.status}: " + "".join(ran.said.splitlines()[-1:])
            self.told(group, f"not tried: the check came to no verdict ({said})")
        return together.left_of(group, came_to, ran.said, ran.status)

    def checked(self, group, control, copy):
        """Checks the functions that a group changes, and the control; the whole crate where it changes more, over what such
        checks keep."""
        functions = [it for mutant in group for it in mutant.functions] + ([control] if control else [])
        while True:
            asked = {self.whole.get(it.key(), it.asked_for()): it for it in functions}
            only = [word for it in asked for word in ("--only", it)] or ["--incremental", str(copy.parent / "kept")]
            ran = running.run([*self.words, *only], copy, LONGEST)
            if ran.status == KILLED:
                ran = running.run([*self.words, *only], copy, LONGEST)
            with self.one:
                self.seconds += ran.seconds
            several = SEVERAL.search(ran.said) if ran.status == 2 else None
            function = asked.get(several[1]) if several else None
            whole = [it for it in together.GOAL.findall(several[2]) if function.is_named(it.split("::"))] if function else []
            if len(whole) != 1 or function.key() in self.whole:
                return ran
            self.whole[function.key()] = whole[0]

    def told(self, group, verdict):
        """Keeps a verdict; there is nothing left to try of this group."""
        for mutant in group:
            self.verdicts[mutant.edit.stem] = verdict
        return []

    def size(self):
        """How many lines of source the crate has, by which a check takes longer."""
        return sum(file.read_text(encoding="utf-8").count("\n") for file in (self.folder / "src").rglob("*.rt"))

    def counts(self):
        """How many mutants were refused, and how many not."""
        refused = len([it for it in self.verdicts.values() if it.startswith("refused")])
        return refused, len(self.verdicts) - refused

    def tell(self):
        """Says what the mutants came to, each that wasn't refused by itself."""
        for stem, verdict in sorted(self.verdicts.items()):
            if not verdict.startswith("refused"):
                print(f"{self.name}/{stem}: {verdict}")
        proved = ", ".join(f"{name}{f' ({count} times)' if count > 1 else ''}" for name, count in sorted(self.controls.items()))
        beside = f"; beside them it proves {proved}" if proved else ""
        print(f"{self.name}: {self.counts()[0]} of {len(self.verdicts)} refused in {self.seconds:.0f} s of a processor{beside}", flush=True)


def tried(names):
    """Tries the mutants of the gate of these crates, and says what each crate's came to; how many were refused, how many not."""
    crates, kit_folder, telling = repository.crates(), kit(), threading.Lock()
    if not (kit_folder / "bin/rattle").is_file():
        print("wrong_bodies: the kit has no bin/rattle beside the page that `rt doc` names, so nothing can be tried")
        return 0, 0
    found = [it for it in (Crate(name, kit_folder, crates) for name in names) if it.edits]
    tasks = [(crate, groups) for crate in found for groups in crate.tasks()]
    for crate in found:
        if not crate.left:
            crate.tell()
    # What takes longest comes first: tasks of several checks, and large crates.
    tasks.sort(key=lambda it: (-len(it[1]), -it[0].size()))

    def work(task):
        crate, groups = task
        if crate.work(groups):
            with telling:
                crate.tell()

    with ThreadPoolExecutor(repository.lanes()) as pool:
        for done in [pool.submit(work, task) for task in tasks]:
            done.result()
    passed, failed = zip(*[crate.counts() for crate in found]) if found else ((), ())
    return sum(passed), sum(failed)
