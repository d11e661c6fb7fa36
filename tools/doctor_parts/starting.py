"""What a start of the node would say, asked of the program itself: `holdem_table node MATCH I --look` changes nothing."""
import os
import subprocess
from pathlib import Path

from doctor_parts.notes import end_of

# So long it may take, in seconds: it reads the store and two logs.
MOST = 60
# Behind which note 108 says that a process has the store: behind another one the system gives no lock of it.
IN_USE = ": in use'"


def program():
    """The program: the one that HOLDEM_TABLE names, the one beside this tool, where `new-match` puts it, or the one that was built; none where there is none."""
    beside = Path(__file__).resolve().parent.parent
    named = os.environ.get("HOLDEM_TABLE")
    for path in [named] if named else [beside / "holdem_table", beside.parent / "crates/holdem_table/out/holdem_table"]:
        if os.access(path, os.X_OK) and Path(path).is_file():
            return os.path.abspath(path)
    return None


class Start:
    """How a start would end: by its last line, behind the note before it, or not by what files tell."""

    def __init__(self, program, match, number):
        words = [program, "node", match, str(number), "--look"]
        done = subprocess.run(words, stdin=subprocess.DEVNULL, stdout=subprocess.PIPE, stderr=subprocess.PIPE, timeout=MOST)
        lines = [line for line in done.stderr.decode("utf-8", "replace").split("\n") if line]
        self.end = end_of(lines)
        self.is_in_use = self.end is not None and self.end.startswith("108 ") and IN_USE in self.end
        # A program of an earlier version doesn't know the option, and says so.
        self.is_told = self.end is not None or done.returncode == 0
        self.last = lines[-1] if lines else f"it ended with status {done.returncode} without a word"
