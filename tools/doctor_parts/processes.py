"""Which process has a node's store, and whether it does anything."""
import re
import time
from pathlib import Path

# So long a process that runs may do nothing, in seconds: it wakes many times a second.
STILL = 2.0
# How often the system's table of locks is read before nobody counts as the process that has a lock.
READINGS = 5
# What the system calls the state of a process that does nothing, and why.
STATES = {"T": "it was stopped (state T)", "t": "it is stopped by a debugger (state t)", "D": "it waits for its disk (state D)"}


def holder(path):
    """The number of the process that has locked a file, as a node does with its store; none where no process has. No lock is
    taken for it. The system hands out its table of locks page by page, so one can be missing in a reading while others come
    and go: it is looked for several times."""
    try:
        for _ in range(READINGS):
            lines = [line.split() for line in Path("/proc/locks").read_text().splitlines()]
            found = [words[4] for words in lines if words[1] == "FLOCK" and words[5].endswith(f":{path.stat().st_ino}")]
            if found:
                return int(found[0])
    except (OSError, IndexError, ValueError):
        pass
    return None


def state(process):
    """The state of a process, by the system's letter, and how often it has gone to sleep and been put to sleep so far."""
    text = Path(f"/proc/{process}/status").read_text()
    return re.search(r"^State:\s+(\S)", text, re.M)[1], re.findall(r"ctxt_switches:\s+(\d+)", text)


def stands(process):
    """Why a process does nothing for some time; none where it goes on, or where this user can't see it."""
    try:
        first, until = state(process), time.monotonic() + STILL
        while time.monotonic() < until:
            time.sleep(0.05)
            letter, switches = state(process)
            if switches != first[1] and letter not in "Tt":
                return None
    except (OSError, TypeError):
        return None
    return STATES.get(letter, f"it does nothing (state {letter})")
