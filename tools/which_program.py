"""Which program the tools for users run: the one that --program names, else the one that HOLDEM_TABLE names, else the proved one."""
import os
import sys
from pathlib import Path

TOP = Path(__file__).resolve().parent.parent
PROVED = TOP / "crates/holdem_table/out/holdem_table"
UNPROVED = TOP / "out/unproved/holdem_table"
OPTION, VARIABLE = "--program", "HOLDEM_TABLE"
# Where the user was told of the program already, by the tool that started this one.
TOLD = "HOLDEM_TABLE_TOLD"
# What an unproved program ends with, so that it is known wherever it is copied to.
MARK = b"\nholdem_table: nothing of this program is proved\n"


class NoProgram(Exception):
    """Why there is no program to run."""


def is_unproved(program):
    """Whether a program says of itself that nothing of it is proved. One that can't be read says nothing."""
    try:
        with open(program, "rb") as file:
            file.seek(0, os.SEEK_END)
            file.seek(max(0, file.tell() - len(MARK)))
            return file.read() == MARK
    except OSError:
        return False


def can_run(program):
    """Whether it is a file that may be executed."""
    return program.is_file() and os.access(program, os.X_OK)


def advice(named):
    """What to do about a path, as it was typed, at which there is no program that can be run."""
    program = Path(os.path.abspath(named))
    if program == UNPROVED:
        return "tools/build --unproved makes it"
    if can_run(TOP / named):
        return f"{TOP / named} can; a path begins at the folder in which you type"
    if not program.exists():
        return "nothing is there"
    return "it is a folder" if program.is_dir() else f"if it is one, chmod +x {program}"


def chosen(option=None):
    """The program to run, by its whole path, given what the command line names, if it does. What is started from here runs the same one."""
    named = option or os.environ.get(VARIABLE)
    if not named:
        if not PROVED.is_file():
            raise NoProgram(
                f"{PROVED} isn't there: tools/build proves and builds it. Or run tools/build --unproved, which takes two minutes, "
                f"and then this command with {VARIABLE}={UNPROVED} before it"
            )
        return PROVED
    program = Path(os.path.abspath(named))
    if not can_run(program):
        raise NoProgram(f"{program}, which {OPTION if option else VARIABLE} names, isn't a program that can be run: {advice(named)}")
    os.environ[VARIABLE] = str(program)
    return program


def tell(tool, program):
    """Tells on standard error, once, that a program is unproved, if it is: not again by what is started from here."""
    if is_unproved(program) and os.environ.get(TOLD) != str(program):
        os.environ[TOLD] = str(program)
        print(f"{tool}: {program} is unproved: nothing shows that it keeps its contracts", file=sys.stderr, flush=True)


def split(words):
    """What --program names on a command line, if it does, and the other words."""
    rest, option = [*words], None
    for place, word in enumerate(rest):
        if word == OPTION and place + 1 < len(rest):
            option = rest[place + 1]
            del rest[place : place + 2]
            break
        if word.startswith(f"{OPTION}="):
            option = word.partition("=")[2]
            del rest[place]
            break
    return option, rest
