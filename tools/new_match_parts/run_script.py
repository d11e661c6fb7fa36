"""The script `run` of a match: the machines, and what each word does there."""
from pathlib import Path
from typing import NamedTuple

BODY = Path(__file__).resolve().parent / "run_body.sh"
HEAD = """\
#!/bin/sh
# The match {name}, made by tools/new-match{by}.
table={table} numbers="{numbers}"
machine() {{
    case $1 in
{machines}
    esac
}}
"""


class Machine(NamedTuple):
    """A machine's node: its number, whom ssh and scp call, its folder and its unit; and whether it is a process of this machine. None
    of the words has a letter that a shell takes for more than itself."""

    number: int
    ssh: str
    scp: str
    place: str
    unit: str
    is_here: bool

    def entry(self):
        is_here = "yes" if self.is_here else "no"
        return f"    {self.number}) target={self.ssh} scp={self.scp} place={self.place} unit={self.unit} is_here={is_here} ;;"


def text(name, table, by, machines):
    """The whole script."""
    numbers = " ".join(str(it.number) for it in machines)
    head = HEAD.format(name=name, table=table, by=by, numbers=numbers, machines="\n".join(it.entry() for it in machines))
    return head + BODY.read_text(encoding="utf-8")
