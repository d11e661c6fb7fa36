"""The files of a release."""
from pathlib import Path

TOP = Path(__file__).resolve().parent.parent
PROGRAM = "crates/holdem_table/out/holdem_table"
# What goes into the archive beside the program. The tools are those that need neither the kit nor the crates.
PARTS = [
    "README.md", "CONTRIBUTING.md", "bench/RESULTS.md", "docs", "out/docs", "examples", "tools/course", "tools/dealer", "tools/doctor", "tools/doctor_parts", "tools/frames", "tools/hand_formats",
    "tools/hands", "tools/league", "tools/league_parts", "tools/log_script.py", "tools/match_engine", "tools/new-match", "tools/newer_python.py", "tools/new_match_parts", "tools/replay", "tools/replay_page",
    "tools/room", "tools/room_parts", "tools/script", "tools/shown_logs.py", "tools/status", "tools/status_table.py", "tools/watch", "tools/watch_parts", "tools/which_program.py",
]


def files():
    """All files of the archive, by their places in this tree."""
    yield TOP / PROGRAM
    yield from [TOP / "crates/README.md", *sorted(TOP.glob("crates/*/README.md"))]
    for part in (TOP / part for part in PARTS):
        found = sorted(part.rglob("*")) if part.is_dir() else [part]
        yield from (file for file in found if file.is_file() and "__pycache__" not in file.parts)
