"""Writes a league's page with its pages of hands: in the league's own folder, or in one that may be uploaded."""
import shutil

import shown_logs

from .faults import Wrong
from .files import write_whole
from .page import Links, text_of
from .replays import make_replays
from .table import as_csv

# What a log begins with from which cards were taken out.
HIDDEN = "# hole cards that the table was not shown are left out here: this is no log for holdem_table check\n"
# What is in a folder that is published; what else lies there isn't touched.
PAGE, TABLE, LOGS, HANDS = "index.html", "table.csv", "logs", "hands"


def write(standings, is_revealed, most):
    """Writes the page, first without hands, and the pages of hands; the page's path."""
    path = standings.league.folder / "page.html"
    write_whole(path, text_of(standings, Links(standings.league, {}), is_revealed))
    hands = make_replays(standings, hands_folder(standings.league, is_revealed), is_revealed, most)
    write_whole(path, text_of(standings, Links(standings.league, hands), is_revealed))
    return path


def hands_folder(league, is_revealed):
    return league.folder / ("revealed" if is_revealed else "replays")


def write_public(standings, folder, is_revealed, most):
    """Writes all that may be published into a folder: of meetings that are finished, without notes, outputs of bots or secrets."""
    league = standings.league
    own, folder = league.folder.resolve(), folder.resolve()
    if folder == own or folder in own.parents or own in folder.parents:
        raise Wrong(f"--public {folder}: expected a folder beside the league's own, {own}, which has its secret")
    for place in (folder, folder / LOGS, folder / HANDS):
        place.mkdir(parents=True, exist_ok=True)
    shown = standings.of_whole_groups()
    made = hands_folder(league, is_revealed)
    hands = make_replays(shown, made, is_revealed, most)
    hands = {name: address.replace(f"{made.name}/", f"{HANDS}/", 1) for name, address in hands.items()}
    put_all(folder / HANDS, {path.name: path for path in made.iterdir() if is_of(path, hands)})
    put_logs(shown, folder / LOGS, is_revealed)
    write_whole(folder / TABLE, as_csv(standings))
    path = folder / PAGE
    write_whole(path, text_of(shown, Links(league, hands, is_public=True), is_revealed))
    return path


def is_of(path, hands):
    """Whether a file belongs to the pages of hands that are linked."""
    return path.name in ("replay.js", "replay.css") or any(address.startswith(f"{HANDS}/{path.name}") for address in hands.values())


def put_all(folder, files):
    """Copies files into a folder, and removes pages and logs there that aren't wanted any more."""
    for old in [*folder.glob("*.html"), *folder.glob("*.log")]:
        if old.name not in files:
            old.unlink()
    for name, path in files.items():
        shutil.copyfile(path, folder / name)


def put_logs(standings, folder, is_revealed):
    """Writes the logs of a league's matches, without hidden cards, unless all are revealed."""
    wanted = {path.name: path for path in (match.log(standings.league) for match in standings.matches)}
    if is_revealed:
        put_all(folder, wanted)
        return
    put_all(folder, {})
    game = shown_logs.Game(standings.league.game_path.read_text(encoding="latin-1"))
    for name, path in wanted.items():
        with open(path, encoding="ascii") as file:
            lines = [game.without_hidden(line[:-1], None) + "\n" if line.startswith("STATE:") else line for line in file]
        (folder / name).write_text(HIDDEN + "".join(lines))
