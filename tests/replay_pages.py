"""What tools/replay writes and refuses, looked at without a browser."""
import base64
import hashlib
import html.parser
import json
import re
import shutil
import subprocess
import sys

import measuring
from replay_match import GAME, LOG, shown_lines
from serving import TOP, want

sys.path.insert(0, str(TOP / "tools"))
import release_files

TOOL = TOP / "tools/replay"
WRONG_HEADER = "# name/game/hands twelve </script><script>document.title=1</script><!-- 12"


class Page(html.parser.HTMLParser):
    """A page's elements, and the texts of its scripts and styles."""

    def __init__(self, text):
        super().__init__()
        self.tags, self.texts, self.is_inside = [], [], False
        self.feed(text)
        self.close()

    def handle_starttag(self, tag, attributes):
        self.tags.append((tag, dict(attributes)))
        self.is_inside = tag in ("script", "style")
        self.texts += [""] if self.is_inside else []

    def handle_endtag(self, tag):
        self.is_inside = False

    def handle_data(self, data):
        if self.is_inside:
            self.texts[-1] += data

    def data(self):
        return json.loads(self.texts[1])


def run(words, tool=TOOL, folder=TOP):
    """Runs the tool: its status, what it printed, and what it said on standard error."""
    ran = measuring.run([tool, *words], cwd=folder, stdout=subprocess.PIPE, stderr=subprocess.PIPE)
    return ran.returncode, ran.stdout.decode(), ran.stderr.decode()


def written(folder, name, lines):
    (folder / name).write_text("".join(line + "\n" for line in lines))
    return folder / name


def page_of(*words):
    """The page that is printed for the words."""
    status, page, said = run([GAME, *words])
    want(status == 0, f"{words}: status {status}, {said}")
    return Page(page)


def lines_of(page):
    return [match["lines"] for match in page.data()["matches"]]


def hides(folder):
    """A page has the cards that it shows, and no others."""
    log = written(folder, "twelve.log", LOG)
    for words, lines in (([], shown_lines()), (["--seat", "bob"], shown_lines("bob")), (["--all"], LOG)):
        page = page_of(log, *words)
        want(lines_of(page) == [lines], f"the page of {words} has {lines_of(page)}")
        left = "".join(page.texts[:1] + page.texts[2:])
        want("AsAd" not in left and "KsKd" not in left, f"the page of {words} has cards beside its lines")


def asks_for_nothing(folder):
    """A page has one style and one script of its own, whose hashes its policy names, and no address but those within it."""
    page = page_of(written(folder, "wrong.log", [WRONG_HEADER, *LOG[1:]]))
    want(lines_of(page) == [[WRONG_HEADER, *shown_lines()[1:]]], f"the page has {lines_of(page)[0][:1]}")
    kinds = [(tag, attributes) for tag, attributes in page.tags if tag in ("script", "style")]
    want(kinds == [("style", {}), ("script", {"type": "application/json", "id": "data"}), ("script", {})], f"{kinds}")
    digest = lambda text: base64.b64encode(hashlib.sha256(text.encode()).digest()).decode()
    style, _, script = map(digest, page.texts)
    policy = f"default-src 'none'; script-src 'sha256-{script}'; style-src 'sha256-{style}'; base-uri 'none'; form-action 'none'"
    metas = [attributes.get("content") for tag, attributes in page.tags if attributes.get("http-equiv") == "Content-Security-Policy"]
    want(metas == [policy], f"the policy is {metas}, not {policy}")
    places = [(tag, attributes[name]) for tag, attributes in page.tags for name in ("src", "href", "action", "style") if name in attributes]
    want(all(tag in ("a", "use") and place.startswith("#") for tag, place in places), f"{places}")
    want(not re.search(r"https?://(?!www\.w3\.org/2000/svg)", "".join(page.texts)), "the page names an address")


def refused(folder):
    """What makes no page, and what is said of it."""
    log, page = written(folder, "twelve.log", LOG), folder / "none.html"
    lines = lambda name, some: written(folder, name, some)
    unpaid = lines("unpaid.log", [*LOG[:4], LOG[4].replace("1150|-150", "1000|0"), *LOG[5:]])
    (folder / "cut.log").write_text("\n".join(LOG))
    rows = [
        # words, status, what is said
        ([GAME, unpaid], 1, f"{unpaid}: line 5 is refused, 48 WrongValues: STATE:3:r1000cc"),
        ([GAME, log, unpaid], 1, f"{unpaid}: line 5 is refused, 48 WrongValues: STATE:3:"),
        ([GAME, folder / "cut.log"], 1, "line 14 is refused, 49 WrongScore: SCORE:275"),
        ([GAME, lines("long.log", [*LOG, "more"])], 1, "line 15 is refused, 49 WrongScore: more"),
        ([GAME, lines("gap.log", [*LOG[:5], *LOG[6:]])], 1, "line 6 is refused, 47 WrongNumber: STATE:5"),
        ([GAME, lines("empty.log", [])], 1, "no hand is in the logs"),
        ([GAME, lines("header.log", LOG[:1])], 1, "no hand is in the logs"),
        (["examples/n2.game", log], 1, "line 2 is refused, 46 BadState: STATE:0"),
        ([log, log], 2, "10 NoGamedef"),
        ([GAME, folder / "nowhere.log"], 2, "nowhere.log can't be read"),
        ([folder / "nowhere.game", log], 2, "nowhere.game can't be read"),
        ([GAME, log, "--seat", "nobody"], 2, "nobody is called nobody; the players are alice, bob, carol"),
        ([GAME, log, "--seat", "bob", "--all"], 2, "not allowed with"),
        ([GAME], 2, "LOG"),
        ([GAME, log, "--follow"], 2, "--follow"),
    ]
    for words, status, text in rows:
        got = run([*words, "-o", page])
        want(got[0] == status and text in got[2] and got[1] == "", f"{words}: {got}, not {status} and {text!r}")
        want(not page.exists(), f"{words} makes a page")
    got = run([GAME, log, "-o", log])
    want(got[0] == 2 and "take the place of" in got[2] and log.read_text().startswith(LOG[0]), f"{got}")
    got = run([GAME, log, "-o", folder / "nowhere/page.html"])
    want(got[0] == 2 and "can't be written" in got[2], f"{got}")


def several(folder):
    """Logs of one match, of several, and of one that is being played."""
    log, part = written(folder, "twelve.log", LOG), written(folder, "part.log", LOG[:6])
    other = written(folder, "other.log", [LOG[0].replace("twelve", "other"), *LOG[1:]])
    want(lines_of(page_of(part, "--all")) == [LOG[:6]], "the page of a match that is being played")
    want(lines_of(page_of(part, log, log, "--all")) == [LOG], "the page of two logs of one match")
    want(lines_of(page_of(log, other, part, "--all")) == [LOG, lines_of(page_of(other, "--all"))[0]], "the page of two matches")
    said = run([GAME, part, log])[2]
    want(f"{part} is the beginning of {log}, and is left out" in said, f"{said!r}")


def written_page(folder):
    """A page in a file is the one that is printed, and takes the place of an older one; --help has the loop."""
    log, page = written(folder, "twelve.log", LOG), folder / "page.html"
    page.write_text("older")
    status, printed, said = run([GAME, log, "-o", page])
    want((status, printed, said) == (0, "", ""), f"{status}, {printed!r}, {said!r}")
    want(page.read_text(encoding="utf-8") == run([GAME, log])[1], "the page in the file isn't the one that is printed")
    want(not list(folder.glob("*.part")), "a part is left")
    status, printed, _ = run(["--help"])
    want(status == 0 and "while sleep 60; do tools/replay" in printed, printed)


def in_a_release(folder):
    """With the files of a release alone the tool makes the same page, from any folder."""
    away = folder / "release"
    for file in release_files.files():
        place = away / file.relative_to(TOP)
        place.parent.mkdir(parents=True, exist_ok=True)
        shutil.copy(file, place)
    log = written(folder, "twelve.log", LOG)
    there = run([TOP / GAME, log], away / "tools/replay", folder)
    want(there == run([TOP / GAME, log]), f"status {there[0]}, {there[2]}")


def pages(folder):
    """The tests of pages, by their names."""
    for test in (hides, asks_for_nothing, refused, several, written_page, in_a_release):
        yield f"pages: {test.__name__}", lambda test=test: test(folder)
