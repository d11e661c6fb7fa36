"""Tests of a league's file, its plan, its deals and its page."""
import contextlib
import hashlib
import hmac
import io
import re
import sys
from html.parser import HTMLParser

sys.dont_write_bytecode = True

import measuring
from dealer_runs import NOLIMIT_3P, NOLIMIT_6P
from league_runs import TOOL, WAIT, Bots, League, command, test
from serving import TOP, want

CALLS = "true {port}"


def planned(league):
    """Matches of the plan: their names, and who sits where."""
    league.does("plan")
    return [(words[0], words[len(words) // 2 + 1 :]) for words in (line.split(" ") for line in league.plan())]


@test
def seatings_of_two_three_and_six_players():
    two = planned(League({"b": CALLS, "a": CALLS}, meetings=2))
    want(two == [("a.b.1.0", ["a", "b"]), ("a.b.1.1", ["b", "a"]), ("a.b.2.0", ["a", "b"]), ("a.b.2.1", ["b", "a"])], f"two: {two}")
    three = planned(League(dict.fromkeys("abc", CALLS), game=NOLIMIT_3P))
    want({"".join(seats) for _, seats in three} == {"abc", "acb", "bac", "bca", "cab", "cba"} and len(three) == 6, f"three: {three}")
    want([name for name, _ in three] == [f"a.b.c.1.{number}" for number in range(6)], f"three: {three}")
    six = planned(League(dict.fromkeys("abcdef", CALLS), game=NOLIMIT_6P))
    first = "".join(six[0][1])
    want(sorted(first) == list("abcdef") and ["".join(seats) for _, seats in six] == [first[at:] + first[:at] for at in range(6)], f"six: {six}")
    want(len(planned(League(dict.fromkeys("abcdefg", CALLS), game=NOLIMIT_6P, meetings=3))) == 7 * 6 * 3, "seven players, six seats")
    single = planned(League(dict.fromkeys("ab", CALLS), duplicate=False, meetings=3))
    want(single == [("a.b.1.0", ["a", "b"]), ("a.b.2.1", ["b", "a"]), ("a.b.3.0", ["a", "b"])], f"without duplicates: {single}")


@test
def the_plan_only_grows():
    """Another order in the file changes nothing; a player or a meeting more adds lines behind those that are there."""
    league = League(dict.fromkeys("cab", CALLS))
    first = planned(league)
    league.players = {name: league.players[name] for name in "abc"}
    league.write()
    want(planned(league) == first, "another order in the file changed the plan")
    league.add("Aaron", CALLS)
    second = planned(league)
    want(second[:6] == first and len(second) == 12, f"a player more: {second}")
    league.entries["meetings"] = 2
    league.write()
    third = planned(league)
    want(third[:12] == second and len(third) == 24 and len(set(map(str, third))) == 24, f"a meeting more: {third}")
    (league.kept / "plan").write_text((league.kept / "plan").read_text()[:-7])
    want(planned(league) == third, "a torn line isn't mended")
    del league.players["Aaron"]
    league.write()
    said = league.does("plan", status=2)[1]
    text = "the plan has matches of Aaron, whom the file doesn't name; who leaves the league stays in it, with withdrawn = true"
    want(text in said, f"it says {said}")


@test
def what_is_fixed_can_not_change():
    league = League(dict.fromkeys("ab", CALLS))
    league.does("plan")
    for key, value in (("hands", 11), ("duplicate", False), ("name", "m"), ("game", str(TOP / "examples/l2.game"))):
        before, league.entries[key] = league.entries.get(key), value
        league.write()
        said = league.does("plan", status=2)[1]
        want(f"l.toml: {key} was another one when the league began" in said, f"{key}: it says {said}")
        league.entries[key] = before
        if before is None:
            del league.entries[key]
    league.write()
    league.does("plan")
    secret = league.kept / "secret"
    kept = secret.read_bytes()
    secret.unlink()
    want("secret was another one when" in league.does("run", status=2)[1] and not secret.exists(), "a lost secret is drawn again")
    secret.write_bytes(kept)
    league.does("plan")


@test
def wrong_files_are_refused_in_plain_sentences():
    for key, value, text in (
        ("nodes", 7, "nodes is 0, 3 or 5, not 7"),
        ("nodes", "0", "nodes is 0, 3 or 5, not '0'"),
        ("hands", 0, "hands is a number from 1 to 10000, not 0"),
        ("hands", True, "hands is a number from 1 to 10000, not True"),
        ("duplicate", 1, "duplicate is true or false, not 1"),
        ("name", "two words", "the name of the league is 1 to 32 letters, digits, _ and -, not 'two words'"),
        ("restart", 3, "no key is called 'restart'; there are "),
        ("game", "none.game", "none.game can't be read: No such file or directory"),
        ("game", "l.toml", "isn't a game file"),
        ("folder", 7, "folder is a path, not 7"),
        ("folder", ".", "folder is one that the league has to itself, and not one in which its file lies"),
    ):
        league = League(dict.fromkeys("ab", CALLS))
        league.entries[key] = value
        league.write()
        said = league.does("plan", status=2)[1]
        want(said.startswith("league: ") and text in said and said.count("\n") == 1, f"{key} = {value!r}: {said}")
        want(not league.kept.exists(), f"{key} = {value!r} made a folder")
    for player, text in (
        ({"name": "c.d"}, "the name of a player is 1 to 32 letters, digits, _ and -, not 'c.d'"),
        ({"name": "a"}, "two players are called a"),
        ({"command": "x 'y"}, "the command of c can't be split into words: No closing quotation"),
        ({"command": "x"}, "the command of c has no {port}, so nobody would come to it"),
        ({"folder": "none"}, "the folder of c, "),
        ({"folder": 7}, "folder is a path, not 7"),
        ({"at_once": 0}, "at_once of c is a number from 1 on, not 0"),
        ({"port": 1}, "no key is called 'port' in the table of c; there are against, at, at_once, command, folder, keep, name, withdrawn"),
    ):
        league = League(dict.fromkeys("abc", CALLS))
        league.players["c"].update(player)
        league.write()
        said = league.does("plan", status=2)[1]
        want(text in said and said.count("\n") == 1, f"{player}: {said}")
    del league.players["c"]["command"]
    league.write()
    want("command is missing in the table of c" in league.does("plan", status=2)[1], "a player without a command")
    league.write("name = ")
    want("l.toml isn't a TOML file" in league.does("plan", status=2)[1], "text that isn't TOML")
    league.file.unlink()
    want("can't be read: No such file or directory" in league.does("plan", status=2)[1], "no file")
    want("names 1" in League({"a": CALLS}).does("plan", status=2)[1], "one player")
    want("the plan has 2 matches, and none of number 3" in League(dict.fromkeys("ab", CALLS)).does("match", "3", status=2)[1], "match 3")
    League(dict.fromkeys("ab", CALLS)).does("match", "0", status=2)
    League(dict.fromkeys("ab", CALLS)).does("walk", status=2)


@test
def an_older_python_is_told_what_is_needed():
    text = f"import sys, runpy; sys.version_info = (3, 10, 9); runpy.run_path({str(TOOL)!r}, run_name='__main__')"
    ran = measuring.run([sys.executable, "-c", text], capture_output=True, text=True, timeout=WAIT)
    want(ran.returncode == 2 and ran.stderr.startswith("league: needs Python 3.11 or later"), f"{ran.returncode}: {ran.stderr}")


@test
def a_meeting_has_one_seed_that_nothing_tells():
    """The seed is the first 63 bits of HMAC-SHA256 of the secret over the sorted names and the meeting, here by Python's
    other interface; another program's value for a known secret is beside it. Same cards in both seatings, others in
    the next meeting; no command and no file tells a seed before `page --reveal`."""
    sys.path.insert(0, str(TOP / "tools"))
    from league_parts.deals import seed

    # printf 'alice|bob|1' | openssl dgst -sha256 -mac HMAC -macopt hexkey:000102..1f: 16 digits, and half of them
    want(seed(bytes(range(32)), ("bob", "alice"), 1) == 0x80988ba349e19d18 >> 1, "another seed than openssl's")
    league = League({"a": Bots.command(1), "b": Bots.command(2)}, hands=3, meetings=2)
    printed = "".join(map("".join, (league.does("plan"), league.does("try"), league.does("run"), league.does("match", "1"), league.does("page"))))
    printed += league.table() + league.table("--csv") + league.table("--json")
    secret = league.kept / "secret"
    want(len(secret.read_bytes()) == 32 and secret.stat().st_mode & 0o777 == 0o600, "another secret")
    want(league.kept.stat().st_mode & 0o777 == 0o700, "others may enter the league's folder")
    seeds = []
    for meeting in (1, 2):
        code = hmac.new(secret.read_bytes(), f"a|b|{meeting}".encode(), hashlib.sha256).hexdigest()
        seeds.append(str(int(code[:16], 16) >> 1))
    kept = printed + "".join(path.read_text() for path in league.kept.rglob("*") if path.is_file() and path != secret)
    want(not any(it in kept for it in seeds), "a seed is told")
    cards = {name: [line.split(":")[3].split("/")[0] for line in league.is_right(name).splitlines()[1:-1]] for name in league.logs()}
    want(cards["a.b.1.0"] == cards["a.b.1.1"] != cards["a.b.2.0"] == cards["a.b.2.1"], f"the cards are {cards}")
    league.does("page", "--reveal")
    page = (league.kept / "page.html").read_text()
    want(all(page.count(f"<code>{it}</code>") == 2 for it in seeds), "the revealed page lacks a seed")


class Links(HTMLParser):
    """What a page leads to, and what it loads."""

    def __init__(self, text):
        super().__init__()
        self.to, self.loaded, self.ids = [], [], set()
        self.feed(text)

    def handle_starttag(self, tag, attributes):
        found = dict(attributes)
        self.to += [found["href"]] if tag == "a" else []
        self.loaded += [found[key] for key in ("src", "href", "srcset") if key in found and tag != "a"]
        self.ids.add(found.get("id"))


@test
def the_page_leads_to_what_is_there():
    """A page of three players, one of whom is mended, with one match unfinished: its meeting's hands aren't shown, nor its
    seed."""
    league = League({"a": command("calls"), "b": command("wrong"), "c": command("calls")}, hands=3)
    for number in (1, 2, 3, 4, 5):
        league.does("match", str(number))
    path = league.does("page", "--reveal")[0].strip()
    want(path.splitlines()[0] == str(league.kept / "page.html") and "don't upload it" in path, f"it printed {path}")
    text = (league.kept / "page.html").read_text()
    links = Links(text)
    want(not links.loaded and "://" not in text and "url(" not in text, f"the page loads {links.loaded}")
    for link in links.to:
        file, _, place = link.partition("#")
        want((league.kept / file).is_file() if file else place in links.ids, f"nothing is at {link}")
    want({it for it in links.to if it.endswith(".log")} == {f"matches/{it}/{it}.log" for it in league.logs()}, "not each log is there")
    if (TOP / "tools/replay").exists():
        hands = [it for it in links.to if it.startswith("revealed/")]
        want(hands == [f"revealed/{pair}.html#{place}/0" for pair in ("a.b", "a.c") for place in (1, 2)], f"hands are at {hands}")
    want(text.count("not yet") == 1 and "1 group with an unfinished match does" in text, "the unfinished meeting is revealed, or isn't told")
    want(text.count(">notes</a>") == 3 and "A log has all cards" in text, "notes without a word are linked, or nobody is warned of logs")
    found = re.findall(r'notes">([\w.]+)</a></th><td class="left">(\w)</td><td>0</td><td>0</td><td>(\d)</td><td>0</td>', text)
    want(sorted(found) == [("a.b.1.0", "b", "1"), ("a.b.1.1", "b", "1"), ("b.c.1.0", "b", "1")], f"incidents are {found}")


@test
def the_making_of_pages_is_told():
    """Three pages of hands of half a second each, one at a time: with something told each tenth of a second, the first line comes
    before any page is made, and the later ones say how long the rest takes. A page that can't be made is named, and has no link.
    Nothing is told where all pages are there. A page with fewer matches than there are now is made anew."""
    sys.path.insert(0, str(TOP / "tools"))
    from league_parts import groups, league_file, plan, progress, replays
    from league_parts.standings import Standings

    league = League(dict.fromkeys("abc", CALLS), hands=1, meetings=2, duplicate=False)
    league.invent({"a.b.1.0": [1], "a.c.1.0": [1], "b.c.1.0": [1], "b.c.2.1": [1]})
    maker, refusal = league.folder / "maker", "if 'a.c' in sys.argv[-1]: sys.exit('no room')\n"
    maker.write_text(f"import sys, time\ntime.sleep(0.5)\n{refusal}open(sys.argv[-1], 'w')\n")
    read = league_file.read(league.file)
    planned = plan.planned(read)

    def made(most=None):
        standings = Standings(read, planned, groups.played(read, planned))
        return told(lambda: replays.make_replays(standings, read.folder / "replays", False, most))

    with replaced(replays, REPLAY=maker, lanes=lambda: 1), replaced(progress, ON_TERMINAL=0.1, ELSEWHERE=0.1):
        addresses, said = made()
        want(addresses == {"a.b.1.0": "replays/a.b.html", "b.c.1.0": "replays/b.c.html#1/0", "b.c.2.1": "replays/b.c.html#2/0"}, f"{addresses}")
        want(said[0] == "league: made 0 of 3 pages of hands" and "league: no page of hands a.c.html: no room" in said, f"it says {said}")
        want(re.fullmatch(r"league: made 2 of 3 pages of hands, about \d+ s left", said[-1]), f"it says {said}")
        maker.write_text(maker.read_text().replace(refusal, ""))
        want(len(made()[0]) == 4 and not made()[1], "a page that is there is made again, or one isn't made")
        want("made 0 of 1" in made(1)[1][0] and "b.c.1.0" not in made(1)[0], "of two meetings more than the newest one is shown")
        league.invent({"a.b.2.1": [1]})
        want(set(made()[0]) >= {"a.b.1.0", "a.b.2.1"} and not made()[1], "a page isn't made anew for a new match")


@contextlib.contextmanager
def replaced(module, **values):
    """Other values of a module's names for a while."""
    kept = {name: getattr(module, name) for name in values}
    vars(module).update(values)
    try:
        yield
    finally:
        vars(module).update(kept)


def told(work):
    """What some work comes to, and the lines that it said of errors and of how far it is. Other tests say nothing there."""
    with contextlib.redirect_stderr(io.StringIO()) as said:
        value = work()
    return value, said.getvalue().splitlines()
