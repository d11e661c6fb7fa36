"""The controls of a page of tools/replay in a Chromium: each by the name that it has for a reader, and what it changes."""
import base64
import statistics
import time

import second_dealer as dealer
from replay_browser import Browser, Refused, program
from replay_luck import control as luck
from replay_match import CHIPS, FIGURES, GAME, LISTS, LOG
from replay_pages import WRONG_HEADER, run, written
from serving import Wrong, want

ORDERS = {"number": "number", "last": "number, last first", "lost": "lost most first", "won": "won most first", "pot": "largest pot first"}
KEYS = {"ArrowLeft": 37, "ArrowRight": 39, " ": 32, "Tab": 9, "Enter": 13}
SHIFT = 8
WIDTHS, THEMES = (360, 900, 1920), ("light", "dark")
LONGEST = 32
# The least contrast of text and its ground that WCAG 2 asks for at level AA.
CONTRAST = 4.5
# The contrast of each text with the ground below it, as [contrast, tag, class, text]; without pictures and what is faint on purpose.
CONTRASTS = """(() => {
  const parts = (color) => color.match(/[\\d.]+/g).map(Number);
  const light = (color) => [0.2126, 0.7152, 0.0722].reduce((sum, weight, at) => {
    const part = color[at] / 255;
    return sum + weight * (part <= 0.03928 ? part / 12.92 : ((part + 0.055) / 1.055) ** 2.4);
  }, 0);
  const ground = (one) => {
    const layers = [];
    for (let at = one; at; at = at.parentElement) layers.push(parts(getComputedStyle(at).backgroundColor));
    return layers.reverse().reduce((below, [r, g, b, a = 1]) => [r, g, b].map((part, at) => part * a + below[at] * (1 - a)), [255, 255, 255]);
  };
  const isFaint = (one) => one.closest(".card, .is-folded, :disabled, [aria-disabled=true], svg, noscript, .centre, .bet");
  return [...document.querySelectorAll("body *")].filter((one) => !isFaint(one) && one.offsetParent
    && [...one.childNodes].some((node) => node.nodeType === 3 && node.data.trim())).map((one) => {
    const [text, below] = [light(parts(getComputedStyle(one).color)), light(ground(one))];
    return [(Math.max(text, below) + 0.05) / (Math.min(text, below) + 0.05), one.tagName, one.className, one.textContent.slice(0, 20)];
  });
})()"""


def told(kind):
    """The script by which a field tells that a reader has changed it."""
    return f"this.dispatchEvent(new Event('{kind}', {{ bubbles: true }}))"


class Screen:
    """A page in a browser, whose controls are found by role and name as the browser tells them to a reader's aids."""

    def __init__(self, browser, folder):
        self.browser, self.folder = browser, folder
        browser.call("Accessibility.enable")

    def make(self, name, *words):
        """Makes a page by the tool; its address."""
        status, _, said = run([*words, "-o", self.folder / name])
        want(status == 0, f"{words}: {said}")
        return (self.folder / name).as_uri()

    def open(self, url, width=1280, theme="light"):
        self.size(width)
        self.browser.call("Emulation.setEmulatedMedia", features=[{"name": "prefers-color-scheme", "value": theme}])
        self.browser.open(url)
        faults = [event for event in self.browser.events if event["method"] in ("Runtime.exceptionThrown", "Log.entryAdded")]
        want(not faults, f"{url}: {faults}")

    def size(self, width, height=900):
        self.browser.call("Emulation.setDeviceMetricsOverride", width=width, height=height, deviceScaleFactor=1, mobile=False)

    def named(self, role, name):
        root = self.browser.call("DOM.getDocument", depth=0)["root"]["nodeId"]
        found = self.browser.call("Accessibility.queryAXTree", nodeId=root, role=role, accessibleName=name)["nodes"]
        want(len(found) == 1, f"{len(found)} controls are a {role} named {name!r}")
        return self.browser.call("DOM.resolveNode", backendNodeId=found[0]["backendDOMNodeId"])["object"]["objectId"]

    def on(self, role, name, function, *values):
        """Calls a function of JavaScript on the control, whose `this` it is."""
        arguments = [{"value": value} for value in values]
        text = f"function (...values) {{ {function} }}"
        found = self.named(role, name)
        got = self.browser.call("Runtime.callFunctionOn", objectId=found, functionDeclaration=text, arguments=arguments, returnByValue=True)
        want("exceptionDetails" not in got, f"{name}: {got}")
        return got["result"].get("value")

    def click(self, role, name):
        self.on(role, name, "this.scrollIntoView(); this.click()")
        self.value("new Promise(requestAnimationFrame)")

    def choose(self, name, text):
        self.on("combobox", name, f"this.value = [...this.options].find((it) => it.text === values[0]).value; {told('change')}", text)

    def write(self, name, text):
        self.on("textbox", name, f"this.value = values[0]; {told('input')}", text)

    def key(self, key, modifiers=0):
        text = {"Enter": "\r", " ": " "}.get(key, "")
        for kind in ("keyDown", "keyUp"):
            words = {"text": text} if text and kind == "keyDown" else {}
            self.browser.call("Input.dispatchKeyEvent", type=kind, key=key, windowsVirtualKeyCode=KEYS[key], modifiers=modifiers, **words)
        self.value("new Promise(requestAnimationFrame)")

    def value(self, expression):
        return self.browser.value(expression)

    def text(self, id):
        return self.value(f"document.getElementById('{id}').innerText.trim()")

    def texts(self, selector):
        return self.value(f"[...document.querySelectorAll('{selector}')].map((it) => it.innerText.replace(/\\s+/g, ' ').trim())")

    def hand(self):
        return self.text("hand-title")

    def listed(self):
        """The numbers of the hands on the list's page."""
        return [int(text) for text in self.texts("#list-body th")]

    def comes(self, expression):
        try:
            self.browser.wait(expression)
        except Refused as why:
            raise Wrong(str(why))


def same(got, wanted, what):
    want(got == wanted, f"{what}: {got!r}, not {wanted!r}")


def steps(screen, url):
    deal = "Cards are dealt; carol posts 50 and alice posts 100. bob is to act."
    screen.open(url + "#2")
    same((screen.hand(), screen.text("told")), ("Hand 2", deal), "hand 2")
    same(screen.texts("#results li"), ["alice −100", "bob −1,000", "carol +1,100"], "results")
    screen.click("button", "Forward")
    same(screen.text("told"), "bob raises to 300. carol is to act.", "Forward")
    same(screen.texts(".bet"), ["100", "300", "50"], "bets")
    same(screen.texts(".stack"), ["50", "4,700", "950"], "stacks")
    same(screen.texts(".did"), ["blind 100", "raises to 300", "to act"], "what they did")
    for _ in range(3):
        screen.click("button", "Forward")
    same(screen.text("told"), "Flop: 2♣\ufe0e 3♣\ufe0e 7♥\ufe0e. carol is to act.", "the fourth Forward")
    same(screen.texts("#pots li"), ["Pot 700"], "pots on the flop")
    board = "document.getElementById('board').getAttribute('aria-label')"
    same(screen.value(board), "Board: two of clubs, three of clubs, seven of hearts", "board")
    screen.click("button", "To the end")
    same(screen.text("told"), "The hand is over: carol gets 2,100.", "To the end")
    same(screen.texts("#pots li"), ["Pot 2,100 → carol"], "pots at the end")
    same(screen.texts(".is-winner .name"), ["carol"], "winner")
    screen.click("button", "Back")
    same(screen.text("told"), "bob calls 400.", "Back")
    screen.click("button", "To the deal")
    same(screen.text("told"), deal, "To the deal")
    screen.click("button", "carol bets 400, all-in")
    same(screen.text("told"), "carol bets 400, all-in. bob is to act.", "a step of the story")
    same(screen.texts("#story [aria-current=step]"), ["carol bets 400, all-in"], "the step that is marked")
    outcome = [
        "carol shows A♠\ufe0e A♦\ufe0e: a pair of aces, kickers J 8 7.",
        "bob shows Q♠\ufe0e Q♦\ufe0e: a pair of queens, kickers J 8 7.",
        "Pot 2,100: carol wins it with a pair of aces, kickers J 8 7.",
    ]
    same(screen.texts(".outcome li"), outcome, "outcome")


def side_pots(screen, url):
    screen.open(url + "#9")
    screen.click("button", "To the end")
    same(screen.texts("#pots li"), ["Main pot 450 → bob", "Side pot 1,700 → carol"], "pots of hand 9")
    screen.open(url + "#4")
    screen.click("button", "To the end")
    same(screen.texts("#pots li"), ["Pot 350 → carol"], "pots of hand 4")
    same(screen.texts(".outcome li")[0], "350 that nobody called go back to alice.", "what goes back in hand 4")
    screen.open(url + "#5")
    last = "Pot 250: alice and bob share it (125 and 125) with ace high, kickers K J 8 7."
    same(screen.texts(".outcome li")[-1], last, "the shared pot of hand 5")


def playing(screen, url):
    screen.open(url + "#2")
    screen.click("button", "Play")
    screen.comes("!document.getElementById('told').innerText.startsWith('Cards are dealt')")
    screen.click("button", "Pause")
    before = screen.text("told")
    time.sleep(1.2)
    same(screen.text("told"), before, "after Pause")
    screen.click("button", "To the end")
    screen.click("button", "Back")
    screen.click("button", "Play")
    screen.comes("document.getElementById('told').innerText.startsWith('The hand is over: carol gets 2,100')")
    screen.named("button", "Play")


def hands(screen, url):
    screen.open(url)
    same(screen.hand(), "Hand 0", "the page without a number")
    screen.click("button", "Next hand")
    screen.click("button", "Next hand")
    same((screen.hand(), screen.value("location.hash")), ("Hand 2", "#2"), "Next hand")
    screen.click("button", "Previous hand")
    same((screen.hand(), screen.value("location.hash")), ("Hand 1", "#1"), "Previous hand")
    screen.write("Go to hand", "11")
    screen.click("button", "Go")
    same((screen.hand(), screen.value("location.hash")), ("Hand 11", "#11"), "Go")
    screen.write("Go to hand", "12")
    screen.click("button", "Go")
    same((screen.hand(), screen.text("lost-way")), ("Hand 11", "There is no hand 12 here. Hands are 0 to 11."), "a hand that there isn't")
    screen.value("location.hash = '#7'")
    screen.comes("document.getElementById('hand-title').innerText === 'Hand 7'")
    same(screen.text("lost-way"), "", "a hand that there is")
    screen.click("link", "9")
    same(screen.hand(), "Hand 9", "a link of the list")
    same(screen.texts("#list-body .is-current th"), ["9"], "the row that is marked")


def keys(screen, url):
    screen.open(url + "#2")
    screen.key("ArrowRight")
    same(screen.text("told"), "bob raises to 300. carol is to act.", "the right arrow")
    screen.key("ArrowLeft")
    same(screen.text("told")[:5], "Cards", "the left arrow")
    screen.key("ArrowRight", SHIFT)
    same(screen.hand(), "Hand 3", "Shift and the right arrow")
    screen.key("ArrowLeft", SHIFT)
    same(screen.hand(), "Hand 2", "Shift and the left arrow")
    screen.key(" ")
    screen.named("button", "Pause")
    screen.key(" ")
    screen.named("button", "Play")
    screen.on("textbox", "Go to hand", "this.focus()")
    screen.key("ArrowRight")
    same(screen.text("told")[:5], "Cards", "an arrow within a field")


def filters(screen, url):
    screen.open(url)
    for asked, numbers in LISTS:
        screen.click("button", "Clear filters")
        screen.comes("document.getElementById('count').innerText === '12 hands'")
        for name, box in (("showdown", "Showdown"), ("all-in", "All-in")):
            if asked.get(name):
                screen.click("checkbox", box)
        screen.choose("Player", asked.get("player", "everybody"))
        screen.choose("Sort by", ORDERS[asked.get("order", "number")])
        screen.write("Lost more than", asked.get("lost", ""))
        same(screen.listed(), numbers, f"the list of {asked}")
        same(screen.text("count"), "12 hands" if len(numbers) == 12 else f"{len(numbers)} of 12 hands", f"the count of {asked}")
    screen.click("button", "Clear filters")
    screen.choose("Player", "bob")
    screen.choose("Sort by", ORDERS["lost"])
    row = ["2", "−1,000", "Q♠\ufe0e Q♦\ufe0e", "2,100", "Showdown all-in"]
    same(screen.texts("#list-body tr:first-child > *"), row, "bob's first row")
    screen.click("link", "2")
    screen.click("button", "Next hand")
    screen.click("button", "Next hand")
    same(screen.hand(), "Hand 6", "the third hand of bob's list")


def list_pages(screen, url):
    screen.open(url)
    same(screen.listed(), list(range(25)), "the first page")
    screen.click("button", "Next page")
    same((screen.listed(), screen.text("page")), (list(range(25, 30)), "2 of 2"), "Next page")
    screen.click("button", "Previous page")
    same((screen.listed()[:1], screen.text("page")), ([0], "1 of 2"), "Previous page")
    screen.value("location.hash = '#29'")
    screen.comes("document.querySelector('#list-body .is-current')?.innerText.startsWith('29')")
    screen.choose("Sort by", ORDERS["last"])
    screen.choose("Sort by", ORDERS["number"])
    same(screen.listed()[:1], [0], "the first page after sorting")
    screen.click("button", "Hand 29 is on page 2")
    same((screen.texts("#list-body .is-current th"), screen.text("where")), (["29"], ""), "the page of the hand that is shown")
    screen.click("checkbox", "All-in")
    same((screen.listed(), screen.text("where")), ([0], "Hand 29 isn't in this list."), "a list without the hand that is shown")


def course(screen, url):
    screen.open(url + "#3")
    same(screen.text("reading"), "After hand 3: alice +900, bob −1,150, carol +250", "the chips after hand 3")
    screen.on("slider", "Hand on the course", f"this.value = 8; {told('input')}; this.value = 9; {told('input')}")
    same((screen.hand(), screen.value("location.hash")), ("Hand 9", "#3"), "a slider that is held")
    screen.on("slider", "Hand on the course", told("change"))
    screen.comes("location.hash === '#9'")
    same(screen.text("reading"), "After hand 9: alice +375, bob −825, carol +450", "the chips after hand 9")
    same(screen.texts("#legend [aria-pressed=true] .who"), ["alice"], "whose band is shown")
    screen.click("button", "bob −725")
    same(screen.texts("#legend [aria-pressed=true] .who"), ["bob"], "whose band is shown")
    want("standard deviation of bob's chips" in screen.text("band"), screen.text("band"))
    same(screen.value("document.querySelectorAll('#chart .line').length"), 3, "lines")
    # The seventh point of a line is where it is after hand 5.
    chart = "document.getElementById('chart')"
    screen.value(f"{chart}.scrollIntoView()")
    point = screen.value(f"{chart}.querySelector('polyline').points[6].x")
    x, y = screen.value(f"(({{ left, top }}) => [left, top + 50])({chart}.getBoundingClientRect())")
    for kind in ("mousePressed", "mouseReleased"):
        screen.browser.call("Input.dispatchMouseEvent", type=kind, x=x + point, y=y, button="left", clickCount=1)
    screen.comes("location.hash === '#5'")


def figures(screen, url):
    screen.open(url)
    row = lambda at: dict(zip(screen.texts("#figures-head th"), screen.texts(f"#figures-body tr:nth-child({at}) > *")))
    for at, (name, wanted) in enumerate(FIGURES.items()):
        got = row(at + 1)
        part = lambda figure: "{:.1f} % {} of {}".format(100 * wanted[figure][0] / wanted[figure][1], *wanted[figure])
        titles = {"VPIP": "vpip", "PFR": "pfr", "Aggression": "aggression", "Went to showdown": "went", "Won at showdown": "won"}
        same({title: got[title] for title in titles}, {title: part(figure) for title, figure in titles.items()}, name)
        same(got["Lost most"], f"−1,000 hand {wanted['worst'][1]}", f"{name}: lost most")
    half = 1.96 * 10 * statistics.stdev(CHIPS["alice"]) / 12**0.5
    # 1000 x 275 / 100 / 12 thousandths of the greatest blind a hand.
    same((row(1)["Chips"], row(1)["mbb/hand"]), ("+275", f"+229 ± {half:,.0f}"), "alice")
    titles = screen.texts("#figures-head th")[1:]
    meanings = screen.value("[...document.querySelectorAll('#meanings dt')].map((it) => it.firstChild.data)")
    same((len(titles), meanings), (9, titles), "the figures that are explained")
    screen.click("checkbox", "By position")
    heads = ["alice", "position 0: blind 50", "position 1: blind 100", "position 2: no blind, button"]
    same(screen.texts("#figures-body tr > th")[:4], heads, "By position")
    same([row(at)["Chips"] for at in (2, 3, 4)], ["+600", "−75", "−250"], "alice's chips by position")
    same(row(6)["Lost most"], "−50 3 hands, first hand 1", "what bob lost most at position 0, in hands 1, 4 and 10")
    screen.click("checkbox", "By position")
    same(len(screen.texts("#figures-body tr")), 3, "without By position")
    screen.click("link", "hand 2")
    screen.comes("document.getElementById('hand-title').innerText === 'Hand 2'")
    want(0 <= screen.value("document.getElementById('hand-title').getBoundingClientRect().top") < 900, "hand 2 isn't in sight")


def parts(screen, url):
    """A link of the head brings a part into sight, and leaves the hand and its address."""
    screen.open(url + "#2", 360)
    for name, part in (("Hands", "hands"), ("Chips", "course"), ("Figures", "figures")):
        screen.click("link", name)
        want(-1 < screen.value(f"document.getElementById('{part}').getBoundingClientRect().top") < 450, f"{name} isn't in sight")
        same(screen.value("document.activeElement.id"), f"{part}-title", f"the focus after {name}")
    same((screen.hand(), screen.value("location.hash"), screen.text("lost-way")), ("Hand 2", "#2", ""), "the hand after links to parts")


def cards(screen, log):
    """Whose cards are seen in hand 1, in which alice folded and carol won: nobody's, bob's, all."""
    hidden, aces = ["hidden card"] * 2, ["ace of spades", "ace of diamonds"]
    rows = [
        ([], hidden * 3),
        (["--seat", "bob"], hidden + aces + hidden),
        (["--all"], ["queen of spades", "queen of diamonds", *aces, "king of spades", "king of diamonds"]),
    ]
    for words, wanted in rows:
        screen.open(screen.make("cards.html", GAME, log, *words) + "#1")
        same(screen.value("[...document.querySelectorAll('#seats .card')].map((it) => it.ariaLabel)"), wanted, f"{words}")


def matches(screen, log, other):
    screen.open(screen.make("two.html", GAME, log, other) + "#2/3")
    same((screen.hand(), screen.text("count")), ("Hand 3 of match 2", "24 hands"), "two matches")
    same(screen.texts("#list-body th")[11:14], ["1/11", "2/0", "2/1"], "the list of two matches")
    screen.choose("Match", "1: twelve (twelve.log, 12 hands)")
    same((screen.hand(), screen.text("count")), ("Hand 0 of match 1", "12 hands"), "the first match")
    screen.value("location.hash = '#2/5'")
    screen.comes("document.getElementById('hand-title').innerText === 'Hand 5 of match 2'")
    same((screen.texts("#list-body .is-current th"), screen.text("count")), (["2/5"], "12 hands"), "a hand of the other match")
    screen.choose("Match", "all 2")
    same((screen.text("count"), screen.texts("#figures-body tr")[0].split(" ")[:2]), ("24 hands", ["alice", "24"]), "all matches")


def strange_header(screen, log):
    """What a header says is text, and is no element."""
    screen.open(screen.make("strange.html", GAME, log))
    want(screen.text("about").startswith(f"12 hands of {WRONG_HEADER.split(' ')[3]} · "), screen.text("about"))
    same((screen.value("document.title"), screen.value("document.scripts.length")), ("twelve · replay", 2), "title and scripts")


def differences(screen, url, folder):
    """A payoff that is another in the page's data is told in red on top, with a link to its hand."""
    screen.open(url)
    same(screen.value("document.getElementById('alarm').hidden"), True, "the alarm of a right page")
    page = (folder / "twelve.html").read_text(encoding="utf-8")
    (folder / "wrong.html").write_text(page.replace("1150|-150|-1000", "1150|-1000|-150"), encoding="utf-8")
    screen.open((folder / "wrong.html").as_uri() + "#0")
    head, said = "✕ 1 difference between the log and the rules", "the log pays 1150 | -1000 | -150, by the rules it is 1150 | -150 | -1000"
    same(screen.texts("#alarm"), [f"{head} hand 3: {said}"], "the alarm")
    alarm = "document.getElementById('alarm')"
    same(screen.value(f"{alarm}.getBoundingClientRect().top"), 0, "the alarm's place")
    same(screen.value(f"getComputedStyle({alarm}).backgroundColor"), "rgb(179, 20, 10)", "the alarm's colour")
    screen.value("document.querySelector('#alarm a').click()")
    screen.comes("document.getElementById('hand-title').innerText === 'Hand 3'")


def policy(screen, url):
    """The page runs no other script, takes no other style, and asks for nothing."""
    screen.open(url)
    asked = [event["params"]["request"]["url"] for event in screen.browser.events if event["method"] == "Network.requestWillBeSent"]
    want(all(address.startswith(("about:", url)) for address in asked), f"asked for {asked}")
    for tag, text in (("script", "window.broken = 1"), ("style", "body { margin: 99px }")):
        screen.value(f"document.body.append(Object.assign(document.createElement('{tag}'), {{ textContent: '{text}' }}))")
    same(screen.value("[window.broken === undefined, getComputedStyle(document.body).margin]"), [True, "0px"], "a strange script and style")
    same(screen.value("fetch('data:,x').then(() => 'loaded', () => 'refused')"), "refused", "a request")


def keyboard(screen, url):
    """The tabulator goes to each control that can be seen; Enter and the space bar work them."""
    screen.open(url + "#2")
    controls = "[...document.querySelectorAll('a, button, input, select, [tabindex]')]"
    wanted = screen.value(f"{controls}.filter((it) => it.offsetParent && !it.disabled).length")
    reached = set()
    for _ in range(wanted):
        screen.key("Tab")
        reached.add(screen.value("[...document.querySelectorAll('*')].indexOf(document.activeElement)"))
        outline = screen.value("getComputedStyle(document.activeElement).outlineStyle")
        want(outline != "none", f"no outline: {screen.value('document.activeElement.outerHTML')[:100]}")
    same(len(reached), wanted, "controls that the tabulator reaches")
    screen.on("button", "Forward", "this.focus()")
    screen.key("Enter")
    screen.key(" ")
    same(screen.text("told"), "carol calls 250. alice is to act.", "Enter and the space bar on Forward")


def widths(screen, url):
    """From 360 to 1,920 pixels nothing is wider than the page, and no seat lies on another; each text can be read in both themes."""
    for theme in THEMES:
        screen.open(url + "#0", WIDTHS[0], theme)
        screen.click("button", "To the end")
        screen.click("checkbox", "By position")
        for width in (360, 760, 761, 1180, 1181, 1440, 1920):
            screen.size(width)
            screen.comes(f"innerWidth === {width}")
            same(screen.value("document.documentElement.scrollWidth"), width, f"the page's width at {width}")
            over = overlaps(screen.value("[...document.querySelectorAll('.box, #board')].map((it) => it.getBoundingClientRect().toJSON())"))
            want(not over, f"at {width} {len(over)} seats lie on others: {over[:1]}")
        low = [it for it in screen.value(CONTRASTS) if it[0] < CONTRAST]
        want(not low, f"{theme}: {len(low)} texts have too little contrast, say {low[:5]}")


def overlaps(boxes):
    """The pairs of boxes that have a place in common."""
    lies = lambda one, two: one["left"] < two["right"] and two["left"] < one["right"] and one["top"] < two["bottom"] and two["top"] < one["bottom"]
    return [(one, two) for at, one in enumerate(boxes) for two in boxes[:at] if lies(one, two)]


def largest_match(folder):
    """The game and the log of ten players with the longest names and stacks, who are all all-in in the first of thirty hands."""
    game, script = dealer.seeded_match(10, 30, 1)
    stacks = next(line for line in game.splitlines() if line.startswith("stack"))
    game = game.replace(stacks, "stack = " + " ".join(10 * ["2147483647"]))
    deals = [line for line in script.splitlines() if line.startswith("deal")]
    names = "|".join(chr(97 + seat) * LONGEST for seat in range(10))
    folds = [line for deal in deals[1:] for line in [deal, *9 * ["f"]]]
    played = [f"names {names}", deals[0], "r2147483647", *9 * ["c"], *folds]
    match = dealer.Match(dealer.Game(game.encode()), 30, "largest.game")
    log = [text[2:] for line in played for text in match.answer(line) if text.startswith("L ")]
    (folder / "largest.game").write_text(game)
    return folder / "largest.game", written(folder, "largest.log", log)


def controls(folder):
    """The tests of controls, by their names. The browser is ended behind the last."""
    log = written(folder, "twelve.log", LOG)
    other = written(folder, "other.log", [LOG[0].replace("twelve", "other"), *LOG[1:]])
    strange = written(folder, "strange.log", [WRONG_HEADER, *LOG[1:]])
    with Browser(program()) as browser:
        screen = Screen(browser, folder)
        url, largest = screen.make("twelve.html", GAME, log), screen.make("largest.html", *largest_match(folder))
        for test in (steps, side_pots, playing, hands, keys, filters, course, figures, parts, policy, keyboard):
            yield f"controls: {test.__name__}", lambda test=test: test(screen, url)
        yield "controls: pages of the list", lambda: list_pages(screen, largest)
        yield "controls: widths", lambda: widths(screen, largest)
        yield "controls: cards", lambda: cards(screen, log)
        yield "controls: luck", lambda: luck(screen, url, log)
        yield "controls: matches", lambda: matches(screen, log, other)
        yield "controls: strange header", lambda: strange_header(screen, strange)
        yield "controls: differences", lambda: differences(screen, url, folder)


def shots(folder, out):
    """Writes screenshots of pages at three widths and in two themes into a folder, to be looked at."""
    out.mkdir(parents=True, exist_ok=True)
    game, log = largest_match(folder)
    with Browser(program()) as browser:
        screen = Screen(browser, folder)
        twelve = screen.make("twelve.html", GAME, written(folder, "twelve.log", LOG))
        urls = {"twelve": f"{twelve}#9", "largest": screen.make("largest.html", game, log, "--all") + "#3"}
        for name, width, theme in [(name, width, theme) for name in urls for width in WIDTHS for theme in THEMES]:
            screen.open(urls[name], width, theme)
            for _ in range(4):
                screen.click("button", "Forward")
            screen.size(width, screen.value("document.documentElement.scrollHeight"))
            time.sleep(0.2)
            shot = browser.call("Page.captureScreenshot", format="png", captureBeyondViewport=False)
            (out / f"{name}-{width}-{theme}.png").write_bytes(base64.b64decode(shot["data"]))
