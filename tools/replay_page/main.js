// What is shown now, and what the reader's keys and buttons change about it.

const PLAY_MILLISECONDS = 900;
/** So many differences from the logs are listed. */
const DIFFERENCES = 20;
const ADDRESS = /^#(?:(\d+)\/)?(\d+)$/;
/** The parts of the page that its head links to. */
const PARTS = ["#hands", "#course", "#figures"];

const data = JSON.parse(byId("data").textContent);
const game = readGame(data.game.text);
const matches = data.matches.map(({ lines, lucks }, index) => readMatch(game, lines, index, lucks));
const isMany = matches.length > 1;

// What is chosen (a scope of -1 is all matches), what follows from it, and the timer of a hand that plays.
const view = {
  scope: isMany ? -1 : 0, match: null, hand: null, steps: [], at: 0, list: [], page: 0, band: null,
  courses: null, figures: null, handAt: null, timer: null,
};

/** Returns the hands of the match that is chosen, or of all. */
function scopeHands() {
  return view.scope < 0 ? matches.flatMap((match) => match.hands) : matches[view.scope].hands;
}

function address(hand) {
  return isMany ? `#${hand.match + 1}/${hand.number}` : `#${hand.number}`;
}

function handName(hand) {
  return isMany ? `Hand ${hand.number} of match ${hand.match + 1}` : `Hand ${hand.number}`;
}

function handLink(hand) {
  return element("a", { href: address(hand) }, handName(hand).toLowerCase());
}

/** Returns the hand that an address names: undefined where there is none, null where it names nothing. */
function handOf(hash) {
  const found = ADDRESS.exec(hash);
  if (!found) return hash.length > 1 && !PARTS.includes(hash) ? undefined : null;
  const match = matches[found[1] === undefined ? Math.max(0, view.scope) : Number(found[1]) - 1];
  return match && match.hands[Number(found[2])];
}

function openAddress() {
  const hand = handOf(location.hash);
  byId("lost-way").textContent = hand === undefined ? `There is no hand ${location.hash.slice(1)} here. ${rangeText()}` : "";
  if (hand) openHand(hand);
  else if (!view.hand) openHand(scopeHands()[0]);
}

function rangeText() {
  const ranges = matches.map((match, index) => `${isMany ? `${index + 1}/` : ""}0 to ${match.hands.length - 1}`);
  return `Hands are ${ranges.slice(0, 5).join(", ")}${ranges.length > 5 ? " and so on" : ""}.`;
}

function goTo(hand) {
  if (hand) goToAddress(address(hand));
}

function goToAddress(hash) {
  if (hash === location.hash) openAddress();
  else location.hash = hash;
}

/** Shows a hand from its deal on. */
function openHand(hand) {
  pause();
  if (view.scope >= 0 && view.scope !== hand.match) chooseScope(hand.match);
  const match = matches[hand.match];
  if (match !== view.match) {
    view.match = match;
    drawSeats(match, data.seat);
  }
  view.hand = hand;
  view.at = 0;
  drawHead(match, hand, handName(hand));
  byId("number").value = address(hand).slice(1);
  byId("table").classList.toggle("is-broken", hand.isBroken);
  view.steps = hand.isBroken ? [] : stepsOf(game, hand);
  refill(byId("told"));
  refill(byId("story"), hand.isBroken ? `This hand can't be played: ${hand.difference}.` : "");
  if (!hand.isBroken) drawStory(hand, view.steps, openStep);
  showPageOf(hand);
  openStep(0);
  drawChart();
}

/** Shows a step of the hand. */
function openStep(at) {
  view.at = Math.min(Math.max(at, 0), view.steps.length - 1);
  if (view.steps.length === 0) return;
  drawStep(game, view.match, view.hand, view.steps, view.at);
  markStory(view.at);
  for (const id of ["back", "start"]) disable(id, view.at === 0);
  for (const id of ["forward", "end"]) disable(id, view.at === view.steps.length - 1);
  const place = view.list.indexOf(view.hand);
  disable("previous", view.list.length === 0 || place === 0);
  disable("next", view.list.length === 0 || place === view.list.length - 1);
}

/** Says that a button does nothing now, and leaves the focus on it. */
function disable(id, isOff) {
  byId(id).setAttribute("aria-disabled", String(isOff));
}

/** Goes to a hand of the list: by so many from the one shown; to the first where that one isn't in the list. */
function turnHand(by) {
  const place = view.list.indexOf(view.hand);
  goTo(view.list[place < 0 ? 0 : place + by]);
}

function pause() {
  clearInterval(view.timer);
  view.timer = null;
  showPlaying();
}

function showPlaying() {
  const [icon, text] = view.timer === null ? ["play", "Play"] : ["pause", "Pause"];
  byId("play").querySelector("use").setAttribute("href", `#icon-${icon}`);
  byId("play").querySelector("span").textContent = text;
  byId("play").setAttribute("aria-label", text);
}

/** Plays the hand's steps one after the other, from its deal where its end is shown; or stops that. */
function play() {
  if (view.timer !== null) return pause();
  if (view.at === view.steps.length - 1) openStep(0);
  view.timer = setInterval(() => {
    openStep(view.at + 1);
    if (view.at >= view.steps.length - 1) pause();
  }, PLAY_MILLISECONDS);
  showPlaying();
}

function step(by) {
  pause();
  openStep(view.at + by);
}

/** Returns what the filter's fields ask for. An amount that is no number asks for nothing. */
function filter() {
  const lost = byId("lost").value.replace(/[, ]/g, "");
  return {
    player: byId("player").value,
    order: byId("order").value,
    isShowdown: byId("showdown").checked,
    isAllIn: byId("all-in").checked,
    lost: /^\d+$/.test(lost) ? Number(lost) : null,
  };
}

function refilter() {
  view.list = chosenHands(scopeHands(), filter());
  view.page = 0;
  const [field, isEmpty] = [byId("lost"), byId("lost").value.trim() === ""];
  field.setAttribute("aria-invalid", String(!isEmpty && filter().lost === null));
  showList();
}

/** Turns the list to the page that has a hand, where it has it. */
function showPageOf(hand) {
  const place = view.list.indexOf(hand);
  if (place >= 0) view.page = Math.floor(place / HANDS_ON_PAGE);
  showList();
}

function showList() {
  drawList(view.list, view.page, byId("player").value, isMany, address, view.hand);
  byId("count").textContent = countText(view.list, scopeHands());
  showWhere();
}

/** Says where the hand that is shown is, if the page of the list doesn't have it. */
function showWhere() {
  const place = view.list.indexOf(view.hand);
  const page = Math.floor(place / HANDS_ON_PAGE);
  byId("where").hidden = view.hand === null || page === view.page;
  if (byId("where").hidden) refill(byId("where"));
  else refill(byId("where"), place < 0 ? `${handName(view.hand)} isn't in this list.` : pageButton(page));
}

/** Makes the button that turns the list to the page of the hand that is shown. */
function pageButton(page) {
  const button = element("button", { type: "button" }, `${handName(view.hand)} is on page ${page + 1}`);
  button.addEventListener("click", () => {
    showPageOf(view.hand);
    byId("list-body").querySelector(".is-current a").focus();
  });
  return button;
}

function turnPage(by) {
  const pages = Math.ceil(view.list.length / HANDS_ON_PAGE);
  view.page = Math.min(Math.max(view.page + by, 0), Math.max(0, pages - 1));
  showList();
}

function drawChart() {
  const hands = scopeHands();
  // The band is that of chips with luck.
  const figures = isLessLuck() ? undefined : view.figures.get(view.band);
  const marked = hands.indexOf(view.hand) + 1;
  view.handAt = drawCourse(view.courses, figures ? figures.total.deviation() : null, marked);
  byId("scrub").max = String(hands.length - 1);
  byId("scrub").value = String(Math.max(0, marked - 1));
  byId("scrub").setAttribute("aria-valuetext", view.hand ? handName(view.hand) : "");
  const values = [...view.courses].map(([name, course], place) => [`${place > 0 ? ", " : ""}${name} `, valueElement(Math.round(course[marked]))]);
  refill(byId("reading"), marked > 0 ? [`After ${handName(view.hand).toLowerCase()}: `, values] : []);
  byId("band").textContent = bandText(figures);
}

function bandText(figures) {
  if (!figures || figures.total.deviation() === null) return "";
  const reach = chipsText(Math.round(bandAt(figures.total.deviation(), figures.total.hands)));
  return "In 95 of 100 matches of equal players the line is inside the band at any one hand. "
    + `After k hands the band is ±1.96 s √k about 0, where s is the standard deviation of ${view.band}'s chips in a hand. `
    + `After the last hand it is ±${reach}.`;
}

function chooseBand(name) {
  view.band = name;
  const focused = [...byId("legend").children].indexOf(document.activeElement);
  drawLegend(view.courses, view.band, chooseBand);
  if (focused >= 0) byId("legend").children[focused].focus();
  drawChart();
}

/** Shows another match, or all: its players, its list, its course, its figures. */
function chooseScope(scope) {
  view.scope = scope;
  byId("match").value = String(scope);
  const player = view.courses ? byId("player").value : data.seat;
  const hands = scopeHands();
  view.courses = coursesOf(hands, isLessLuck());
  view.figures = figuresOf(hands, game.players);
  const names = [...view.courses.keys()];
  const options = names.map((name) => element("option", { value: name }, name));
  refill(byId("player"), element("option", { value: "" }, "everybody"), options);
  byId("player").value = names.includes(player) ? player : "";
  view.band = names.includes(data.seat) ? data.seat : names[0];
  drawLegend(view.courses, view.band, chooseBand);
  showFigures();
  refilter();
}

/** Whether the courses are to be shown less luck. */
function isLessLuck() {
  return byId("less-luck").checked;
}

/** Shows the courses less luck, or with it. */
function switchLuck() {
  view.courses = coursesOf(scopeHands(), isLessLuck());
  drawLegend(view.courses, view.band, chooseBand);
  drawChart();
}

function showFigures() {
  drawFigures(game, view.figures, byId("by-position").checked, handLink);
}

/** Says what the page has: matches, hands, the game, and whose cards are shown. */
function showAbout() {
  const hands = matches.reduce((sum, match) => sum + match.hands.length, 0);
  const [first] = matches;
  const name = isMany ? `${matches.length} matches` : nameOf(first);
  const blinds = game.blinds.filter((blind) => blind > 0).map(chipsText).join(" and ");
  document.title = `${name} · replay`;
  byId("title").textContent = name;
  byId("about").textContent = [
    `${chipsText(hands)} ${hands === 1 ? "hand" : "hands"} of ${isMany || first.gameName.startsWith("/") ? data.game.file : first.gameName}`,
    `${game.isLimit ? "limit" : "no-limit"} hold'em for ${game.players}, blinds ${blinds}`,
    `hole cards: ${data.isAll ? "all" : `those shown to ${data.seat || "everybody"}`}`,
    goingText(matches.filter((match) => !match.isOver)),
  ].filter(Boolean).join(" · ");
}

/** Returns a match's name; a log that `hand` wrote has none, and goes by its file. */
function nameOf(match) {
  return match.name === "hand" ? data.matches[match.index].log : match.name;
}

/** Says how many matches aren't over, and how far one alone is; nothing where all are. */
function goingText(going) {
  if (going.length === 0) return "";
  const [{ hands, count }] = going;
  const far = `the match isn't over: ${chipsText(hands.length)} of ${chipsText(count)} hands`;
  return isMany ? `${going.length} of the matches aren't over` : far;
}

/** Shows in red where payoffs or scores differ from the logs. */
function showDifferences() {
  const all = matches.flatMap((match) => match.differences.map(({ hand, text }) => ({ match, hand, text })));
  byId("alarm").hidden = all.length === 0;
  if (all.length === 0) return;
  const items = all.slice(0, DIFFERENCES).map(({ match, hand, text }) => (
    element("li", {}, hand ? handLink(hand) : `score of ${match.name}`, `: ${text}`)
  ));
  if (all.length > DIFFERENCES) items.push(element("li", {}, `and ${chipsText(all.length - DIFFERENCES)} more`));
  const head = `✕ ${chipsText(all.length)} ${all.length === 1 ? "difference" : "differences"} between the log and the rules`;
  refill(byId("alarm"), element("strong", {}, head), element("ul", {}, items));
}

function showMatches() {
  byId("luck").hidden = !matches.every(({ hands }) => hands.every(({ lucks }) => lucks));
  byId("matches").hidden = !isMany;
  byId("number").inputMode = isMany ? "text" : "numeric";
  const text = ({ index, name, hands }) => `${index + 1}: ${name} (${data.matches[index].log}, ${chipsText(hands.length)} hands)`;
  const options = matches.map((match) => element("option", { value: match.index }, text(match)));
  refill(byId("match"), element("option", { value: -1 }, `all ${matches.length}`), options);
}

const BUTTONS = {
  previous: () => turnHand(-1),
  next: () => turnHand(1),
  start: () => step(-Infinity),
  back: () => step(-1),
  play,
  forward: () => step(1),
  end: () => step(Infinity),
  "page-back": () => turnPage(-1),
  "page-forward": () => turnPage(1),
};

/** Takes a key that belongs to no field: arrows and the space bar. */
function takeKey(event) {
  const isField = event.target.closest("input, select, textarea");
  if (isField || event.ctrlKey || event.altKey || event.metaKey) return;
  const by = { ArrowLeft: -1, ArrowRight: 1 }[event.key];
  if (by && event.target.matches(".scroll")) return;
  if (by) (event.shiftKey ? turnHand : step)(by);
  else if (event.key === " " && !event.target.closest("button, a")) play();
  else return;
  event.preventDefault();
}

/** Brings a part of the page into sight and its heading into focus. The address stays that of the hand. */
function goToPart(part) {
  const heading = part.querySelector("h2");
  heading.tabIndex = -1;
  heading.addEventListener("blur", () => heading.removeAttribute("tabindex"), { once: true });
  heading.focus({ preventScroll: true });
  part.scrollIntoView();
}

/** Opens the hand that a link names, and brings it into sight where it isn't, as on a narrow screen; or goes to a part. */
function followLink(event) {
  const link = event.target.closest("a[href^='#']");
  if (!link || event.ctrlKey || event.metaKey || event.shiftKey) return;
  event.preventDefault();
  const href = link.getAttribute("href");
  if (PARTS.includes(href)) return goToPart(byId(href.slice(1)));
  goToAddress(href);
  const { top, bottom } = byId("hand-title").getBoundingClientRect();
  if (top < 0 || bottom > window.innerHeight) byId("replay").scrollIntoView();
}

function listen() {
  for (const [id, act] of Object.entries(BUTTONS)) {
    byId(id).addEventListener("click", () => byId(id).getAttribute("aria-disabled") !== "true" && act());
  }
  for (const name of ["input", "change"]) byId("filter").addEventListener(name, () => (refilter(), openStep(view.at)));
  byId("filter").addEventListener("reset", () => setTimeout(() => (refilter(), openStep(view.at))));
  byId("filter").addEventListener("submit", (event) => event.preventDefault());
  byId("go").addEventListener("submit", (event) => {
    event.preventDefault();
    goToAddress(`#${byId("number").value.trim()}`);
  });
  byId("match").addEventListener("change", () => {
    chooseScope(Number(byId("match").value));
    openHand(scopeHands()[0]);
  });
  byId("by-position").addEventListener("change", showFigures);
  byId("less-luck").addEventListener("change", switchLuck);
  // The address changes when the slider is let go of: browsers bear few changes of it in a second.
  byId("scrub").addEventListener("input", () => openHand(scopeHands()[Number(byId("scrub").value)]));
  byId("scrub").addEventListener("change", () => goTo(view.hand));
  byId("chart").addEventListener("click", (event) => goTo(scopeHands()[view.handAt(event.offsetX) - 1]));
  document.addEventListener("click", followLink);
  document.addEventListener("keydown", takeKey);
  window.addEventListener("hashchange", openAddress);
  new ResizeObserver(drawChart).observe(byId("chart"));
}

showAbout();
showDifferences();
showMatches();
chooseScope(view.scope);
openAddress();
listen();
