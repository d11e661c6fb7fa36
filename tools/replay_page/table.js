// Draws a hand at one of its steps: the table with its seats, what just happened, and the hand's whole story.

/** How far from the table's middle boxes and bets are, in percent of its width and height. */
const BOX_AT = { across: 40.5, down: 37 };
const BET_AT = { across: 23, down: 19.5 };

/** With so many players at most there is room for larger cards. */
const ROOMY = 6;

/** Draws the seats of a match once; what changes from step to step goes into them. */
function drawSeats(match, seat) {
  const count = match.names.length;
  const bottom = Math.max(0, match.names.indexOf(seat));
  const seats = match.names.map((name, number) => {
    const angle = (2 * Math.PI * (number - bottom)) / count + Math.PI / 2;
    const made = element("li", { class: "seat" },
      element("div", { class: "box" },
        element("div", { class: "cards" }),
        element("span", { class: "disc", title: "dealer button", role: "img", "aria-label": "dealer button" }, "D"),
        element("div", { class: "name", title: name }, name),
        element("div", { class: "stack" }),
        element("div", { class: "did" })),
      element("div", { class: "bet" }));
    place(made, "box", BOX_AT, angle);
    place(made, "bet", BET_AT, angle);
    return made;
  });
  refill(byId("seats"), seats);
  byId("table").className = `table of-${count} ${count <= ROOMY ? "is-roomy" : ""}`;
}

function place(seat, what, { across, down }, angle) {
  seat.style.setProperty(`--${what}-x`, `${(50 + across * Math.cos(angle)).toFixed(2)}%`);
  seat.style.setProperty(`--${what}-y`, `${(50 + down * Math.sin(angle)).toFixed(2)}%`);
}

/** Draws what is to be seen at a step of a hand. */
function drawStep(game, match, hand, steps, at) {
  const step = steps[at];
  const best = bestCards(step);
  match.names.forEach((name, seat) => drawSeat(game, byId("seats").children[seat], hand, steps, at, hand.names.indexOf(name), best));
  const board = hand.board.slice(0, step.shown);
  const empty = Array.from({ length: 5 - board.length }, () => element("span", { class: "card is-empty" }));
  refill(byId("board"), board.map((card) => cardElement(card, markOf(card, best))), empty);
  byId("board").setAttribute("aria-label", board.length > 0 ? `Board: ${board.map(cardName).join(", ")}` : "No board yet");
  refill(byId("pots"), step.pots.map((pot, place) => potElement(hand, pot, place, step.pots.length)));
  refill(byId("told"), stepText(game, hand, steps, at));
}

/** Returns the cards of the hands that win a pot, at a showdown's end; none at any other step. The others stay as they are. */
function bestCards({ outcome, pots }) {
  const winners = outcome && outcome.isShowdown ? pots.flatMap((pot) => pot.winners) : [];
  return new Set(winners.flatMap((position) => outcome.values[position].cards));
}

function markOf(card, best) {
  return best.has(card) ? "is-best" : "";
}

function drawSeat(game, seat, hand, steps, at, position, best) {
  const step = steps[at];
  const didIt = step.kind === "act" && step.action.position === position;
  const won = step.kind === "end" ? hand.payoffs[position] : 0;
  const classes = {
    "is-folded": step.folded[position],
    "is-turn": step.turn === position,
    "is-acting": didIt,
    "is-winner": step.kind === "end" && step.pots.some(({ winners }) => winners.includes(position)),
    "is-button": position === game.players - 1,
  };
  seat.className = `seat ${Object.keys(classes).filter((name) => classes[name]).join(" ")}`;
  const [cards, , , stack, did] = seat.querySelector(".box").children;
  const hole = hand.holes[position] || [null, null];
  refill(cards, hole.map((card) => cardElement(card, step.folded[position] ? "" : markOf(card, best))));
  refill(stack, stackText(game, step.stacks[position]));
  refill(did, step.kind === "end" && won !== 0 ? valueElement(won) : lastText(game, steps, at, position));
  const bet = step.bets[position];
  refill(seat.querySelector(".bet"), bet > 0 ? [element("i", { "aria-hidden": "true" }), chipsText(bet)] : []);
}

/** Returns a stack. A game file that names none gives each player the most chips that there are: these aren't counted. */
function stackText(game, chips) {
  return chips > MOST_CHIPS / 2 && Math.min(...game.stacks) === MOST_CHIPS ? "∞" : chipsText(chips);
}

/** Returns what a player did last in this round, or that he folded before, or is all-in. */
function lastText(game, steps, at, position) {
  const step = steps[at];
  if (step.turn === position) return "to act";
  for (let before = at; before >= 0 && steps[before].round === step.round && steps[before].kind !== "end"; before--) {
    const { kind, action } = steps[before];
    if (kind === "act" && action.position === position) return actionText(action);
  }
  if (step.folded[position]) return "folded";
  if (step.stacks[position] === 0) return "all-in";
  return step.round === 0 && game.blinds[position] > 0 && step.kind !== "end" ? `blind ${chipsText(game.blinds[position])}` : "";
}

function potElement(hand, pot, place, count) {
  const text = `${potName(place, count)} ${chipsText(pot.chips)}`;
  const winners = (pot.winners || []).map((position) => hand.names[position]);
  return element("li", {}, element("span", {}, text), winners.length > 0 ? element("b", {}, ` → ${listed(winners)}`) : null);
}

/** Returns what happened at a step, as one sentence. */
function stepText(game, hand, steps, at) {
  const { kind, action, round, turn, outcome } = steps[at];
  const next = turn < 0 ? "" : ` ${hand.names[turn]} is to act.`;
  if (kind === "act") return `${hand.names[action.position]} ${actionText(action)}.${next}`;
  if (kind === "round") return `${ROUND_NAMES[round]}: ${cardsText(roundCards(hand, round))}.${next}`;
  if (kind === "end") return `The hand is over: ${gainsText(hand, outcome)}.`;
  const posts = hand.names.map((name, position) => (game.blinds[position] > 0 ? `${name} posts ${chipsText(game.blinds[position])}` : ""));
  return `Cards are dealt; ${listed(posts.filter(Boolean))}.${next}`;
}

function roundCards(hand, round) {
  return hand.board.slice(BOARD_CARDS[round - 1], BOARD_CARDS[round]);
}

/** Draws the hand's story: rounds with a button for each step, and how it ends. `open` is called with a step's place. */
function drawStory(hand, steps, open) {
  const rounds = [];
  steps.forEach((step, at) => {
    if (step.kind === "deal" || step.kind === "round") rounds.push({ step, at, acts: [] });
    else if (step.kind === "act") rounds[rounds.length - 1].acts.push(at);
  });
  const button = (at, text) => {
    const made = element("button", { type: "button", "data-step": at }, text);
    made.addEventListener("click", () => open(at));
    return made;
  };
  const parts = rounds.map(({ step, at, acts }) => {
    const title = element("h3", {}, button(at, ROUND_NAMES[step.round]), step.round > 0 ? roundElements(hand, step) : null);
    const items = acts.map((act) => element("li", {}, button(act, actElement(hand, steps[act].action))));
    return element("section", {}, title, element("ol", { class: "acts" }, items));
  });
  const last = steps.length - 1;
  const texts = outcomeTexts(hand, steps[last].outcome).map((text) => element("li", {}, text));
  const title = element("h3", {}, button(last, hand.isShowdown ? "Showdown" : "End"));
  refill(byId("story"), parts, element("section", { class: "outcome" }, title, element("ul", {}, texts)));
}

/** Makes the cards of a round, what is in the pots when it begins, and what each player may expect of them. */
function roundElements(hand, step) {
  const chips = step.pots.reduce((sum, pot) => sum + pot.chips, 0);
  const quiet = (text) => element("span", { class: "quiet" }, text);
  const text = equityText(hand, step);
  return [cardsElement(roundCards(hand, step.round)), quiet(`pot ${chipsText(chips)}`), text ? quiet(text) : null];
}

/** Returns how much of the pots each player who is left may expect; nothing where it isn't known. */
function equityText(hand, step) {
  const equities = equitiesOf(hand, step);
  if (equities === null) return "";
  const live = [...equities.keys()].filter((position) => !step.folded[position]);
  return live.map((position) => `${hand.names[position]} ${(100 * equities[position]).toFixed(1)} %`).join(" · ");
}

function actElement(hand, action) {
  return [element("b", {}, hand.names[action.position]), ` ${actionText(action)}`];
}

/** Marks the step that is shown in the story. */
function markStory(at) {
  for (const button of byId("story").querySelectorAll("button")) {
    const step = Number(button.dataset.step);
    button.classList.toggle("is-past", step < at);
    if (step === at) button.setAttribute("aria-current", "step");
    else button.removeAttribute("aria-current");
  }
}

/** Draws the head of a hand: its number, and who won or lost how much, in seat order. */
function drawHead(match, hand, title) {
  byId("hand-title").textContent = title;
  const values = match.names.map((name) => [name, hand.payoffs[hand.names.indexOf(name)]]).filter(([, chips]) => chips !== 0);
  refill(byId("results"), values.map(([name, chips]) => element("li", {}, `${name} `, valueElement(chips))));
}
