// Matches, their hands and the players' figures, from a page's data. No document is used here.

/** How many standard deviations hold 95 of 100 draws of a normal distribution. */
const NORMAL_95 = 1.96;

/**
 * Returns a match of the page's data: its header's words, its hands with what they come to, and what differs from the log.
 * `lucks` has for each hand the luck of each position in chips, or is null where it isn't known.
 */
function readMatch(game, lines, index, lucks = null) {
  const [, , name, gameName, count] = lines[0].split(" ");
  const hands = lines.filter((line) => line.startsWith("STATE:")).map((line) => readHand(game, line, index));
  if (lucks) hands.forEach((hand, place) => (hand.lucks = lucks[place]));
  const score = lines.find((line) => line.startsWith("SCORE:"));
  const names = hands.length > 0 ? hands[0].names : [];
  const differences = hands.filter((hand) => hand.difference).map((hand) => ({ hand, text: hand.difference }));
  const match = { index, name, gameName, count: Number(count), names, hands, isOver: score !== undefined, differences };
  const wrong = score && differenceOfScore(match, score);
  if (wrong) differences.push({ hand: null, text: wrong });
  return match;
}

/** Returns a hand as its line says, with what the rules make of it; `difference` says in words where the two differ. */
function readHand(game, line, match) {
  const hand = { ...readState(line), match, difference: null };
  try {
    const { actions, pots, payoffs, unfolded, isShowdown, spent } = playHand(game, hand);
    const allIn = spent.map((amount, position) => amount === game.stacks[position]);
    const pot = pots.reduce((sum, { chips }) => sum + chips, 0);
    const winners = new Set(pots.flatMap((one) => one.winners));
    Object.assign(hand, { actions, payoffs, unfolded, isShowdown, allIn, pot, winners });
    if (payoffs.join("|") !== hand.values.join("|")) {
      hand.difference = `the log pays ${hand.values.join(" | ")}, by the rules it is ${payoffs.join(" | ")}`;
    }
  } catch (error) {
    const allIn = hand.values.map(() => false);
    Object.assign(hand, { actions: [], payoffs: hand.values, unfolded: [], isShowdown: false, allIn, pot: 0, winners: new Set() });
    hand.difference = error.message;
  }
  hand.isBroken = hand.unfolded.length === 0;
  return hand;
}

/** Says how the log's score differs from the hands' sum, seat by seat; null where it doesn't. */
function differenceOfScore({ names, hands }, line) {
  const sums = new Map(names.map((name) => [name, 0]));
  for (const { names: places, payoffs } of hands) places.forEach((name, at) => sums.set(name, sums.get(name) + payoffs[at]));
  const [, values, seats] = line.split(":");
  const wanted = `SCORE:${[...sums.values()].join("|")}:${names.join("|")}`;
  return line === wanted ? null : `the log's score is ${values} for ${seats}, the hands' sum is ${[...sums.values()].join("|")}`;
}

/** Counts of one player, over all his hands or over those at one position. */
class Figures {
  constructor() {
    this.hands = this.turns = this.voluntary = this.raised = 0;
    this.actions = this.aggressive = this.flops = this.showdowns = this.won = 0;
    this.chips = this.mean = this.squares = 0;
    this.worst = this.best = null;
  }

  /** Counts a hand for the player at a position. */
  add(hand, position) {
    const value = hand.payoffs[position];
    this.hands += 1;
    this.chips += value;
    const step = value - this.mean;
    this.mean += step / this.hands;
    this.squares += step * (value - this.mean);
    if (!this.worst || value < this.worst.value) this.worst = { value, hand, hands: 0 };
    if (value === this.worst.value) this.worst.hands += 1;
    if (!this.best || value > this.best.value) this.best = { value, hand };
    this.addActions(hand.actions.filter((action) => action.position === position));
    this.addShowdown(hand, position);
  }

  addActions(actions) {
    const before = actions.filter((action) => action.round === 0);
    const after = actions.filter((action) => action.round > 0 && action.kind !== "check");
    const isRaise = ({ kind }) => kind === "raise" || kind === "bet";
    this.turns += before.length > 0 ? 1 : 0;
    this.voluntary += before.some((action) => action.kind === "call" || isRaise(action)) ? 1 : 0;
    this.raised += before.some(isRaise) ? 1 : 0;
    this.actions += after.length;
    this.aggressive += after.filter(isRaise).length;
  }

  addShowdown(hand, position) {
    const hasFlop = hand.betting.includes("/");
    const foldedBefore = hand.actions.some((action) => action.position === position && action.round === 0 && action.kind === "fold");
    if (!hasFlop || foldedBefore) return;
    this.flops += 1;
    if (!hand.isShowdown || !hand.unfolded.includes(position)) return;
    this.showdowns += 1;
    this.won += hand.winners.has(position) ? 1 : 0;
  }

  /** Returns the standard deviation of a hand's chips, about their mean; null below two hands. */
  deviation() {
    return this.hands < 2 ? null : Math.sqrt(this.squares / (this.hands - 1));
  }

  /** Returns thousandths of the greatest blind a hand, and half the width of their 95 % interval, null below two hands. */
  rate(blind) {
    const scale = 1000 / blind;
    const deviation = this.deviation();
    const half = deviation === null ? null : (NORMAL_95 * deviation * scale) / Math.sqrt(this.hands);
    return { rate: (scale * this.chips) / this.hands, half };
  }
}

/** Returns each player's figures by name: over all hands, and by position. */
function figuresOf(hands, players) {
  const all = new Map();
  for (const hand of hands.filter((one) => !one.isBroken)) {
    hand.names.forEach((name, position) => {
      if (!all.has(name)) all.set(name, { total: new Figures(), positions: Array.from({ length: players }, () => new Figures()) });
      all.get(name).total.add(hand, position);
      all.get(name).positions[position].add(hand, position);
    });
  }
  return all;
}

/** Returns each player's chips by name: before the first of the hands, and after each; or these less his luck. */
function coursesOf(hands, isLessLuck = false) {
  const courses = new Map();
  for (const name of hands.flatMap((hand) => hand.names)) {
    if (!courses.has(name)) courses.set(name, [0]);
  }
  for (const { names, payoffs, lucks } of hands) {
    for (const [name, course] of courses) {
      const position = names.indexOf(name);
      const chips = position < 0 ? 0 : payoffs[position] - (isLessLuck ? lucks[position] : 0);
      course.push(course[course.length - 1] + chips);
    }
  }
  return courses;
}

/** Returns the chips of a player in a hand; with no name the winnings of who won most. Undefined where he isn't in it. */
function chipsIn(hand, name) {
  return name ? hand.payoffs[hand.names.indexOf(name)] : Math.max(...hand.payoffs);
}

/** Whether a hand is one that is asked for: of a player, or of anybody where no name is given. */
function isWanted(hand, { player, isShowdown, isAllIn, lost }) {
  const places = player ? [hand.names.indexOf(player)] : [...hand.names.keys()];
  if (places[0] < 0) return false;
  if (isShowdown && !(hand.isShowdown && places.some((position) => hand.unfolded.includes(position)))) return false;
  if (isAllIn && !places.some((position) => hand.allIn[position])) return false;
  return lost === null || places.some((position) => hand.payoffs[position] < -lost);
}

const ORDERS = {
  number: () => 0,
  last: (one, other) => other.match - one.match || other.number - one.number,
  lost: (one, other, player) => least(one, player) - least(other, player),
  won: (one, other, player) => chipsIn(other, player) - chipsIn(one, player),
  pot: (one, other) => other.pot - one.pot,
};

function least(hand, name) {
  return name ? chipsIn(hand, name) : Math.min(...hand.payoffs);
}

/** Returns the hands that are asked for, in the order asked for; hands that tie stay by number. */
function chosenHands(hands, filter) {
  const order = ORDERS[filter.order];
  return hands.filter((hand) => isWanted(hand, filter)).sort((one, other) => order(one, other, filter.player));
}
