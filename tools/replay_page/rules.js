// The rules of a match as docs/RULES.md has them: game files, lines of logs, betting, ranking, pots. Cards are numbers
// from 0 to 51, positions and rounds count from 0, amounts are whole chips over the whole hand. No document is used here.

const RANKS = "23456789TJQKA";
const SUITS = "cdhs";
const MOST_CHIPS = 2147483647;
const BOARD_CARDS = [0, 3, 4, 5];
const ROUNDS = 4;
const FLUSH_CARDS = 5;
const FIVE = 3;
const ACE = 12;

/** Returns the values of a game file that `check` accepts, with what a missing key means. */
function readGame(text) {
  const keys = new Map();
  for (const line of text.toLowerCase().split("\n")) {
    const words = line.split("#")[0].replace(/=/g, " ").trim().split(/\s+/);
    if (words[0] === "end") break;
    keys.set(words[0], words.slice(1).map(Number));
  }
  const players = keys.get("numplayers")[0];
  const first = keys.get("firstplayer") || Array(ROUNDS).fill(1);
  return {
    players,
    isLimit: !keys.has("nolimit"),
    stacks: keys.get("stack") || Array(players).fill(MOST_CHIPS),
    blinds: keys.get("blind") || Array(players).fill(0),
    sizes: keys.get("raisesize") || [],
    first: first.map((place) => place - 1),
  };
}

function readCards(text) {
  return (text.match(/../g) || []).map((card) => 4 * RANKS.indexOf(card[0]) + SUITS.indexOf(card[1]));
}

/** Returns the fields of a STATE line. Hole cards that the page doesn't have are null. */
function readState(line) {
  const [, number, betting, cards, values, names] = line.split(":");
  const [holes, ...board] = cards.split("/");
  return {
    number: Number(number),
    betting,
    holes: holes.split("|").map((hole) => (hole ? readCards(hole) : null)),
    board: readCards(board.join("")),
    values: values.split("|").map(Number),
    names: names.split("|"),
  };
}

/** A hand's betting so far, by position. */
class Betting {
  constructor(game) {
    this.game = game;
    this.positions = [...game.blinds.keys()];
    this.spent = [...game.blinds];
    this.folded = game.blinds.map(() => false);
    this.round = 0;
    this.text = "";
    this.isOver = false;
    this.beginRound();
  }

  beginRound() {
    this.before = [...this.spent];
    this.raises = 0;
    this.owing = new Set(this.positions.filter((position) => this.isLive(position)));
    this.toAct = this.nextLive(this.game.first[this.round]);
  }

  unfolded() {
    return this.positions.filter((position) => !this.folded[position]);
  }

  /** Whether a player has neither folded nor put in his stack. */
  isLive(position) {
    return !this.folded[position] && this.spent[position] < this.game.stacks[position];
  }

  /** Returns the first live position from one on, round the table; -1 if there is none. */
  nextLive(from) {
    const places = this.positions.map((step) => (from + step) % this.game.players);
    return places.find((position) => this.isLive(position)) ?? -1;
  }

  /** Takes an action of the betting text for the player to act, and returns what he did. */
  act(word) {
    const position = this.toAct;
    const most = Math.max(...this.spent);
    const kind = this.kindOf(word, most);
    const to = kind === "fold" ? this.spent[position] : this.amountOf(word, most);
    const action = { position, kind, to, added: to - this.spent[position], round: this.round };
    this.spent[position] = to;
    this.folded[position] = kind === "fold";
    action.isAllIn = action.added > 0 && to === this.game.stacks[position];
    this.text += word;
    this.owing.delete(position);
    if (word[0] === "r") {
      this.raises += 1;
      this.owing = new Set(this.positions);
      this.owing.delete(position);
    }
    this.findNext();
    return action;
  }

  kindOf(word, most) {
    if (this.isOver || !/^(f|c|r\d*)$/.test(word)) throw new Error(`${word || "nothing"} can't be played here`);
    if (word === "f") return "fold";
    if (word === "c") return this.spent[this.toAct] === most ? "check" : "call";
    return this.round > 0 && this.raises === 0 ? "bet" : "raise";
  }

  /** Returns what the player to act has in after a call or a raise. */
  amountOf(word, most) {
    const stack = this.game.stacks[this.toAct];
    if (word === "c") return Math.min(most, stack);
    return this.game.isLimit ? Math.min(most + this.game.sizes[this.round], stack) : Number(word.slice(1));
  }

  /** Finds who is to act next, in this round or the next one, and writes the slashes. */
  findNext() {
    this.owing = new Set([...this.owing].filter((position) => this.isLive(position)));
    const live = this.positions.filter((position) => this.isLive(position)).length;
    if (this.unfolded().length === 1) {
      this.isOver = true;
    } else if (this.owing.size > 0) {
      this.toAct = this.nextLive(this.toAct + 1);
    } else if (live < 2 || this.round === ROUNDS - 1) {
      this.isOver = true;
      this.text += "/".repeat(ROUNDS - 1 - this.round);
    } else {
      this.round += 1;
      this.text += "/";
      this.beginRound();
    }
  }
}

/** Returns the top rank of the best straight among cards, or -1. */
function straightTop(cards) {
  const has = new Set(cards.map((card) => card >> 2));
  const below = (rank) => (rank < 0 ? ACE : rank);
  for (let top = ACE; top >= FIVE; top--) {
    if ([0, 1, 2, 3, 4].every((step) => has.has(below(top - step)))) return top;
  }
  return -1;
}

/** Returns [rank, cards of it] for each rank among cards, by how many there are and then by height. */
function groupsOf(cards) {
  const groups = new Map();
  for (const card of cards) groups.set(card >> 2, [...(groups.get(card >> 2) || []), card]);
  return [...groups].sort(([rank, some], [other, others]) => others.length - some.length || other - rank);
}

/** Returns the first cards of so many of each rank, the ranks in the order given. */
function picked(cards, ranks, count) {
  return ranks.flatMap((rank, place) => cards.filter((card) => card >> 2 === rank).slice(0, count[place] || 1));
}

function straightCards(cards, top) {
  return picked(cards, [0, 1, 2, 3, 4].map((step) => (top < step ? ACE : top - step)), []);
}

/** Returns the value of the best five of five to seven cards: category, ranks to compare, and the five cards. */
function bestOf(cards) {
  const flush = [0, 1, 2, 3].map((suit) => cards.filter((card) => card % 4 === suit)).find((some) => some.length >= FLUSH_CARDS);
  const flushTop = flush ? straightTop(flush) : -1;
  if (flushTop >= 0) return { category: 8, ranks: [flushTop], cards: straightCards(flush, flushTop) };
  const groups = groupsOf(cards);
  const [first, second] = groups.map(([, some]) => some.length);
  if (first === 4) return grouped(7, cards, groups, [4, 1]);
  if (first === 3 && second >= 2) return grouped(6, cards, groups, [3, 2]);
  if (flush) return grouped(5, flush, groupsOf(flush), [1, 1, 1, 1, 1]);
  const top = straightTop(cards);
  if (top >= 0) return { category: 4, ranks: [top], cards: straightCards(cards, top) };
  if (first === 3) return grouped(3, cards, groups, [3, 1, 1]);
  if (first === 2 && second === 2) return grouped(2, cards, groups, [2, 2, 1]);
  return first === 2 ? grouped(1, cards, groups, [2, 1, 1, 1]) : grouped(0, cards, groups, [1, 1, 1, 1, 1]);
}

/** Returns the value whose ranks come so often: groups in their order, then the highest of the ranks left. */
function grouped(category, cards, groups, count) {
  const order = groups.map(([rank]) => rank);
  const many = count.filter((often) => often > 1).length;
  const rest = order.slice(many).sort((rank, other) => other - rank);
  const ranks = [...order.slice(0, many), ...rest].slice(0, count.length);
  return { category, ranks, cards: picked(cards, ranks, count) };
}

/** Compares two values: above 0 where the first is better, 0 where they tie. */
function compareValues(one, other) {
  if (one.category !== other.category) return one.category - other.category;
  const place = one.ranks.findIndex((rank, at) => rank !== other.ranks[at]);
  return place < 0 ? 0 : one.ranks[place] - other.ranks[place];
}

/** Returns the chips that only one player put in, and his position; null where there are none. They go back to him. */
function uncalledOf(spent) {
  const most = Math.max(...spent);
  const position = spent.indexOf(most);
  const next = Math.max(0, ...spent.filter((_, at) => at !== position));
  return most > next ? { position, chips: most - next } : null;
}

/** Returns the pots, main pot first: chips, and the positions that can win them. */
function potsOf(spent, folded) {
  const levels = [...new Set(spent)].filter((amount) => amount > 0).sort((one, other) => one - other);
  const pots = new Map();
  let low = 0;
  for (const high of levels) {
    const inside = [...spent.keys()].filter((position) => spent[position] >= high);
    const eligible = inside.filter((position) => !folded[position]);
    const pot = pots.get(eligible.join()) || { chips: 0, eligible };
    pot.chips += (high - low) * inside.length;
    pots.set(eligible.join(), pot);
    low = high;
  }
  return [...pots.values()];
}

/** Shares a pot among its best hands in whole chips; odd chips go one each to the first winners by position. */
function sharePot(pot, valueAt) {
  let winners = pot.eligible;
  if (winners.length > 1) {
    const best = winners.map(valueAt).reduce((one, other) => (compareValues(other, one) > 0 ? other : one));
    winners = winners.filter((position) => compareValues(valueAt(position), best) === 0);
  }
  const share = Math.floor(pot.chips / winners.length);
  const odd = pot.chips % winners.length;
  return { ...pot, winners, shares: winners.map((_, place) => share + (place < odd ? 1 : 0)) };
}

/** Returns how a hand ends: uncalled chips, pots with their winners, values of the hands shown, and payoffs. */
function settle(spent, folded, hand) {
  const uncalled = uncalledOf(spent);
  const called = spent.map((amount, position) => amount - (uncalled && uncalled.position === position ? uncalled.chips : 0));
  const unfolded = [...spent.keys()].filter((position) => !folded[position]);
  const isShowdown = unfolded.length > 1;
  const values = hand.holes.map((hole, position) => (isShowdown && !folded[position] ? valueOf(hole, hand.board) : null));
  const pots = potsOf(called, folded).map((pot) => sharePot(pot, (position) => values[position]));
  const payoffs = called.map((amount) => -amount);
  for (const pot of pots) pot.winners.forEach((position, place) => (payoffs[position] += pot.shares[place]));
  return { uncalled, pots, values, payoffs: payoffs.map((chips) => chips || 0), unfolded, isShowdown };
}

function valueOf(hole, board) {
  if (!hole || board.length !== 5) throw new Error("cards that were shown down are missing");
  return bestOf([...hole, ...board]);
}

/** Plays a hand of a log. Throws an Error, with words for a reader, where its betting isn't that of a finished hand. */
function playHand(game, hand) {
  const betting = new Betting(game);
  const actions = (hand.betting.match(/[^/]\d*/g) || []).map((word) => betting.act(word));
  if (!betting.isOver || betting.text !== hand.betting) throw new Error(`the betting ${hand.betting} is played as ${betting.text}`);
  return { actions, spent: betting.spent, ...settle(betting.spent, betting.folded, hand) };
}

/** Returns what is to be seen at each step of a hand: the deal, each action, each later round's cards, the end. */
function stepsOf(game, hand) {
  const betting = new Betting(game);
  const outcome = playHand(game, hand);
  const steps = [pictured(betting, { kind: "deal", round: 0, turn: betting.toAct })];
  for (const word of hand.betting.match(/[^/]\d*/g) || []) {
    const { round, before, text } = betting;
    const action = betting.act(word);
    const isClosed = betting.isOver || betting.round > round;
    const seen = { kind: "act", round, action, turn: isClosed ? -1 : betting.toAct };
    steps.push(pictured({ ...betting, before }, seen));
    const slashes = betting.text.length - text.length - word.length;
    for (let next = round + 1; next <= round + slashes; next++) {
      const back = betting.isOver ? outcome.uncalled : null;
      steps.push(gathered(betting, { kind: "round", round: next, turn: betting.isOver ? -1 : betting.toAct }, back));
    }
  }
  const end = gathered(betting, { kind: "end", round: steps[steps.length - 1].round, turn: -1, outcome }, outcome.uncalled);
  const stacks = outcome.payoffs.map((chips, position) => game.stacks[position] + chips);
  return [...steps, { ...end, stacks, pots: outcome.pots }];
}

/** Returns a step within a round: the bets of the round before each player, the pots of the earlier ones. */
function pictured({ game, spent, before, folded }, step) {
  return {
    ...step,
    folded: [...folded],
    stacks: spent.map((amount, position) => game.stacks[position] - amount),
    bets: spent.map((amount, position) => (step.round === 0 ? amount : amount - before[position])),
    pots: step.round === 0 ? [] : potsOf(before, folded),
    shown: BOARD_CARDS[step.round],
  };
}

/** Returns a step after a round's end: all chips are in the pots, uncalled ones back with their player. */
function gathered({ game, spent, folded }, step, back) {
  const called = spent.map((amount, position) => amount - (back && back.position === position ? back.chips : 0));
  return {
    ...step,
    folded: [...folded],
    stacks: called.map((amount, position) => game.stacks[position] - amount),
    bets: called.map(() => 0),
    pots: potsOf(called, folded),
    shown: BOARD_CARDS[step.round],
  };
}
