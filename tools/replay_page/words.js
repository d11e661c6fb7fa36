// What the page says of cards, amounts, actions and hands. No document is used here.

const SUIT_NAMES = ["clubs", "diamonds", "hearts", "spades"];
const RANK_NAMES = ["two", "three", "four", "five", "six", "seven", "eight", "nine", "ten", "jack", "queen", "king", "ace"];
const ROUND_NAMES = ["Before the flop", "Flop", "Turn", "River"];

function cardName(card) {
  return `${RANK_NAMES[card >> 2]} of ${SUIT_NAMES[card % 4]}`;
}

/** Returns a card in text, as in A♠. The last letter asks for the sign as a letter and not as a picture. */
function cardText(card) {
  return RANKS[card >> 2] + "♣♦♥♠"[card % 4] + "\uFE0E";
}

function cardsText(cards) {
  return cards.map(cardText).join(" ");
}

function plural(rank) {
  return RANK_NAMES[rank] === "six" ? "sixes" : `${RANK_NAMES[rank]}s`;
}

function grouping(number) {
  return String(Math.abs(number)).replace(/\B(?=(\d{3})+$)/g, ",");
}

/** Returns whole chips with commas. */
function chipsText(chips) {
  return (chips < 0 ? "−" : "") + grouping(chips);
}

/** Returns whole chips with their sign, as in +300, −300 and 0. */
function signedText(chips) {
  return (chips > 0 ? "+" : chips < 0 ? "−" : "") + grouping(chips);
}

function percentText(part, whole) {
  return whole === 0 ? "–" : `${((100 * part) / whole).toFixed(1)} %`;
}

function ranksText(ranks) {
  return ranks.map((rank) => RANKS[rank]).join(" ");
}

/** Returns the ranks that decide between equal hands, as in: king kicker; kickers K 9 8. */
function kickersText(ranks) {
  return ranks.length === 1 ? `${RANK_NAMES[ranks[0]]} kicker` : `kickers ${ranksText(ranks)}`;
}

/** Returns the highest card of a straight or flush, as in: an ace-high. */
function highText(rank) {
  const name = RANK_NAMES[rank];
  return `${/^[ae]/.test(name) ? "an" : "a"} ${name}-high`;
}

/** Returns a hand's value in words, with the ranks that decide between equal ones. */
function valueText({ category, ranks }) {
  const [first, second] = ranks;
  const beside = (from) => `, ${kickersText(ranks.slice(from))}`;
  const words = [
    () => `${RANK_NAMES[first]} high${beside(1)}`,
    () => `a pair of ${plural(first)}${beside(1)}`,
    () => `two pair, ${plural(first)} and ${plural(second)}${beside(2)}`,
    () => `three ${plural(first)}${beside(1)}`,
    () => `${highText(first)} straight`,
    () => `${highText(first)} flush, ${ranksText(ranks)}`,
    () => `a full house, ${plural(first)} over ${plural(second)}`,
    () => `four ${plural(first)}${beside(1)}`,
    () => `${highText(first)} straight flush`,
  ];
  return words[category]();
}

/** Returns what a player does, without his name. */
function actionText({ kind, to, added, isAllIn }) {
  const words = {
    fold: "folds",
    check: "checks",
    call: `calls ${chipsText(added)}`,
    bet: `bets ${chipsText(added)}`,
    raise: `raises to ${chipsText(to)}`,
  };
  return words[kind] + (isAllIn ? ", all-in" : "");
}

/** Returns where a hand ended: at a showdown, or in which round all but one had folded. */
function endText(hand) {
  if (hand.isBroken) return "can't be played";
  const last = hand.actions[hand.actions.length - 1].round;
  return hand.isShowdown ? "Showdown" : ["Before flop", ...ROUND_NAMES.slice(1)][last];
}

function potName(place, count) {
  if (place === 0) return count > 1 ? "Main pot" : "Pot";
  return count > 2 ? `Side pot ${place}` : "Side pot";
}

/** Returns names as in: alice, bob and carol. */
function listed(names) {
  return names.length < 2 ? names.join("") : `${names.slice(0, -1).join(", ")} and ${names[names.length - 1]}`;
}

/** Returns the sentence of a pot: who wins it, by what, and how it is shared. */
function potText(hand, pot, place, count, values) {
  const names = (positions) => listed(positions.map((position) => hand.names[position]));
  const isShared = pot.winners.length > 1;
  const isContested = pot.eligible.length > 1;
  const among = place > 0 && isContested ? ` between ${names(pot.eligible)}` : "";
  const won = isShared ? `share it (${pot.shares.map(chipsText).join(" and ")})` : "wins it";
  const alone = hand.isShowdown ? ": nobody else is in it" : ": everybody else folded";
  const how = isContested ? ` with ${valueText(values[pot.winners[0]])}` : alone;
  return `${potName(place, count)} ${chipsText(pot.chips)}${among}: ${names(pot.winners)} ${won}${how}.`;
}

/** Returns the sentences of a hand's end: uncalled chips, the hands shown, each pot. */
function outcomeTexts(hand, { uncalled, pots, values }) {
  const texts = [];
  if (uncalled) texts.push(`${chipsText(uncalled.chips)} that nobody called go back to ${hand.names[uncalled.position]}.`);
  hand.unfolded.filter((position) => values[position]).forEach((position) => {
    texts.push(`${hand.names[position]} shows ${cardsText(hand.holes[position])}: ${valueText(values[position])}.`);
  });
  pots.forEach((pot, place) => texts.push(potText(hand, pot, place, pots.length, values)));
  return texts;
}

/** Returns what each winner gets of all pots, in words. */
function gainsText(hand, { pots }) {
  const gains = new Map();
  for (const { winners, shares } of pots) {
    winners.forEach((position, place) => gains.set(position, (gains.get(position) || 0) + shares[place]));
  }
  return listed([...gains].map(([position, chips]) => `${hand.names[position]} gets ${chipsText(chips)}`));
}

/** Returns what a position is called: its number, its blind, and the button. */
function positionText(game, position) {
  const blind = game.blinds[position] > 0 ? `blind ${chipsText(game.blinds[position])}` : "no blind";
  return `position ${position}: ${blind}${position === game.players - 1 ? ", button" : ""}`;
}
