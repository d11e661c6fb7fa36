// What each player may expect of the pots while streets are to come, where all hole cards are known. No document is used here.

/** How many cards the pack has. */
const PACK = 52;

/** Calls with each choice of so many of some cards, in their order. */
function eachChoice(cards, count, take, chosen = [], from = 0) {
  if (count === 0) return take(chosen);
  for (let at = from; at <= cards.length - count; at++) eachChoice(cards, count - 1, take, [...chosen, cards[at]], at + 1);
}

/**
 * Returns by position which part of all pots a player may expect at a step, over all boards that may come, each as likely; null
 * where cards are hidden, before the flop, where there are too many boards, and where only one player is left.
 */
function equitiesOf(hand, { pots, folded, shown }) {
  const live = [...folded.keys()].filter((position) => !folded[position]);
  if (shown === 0 || live.length < 2 || !hand.holes.every(Boolean)) return null;
  const board = hand.board.slice(0, shown);
  const gone = new Set([...hand.holes.flat(), ...board]);
  const left = [...Array(PACK).keys()].filter((card) => !gone.has(card));
  const won = folded.map(() => 0);
  let boards = 0;
  eachChoice(left, BOARD_CARDS[ROUNDS - 1] - shown, (more) => {
    const values = folded.map((isFolded, position) => (isFolded ? null : bestOf([...hand.holes[position], ...board, ...more])));
    for (const pot of pots) {
      const { winners, shares } = sharePot(pot, (position) => values[position]);
      winners.forEach((position, place) => (won[position] += shares[place]));
    }
    boards += 1;
  });
  const chips = pots.reduce((sum, pot) => sum + pot.chips, 0);
  return chips === 0 ? null : won.map((amount) => amount / boards / chips);
}
