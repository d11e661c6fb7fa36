// Runs the page's script without a page: node tests/replay_rules.js FILE.. reads the files, which are the parts of the script
// that use no document, and answers each line of standard input, {"game": TEXT, "lines": [LINE, ..]}, by a line of JSON: payoffs
// and differences, and with "filters" also figures, courses, steps, and the hands that each filter chooses; with "lucks" courses less
// luck, and equities.
"use strict";
const fs = require("fs");
const vm = require("vm");
const readline = require("readline");

const script = process.argv.slice(2).map((path) => fs.readFileSync(path, "utf8")).join("\n");
const names = "readGame, readMatch, figuresOf, coursesOf, stepsOf, chosenHands, equitiesOf";
const page = vm.runInThisContext(`(() => { "use strict"; ${script}; return { ${names} }; })()`);

function figure({ total }) {
  const { voluntary, turns, raised, aggressive, actions, showdowns, flops, won, chips, hands, worst } = total;
  return {
    hands, chips, vpip: [voluntary, turns], pfr: [raised, turns], aggression: [aggressive, actions], went: [showdowns, flops],
    won: [won, showdowns], worst: [worst.value, worst.hand.number], rate: total.rate(100),
  };
}

/** What each player may expect when each later round's cards are dealt. */
function equities(game, hand) {
  return page.stepsOf(game, hand).filter(({ kind }) => kind === "round").map((step) => page.equitiesOf(hand, step));
}

function answer({ game: text, lines, filters, lucks }) {
  const game = page.readGame(text);
  const match = page.readMatch(game, lines, 0, lucks);
  const answered = {
    payoffs: match.hands.map(({ payoffs }) => payoffs),
    differences: match.differences.map(({ hand, text: why }) => `${hand ? hand.number : "score"}: ${why}`),
  };
  if (lucks) {
    const courses = Object.fromEntries(page.coursesOf(match.hands, true));
    return { ...answered, courses, equities: match.hands.map((hand) => equities(game, hand)) };
  }
  if (!filters) return answered;
  const figures = page.figuresOf(match.hands, game.players);
  return {
    ...answered,
    figures: Object.fromEntries([...figures].map(([name, some]) => [name, figure(some)])),
    positions: Object.fromEntries([...figures].map(([name, { positions }]) => [name, positions.map((total) => figure({ total }))])),
    courses: Object.fromEntries(page.coursesOf(match.hands)),
    steps: match.hands.map((hand) => page.stepsOf(game, hand)),
    lists: filters.map((filter) => page.chosenHands(match.hands, filter).map(({ number }) => number)),
  };
}

readline.createInterface({ input: process.stdin }).on("line", (line) => console.log(JSON.stringify(answer(JSON.parse(line)))));
