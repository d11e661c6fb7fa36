// Draws the list of hands and the table of figures.

const HANDS_ON_PAGE = 25;

const COLUMNS = [
  { id: "hands", title: "Hands", meaning: "Hands played." },
  {
    id: "vpip", title: "VPIP", part: "voluntary", whole: "turns", name: "Voluntarily put in pot",
    meaning: "Share of hands in which he called or raised before the flop by choice; blinds and checks don't count. "
      + "Of hands in which he had a turn there.",
  },
  {
    id: "pfr", title: "PFR", part: "raised", whole: "turns", name: "Preflop raise",
    meaning: "Share of hands in which he raised before the flop. Of the same hands as VPIP.",
  },
  {
    id: "aggression", title: "Aggression", part: "aggressive", whole: "actions",
    meaning: "Bets and raises, of all his actions on flop, turn and river except checks.",
  },
  {
    id: "went", title: "Went to showdown", part: "showdowns", whole: "flops",
    meaning: "How often he and another hadn't folded at the end. "
      + "Of hands in which he hadn't folded when the flop came, also when all were all-in before.",
  },
  {
    id: "won", title: "Won at showdown", part: "won", whole: "showdowns",
    meaning: "How often he got chips of a pot at those showdowns. His own chips that nobody called, and that came back, don't count.",
  },
  { id: "chips", title: "Chips", meaning: "Chips won or lost in all." },
  {
    id: "rate", title: "mbb/hand", name: "Thousandths of the greatest blind a hand",
    meaning: "1000 × chips / greatest blind, on average over his hands. ± 1.96 s / √hands: s is the standard deviation over his hands. "
      + "In 95 of 100 such matches the true rate is within.",
  },
  { id: "worst", title: "Lost most", meaning: "The most that he lost in one hand, and that hand. Where several hands cost as much, how many there are, and the first." },
];

/** Draws one page of the list of hands. `address` gives a hand's address. */
function drawList(list, page, player, isMany, address, current) {
  const heads = player ? [["Hand"], [player, "number"], ["Cards"]] : [["Hand"], ["Winner"]];
  heads.push(["Pot", "number"], ["Ended"]);
  refill(byId("list-head"), heads.map(([text, kind]) => element("th", { scope: "col", class: kind || null }, text)));
  const shown = list.slice(page * HANDS_ON_PAGE, (page + 1) * HANDS_ON_PAGE);
  refill(byId("list-body"), shown.map((hand) => listRow(hand, player, isMany, address(hand), hand === current)));
  const pages = Math.max(1, Math.ceil(list.length / HANDS_ON_PAGE));
  byId("page").textContent = `${page + 1} of ${pages}`;
  byId("pager").hidden = pages === 1;
  byId("page-back").disabled = page === 0;
  byId("page-forward").disabled = page + 1 >= pages;
}

function listRow(hand, player, isMany, address, isCurrent) {
  const position = player ? hand.names.indexOf(player) : hand.payoffs.indexOf(Math.max(...hand.payoffs));
  const chips = valueElement(hand.payoffs[position]);
  const winner = element("span", { class: "winner" }, hand.names[position]);
  const link = { href: address, "aria-current": isCurrent ? "true" : null };
  const hole = hand.holes[position];
  const cards = hole ? cardsElement(hole) : element("span", { class: "quiet" }, "hidden");
  const tag = hand.allIn.some(Boolean) ? [" ", element("span", { class: "tag" }, "all-in")] : null;
  return element("tr", { class: isCurrent ? "is-current" : null },
    element("th", { scope: "row" }, element("a", link, isMany ? `${hand.match + 1}/${hand.number}` : String(hand.number))),
    player ? element("td", { class: "number" }, chips) : element("td", {}, winner, " ", chips),
    player ? element("td", {}, cards) : null,
    element("td", { class: "number" }, chipsText(hand.pot)),
    element("td", {}, endText(hand), tag));
}

/** Says how many hands the list has. */
function countText(list, all) {
  const of = list.length === all.length ? "" : ` of ${chipsText(all.length)}`;
  return `${chipsText(list.length)}${of} ${all.length === 1 ? "hand" : "hands"}`;
}

/** Draws each player's figures, with a row for each position below where that is asked for. */
function drawFigures(game, figures, isByPosition, handLink) {
  const heads = COLUMNS.map(({ title, name = null }) => element("th", { scope: "col", title: name }, title));
  refill(byId("figures-head"), element("th", { scope: "col" }, "Player"), heads);
  const rows = [...figures].flatMap(([name, { total, positions }]) => [
    figuresRow(game, element("th", { scope: "row" }, name), total, handLink),
    isByPosition ? positions.map((some, position) => figuresRow(game, positionHead(game, position), some, handLink, "by-position")) : [],
  ]);
  refill(byId("figures-body"), rows);
  refill(byId("meanings"), COLUMNS.map(({ title, name, meaning }) => [
    element("dt", {}, title, name ? element("span", {}, ` ${name}`) : null),
    element("dd", {}, meaning),
  ]));
}

function positionHead(game, position) {
  return element("th", { scope: "row" }, positionText(game, position));
}

function figuresRow(game, head, figures, handLink, kind = null) {
  const cells = COLUMNS.map((column) => element("td", { "data-title": column.title }, figureCell(game, column, figures, handLink)));
  return element("tr", { class: kind }, head, cells);
}

/** Returns what a cell shows: a figure, and in small letters what it is of, how far it may be off, or where it was. */
function figureCell(game, { id, part, whole }, figures, handLink) {
  const small = (...parts) => element("small", {}, parts);
  if (part) return [percentText(figures[part], figures[whole]), small(`${chipsText(figures[part])} of ${chipsText(figures[whole])}`)];
  if (id === "hands") return chipsText(figures.hands);
  if (figures.hands === 0) return "–";
  if (id === "chips") return valueElement(figures.chips);
  if (id === "worst") return worstCell(figures.worst, handLink);
  const { rate, half } = figures.rate(Math.max(...game.blinds));
  return [valueElement(Math.round(rate)), half === null ? null : small(`± ${chipsText(Math.round(half))}`)];
}

/** Returns the most that was lost in a hand, in how many hands it was if in several, and the first of them. */
function worstCell({ value, hand, hands }, handLink) {
  if (value >= 0) return "–";
  const many = hands > 1 ? `${chipsText(hands)} hands, first ` : "";
  return [valueElement(value), element("small", {}, many, handLink(hand))];
}
