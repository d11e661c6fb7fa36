// Makes elements. Text always goes in as text nodes.

const SVG = "http://www.w3.org/2000/svg";

function byId(id) {
  return document.getElementById(id);
}

/** Makes an element with attributes and children; texts become text nodes, null children are left out. */
function element(tag, attributes = {}, ...children) {
  return filled(document.createElement(tag), attributes, children);
}

/** Makes an element of a drawing, as `element` does. */
function shape(tag, attributes = {}, ...children) {
  return filled(document.createElementNS(SVG, tag), attributes, children);
}

function filled(made, attributes, children) {
  for (const [name, value] of Object.entries(attributes)) {
    if (value !== null) made.setAttribute(name, value);
  }
  made.append(...children.flat(Infinity).filter((child) => child !== null && child !== ""));
  return made;
}

function refill(parent, ...children) {
  parent.replaceChildren(...children.flat(Infinity).filter((child) => child !== null && child !== ""));
}

/** Makes a card with rank, letter and shape of its suit; with its back up where the card isn't known. */
function cardElement(card, mark = "") {
  if (card === null) return element("span", { class: "card is-back", role: "img", "aria-label": "hidden card" });
  const use = shape("svg", { "aria-hidden": "true" }, shape("use", { href: `#suit-${card % 4}` }));
  const face = element("span", { class: "rank", "aria-hidden": "true" }, RANKS[card >> 2], element("i", {}, SUITS[card % 4]));
  return element("span", { class: `card suit-${card % 4} ${mark}`, role: "img", "aria-label": cardName(card) }, face, use);
}

/** Makes an amount that was won or lost, with its sign, and a word that has the sign too. */
function valueElement(chips, tag = "span") {
  return element(tag, { class: `value ${chips > 0 ? "is-won" : chips < 0 ? "is-lost" : ""}` }, signedText(chips));
}

/** Makes cards as short text, each with the letter of its suit to read. */
function cardsElement(cards) {
  return element("span", { class: "cards-text" }, cards.map((card) =>
    element("span", { class: `suit-${card % 4}`, role: "img", "aria-label": cardName(card), title: cardName(card) }, cardText(card))));
}
