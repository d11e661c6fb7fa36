"use strict";
(() => {
  const SUITS = { c: "♣", d: "♦", h: "♥", s: "♠" };
  const ROUNDS = ["before the flop", "flop", "turn", "river"];
  const HANDS_SHOWN = 20;
  const matches = new Map();
  const at = (id) => document.getElementById(id);

  /** An element with a text or with children; a class where one is given. */
  const made = (tag, within, name) => {
    const element = document.createElement(tag);
    element.append(...(Array.isArray(within) ? within : [within]));
    if (name) element.className = name;
    return element;
  };

  const signed = (chips) => (chips > 0 ? `+${chips}` : chips < 0 ? `\u2212${-chips}` : "0");
  const amount = (chips) => made("span", signed(chips), chips > 0 ? "won" : chips < 0 ? "lost" : "");

  /** Cards of a text such as AsKd. */
  const cards = (text) =>
    (text.match(/../g) || []).map((card) => made("span", card[0] + SUITS[card[1]], card[1] === "d" || card[1] === "h" ? "card red" : "card"));

  /** A hand: who won what, with the cards that were shown, and its course. */
  const hand = (it) => {
    const players = it.players.map((player) => made("span", [`${player.name} `, ...cards(player.cards), amount(player.chips)]));
    const rounds = it.rounds
      .filter((round) => round.cards || round.acts.length)
      .map((round) => made("p", [`${ROUNDS[it.rounds.indexOf(round)]}: `, ...cards(round.cards), round.acts.join(", ")]));
    return made("li", [made("p", [made("strong", `hand ${it.number}`)]), made("p", players, "chips"), ...rounds]);
  };

  /** How far a match is, in words. */
  const progress = (it) => {
    if (it.fault) return `not followed any more: ${it.fault}`;
    const hands = `${it.finished} of ${it.hands ?? "?"} hands`;
    if (it.isHeld) return `${hands}; shown when all seatings of this meeting are finished`;
    if (it.isOver) return `over, ${hands}`;
    return it.shown ? `${hands}, shown up to hand ${it.shown - 1}` : hands;
  };

  const chips = (it) => it.players.map((name, seat) => made("span", [`${name} `, amount(it.chips[seat])]));

  const show = (it) => {
    const parts = [made("h2", it.name), made("p", progress(it), "quiet")];
    if (it.chips) parts.push(made("p", chips(it), "chips"));
    if (it.list.length) parts.push(made("ol", it.list.slice().reverse().map(hand)));
    const section = made("section", parts);
    section.dataset.key = it.key;
    section.dataset.finished = it.finished;
    return section;
  };

  const standings = (tables) => {
    const place = at("standings");
    place.hidden = !tables.length;
    place.replaceChildren(
      ...tables.flatMap(({ title, rows }) => [
        made("h2", title),
        made("table", [
          made("thead", made("tr", ["player", "rank", "won", "±"].map((name) => made("th", name)))),
          made("tbody", rows.map((row) => made("tr", [
            made("td", row.player), made("td", String(row.rank ?? "")), made("td", number(row.mean)), made("td", number(row.half)),
          ]))),
        ]),
      ]),
    );
  };
  const number = (value) => (value === null || value === undefined ? "" : Number(value).toFixed(1));

  const all = (data) => {
    document.title = data.title;
    at("title").textContent = data.title;
    const shown = data.isRevealed ? "all hole cards are shown" : "hole cards of showdowns are shown";
    at("about").textContent = `${data.kind}; ${shown}${data.delay ? `, ${data.delay} hands behind` : ""}`;
    matches.clear();
    data.matches.forEach((it) => matches.set(it.key, it));
    standings(data.standings);
    at("matches").replaceChildren(...data.matches.map(show));
  };

  const one = ({ new: hands, ...figures }) => {
    const before = matches.get(figures.key);
    const list = figures.finished < (before?.finished ?? 0) ? [] : before?.list ?? [];
    const it = { ...figures, list: [...list, ...hands].slice(-HANDS_SHOWN) };
    matches.set(it.key, it);
    const old = [...at("matches").children].find((section) => section.dataset.key === it.key);
    if (old) old.replaceWith(show(it));
    else at("matches").append(show(it));
  };

  const link = (text, isLost) => {
    at("link").textContent = text;
    at("link").className = isLost ? "lost" : "";
  };

  const source = new EventSource("events");
  source.onopen = () => link("following", false);
  source.onerror = () => link("the connection is lost, and tried again", true);
  const on = (name, act) => source.addEventListener(name, (event) => act(JSON.parse(event.data)));
  on("whole", all);
  on("match", one);
  on("standings", standings);
})();
