// Draws the course of chips: a line for each player, and the band of one of them.

const STYLES = 10;
const DASHES = ["", "7 4", "3 3", "9 3 2 3", "14 3 2 3 2 3"];
const MARGIN = { right: 26, top: 12, bottom: 30 };
/** About how wide a digit of a mark is, in pixels. */
const LETTER = 7.2;
/** A longer course than of twice so many hands is drawn by so many stretches. */
const POINTS = 600;
const MARKS = 5;

/** Returns a round distance of marks of which about five fit into a span. */
function roundStep(span) {
  const unit = 10 ** Math.max(0, Math.floor(Math.log10(Math.max(1, span / MARKS))));
  return [1, 2, 5, 10].map((factor) => factor * unit).find((step) => step * MARKS >= span);
}

/** Returns the places of a course to draw: all, or of a long one the least and the greatest of each stretch. */
function drawnPlaces(course) {
  if (course.length <= 2 * POINTS) return [...course.keys()];
  const places = new Set([0, course.length - 1]);
  const width = course.length / POINTS;
  for (let stretch = 0; stretch < POINTS; stretch++) {
    let low = Math.floor(stretch * width);
    let high = low;
    for (let at = low; at < Math.min(course.length, Math.floor((stretch + 1) * width)); at++) {
      if (course[at] < course[low]) low = at;
      if (course[at] > course[high]) high = at;
    }
    places.add(low).add(high);
  }
  return [...places].sort((one, other) => one - other);
}

/** Returns how far up the band reaches after so many hands. */
function bandAt(deviation, hands) {
  return NORMAL_95 * deviation * Math.sqrt(hands);
}

/** Draws the course into the chart at its width. `marked` counts the hands up to the one that is shown, 0 for none. */
function drawCourse(courses, deviation, marked) {
  const chart = byId("chart");
  const [width, height] = [chart.clientWidth || 600, chart.clientHeight || 300];
  const hands = [...courses.values()][0].length - 1;
  const most = [...courses.values()].flatMap(extremes);
  const reach = deviation === null ? 0 : bandAt(deviation, hands);
  const [low, high] = [Math.min(-reach, ...most), Math.max(reach, 1, ...most)];
  const left = 16 + LETTER * Math.max(...marksOf(low, high).map((mark) => chipsText(mark).length));
  const across = (hand) => left + ((width - left - MARGIN.right) * hand) / Math.max(1, hands);
  const up = (chips) => height - MARGIN.bottom - ((height - MARGIN.top - MARGIN.bottom) * (chips - low)) / (high - low);
  const scale = { across, up, low, high, hands, width, height, left };
  chart.setAttribute("viewBox", `0 0 ${width} ${height}`);
  const band = deviation === null ? null : bandShape(scale, deviation);
  const lines = [...courses.values()].map((course, place) => courseShape(scale, course, place));
  refill(chart, band, axes(scale), lines, marked > 0 ? markerShape(scale, marked) : null);
  return (x) => Math.round(((x - left) * hands) / Math.max(1, width - left - MARGIN.right));
}

/** Returns the round amounts from a least to a greatest one that are marked. */
function marksOf(low, high) {
  const step = roundStep(high - low);
  const first = Math.ceil(low / step);
  return Array.from({ length: Math.floor(high / step) - first + 1 }, (_, place) => (first + place) * step);
}

/** Returns the least and the greatest amount of a course, which begins with 0. */
function extremes(course) {
  let [low, high] = [0, 0];
  for (const chips of course) {
    low = Math.min(low, chips);
    high = Math.max(high, chips);
  }
  return [low, high];
}

function bandShape({ across, up, hands }, deviation) {
  const places = Array.from({ length: 61 }, (_, step) => (hands * step) / 60);
  const upper = places.map((hand) => `${across(hand).toFixed(1)},${up(bandAt(deviation, hand)).toFixed(1)}`);
  const lower = places.map((hand) => `${across(hand).toFixed(1)},${up(-bandAt(deviation, hand)).toFixed(1)}`).reverse();
  return shape("polygon", { class: "band", points: [...upper, ...lower].join(" ") });
}

function markerShape({ across, height }, hand) {
  const x = across(hand);
  return shape("line", { class: "marker", x1: x, x2: x, y1: MARGIN.top, y2: height - MARGIN.bottom });
}

/** Returns how the line of a player at a place of the legend looks. */
function lineStyle(place) {
  return { class: `line line-${place % STYLES}`, "stroke-dasharray": DASHES[place % DASHES.length] || null };
}

function courseShape({ across, up }, course, place) {
  const points = drawnPlaces(course).map((hand) => `${across(hand).toFixed(1)},${up(course[hand]).toFixed(1)}`);
  return shape("polyline", { ...lineStyle(place), points: points.join(" ") });
}

function axes({ across, up, low, high, hands, width, height, left }) {
  const parts = marksOf(low, high).flatMap((mark) => [
    shape("line", { class: `grid ${mark === 0 ? "is-zero" : ""}`, x1: left, x2: width - MARGIN.right, y1: up(mark), y2: up(mark) }),
    shape("text", { x: left - 8, y: up(mark) + 4, "text-anchor": "end" }, chipsText(mark)),
  ]);
  const count = roundStep(Math.max(1, hands) * (width < 480 ? 2 : 1));
  for (let mark = 0; mark <= hands; mark += count) {
    parts.push(shape("text", { x: across(mark), y: height - 10, "text-anchor": "middle" }, chipsText(mark)));
  }
  return parts;
}

/** Draws the legend: a button for each player, with his line and his chips; the one whose band is shown is pressed. */
function drawLegend(courses, chosen, choose) {
  const items = [...courses].map(([name, course], place) => {
    const line = shape("line", { ...lineStyle(place), x1: 0, x2: 28, y1: 4, y2: 4 });
    const button = element("button", { type: "button", "aria-pressed": String(name === chosen) },
      shape("svg", { viewBox: "0 0 28 8", "aria-hidden": "true" }, line),
      element("span", { class: "who" }, name),
      valueElement(Math.round(course[course.length - 1])));
    button.addEventListener("click", () => choose(name));
    return button;
  });
  refill(byId("legend"), items);
}
