// Draws a run that was put into lanes, as the text of an SVG. Pure functions.
import * as Lanes from "../front/run/lanes.mjs";
import * as Terms from "../front/run/terms.mjs";
import { plural } from "../front/text/plural.mjs";
import * as StepWords from "./step_words.mjs";
import * as WhyWords from "./why_words.mjs";

const LIGHT = {
  ground: "#ffffff", ink: "#1c2430", dim: "#5d6775", grid: "#eceff3", read: "#2470bf", woke: "#c2410c", named: "#8a3ffc", made: "#8a94a3",
  leaf: "#3a4250", number: "#ffffff", ready: "#1d7f45", waits: "#667080", failed: "#c81e1e", held: "#80651b", taken: "#667080",
  predicates: ["#2f6fb2", "#a9590b", "#2f7d4b", "#a2549e", "#b8443f", "#3a7380", "#85663a", "#5f64ae", "#5a7518", "#b04a78"],
};
const DARK = {
  ground: "#12171e", ink: "#e6edf3", dim: "#94a0ae", grid: "#212934", read: "#58a6ff", woke: "#ff9352", named: "#c4a1ff", made: "#758190",
  leaf: "#c3ccd6", number: "#10151b", ready: "#4cc57e", waits: "#9aa5b3", failed: "#ff6b6b", held: "#d7b455", taken: "#8b97a5",
  predicates: ["#6aa9ec", "#f0a75a", "#63c18a", "#cf86cc", "#ec7d76", "#86c5d4", "#c9ab72", "#a3a8f0", "#b3d46a", "#f09abf"],
};
const THEMES = { light: LIGHT, dark: DARK };
const MOST_WITH_CLEAR_CURVES = 120; // steps; of longer runs no curve looks for a way past others
const FONT = "Inter, 'DejaVu Sans', Helvetica, Arial, sans-serif";

const escaped = (text) => String(text).replace(/&/g, "&amp;").replace(/</g, "&lt;").replace(/>/g, "&gt;").replace(/"/g, "&quot;");
const round = (number) => Math.round(number * 10) / 10;

/** The colour of each predicate, in the order in which they come in the program. */
function coloursOf(run, theme) {
  const names = [...new Set(run.clauses.map((clause) => clause.predicate))];
  const colours = new Map(names.map((name, index) => [name, theme.predicates[index % theme.predicates.length]]));
  return (predicate) => colours.get(predicate) || theme.leaf;
}

function style(view, theme, scope) {
  const { sizes } = view, isTiny = sizes.kind === "tiny";
  const text = `<style>
.run text{font-family:${FONT}}
.run .lane{stroke-width:${isTiny ? 1.4 : sizes.kind === "dense" ? 2.5 : 4};stroke-linecap:round;opacity:.5;fill:none}
.run .read{fill:none;stroke:${theme.read};stroke-width:${isTiny ? 0.8 : 1.5};opacity:.8}
.run .implied{opacity:.2}
.run .woke{stroke:${theme.woke};stroke-dasharray:${isTiny ? "3 2" : "6 3"};opacity:.95}
.run .named{stroke:${theme.named};stroke-dasharray:${isTiny ? "4 1.5 1 1.5" : "8 3 1.5 3"}}
.run .made{fill:none;stroke:${theme.made};stroke-width:${isTiny ? 0.8 : 1.4}}
.run .held{fill:none;stroke:${theme.held};stroke-width:1.3;stroke-dasharray:2 3}
.run .circle{stroke:${theme.failed};stroke-dasharray:none;stroke-width:1.8}
.run .number{font-size:${round(sizes.radius * 0.9)}px;fill:${theme.number};font-weight:600;text-anchor:middle;pointer-events:none}
.run .bound{paint-order:stroke;stroke:${theme.ground};stroke-width:3px}
.run .halo{fill:none;stroke:none;stroke-width:3;pointer-events:all}
.run .mark,.run .goal,.run .taken,.run .bar,.run .coming,.run [data-types]{cursor:pointer}
.run [data-types]:hover{text-decoration:underline}
.run .hit .halo{stroke:${theme.named};stroke-width:3;opacity:.9}
.run .mark:hover .halo,.run .goal:hover .halo,.run .taken:hover .halo{stroke:${theme.held};opacity:.6}
.run.looking .mark,.run.looking .edge,.run.looking .fork{opacity:.13}
.run.looking .cause,.run.looking .effect,.run.looking .chosen{opacity:1}
.run .cause .halo{stroke:${theme.read};stroke-width:1.5}
.run .effect .halo{stroke:${theme.woke};stroke-width:1.5}
.run .chosen .halo{stroke:${theme.ink};stroke-width:3}
.run .way .halo{stroke:${theme.held};stroke-width:3;stroke-dasharray:3 2}
.run.looking .way{opacity:1}
.run.asking .mark{opacity:.5}
.run.asking .edge,.run.asking .fork{opacity:.35}
.run.asking .right{opacity:.13}
.run.asking .asked,.run.asking .chosen{opacity:1}
.run .asked .halo{stroke:${theme.read};stroke-width:2.5}
.run .alone .halo{stroke:${theme.named};stroke-width:2.5;stroke-dasharray:4 2}
.run .or .halo{stroke:${theme.woke};stroke-width:3;stroke-dasharray:1.5 3}
.run .going .halo{stroke:${theme.failed};stroke-width:3.5}
</style>`;
  return scope === "run" ? text : text.replace(/^\.run/gm, `.${scope}`).replace(/,\.run /g, `,.${scope} `);
}

function arrowHead(name, colour, size) {
  return `<marker id="${name}" viewBox="0 0 8 8" refX="7" refY="4" markerWidth="${size}" markerHeight="${size}" orient="auto"><path d="M0 .8L7.5 4L0 7.2z" fill="${colour}"/></marker>`;
}

function heads(view, theme) {
  const size = view.sizes.kind === "tiny" ? 5 : 6;
  return `<defs>${arrowHead("head-read", theme.read, size)}${arrowHead("head-woke", theme.woke, size)}${arrowHead("head-named", theme.named, size)}${arrowHead("head-held", theme.held, 6)}${arrowHead("head-circle", theme.failed, 5)}</defs>`;
}

function drawAxis(view, theme) {
  const y = view.top - 12;
  const name = view.by === "depth" ? "chain of causes" : "recorded order";
  const ticks = view.ticks.filter((tick) => tick.x - String(tick.text).length * 3 > view.left - 8).map((tick) => `<text x="${round(tick.x)}" y="${y}" text-anchor="middle" font-size="10" fill="${theme.dim}">${tick.text}</text>`);
  return `<g class="axis"><rect x="0" y="0" width="${round(view.width)}" height="${view.top - 6}" fill="${theme.ground}"/>${ticks.join("")}<text x="${round(view.isAbove ? 12 : view.left - 10)}" y="${view.isAbove ? y - 12 : y}" text-anchor="${view.isAbove ? "start" : "end"}" font-size="10" fill="${theme.dim}">${name}</text></g>`;
}

const drawGrid = (view, theme) => view.ticks
  .map((tick) => `<line x1="${round(tick.x)}" x2="${round(tick.x)}" y1="${view.top - 6}" y2="${round(view.bottom)}" stroke="${theme.grid}"/>`).join("");

/** The line of a lane, in the colour of what the process was at each place, dashed up to a goal that is there. */
function drawLane(view, lane, colour) {
  const marks = lane.steps.map((step) => view.marks.get(step.number)).filter((mark) => mark.row === 0);
  const parent = lane.parent && view.marks.get(lane.parent.number);
  let x = parent ? parent.x + view.sizes.dx * 0.45 : lane.asked ? marks[0].x : view.left - 4;
  const parts = [];
  const line = (to, predicate, dashes) => {
    if (to > x) parts.push(`<line class="lane" x1="${round(x)}" x2="${round(to)}" y1="${round(lane.y)}" y2="${round(lane.y)}" stroke="${colour(predicate)}"${dashes}/>`);
    x = Math.max(x, to);
  };
  for (const mark of marks) line(mark.x, (view.kinds.get(mark.step.goal) || {}).predicate, "");
  for (const goal of lane.goals) {
    if (view.rows.get(goal.name) === 0) line(view.thereX, (view.kinds.get(goal.name) || {}).predicate, ' stroke-dasharray="2 6"');
  }
  return parts.join("");
}

function drawFork(view, lane) {
  if (!lane.parent) return "";
  const { x, y } = view.marks.get(lane.parent.number), { dx } = view.sizes;
  const middle = round((y + lane.y) / 2), end = round(x + dx * 0.45);
  const child = lane.steps.length > 0 ? ` data-to="${lane.steps[0].number}"` : "";
  return `<g class="fork" data-from="${lane.parent.number}"${child}><path class="made" d="M${round(x)} ${round(y)} C${round(x + dx * 0.2)} ${middle} ${round(x)} ${round(lane.y)} ${end} ${round(lane.y)}"/></g>`;
}

function drawName(view, lane, theme, colour) {
  const first = lane.predicates[0], { sizes, isAbove } = view, y = isAbove ? lane.y - sizes.radius - (sizes.kind === "roomy" ? 5 : 15) : lane.y + sizes.font * 0.35;
  const clear = isAbove ? ` paint-order="stroke" stroke="${theme.ground}" stroke-width="3"` : "";
  return `<text x="12" y="${round(y)}" font-size="${sizes.font}"${clear}><tspan fill="${theme.dim}">${lane.name}</tspan> <tspan font-weight="600" fill="${first ? colour(first) : theme.ink}">${escaped(lane.text)}</tspan></text>`;
}

/** The lanes that have room for a name: where they stand closer than letters are high, not each of them. */
function lanesWithRoom(view) {
  let end = -Infinity;
  return [...view.lanes].sort((one, other) => one.y - other.y).filter((lane) => {
    const hasRoom = lane.y >= end;
    if (hasRoom) end = lane.y + view.sizes.font;
    return hasRoom;
  });
}

function drawNames(view, theme, colour) {
  const names = lanesWithRoom(view).map((lane) => drawName(view, lane, theme, colour)).join("");
  return `<g class="names"><rect x="0" y="${view.top - 6}" width="${view.isAbove ? 0 : round(view.left - 8)}" height="${round(view.bottom - view.top + 6)}" fill="${theme.ground}"/>${names}</g>`;
}

/** The way of a line by which a step made what another one took; lanes and forks show it for processes, so this is for the small ones. */
function drawMade(view, edge) {
  const from = view.marks.get(edge.from), to = view.marks.get(edge.to);
  if (to.row === 0) return "";
  const x = round(from.x), y = round(to.y);
  return `<g class="edge" data-from="${edge.from}" data-to="${edge.to}"><path class="made" d="M${x} ${round(from.y)} C${x} ${y} ${x} ${y} ${round(to.x)} ${y}"/></g>`;
}

/** The line from its maker to a small goal that is there. */
function drawMadeGoal(view, place) {
  const maker = view.makerOf.get(place.goal.name);
  if (!maker || view.rows.get(place.goal.name) === 0) return "";
  const from = view.marks.get(maker.number), x = round(from.x), y = round(place.y);
  return `<g class="edge" data-from="${maker.number}"><path class="made" stroke-dasharray="2 4" d="M${x} ${round(from.y)} C${x} ${y} ${x} ${y} ${round(Math.min(x + view.sizes.dx * 0.5, place.x))} ${y} H${round(place.x - view.sizes.radius)}"/></g>`;
}

/** The four points of a curve between two places of one height, which bows up (`way` is -1) or down (1); it ends beside a circle. */
function bowedCurve(view, from, to, gap, way) {
  const { leaf } = view.sizes, wide = to.x - from.x, bow = way * (Math.min(26, 8 + wide * 0.22) + 6);
  return [[from.x, from.y + way * leaf], [from.x + wide * 0.2, from.y + bow], [to.x - wide * 0.2, to.y + bow], [to.x - gap * 0.6, to.y + way * gap * 0.8]];
}

/** Curves between two places, the one that is wanted first, then one that falls late, and one that falls early. */
function curvesOf(view, from, to) {
  const gap = (to.isLeaf ? view.sizes.leaf : view.sizes.radius) + 1.5, wide = to.x - from.x, high = to.y - from.y;
  if (Math.abs(high) < 3) return [bowedCurve(view, from, to, gap, -1), bowedCurve(view, from, to, gap, 1)];
  const { leaf } = view.sizes, sign = Math.sign(high), bend = Math.min(wide * 0.5, 60);
  const start = [from.x + leaf * 0.5, from.y + sign * leaf * 0.5], end = [to.x - gap * 0.75, to.y - sign * gap * 0.66];
  return [
    [start, [from.x + bend, from.y + high * 0.25], [end[0] - bend, end[1] - high * 0.12], end],
    [start, [from.x + wide * 0.75, from.y], [end[0] - wide * 0.08, from.y + high * 0.3], end],
    [start, [from.x + wide * 0.1, from.y + high * 0.7], [from.x + wide * 0.25, end[1]], end],
  ];
}

/** The point of a curve at a part of its length, from 0 to 1. */
function pointOn([start, first, second, end], part) {
  const rest = 1 - part, shares = [rest ** 3, 3 * rest ** 2 * part, 3 * rest * part ** 2, part ** 3];
  const sum = (axis) => shares[0] * start[axis] + shares[1] * first[axis] + shares[2] * second[axis] + shares[3] * end[axis];
  return { x: sum(0), y: sum(1) };
}

/** How many marks a curve runs into, but those that it joins. */
function hits(view, curve, from, to) {
  const near = (mark, point) => Math.hypot(mark.x - point.x, mark.y - point.y) < (mark.isLeaf ? view.sizes.leaf : view.sizes.radius) + 3;
  const points = Array.from({ length: 19 }, (none, index) => pointOn(curve, (index + 1) / 20));
  const others = [...view.marks.values()].filter((mark) => mark !== from && mark !== to && mark.x > from.x && mark.x < to.x);
  return others.filter((mark) => points.some((point) => near(mark, point))).length;
}

/** The curve from the step that bound or made to the step that read or named: of a small run, one that runs into few others. */
function curveOf(view, from, to) {
  const curves = curvesOf(view, from, to);
  if (view.sizes.kind !== "roomy" || view.marks.size > MOST_WITH_CLEAR_CURVES) return curves[0];
  const counts = curves.map((curve) => hits(view, curve, from, to));
  return curves[counts.indexOf(Math.min(...counts))];
}

/** A curve as the path of an SVG. */
function pathOf(curve) {
  const [start, ...others] = curve.map((place) => place.map(round).join(" "));
  return `M${start} C${others.join(" ")}`;
}

/** What is said of an arrow where one points at it: who named what another made, or read what that bound. */
function tellArrow(run, { from, to, kind, variables, woke }) {
  if (kind === "named") return `step ${to} named ${variables.join(", ")}, which step ${from} made`;
  const bound = run.graph.byNumber.get(from).binds.filter(({ variable }) => variables.includes(variable));
  const woken = woke ? ", and was woken by it" : "";
  const values = bound.map(({ variable, term }) => `${variable} = ${Terms.cut(term, 200)}`);
  return [`step ${to} read ${variables.join(", ")}, which step ${from} bound${woken}`, ...values].join("\n");
}

/** An arrow to a step that read what another bound, or that named what another made. */
function drawArrow(view, run, edge) {
  const from = view.marks.get(edge.from), to = view.marks.get(edge.to), look = edge.woke ? "woke" : edge.kind;
  const kind = `read${look === "read" ? "" : ` ${look}`}${edge.implied && !edge.woke ? " implied" : ""}`;
  return `<g class="edge" data-from="${edge.from}" data-to="${edge.to}"><path class="${kind}" d="${pathOf(curveOf(view, from, to))}" marker-end="url(#head-${look})"/>${view.hasTitles ? `<title>${escaped(view.shown(tellArrow(run, edge)))}</title>` : ""}</g>`;
}

/** Whether both ends of an edge lie in one bar. */
function isInside(view, edge) {
  const from = view.marks.get(edge.from), to = view.marks.get(edge.to);
  return from.isFolded && to.isFolded && from.lane === to.lane;
}

const drawEdge = (view, run, edge) => (edge.kind === "made" ? drawMade(view, edge) : drawArrow(view, run, edge));

/** What is said of a step where one points at it. */
function tellStep(run, step) {
  const lines = [`step ${step.number}: ${StepWords.of(step)}`];
  if (run.texts.has(step.goal)) lines.push(Terms.cut(run.texts.get(step.goal), 300));
  if (step.clause && run.clauses[step.clause - 1]) lines.push(run.clauses[step.clause - 1].text);
  for (const binding of step.binds) lines.push(`binds ${binding.variable} = ${Terms.cut(binding.term, 200)}`);
  for (const key of ["reads", "names", "makes"]) if (step[key].length > 0) lines.push(`${key} ${step[key].join(", ")}`);
  const lost = WhyWords.lostBy(run).get(step.number);
  if (lost !== undefined) lines.push(`lets ${lost.join(", ")} go, which nobody binds`);
  return lines.join("\n");
}

function hexagon(x, y, radius, fill) {
  const half = radius * 0.55, high = round(radius * 0.95);
  return `<path class="body" d="M${round(x - half)} ${round(y - high)}H${round(x + half)}L${round(x + radius * 1.1)} ${round(y)}L${round(x + half)} ${round(y + high)}H${round(x - half)}L${round(x - radius * 1.1)} ${round(y)}z" fill="${fill}"/>`;
}

function shapeOf(mark, sizes, fill) {
  const { x, y, step } = mark, { radius, leaf } = sizes;
  if (step.kind === "unify") return `<path class="body" d="M${round(x)} ${round(y - leaf)}l${leaf} ${leaf}l-${leaf} ${leaf}l-${leaf} -${leaf}z" fill="${fill}"/>`;
  if (step.kind === "assign") return `<rect class="body" x="${round(x - leaf * 0.85)}" y="${round(y - leaf * 0.85)}" width="${round(leaf * 1.7)}" height="${round(leaf * 1.7)}" fill="${fill}"/>`;
  if (step.kind === "reduce") return `<circle class="body" cx="${round(x)}" cy="${round(y)}" r="${round(radius)}" fill="${fill}"/>`;
  if (step.kind === "ask") return hexagon(x, y, radius, fill);
  const high = round(radius * 0.8), long = round(radius * 1.3), tip = round(radius * 0.7);
  return `<path class="body" d="M${round(x - radius)} ${round(y - high)}h${long}l${tip} ${high}l-${tip} ${high}h-${long}z" fill="${fill}"/>`;
}

/** The bar of a lane that is folded: from its first step to its last, with how many there are. */
function drawBar(view, lane, theme, colour) {
  if (!lane.isFolded || lane.steps.length === 0) return "";
  const places = lane.steps.map((step) => view.marks.get(step.number).x), left = Math.min(...places) - view.sizes.radius, right = Math.max(...places) + view.sizes.radius;
  const high = Math.max(4, view.sizes.radius * 1.7), words = plural(lane.steps.length, "step"), fill = lane.predicates[0] ? colour(lane.predicates[0]) : theme.leaf;
  const label = right - left > words.length * 6 + 8 ? `<text x="${round((left + right) / 2)}" y="${round(lane.y + 3.5)}" font-size="10" text-anchor="middle" fill="${theme.number}" pointer-events="none">${words}</text>` : "";
  return `<g class="bar" data-unfold="${lane.name}"><rect x="${round(left)}" y="${round(lane.y - high / 2)}" width="${round(right - left)}" height="${round(high)}" rx="3" fill="${fill}"/>${label}<title>${words} of ${lane.name} and what came of it: a click unfolds them</title></g>`;
}

const LEAST_LEGEND = 320; // points
const SMALL = { font: 8.5, letter: 5.4, most: 250 }; // numbers above small marks: points, and steps at most
const LEAST_BELOW = 10; // points below a leaf that hold what it bound
const LEAST_LETTER = 5.5; // points of a number that can be read
const ROOM_OF_COMING = 8; // points between the axis and the lanes
const MOST_COMING = 3; // arrows from outside that are drawn to one step

/** The ends of arrows from steps outside the window, each with the number of the step that it comes from where there is room. */
function drawComing(view, edges, theme) {
  const counts = new Map(), { sizes } = view, parts = [], ends = edges.map((edge) => view.marks.get(edge.to)).filter(Boolean);
  const hasRoom = (mark, wide) => sizes.kind === "roomy" && !view.isAbove && mark.x - wide > view.left - sizes.radius && !ends.some((other) => other.y === mark.y && other.x < mark.x && other.x > mark.x - wide);
  for (const edge of edges) {
    const mark = view.marks.get(edge.to), at = counts.get(edge.to) || 0;
    if (!mark || (edge.kind === "made" && mark.row === 0) || at >= MOST_COMING) continue;
    counts.set(edge.to, at + 1);
    const look = edge.woke ? "woke" : edge.kind, size = mark.isLeaf ? sizes.leaf : sizes.radius, long = Math.min(24, sizes.dx * 0.6 + 5) + at * 4;
    const x = round(mark.x - long), y = round(mark.y - size - 9 - at * 5), end = `${round(mark.x - size * 0.7)} ${round(mark.y - size * 0.8)}`;
    const path = edge.kind === "made" ? `<path class="made" stroke-dasharray="2 3" d="M${x} ${y} Q${round(mark.x - size)} ${y} ${end}"/>`
      : `<path class="read${look === "read" ? "" : ` ${look}`}" d="M${x} ${y} Q${round(mark.x - size)} ${y} ${end}" marker-end="url(#head-${look})"/>`;
    const label = at === 0 && hasRoom(mark, long + String(edge.from).length * SMALL.letter + 4) ? `<text x="${x - 2}" y="${y + 3}" font-size="8.5" text-anchor="end" fill="${theme.dim}">${edge.from}</text>` : "";
    parts.push(`<g class="edge coming" data-from="${edge.from}" data-to="${edge.to}" data-goto="${edge.from}">${path}${label}</g>`);
  }
  return parts.join("");
}

/** Beside each step that let a variable go which nobody binds, a cross: its lane ends there. */
function drawLost(view, run, theme) {
  const size = Math.max(2, round(view.sizes.radius * 0.4)), shape = `l${2 * size} ${2 * size}m0 ${-2 * size}l${-2 * size} ${2 * size}`;
  return [...WhyWords.lostBy(run).keys()].filter((number) => view.marks.get(number)?.isFolded === false).map((number) => {
    const { x, y } = view.marks.get(number), from = `${round(x + view.sizes.radius + 2)} ${round(y - size)}`;
    return `<path class="lost" data-lost="${number}" d="M${from}${shape}" fill="none" stroke="${theme.failed}" stroke-width="2"/>`;
  }).join("");
}

function drawMark(view, run, mark, theme, colour) {
  if (mark.isFolded) return "";
  const { sizes } = view, { step } = mark;
  const fill = step.kind === "reduce" ? colour((view.kinds.get(step.goal) || {}).predicate) : theme.leaf;
  const halo = (mark.isLeaf ? sizes.leaf : sizes.radius) + 4;
  const letters = String(step.number).length, letter = Math.min(sizes.radius * 0.9, (sizes.radius * 3) / letters), isRead = sizes.kind === "roomy" && !mark.isLeaf && letter >= LEAST_LETTER;
  const size = letter < sizes.radius * 0.9 ? ` style="font-size:${round(letter)}px"` : "";
  const number = isRead ? `<text class="number"${size} x="${round(mark.x)}" y="${round(mark.y + sizes.radius * 0.33)}">${step.number}</text>` : "";
  return `<g class="mark" data-step="${step.number}"><circle class="halo" cx="${round(mark.x)}" cy="${round(mark.y)}" r="${round(halo)}"/>${shapeOf(mark, sizes, fill)}${number}${view.hasTitles ? `<title>${escaped(view.shown(tellStep(run, step)))}</title>` : ""}</g>`;
}

/** Whether a number can stand at a place: neither over a mark nor behind the axis. */
function hasRoomAt(view, x, y, half) {
  const { sizes } = view, size = ({ isLeaf }) => (isLeaf ? sizes.leaf : sizes.radius), high = SMALL.font * 0.75;
  const isBeside = (mark) => Math.abs(mark.x - x) < half - 2 + size(mark);
  const isOver = (mark) => isBeside(mark) && mark.y + size(mark) > y - high + 1 && mark.y - size(mark) < y - 1;
  return y - high >= view.top - 6 && ![...view.marks.values()].some((mark) => !mark.isFolded && isOver(mark));
}

/** Above marks that are too small to hold their numbers: as many of these as have room side by side. */
function drawSmallNumbers(view, theme) {
  const { sizes } = view, ends = new Map(), texts = [];
  if (sizes.kind === "roomy" || view.marks.size > SMALL.most) return "";
  for (const mark of [...view.marks.values()].filter((one) => one.row === 0 && !one.isFolded).sort((one, other) => one.x - other.x)) {
    const half = (String(mark.step.number).length * SMALL.letter) / 2 + 2, y = round(mark.y - sizes.radius - 3);
    if (mark.x - half < (ends.has(y) ? ends.get(y) : view.left) || !hasRoomAt(view, mark.x, y, half)) continue;
    ends.set(y, mark.x + half);
    texts.push(`<text class="small" x="${round(mark.x)}" y="${y}" font-size="${SMALL.font}" text-anchor="middle" fill="${theme.dim}" stroke="${theme.ground}" stroke-width="2.5" paint-order="stroke" pointer-events="none">${mark.step.number}</text>`);
  }
  return texts.join("");
}

/** Below a binding or a sum: what was bound, as much of it as there is room for before the next one. */
function drawBindings(view, theme) {
  if (view.sizes.kind !== "roomy" || view.sizes.leafRow < 2 * view.sizes.leaf + LEAST_BELOW) return "";
  const leaves = [...view.marks.values()].filter((mark) => mark.isLeaf && !mark.isFolded && mark.step.binds.length > 0);
  const rows = new Map(leaves.map((mark) => [Math.round(mark.y), []]));
  for (const mark of leaves.sort((one, other) => one.x - other.x)) rows.get(Math.round(mark.y)).push(mark);
  const drawn = (mark, index, row) => drawBinding(view, mark, row[index + 1], theme);
  return [...rows.values()].flatMap((row) => row.map(drawn)).join("");
}

function drawBinding(view, mark, next, theme) {
  const binding = mark.step.binds[mark.step.binds.length - 1], value = Terms.brief(binding.term, new Map());
  const end = view.goals.size > 0 ? view.thereX - view.sizes.radius : view.width;
  const room = next ? next.x - mark.x : Math.min(150, end - mark.x), letters = Math.floor((room - 4) / 5.6);
  const isTelling = /[a-z0-9]|\[\]/.test(value), name = view.shown(binding.variable);
  const forms = [`${name}=${view.shown(binding.term)}`, ...(isTelling ? [`${name}=${value}`, value] : []), name];
  const text = forms.find((form) => form.length <= letters);
  if (!text) return "";
  return `<text class="bound" data-types="${binding.variable}" x="${round(mark.x - view.sizes.leaf)}" y="${round(mark.y + view.sizes.leaf + 10)}" font-size="9" fill="${theme.dim}">${escaped(text)}</text>`;
}

function drawGoal(view, place, theme) {
  const { goal, x, y, label } = place, { sizes } = view, radius = round(sizes.radius * 0.85);
  const colour = goal.status === "stream" ? theme.read : theme[goal.status] || theme.waits; // of a goal that was there once no status is known
  const dashes = goal.status === "waits" || goal.status === "then" ? ' stroke-dasharray="3 2.4"' : "";
  const cross = goal.status === "failed" ? `<path d="M${round(x - 4)} ${round(y - 4)}l8 8m0 -8l-8 8" stroke="${colour}" stroke-width="2"/>` : "";
  const told = view.shown(`${goal.name} ${goal.status}${goal.waitsFor.length ? ` for ${goal.waitsFor.join(", ")}` : ""}${goal.refusal ? ` ${goal.refusal}` : ""}\n${Terms.cut(goal.text, 300)}`);
  const text = label ? `<text x="${round(x + sizes.radius + 6)}" y="${round(y + sizes.font * 0.35)}" font-size="${sizes.font}" fill="${colour}">${escaped(label)}</text>` : "";
  return `<g class="goal" data-goal="${goal.name}"><circle class="halo" cx="${round(x)}" cy="${round(y)}" r="${round(sizes.radius + 4)}"/><circle class="body" cx="${round(x)}" cy="${round(y)}" r="${radius}" fill="${theme.ground}" stroke="${colour}" stroke-width="${sizes.kind === "tiny" ? 1 : 2.2}"${dashes}/>${cross}${text}<title>${escaped(told)}</title></g>`;
}

function drawTaken(view, place, theme) {
  const { step, x, y } = place, radius = round(view.sizes.radius * 0.9);
  return `<g class="taken" data-taken="${step.number}"><circle class="halo" cx="${round(x)}" cy="${round(y)}" r="${radius + 3}"/><circle class="body" cx="${round(x)}" cy="${round(y)}" r="${radius}" fill="${theme.ground}" stroke="${theme.taken}" stroke-width="1.5" stroke-dasharray="3 2"/>${view.sizes.kind === "tiny" ? "" : `<text x="${round(x)}" y="${round(y + 3)}" font-size="${round(view.sizes.radius * 0.85)}" text-anchor="middle" fill="${theme.dim}" pointer-events="none">${step.number}</text>`}<title>${escaped(view.shown(`undone: step ${step.number}, ${StepWords.of(step)}`))}</title></g>`;
}

/** The arc from a waiting goal to a goal that has its variable. */
function drawWait(view, wait, theme) {
  const { x, fromX, fromY, toX, toY } = wait, sign = Math.sign(toY - fromY) || 1;
  const bend = Math.min(10, Math.abs(toY - fromY) / 2) * sign;
  const path = `M${round(fromX)} ${round(fromY)} H${round(x - 10)} Q${round(x)} ${round(fromY)} ${round(x)} ${round(fromY + bend)} V${round(toY - bend)} Q${round(x)} ${round(toY)} ${round(x - 10)} ${round(toY)} H${round(toX)}`;
  const kind = wait.isInCircle ? "circle" : "held", colour = wait.isInCircle ? theme.failed : theme.held;
  return `<g class="wait" data-from-goal="${wait.from}" data-to-goal="${wait.to}"><path class="held ${wait.isInCircle ? "circle" : ""}" d="${path}" marker-end="url(#head-${kind})"/><text x="${round(x + 3)}" y="${round((fromY + toY) / 2 + 3)}" font-size="9.5" fill="${colour}" data-types="${wait.variable}">${escaped(view.shown(wait.variable))}</text><title>${escaped(view.shown(`${wait.from} waits for ${wait.variable}, which ${wait.to} has`))}</title></g>`;
}

/** That not all arcs are drawn, where that is so. */
const arcsLeft = ({ waits }) => (waits?.left > 0 ? `; arcs of ${plural(waits.left, "goal")} are left out` : "");

/** What the shapes, colours and lines stand for: pairs of a small drawing and its words. */
function legendItems(run, theme, colour) {
  const used = new Set(run.graph.steps.map((step) => step.kind));
  const names = [...new Set(run.clauses.map((clause) => clause.predicate))].slice(0, 8);
  const items = names.map((name) => [`<circle cx="8" r="6" fill="${colour(name)}"/>`, Lanes.shortName(name)]);
  items.push([`<path d="M8 -6l6 6l-6 6l-6 -6z" fill="${theme.leaf}"/>`, "= binds"]);
  if (used.has("assign")) items.push([`<rect x="3" y="-5" width="10" height="10" fill="${theme.leaf}"/>`, ":= computes"]);
  if (used.has("input") || used.has("close")) items.push([`<path d="M1 -5h8l5 5l-5 5h-8z" fill="${theme.leaf}"/>`, "input"]);
  if (used.has("ask")) items.push([hexagon(8, 0, 6, theme.leaf), "ask"]);
  items.push([`<path d="M0 0h16" stroke="${theme.made}" stroke-width="2"/>`, "made"]);
  items.push([`<path d="M0 0h16" stroke="${theme.read}" stroke-width="2"/>`, "read"]);
  items.push([`<path d="M0 0h16" stroke="${theme.woke}" stroke-width="2" stroke-dasharray="5 3"/>`, "read, and was woken"]);
  const isFaint = ({ kind, implied, woke }) => kind !== "made" && implied && !woke;
  const faint = `<path d="M0 0h16" stroke="${theme.read}" stroke-width="2" opacity=".3"/>`;
  if (run.arrowsLeft === 0 && run.graph.edges.some(isFaint)) items.push([faint, "read, as other lines tell, too"]);
  if (run.arrowsLeft > 0) items.push(["", `${plural(run.arrowsLeft, "arrow")} left out, which other lines tell`]);
  if (run.graph.edges.some((edge) => edge.kind === "named")) items.push([`<path d="M0 0h16" stroke="${theme.named}" stroke-width="2" stroke-dasharray="8 3 1.5 3"/>`, "named"]);
  if (run.goals.some((goal) => goal.status === "ready")) items.push([`<circle cx="8" r="5" fill="none" stroke="${theme.ready}" stroke-width="2"/>`, "ready"]);
  if (run.goals.some((goal) => goal.status === "waits")) items.push([`<circle cx="8" r="5" fill="none" stroke="${theme.waits}" stroke-width="2" stroke-dasharray="3 2.4"/>`, `waits${arcsLeft(run)}`]);
  return items;
}

function drawLegend(view, run, room, theme, colour) {
  const widest = Math.min(Math.max(view.width, Math.min(room, 760)), Math.max(room, LEAST_LEGEND)), parts = [];
  let x = 14, y = view.bottom + 20, width = 0;
  for (const [drawing, words] of legendItems(run, theme, colour)) {
    const wide = 36 + words.length * 6.6;
    if (x + wide > widest && x > 14) {
      x = 14;
      y += 20;
    }
    parts.push(`<g transform="translate(${round(x)} ${round(y)})">${drawing}<text x="20" y="4" font-size="11" fill="${theme.dim}">${escaped(words)}</text></g>`);
    x += wide;
    width = Math.max(width, x);
  }
  return { text: `<g class="legend">${parts.join("")}</g>`, bottom: y + 18, width };
}

/** What somebody hears who does not see the picture. */
const describe = (run) => `${plural(run.graph.steps.length, "step")}, ${plural(run.goals.length, "goal")} there`;

/** On a lane's own row a faint line leads from the name to where the process or the ask begins. */
function drawLeader(view, lane, theme) {
  const begins = lane.parent || lane.asked;
  if (!begins) return "";
  return `<line x1="${round(view.left - 8)}" x2="${round(view.marks.get(begins.number).x)}" y1="${round(lane.y)}" y2="${round(lane.y)}" stroke="${theme.grid}" stroke-dasharray="2 4"/>`;
}

/**
 * The text of an SVG of a run. `options`: `by` is `record` or `depth`, `room` the width that there is, `theme` is `light` or `dark`,
 * `high` the height that all is to fit into (if it is), `isWhole` whether the whole width of a short run is to be seen, `title` a line above it, `legend` whether to say below it what all stands for, `titles` whether steps and reads carry words that a
 * browser shows where one points (they do unless it is false), `leastColumns` how many columns there are at least, and `scope` the class
 * of the picture, by which its styles go, and `shown` what puts names in the place of a text's variables. Gives the text and the places
 * of what it shows.
 */
function draw(given, options) {
  const { by = "record", scope = "run", title, shown = (text) => text, ...how } = options, room = options.room || 1100;
  const run = { ...given, shown }, theme = THEMES[options.theme || "light"], colour = coloursOf(run, theme);
  const coming = run.incoming ?? [], top = title ? 62 : 34, first = top + (coming.length > 0 ? ROOM_OF_COMING : 0);
  const laid = /** @type {any} */ (Lanes.layout(run, { ...how, by, room, top: first }));
  const view = { ...laid, top, hasTitles: options.titles !== false, shown };
  const showsImplied = view.sizes.kind !== "tiny" && run.graph.steps.length <= 500;
  const edges = run.graph.edges.filter((edge) => showsImplied || edge.kind === "made" || !edge.implied || edge.woke);
  run.arrowsLeft = run.graph.edges.length - edges.length;
  const legend = options.legend ? drawLegend(view, run, room, theme, colour) : { text: "", bottom: view.bottom + 12, width: 0 };
  view.width = Math.max(view.width, legend.width, title ? 28 + title.length * 10 : 0);
  const width = Math.ceil(view.width), height = Math.ceil(legend.bottom);
  const parts = [
    `<svg xmlns="http://www.w3.org/2000/svg" class="${scope}" viewBox="0 0 ${width} ${height}" width="${width}" height="${height}" role="img" aria-label="${describe(run)}">`,
    style(view, theme, scope), heads(view, theme), `<rect width="${width}" height="${height}" fill="${theme.ground}"/>`, drawGrid(view, theme),
    ...view.lanes.map((lane) => drawLeader(view, lane, theme) + drawLane(view, lane, colour) + drawFork(view, lane)),
    ...view.lanes.map((lane) => drawBar(view, lane, theme, colour)),
    ...edges.filter((edge) => !isInside(view, edge)).map((edge) => drawEdge(view, run, edge)), drawComing(view, coming, theme), ...[...view.goals.values()].map((place) => drawMadeGoal(view, place)),
    ...[...view.marks.values()].map((mark) => drawMark(view, run, mark, theme, colour)), drawLost(view, run, theme), drawBindings(view, theme), drawSmallNumbers(view, theme),
    ...[...view.goals.values()].map((place) => drawGoal(view, place, theme)), ...view.taken.map((place) => drawTaken(view, place, theme)),
    ...view.waits.map((wait) => drawWait(view, wait, theme)),
    drawNames(view, theme, colour), drawAxis(view, theme), legend.text,
    title ? `<text x="14" y="27" font-size="17" font-weight="600" fill="${theme.ink}">${escaped(title)}</text>` : "", "</svg>",
  ];
  return { svg: parts.filter(Boolean).join("\n"), view };
}

export { draw, tellStep, tellArrow, coloursOf, THEMES };
