// Shows the picture of the run: what is chosen with its causes and effects, keys, and names that stay in sight.
import * as Graph from "../front/run/graph.mjs";
import Deeds from "./deeds.mjs";
import { find } from "./elements.mjs";
import * as Names from "./names.mjs";
import OnScreen from "./on_screen.mjs";
import * as Picture from "./picture.mjs";
import Shown from "./shown.mjs";
import State from "./state.mjs";

const canvas = { way: new Set(), others: new Set(), get chosen() { return Shown.chosen; } };
const LEGEND = 70; // points below the lanes
const LEAST_OF_TWO = 150; // points that each of two runs is high
const HALO = 4; // points around a mark, of its halo
const BESIDE_NAMES = 8; // points between the names and the first column
const TICK_LETTER = 3.2; // points, half the width of a letter of the axis
const OWN_SCROLL = 250; // milliseconds in which the browser tells of a scrolling that the page did
let scrolledAt = -OWN_SCROLL;

/** Gives what a selector finds in the picture the classes that it is to have, by its step's number and all its data. */
function mark(selector, classes) {
  for (const { classList, dataset } of find("canvas").querySelectorAll(selector)) {
    for (const [name, has] of Object.entries(classes)) classList.toggle(name, has(Number(dataset.step), dataset));
  }
}

/**
 * The height into which a picture is to fit, as one of some lanes alone is; undefined where it is as high as it is. Two
 * runs share what there is.
 */
function highOf(area) {
  if (Shown.kept !== null) return Math.max(LEAST_OF_TWO, (area.clientHeight + find("beside").offsetHeight) / 2 - LEGEND);
  return Shown.fit !== "none" || OnScreen.only !== null ? Math.max(120, area.clientHeight - LEGEND) : undefined;
}

/** Draws the run anew, as wide as the window and the zoom say. */
function draw() {
  if (State.refusal || !State.session) {
    find("canvas").textContent = "";
    OnScreen.drawn = null;
    return;
  }
  if (!State.run.isWhole) return; // when all of a change is read, it is drawn
  const area = find("canvas"), isScrolled = area.scrollLeft > 0 || area.scrollTop > 0;
  const room = Math.max(320, area.clientWidth - 8) * (OnScreen.isOn() || Shown.fit !== "none" ? 1 : Shown.zoom);
  const high = highOf(area), tall = area.clientHeight - LEGEND;
  Deeds.drawStrip();
  const drawn = Picture.draw(OnScreen.shownRun(), {
    by: Shown.by, theme: Shown.theme, room, high, tall,
    leastColumns: Shown.by === "depth" ? Deeds.besideColumns() : 0,
    legend: true, titles: false, isWhole: true, shown: Names.shown,
  });
  area.innerHTML = drawn.svg;
  Deeds.drawBeside({ theme: Shown.theme, room, high, titles: false });
  OnScreen.drawn = drawn.view;
  if (Shown.chosen && !isThere(Shown.chosen)) Shown.chosen = null;
  if (isScrolled) stayInSight();
  if (Shown.chosen || Shown.slice || Shown.asked || canvas.way.size > 0 || OnScreen.hits.length > 0) showChosen();
}

const isGoal = (goal) => OnScreen.run().goals.some(({ name }) => name === goal);
const isThere = ({ step, goal }) => (step !== undefined ? State.run.graph.byNumber.has(step) : isGoal(goal));
const placeOf = (chosen) => (chosen.step !== undefined ? OnScreen.drawn.marks.get(chosen.step) : OnScreen.drawn.goals.get(chosen.goal));

/** The element of a step or goal in the picture. */
function elementOf(chosen) {
  if (!chosen) return null;
  return find("canvas").querySelector(chosen.step !== undefined ? `[data-step="${chosen.step}"]` : `[data-goal="${chosen.goal}"]`);
}

/** Lights up the chosen step with all its causes and effects, or a slice; all else is faint. */
function showChosen() {
  const svg = find("canvas").querySelector("svg"), { chosen } = canvas, { graph } = OnScreen.run();
  if (!svg) return;
  const step = chosen && graph.byNumber.has(chosen.step) ? chosen.step : undefined;
  const reach = step ? OnScreen.reachOf(step) : null, amongst = (found) => ({ has: (number) => found.isIn[graph.indexOf(number)] === 1 });
  const lit = reach ? reach.causes : Shown.slice, causes = lit ? amongst(lit) : new Set(), effects = reach ? amongst(reach.effects) : new Set();
  const hits = OnScreen.hitFlags();
  svg.classList.toggle("looking", Boolean(lit));
  mark(".mark", {
    chosen: (number) => number === step || number === Shown.visited,
    cause: (number) => causes.has(number) && number !== step,
    effect: (number) => effects.has(number) && number !== step,
    way: (number) => canvas.way.has(number),
    or: (number) => canvas.others.has(number),
    hit: (number) => hits[graph.indexOf(number)] === 1,
    going: () => false,
  });
  mark(".goal", { chosen: (none, { goal }) => goal === chosen?.goal });
  const isLit = ({ from, to }) => [causes, effects].some((all) => all.has(Number(from)) && all.has(Number(to)));
  mark(".edge, .fork", { cause: (none, ends) => isLit(ends) });
  markAsked(svg, graph);
  Deeds.markLit(lit ? clausesIn(lit, graph) : []);
}

/** The numbers of the clauses by which flagged steps went. */
function clausesIn({ isIn }, graph) {
  const clauses = new Set();
  for (let index = 0; index < isIn.length; index++) if (isIn[index] === 1) clauses.add(graph.clauses.at(index));
  clauses.delete(0);
  return [...clauses].sort((one, other) => one - other);
}

/** Lights the part of the call that is asked about, and dims what was told right. */
function markAsked(svg, graph) {
  const { asked } = Shown, isRight = (number) => asked?.isRight[graph.indexOf(number)] === 1;
  svg.classList.toggle("asking", asked !== null);
  mark(".mark", { right: isRight, asked: (number) => !isRight(number) && asked?.isIn[graph.indexOf(number)] === 1 });
  mark(".goal", { asked: (none, { goal }) => goal === asked?.goal });
}

/** Rings the steps that a roll would take back. */
const ring = (numbers) => mark(".mark", { going: (number) => numbers.has(number) });

/** Rings the steps on the way to a part of a value. */
function markWay(numbers) {
  canvas.way = new Set(numbers);
  mark(".mark", { way: (number) => canvas.way.has(number) });
}

/** Shows what is chosen or lit, also in the strip. */
function showLight() {
  showChosen();
  Deeds.drawStrip();
}

/** Lights the steps of a slice, and rings those of them at which another clause could be chosen. */
function showSlice(numbers, others) {
  const { graph } = State.run, isIn = new Uint8Array(graph.count);
  for (const number of numbers) if (graph.indexOf(number) !== Graph.NONE) isIn[graph.indexOf(number)] = 1;
  showFlags(isIn, numbers.length, others);
}

/** Lights the flagged steps, and rings others. */
function showFlags(isIn, count, others = []) {
  choose(null);
  Shown.slice = { isIn, count };
  canvas.others = new Set(others);
  showLight();
}

/** Goes to one of the steps that are lit, tells of it, and keeps the light. */
function visit(step) {
  if (!State.run.graph.byNumber.has(step)) return;
  Shown.visited = step;
  scrollTo({ step });
  showChosen();
  Deeds.showDetail({ step });
  Deeds.markClause(clauseOf({ step }));
}

/** Lights the part of a call. */
function showAsked(asked) {
  Shown.asked = asked;
  showLight();
}

/** Forgets what was lit beside a chosen step. */
function forget() {
  canvas.way = new Set();
  canvas.others = new Set();
  Shown.slice = null;
  Shown.visited = null;
  Shown.asked = null;
}

/** The clause by which a chosen step went. */
const clauseOf = (chosen) => State.run.clauses[State.run.graph.byNumber.get(chosen?.step)?.clause - 1] ?? null;

function choose(chosen) {
  Shown.chosen = chosen;
  forget();
  showLight();
  Deeds.showDetail(chosen);
  Deeds.markClause(clauseOf(chosen));
}

/** Lane names, the axis and what all stands for stay where one sees them while the picture is scrolled. */
function stayInSight() {
  const area = find("canvas"), svg = area.querySelector("svg"), across = `translate(${area.scrollLeft} 0)`;
  if (!svg) return;
  for (const part of svg.querySelectorAll(".names, .legend")) part.setAttribute("transform", across);
  svg.querySelector(".axis").setAttribute("transform", `translate(0 ${area.scrollTop})`);
  const { left, ticks } = OnScreen.drawn, words = [...svg.querySelectorAll(".axis text")], name = words.pop();
  words.forEach((word, at) => { word.style.display = area.scrollLeft > 0 && ticks[at].x - ticks[at].text.length * TICK_LETTER - area.scrollLeft < left - 6 ? "none" : ""; });
  name.setAttribute("transform", across);
}

/** Scrolls the picture; that closes no menu. */
function scroll(left, top) {
  const area = find("canvas");
  if (Math.abs(left - area.scrollLeft) < 1 && Math.abs(top - area.scrollTop) < 1) return;
  scrolledAt = performance.now();
  area.scrollTo(left, top);
}

const isOwnScroll = () => performance.now() - scrolledAt < OWN_SCROLL;

/**
 * Where to scroll, along one direction, until all from `low` to `high` is in sight, beside what covers the first
 * points; undefined where it has no room there.
 */
function scrollFor(now, room, covered, low, high) {
  return high - low > room - covered ? undefined : Math.max(0, high - room, Math.min(now, low - covered));
}

/** Where to scroll across to see all steps, if not all words behind the last one; undefined where they have no room. */
function acrossAll({ clientWidth }) {
  const { left, sizes, marks: places } = OnScreen.drawn, all = [...places.values()].map(({ x }) => x);
  const around = sizes.radius + HALO;
  return scrollFor(0, clientWidth, left - BESIDE_NAMES, Math.min(...all) - around, Math.max(...all) + around);
}

/** Where to scroll across to see what is there now, at the right; where no goal is there, to see all steps. */
function acrossThere(area) {
  const { thereX, left, goals, marks: places } = OnScreen.drawn, { clientWidth } = area;
  const all = goals.size === 0 && places.size > 0 ? acrossAll(area) : undefined;
  const beyond = thereX - clientWidth + Math.min(clientWidth - left - 40, 260);
  return all ?? Math.max(0, Math.min(beyond, area.scrollWidth - clientWidth));
}

/** After lines: scrolls to what is there now, the goals at the right, and the first that is ready among them. */
function showThere() {
  const area = find("canvas"), places = OnScreen.drawn ? [...OnScreen.drawn.goals.values()] : [];
  if (Shown.chosen !== null || !OnScreen.drawn) return;
  const first = places.find((place) => place.goal.status === "ready") || places[0];
  const isAway = first && (first.y < area.scrollTop + 40 || first.y > area.scrollTop + area.clientHeight - 20);
  scroll(acrossThere(area), isAway ? Math.max(0, first.y - area.clientHeight / 2) : area.scrollTop);
}

/** Scrolls so far that what is chosen is in sight. */
function scrollTo(chosen) {
  const hasMoved = chosen.step !== undefined && OnScreen.show(chosen.step);
  if (hasMoved) draw();
  const area = find("canvas"), place = OnScreen.drawn && placeOf(chosen);
  if (!place) return;
  const { left } = OnScreen.drawn;
  let { scrollLeft: toLeft, scrollTop: toTop } = area;
  if (hasMoved) toLeft = 0;
  if (place.x - left < toLeft) toLeft = Math.max(0, place.x - left - 60);
  if (place.x > toLeft + area.clientWidth - 40) toLeft = place.x - area.clientWidth + 120;
  if (place.y < toTop + 60) toTop = Math.max(0, place.y - 90);
  if (place.y > toTop + area.clientHeight - 30) toTop = place.y - area.clientHeight + 80;
  scroll(toLeft, toTop);
}

/** Scrolls so far that all steps are in sight that are lit; says whether there is room for them. */
function scrollToLit() {
  const area = find("canvas"), { graph } = State.run, { left, top, sizes, marks: places } = OnScreen.drawn;
  const lit = [...places].filter(([number]) => Shown.slice.isIn[graph.indexOf(number)] === 1);
  const endsOf = (values) => [Math.min(...values) - sizes.radius - HALO, Math.max(...values) + sizes.radius + HALO];
  const across = endsOf(lit.map(([, { x }]) => x)), down = endsOf(lit.map(([, { y }]) => y));
  const toLeft = scrollFor(area.scrollLeft, area.clientWidth, left, ...across);
  const toTop = scrollFor(area.scrollTop, area.clientHeight, top, ...down);
  if (toLeft === undefined || toTop === undefined) return false;
  scroll(toLeft, toTop);
  return true;
}

/** All that can be chosen of what is shown, in the order of the picture: the steps, then the goals. */
function choices() {
  if (OnScreen.drawn === null) return [];
  const { marks: steps, goals } = OnScreen.drawn;
  return [...[...steps.keys()].map((step) => ({ step })), ...[...goals.keys()].map((goal) => ({ goal }))];
}

/** What the picture says of a step or of an arrow. */
function wordsFor(element) {
  const run = OnScreen.run(), { graph } = run, { step, from, to, types } = element.dataset;
  if (types !== undefined) return `${types}: a click types it`;
  if (step !== undefined) return Picture.tellStep(run, graph.byNumber.get(Number(step)));
  const edge = to === undefined ? undefined : graph.causes.get(Number(to)).find((one) => one.from === Number(from));
  return edge && edge.kind !== "made" ? Picture.tellArrow(run, edge) : "";
}

/** Puts words on what one points at. A picture that is drawn with all its words takes longer to show. */
function addTitle(element) {
  const found = element.closest("[data-types], [data-step], .edge");
  if (!found || found.querySelector("title")) return;
  const title = document.createElementNS("http://www.w3.org/2000/svg", "title");
  title.textContent = found.dataset.types === undefined ? Names.shown(wordsFor(found)) : wordsFor(found);
  if (title.textContent) found.append(title);
}

const isSame = (one, other) => Boolean(one) && one.step === other.step && one.goal === other.goal;

/** The next one to choose, to the left or right, or along causes and effects. */
function neighbour(key) {
  const all = choices(), at = all.findIndex((choice) => isSame(Shown.chosen, choice));
  if (at < 0) return key === "ArrowLeft" ? all[all.length - 1] : all[0];
  if (key === "ArrowLeft" || key === "ArrowRight") return all[at + (key === "ArrowLeft" ? -1 : 1)];
  if (Shown.chosen.step === undefined) return undefined;
  const edges = key === "ArrowUp" ? OnScreen.run().graph.causes : OnScreen.run().graph.effects;
  const [edge] = edges.get(Shown.chosen.step).slice(-1);
  return edge && { step: key === "ArrowUp" ? edge.from : edge.to };
}

/** What a key does in the picture; says whether it did something. */
function onKey(key) {
  if (key.startsWith("Arrow")) {
    const next = neighbour(key);
    if (next) {
      choose(next);
      scrollTo(next);
    }
    return true;
  }
  if (key !== "Enter" || !Shown.chosen) return false;
  Deeds.openMenu(Shown.chosen, elementOf(Shown.chosen));
  return true;
}

const Canvas = Object.assign(canvas, { draw, choose, forget, markWay, showSlice, showFlags, visit, showAsked, elementOf, showThere, isOwnScroll, scrollTo, scrollToLit, ring, stayInSight, onKey, addTitle });

export default Canvas;
