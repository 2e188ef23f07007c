// What of the run is on the screen: the window of a long one, the time up to which it is shown, lanes that are folded
// or alone, and what was looked for; and which steps and goals the picture shows by that. It is state, and draws nothing.
import * as Graph from "../front/run/graph.mjs";
import * as Lanes from "../front/run/lanes.mjs";
import * as Printed from "../front/text/printed.mjs";
import Deeds from "./deeds.mjs";
import { find } from "./elements.mjs";
import State from "./state.mjs";

const LEAST_STEPS = 250; // a shorter run is shown whole
const LEAST_SIZE = 6, MOST_SIZE = 600; // steps in the window
const MOST_GOALS = 120; // that the picture shows
// `size` is null until somebody sets it; `until` is how many steps of the record are shown, null for all of them;
// `earlier` is the run as it was after these, null where the present one stands for it; `only` are goals whose lanes
// alone are shown, null for all; `drawn` is where the picture has its marks, goals and lanes, null where it shows none.
const onScreen = { drawn: null, from: 0, size: null, until: null, earlier: null, only: null, hits: [], folded: new Set(), wasCount: 0 };

/** The run at the time that is on the screen. */
const run = () => onScreen.earlier || State.run;
const count = () => (onScreen.until === null ? run().graph.count : Math.min(onScreen.until, run().graph.count));
const isOn = () => count() > LEAST_STEPS;
/** As many steps as have room side by side, with numbers in them that can be read. */
function usualSize() {
  const room = find("canvas").clientWidth, wide = count() < 10000 ? 27.5 : 37;
  return Lanes.between(LEAST_SIZE, Math.floor((room - (room < 600 ? 70 : 360)) / wide), 60);
}
const size = () => Math.min(onScreen.size === null ? usualSize() : onScreen.size, Math.max(1, count()));
const setFrom = (from) => { onScreen.from = Lanes.between(0, Math.round(from), Math.max(0, count() - size())); };

/** The goals that were there after so many steps, with their texts as far as they are known. */
function goalsAfter(steps) {
  const { graph, goals, texts } = run();
  if (steps >= graph.count) return goals;
  const now = new Map(goals.map((goal) => [goal.name, goal])), there = [];
  const add = (name, consumer) => {
    if (consumer !== undefined && consumer !== Graph.NONE && consumer < steps) return;
    const text = texts.get(name) || (now.get(name) || { text: "" }).text;
    there.push({ name, status: "then", waitsFor: [], refusal: "", text, sort: Printed.sortOfText(text) });
  };
  for (const place of Lanes.queryPlaces(run())) add(`0.${place}`, graph.consumerAt(0, place));
  for (let index = Math.max(0, steps - MOST_SIZE); index < steps; index++) {
    for (const goal of graph.stepAt(index).makes) add(goal, graph.consumerOf(goal));
  }
  return there;
}

/** The dependences of the steps that are shown on steps that are not. */
function incoming(from, to) {
  const { graph } = run(), edges = [];
  const isBefore = (edge) => graph.indexOf(edge.from) < from;
  for (let index = from; index < to; index++) edges.push(...graph.causesAt(index).filter(isBefore));
  return edges;
}

/** Of goals with a lane of their own those that are ready, and then others, as many as a picture can show. */
function fewOf(goals, hasLane) {
  if (goals.length <= MOST_GOALS) return goals.filter(hasLane);
  const few = [];
  for (const isWanted of [(goal) => goal.status === "ready", (goal) => goal.status !== "ready"]) {
    for (const goal of goals) {
      if (few.length === MOST_GOALS) return few;
      if (isWanted(goal) && hasLane(goal)) few.push(goal);
    }
  }
  return few;
}

/** What the picture shows: the whole run, or the steps in the window, with the goals that are there where it reaches the end. */
function shownRun() {
  const whole = run(), { graph, lanes } = whole, isNow = onScreen.until === null, isAlone = onScreen.only !== null;
  if (!isOn() && isNow && onScreen.folded.size === 0 && !isAlone && whole.goals.length <= MOST_GOALS) return whole;
  setFrom(onScreen.from);
  const from = isOn() ? onScreen.from : 0, to = isOn() ? Math.min(count(), from + size()) : count();
  const foldOf = Lanes.foldsOf(lanes, onScreen.folded), laneOfGoal = (goal) => lanes.ofGoal(graph, goal);
  const only = new Set([...onScreen.only ?? []].map(laneOfGoal)), isShown = (lane) => !isAlone || only.has(lane);
  const isOpen = (lane) => lane !== undefined && isShown(lane) && foldOf(lane) === null;
  const goals = to >= count() ? fewOf(goalsAfter(count()), ({ name }) => isOpen(laneOfGoal(name))) : [];
  const placed = Lanes.lanesIn(whole, lanes, from, to, goals, foldOf, isShown), isPart = isOn() || isNow;
  const shelf = isNow && to >= graph.count && !isAlone ? whole.shelf : [], coming = isAlone ? [] : incoming(from, to);
  const part = Graph.partOf(graph, from, to, (index) => isShown(lanes.ofStep[index]));
  return { ...whole, graph: part, store: graph.store, before: from, incoming: coming, goals, shelf, placed, isPart };
}

/** After lines: where steps came, or the window stands beyond the end, it goes to the end. */
function follow(what) {
  Object.assign(onScreen, { until: null, earlier: null, only: null });
  const now = run().graph.count;
  if (what === "start") {
    onScreen.size = null;
    onScreen.folded = new Set();
  }
  onScreen.hits = [];
  if (now !== onScreen.wasCount && (now > onScreen.wasCount || onScreen.from + size() > now)) onScreen.from = now;
  onScreen.wasCount = now;
}

/** Moves the window so that a step is in it; says whether it moved. */
function show(number) {
  const index = State.run.graph.indexOf(number);
  if (onScreen.until !== null && index >= onScreen.until) Deeds.showNow();
  if (!isOn() || index < 0 || (index >= onScreen.from && index < onScreen.from + size())) return false;
  setFrom(index - size() / 2);
  return true;
}

function zoom(factor) {
  const middle = onScreen.from + size() / 2;
  onScreen.size = Lanes.between(LEAST_SIZE, Math.round(size() / factor), MOST_SIZE);
  setFrom(middle - size() / 2);
}

/** The lane of a step or of a goal that is there. */
function laneOf(chosen) {
  const { graph, lanes } = run();
  return chosen.step !== undefined ? lanes.ofStep[graph.indexOf(chosen.step)] : lanes.ofGoal(graph, chosen.goal);
}

/** The step that took a goal; undefined where none did. */
const takerOf = (goal) => State.run.graph.stepAt(State.run.graph.consumerOf(goal));

/** What a roll of a step takes back, with the step itself: how many, and whether a number is one of them. */
function goneWith(number) {
  const { graph } = State.run, { isIn, count } = reachOf(number).effects;
  return { size: count, has: (one) => isIn[graph.indexOf(one)] === 1, isIn };
}

/** How many steps there are in a lane and in all that came of it. */
function stepsUnder(lane) {
  const { lanes } = run(), foldOf = Lanes.foldsOf(lanes, new Set([lane.name]));
  return lanes.lanes.reduce((sum, one) => sum + (foldOf(one) === lane ? one.count : 0), 0);
}

/** Shows as many steps of the record, from its beginning, with the run as it was then; nothing is taken back. */
function showUntil(steps, earlier) {
  onScreen.until = steps >= State.run.graph.count ? null : steps;
  onScreen.earlier = onScreen.until === null ? null : earlier;
  onScreen.from = count();
}

/** As much of the run as a picture can show. */
function fit() {
  onScreen.size = MOST_SIZE;
  setFrom(onScreen.from);
}

let found = { hits: null, isIn: null };

/** For each step by its index, 1 where it is among what was looked for. */
function hitFlags() {
  if (found.hits !== onScreen.hits || found.isIn.length !== run().graph.count) {
    found = { hits: onScreen.hits, isIn: new Uint8Array(run().graph.count) };
    for (const index of onScreen.hits) found.isIn[index] = 1;
  }
  return found.isIn;
}

let reach = { graph: null, version: 0, number: null };

/** The causes and the consequences of a step, by flags for indexes and by count; they are found once for each step that is chosen. */
function reachOf(number) {
  const { graph, version } = run();
  if (reach.graph !== graph || reach.version !== version || reach.number !== number) {
    const index = graph.indexOf(number);
    reach = { graph, version, number, causes: Graph.causesReached(graph, index), effects: Graph.effectsReached(graph, index) };
  }
  return reach;
}

const OnScreen = Object.assign(onScreen, {
  takerOf, goneWith,
  LEAST_STEPS, MOST_SIZE, run, reachOf, incoming, isOn, count, shownRun, follow, show, showUntil, laneOf, stepsUnder, zoom,
  fit, hitFlags, setFrom, sizeNow: size,
});

export default OnScreen;
