// What came of a run: whether it is done, has failed, is stuck or goes on, and who waits for whom in a circle, by names
// of processes. Pure.
import * as Printed from "../front/text/printed.mjs";
import { argumentsOf } from "../front/run/explain.mjs";
import * as Graph from "../front/run/graph.mjs";
import * as Lanes from "../front/run/lanes.mjs";
import * as WhyWords from "./why_words.mjs";

/** In one word how a run stands. */
function wordOf({ goals, goalsRefused, graph, why }) {
  const isThere = (status) => goals.some((goal) => goal.status === status);
  if (goalsRefused) return "goes on";
  if (isThere("failed")) return "failed";
  if (isThere("ready")) return graph.count === 0 ? "not begun" : "goes on";
  if (goals.length === 0) return why.length > 0 ? "ended" : "done";
  return isThere("stream") ? "waits for an input" : "stuck";
}

/**
 * The goals from which one came, the query's first and itself last, by the keys that lists of numbers give: maker and
 * place.
 */
function wayTo(graph, name) {
  const way = [];
  for (let [maker, place] = Printed.nameParts(name); ; ) {
    way.push(`${maker}.${place}`);
    const index = maker === 0 ? Graph.NONE : graph.indexOf(maker);
    if (index < 0 || graph.makers.at(index) === Graph.NONE) return way.reverse();
    [maker, place] = [graph.makers.at(index), graph.places.at(index)];
  }
}

/** For each way its first goal that is on no other one. */
function partings(ways, depth = 0) {
  const groups = new Map(), found = new Map();
  for (const way of ways) groups.set(way[depth], [...(groups.get(way[depth]) || []), way]);
  for (const [goal, group] of groups) {
    if (group.length === 1) found.set(group[0], goal);
    else for (const [way, one] of partings(group, depth + 1)) found.set(way, one);
  }
  return found;
}

/** The goals that were made with one: by the same step, or in the query. */
function madeWith(run, name) {
  const [maker] = Printed.nameParts(name);
  return maker === 0 ? Lanes.queryPlaces(run).map((place) => `0.${place}`) : run.graph.byNumber.get(maker).makes;
}

/** The name of a process by the goal with which it began: its predicate, and which of several that are alike. */
function processName(run, kinds, name) {
  const predicate = (goal) => (kinds.get(goal) || { predicate: null }).predicate;
  const alike = madeWith(run, name).filter((goal) => predicate(goal) === predicate(name));
  const word = Lanes.shortName(predicate(name) || name);
  return alike.length > 1 ? `${word} ${alike.indexOf(name) + 1}` : word;
}

/**
 * The names of the processes to which some goals belong, by the goals' names; where two would be alike, with the
 * goal's own.
 */
function processNames(run, goals) {
  const kinds = new Lanes.GoalKinds(run), ways = goals.map((goal) => wayTo(run.graph, goal)), first = partings(ways);
  const words = ways.map((way) => processName(run, kinds, first.get(way)));
  const isAlone = (word) => words.filter((other) => other === word).length === 1;
  return new Map(goals.map((goal, at) => [goal, isAlone(words[at]) ? words[at] : `${words[at]} (${goal})`]));
}

/** Is a variable an argument of a call itself, and not within one, as in a request that is not served yet? */
const isHeld = ({ sort, text }, variable) => sort === "call" && argumentsOf(text).includes(variable);

/**
 * The waits of goals for each other in a circle where a run is stuck; none where one variable is waited for by all
 * who have it, since nobody can bind that, whatever others do.
 * @param {{ waits: { circle: any[] }, why: any[] }} run
 */
function circleIn({ waits: { circle }, why: [first] }) {
  return first?.told === undefined || WhyWords.causeIn(first.told) ? [] : circle;
}

/**
 * A circle in which a run is stuck, as sentences: `holds` is the goal that waits for what `who` has, and null where
 * that is not told, and `waitsFor` the goal for which `who` waits. Where some have what they were given and others a
 * request for it, the first are told.
 */
function tellCircle(run, circle) {
  const goals = circle.map(({ from }) => from), names = processNames(run, goals);
  const byName = new Map(run.goals.map((goal) => [goal.name, goal]));
  const waits = circle.map((wait) => ({ ...wait, isHeld: isHeld(byName.get(wait.to), wait.variable) }));
  const isMixed = waits.some((wait) => wait.isHeld) && waits.some((wait) => !wait.isHeld);
  const before = (at) => waits[(at + waits.length - 1) % waits.length];
  const sentences = waits.map(({ from, to, variable }, at) => {
    const holds = isMixed ? before(at).from : null;
    return { who: from, holds, waitsFor: to, variable };
  });
  return { goals, names, sentences: sentences.filter((none, at) => !isMixed || before(at).isHeld) };
}

export { wordOf, circleIn, tellCircle };
