// Sessions made by chance, the same each time, and what is to be the same of graphs and lanes, for tests.
import assert from "node:assert/strict";
import fs from "node:fs";
import path from "node:path";
import { fileURLToPath } from "node:url";
import * as Graph from "../../../front/run/graph.mjs";

const HERE = path.dirname(fileURLToPath(import.meta.url));

const EXAMPLES = path.join(HERE, "..", "..", "..", "examples");
const QUERIES = {
  append: "append([1,2,3,4],[5,6],R)", bill: "bill(12,30,T)", buffer: "produce(1,6,[A,B|E]), consume([A,B|E],E,Out)",
  deadlock: "after(A,B), after(B,C), after(C,A), A = done", merge: "instream(X), instream(Y), merge(X,Y,Z)", primes: "primes(12,Ps)",
  quicksort: "quicksort([5,2,8,1,9,3],R)", reverse: "reverse([1,2,3,4],R)", sum: "instream(S), sum(S,0,R)",
};

/** The program of an example. */
const programOf = (name) => fs.readFileSync(path.join(EXAMPLES, `${name}.ghc`), "utf8");

/** Numbers made by chance, the same each time. */
function chance(seed) {
  let state = seed;
  return (most) => {
    state = (Math.imul(state, 1664525) + 1013904223) >>> 0;
    return Math.floor(state / 2 ** 32 * most);
  };
}

/** All that is to be the same of two graphs. */
const plainGraph = (graph) => ({
  steps: graph.steps, edges: graph.edges, depth: graph.steps.map((step) => graph.depth.get(step.number)), deepest: graph.deepestChain,
  effects: graph.steps.map((step) => graph.effects.get(step.number).map((edge) => edge.to)),
  bound: graph.steps.flatMap((step) => step.binds.map((binding) => [binding.variable, graph.binderOf(binding.variable), graph.termOf(binding.variable)])),
  consumers: graph.steps.map((step) => step.makes.map((goal) => graph.consumerOf(goal))),
});
const plainLanes = ({ lanes }) => lanes.map((lane) => [lane.name, lane.index, lane.predicates, lane.parent && lane.parent.number, lane.asked && lane.asked.number,
  lane.steps.map((step) => step.number), lane.goals.map((goal) => goal.name)]);

/** A line that may be lawful or not. */
function lineByChance(next, model) {
  const of = (list) => list[next(list.length)], { goals, shelf } = model, { steps } = model.graph;
  const kinds = [() => `leap ${1 + next(8)}`, () => (goals.length ? `step ${of(goals).name}` : "leap"), () => (steps.length ? `undo ${of(steps).number}` : "leap 3"),
    () => (steps.length ? `roll ${of(steps).number}` : "leap 2"), () => (shelf.length ? `redo ${of(shelf).number}` : "goals"), () => `in ${1 + next(2)} ${next(9)}`,
    () => "ask X = [Y|Z], Z = 1", () => (steps.length ? `arrange ${Graph.tidyOrder(model.graph, (number) => number % 3).join(" ")}` : "leap 1")];
  return of(kinds)();
}

/** Takes up a change that the worker tells. */
function follow(model, look) {
  if (look === null) return;
  const linesOf = (bytes) => new TextDecoder().decode(bytes).split("\n").filter(Boolean);
  for (const count of model.change({ ...look, goals: linesOf(look.goals), shelf: linesOf(look.shelf) }, linesOf(look.come))) assert.ok(count >= 0);
}

export { QUERIES, programOf, chance, plainGraph, plainLanes, lineByChance, follow };
