// Tests of web/parts.mjs: which steps are of the part of a call.
import assert from "node:assert/strict";
import test from "node:test";
import * as Graph from "../../front/run/graph.mjs";
import * as Parts from "../parts.mjs";
import { eachPlay } from "./lib/runs.mjs";

/** The part of a goal by its definition: the step that took it, and the parts of the goals that this step made. */
function partOf(steps, goal) {
  const found = [], left = [goal];
  for (const name of left) {
    const step = steps.find((one) => one.goal === name);
    if (step === undefined) continue;
    found.push(step.number);
    left.push(...step.makes);
  }
  return found.sort((one, other) => one - other);
}

/** The part of a goal as the page finds it, and how many steps it counts. */
function marked(graph, goal) {
  const flags = new Uint8Array(graph.count), work = Parts.mark(graph, goal, flags);
  let next = work.next();
  while (!next.done) next = work.next();
  const numbers = graph.steps.filter((step, index) => flags[index] === 1).map(({ number }) => number);
  return { numbers: numbers.sort((one, other) => one - other), count: next.value };
}

test("the part of each goal has the steps whose goals descend from it", async () => {
  let compared = 0;
  await eachPlay((play, session, { graph }) => {
    if (graph.count > 200) return;
    for (const goal of ["0.1", "0.2", ...graph.steps.flatMap((step) => step.makes)]) {
      const part = partOf(graph.steps, goal), { numbers, count } = marked(graph, goal);
      assert.deepEqual([numbers, count], [part, part.length], `${play.name}: ${goal}`);
      compared += 1;
    }
  });
  assert.ok(compared > 1000, `${compared} parts`);
});

test("what is flagged already is looked at once", () => {
  const graph = Graph.graphOf(["1 0.1 by 1 reads - binds - makes 1.1,1.2", "2 1.1 by 2 reads - binds - makes 2.1", "3 2.1 eq reads - binds - makes -"]), flags = new Uint8Array(3);
  assert.equal(Parts.mark(graph, "1.1", flags).next().value, 2);
  assert.equal(Parts.mark(graph, "0.1", flags).next().value, 1);
  assert.deepEqual([...flags], [1, 1, 1]);
  assert.equal(Parts.mark(graph, "1.2", new Uint8Array(3)).next().value, 0, "a goal that no step took has no step");
  assert.equal(Parts.mark(graph, "9.1", new Uint8Array(3)).next().value, 0);
});
