// Tests of front/run/explain.mjs and search.mjs: which step gave each part of a value, why a goal failed, what is found.
import assert from "node:assert/strict";
import test from "node:test";
import * as Asking from "../../front/protocol/asking.mjs";
import * as Explain from "../../front/run/explain.mjs";
import * as Search from "../../front/run/search.mjs";
import { engineOfPage } from "../../front/session/engine_of_page.mjs";
import { eachPlay, plays, runOf } from "./lib/runs.mjs";

const MOST_PARTS = 40; // of a value, for which the console is asked

/** The run of an example after `leap`. */
async function runFor(name, query, lines = ["leap"]) {
  const { engine } = await engineOfPage(), [example] = plays().filter((one) => one.name === `${name}, its query`), play = { ...example, query };
  const session = engine.open(play);
  session.lines(lines);
  return { session, run: runOf(session, play) };
}

test("the query's variables are numbered by their first occurrence, and each _ is one of its own", () => {
  assert.deepEqual([...Asking.queryVariables("p(_,X,_a), q(X,Y,_) % Z\n, r(Y,W)")], [["X", "_0_2"], ["_a", "_0_3"], ["Y", "_0_4"], ["W", "_0_6"]]);
});

test("arguments of terms: a list is a cell with a head and a rest", () => {
  assert.deepEqual(Explain.argumentsOf("[1,f(a,b)|_0_1]"), ["1", "[f(a,b)|_0_1]"]);
  assert.deepEqual(Explain.argumentsOf("[a]"), ["a", "[]"]);
  assert.deepEqual(Explain.argumentsOf("f([a,b],-3)"), ["[a,b]", "-3"]);
  assert.deepEqual([Explain.argumentsOf("[]"), Explain.argumentsOf("a"), Explain.argumentsOf("-7")], [[], [], []]);
});

test("the 8 of [1,2,3,5,8,9] was given by step 47, and its cells by the steps before it", async () => {
  const { run } = await runFor("quicksort", "quicksort([5,2,8,1,9,3],R)");
  const { by, part, steps } = Explain.explain(run.graph, "_0_1", [1, 1, 1, 1, 0]);
  assert.deepEqual([by, part, steps], [47, "8", [29, 31, 37, 39, 47]]);
  assert.deepEqual(Explain.explain(run.graph, "_0_1", [5]), { steps: [29], by: undefined, part: undefined });
  assert.deepEqual(Explain.explain(run.graph, "_0_1", []).by, 29);
});

test("on every run each part of each value of the query is what `show` tells, and its steps are those that `who` tells", async () => {
  let parts = 0;
  await eachPlay((play, session, run) => {
    for (const [name, variable] of Asking.queryVariables(play.query)) {
      const left = [[]];
      for (let count = 0; left.length > 0 && count < MOST_PARTS; count++) {
        const path = left.shift(), { part, steps } = Explain.explain(run.graph, variable, path);
        const asked = path.length === 0 ? variable : undefined;
        if (asked !== undefined) {
          const told = session.line(`who ${name}`).map((line) => / by (\d+)$/.exec(line)).filter(Boolean).map(([, step]) => Number(step));
          assert.deepEqual(steps, told, `${play.name}: who ${name}`);
        }
        Explain.argumentsOf(part).forEach((one, place) => {
          left.push([...path, place]);
          if (!Explain.isVariable(one)) return;
          const told = session.line(`who ${one}`).map((line) => / by (\d+)$/.exec(line)).filter(Boolean).map(([, step]) => Number(step));
          assert.deepEqual(Explain.explain(run.graph, variable, [...path, place]).steps.slice(steps.length), told, `${play.name}: who ${one}`);
        });
        parts += 1;
      }
    }
  });
  assert.ok(parts > 1000, `${parts} parts`);
});

test("steps are found by number, predicate, variable and value", async () => {
  const { run } = await runFor("primes", "primes(12,Ps)", ["leap"]);
  const found = (text) => {
    const hits = [];
    for (const count of Search.find(run, text, hits)) assert.ok(count >= 0);
    return hits.map((index) => run.graph.numbers.at(index));
  };
  const reducing = (name) => run.graph.steps.filter((step) => step.kind === "reduce" && run.clauses[step.clause - 1].predicate === name).map((step) => step.number);
  assert.deepEqual(found("sift"), reducing("sift/2"));
  assert.deepEqual(found("filter/3"), reducing("filter/3"));
  assert.deepEqual(found("11"), run.graph.steps.filter((step) => step.number === 11 || step.binds.some((binding) => /(^|[[,|])11($|[\],|])/.test(binding.term))).map((step) => step.number));
  assert.deepEqual(found("_0_1"), [run.graph.binderOf("_0_1")]);
  assert.deepEqual([found(""), found("nothing")], [[], []]);
});
