// Tests of front/run/run_model.mjs and of what the worker tells of a record: after each line of sessions made by chance, the graph and the lanes
// that were changed are those of the whole record.
import assert from "node:assert/strict";
import test from "node:test";
import { engineOfPage } from "../../front/session/engine_of_page.mjs";
import { QUERIES, programOf, chance, plainGraph, plainLanes, lineByChance, follow } from "./lib/chance.mjs";
import * as Graph from "../../front/run/graph.mjs";
import * as Lanes from "../../front/run/lanes.mjs";
import RunModel from "../../front/run/run_model.mjs";
import WorkerSide from "../../front/session/worker_side.mjs";
import * as Replies from "../../front/protocol/replies.mjs";

const LINES = 40, SEEDS = 12;

test("after each line the graph and the lanes that were changed are those of the whole record", async () => {
  const { engine } = await engineOfPage();
  let compared = 0;
  for (const [name, query] of Object.entries(QUERIES)) {
    const program = programOf(name);
    for (let seed = 1; seed <= SEEDS; seed++) {
      const side = new WorkerSide(engine), next = chance(seed * 7919 + name.length), model = new RunModel(program);
      follow(model, side.open({ given: { program, query, history: "" } }).look);
      for (let count = 0; count < LINES; count++) {
        follow(model, side.lines({ lines: [lineByChance(next, model)] }).look);
        const words = `${name}, seed ${seed}, line ${count}`, whole = Graph.graphOf(Replies.readRecords(side.session.line("records")));
        assert.deepEqual(plainGraph(model.graph), plainGraph(whole), words);
        const here = Lanes.lanesIn(model, model.lanes, 0, model.graph.count, model.goals);
        assert.deepEqual(plainLanes(here), plainLanes(Lanes.lanesOf({ ...model, graph: whole })), words);
        compared += whole.count > 0 ? 1 : 0;
      }
    }
  }
  assert.ok(compared > 2000, `${compared} graphs were compared`);
});

test("the order that is tidied is lawful, and goes on in a lane as long as it can", () => {
  const graph = Graph.graphOf(Replies.readRecords(["1 0.1 by 1 reads - binds - makes 1.1,1.2", "2 1.1 by 1 reads - binds - makes 2.1", "3 1.2 by 1 reads - binds _0_1=a makes 3.1",
    "4 2.1 by 1 reads _0_1 binds - makes -", "5 3.1 by 1 reads - binds - makes -"]));
  assert.deepEqual(Graph.tidyOrder(graph, (number) => (number === 1 || number === 3 || number === 5 ? "a" : "b")), [1, 3, 5, 2, 4]);
});
