// Tests of front/run/compare.mjs: which steps two runs share, and the first that differs.
import assert from "node:assert/strict";
import test from "node:test";
import * as Compare from "../../front/run/compare.mjs";
import * as Graph from "../../front/run/graph.mjs";
import { engineOfPage } from "../../front/session/engine_of_page.mjs";
import { eachPlay, plays } from "./lib/runs.mjs";
import * as Replies from "../../front/protocol/replies.mjs";

const graphOf = (session) => Graph.graphOf(Replies.readRecords(session.line("records")));

test("the two choices of a clause in the bill: they share four steps, and differ first in the step that took 1.1", async () => {
  const { engine } = await engineOfPage(), [play] = plays().filter((one) => one.name === "bill, its query"), session = engine.open({ ...play, query: "bill(12,3,T)" });
  session.line("leap");
  const one = graphOf(session);
  session.lines(["roll 2", "step 1.1 3", "leap"]);
  const told = Compare.compare(one, graphOf(session));
  assert.deepEqual([...told.pairs], [[1, 1], [4, 4], [5, 5], [6, 9]]);
  assert.deepEqual([told.alone, told.otherAlone, told.first, told.instead], [2, 2, 2, 7]);
});

test("a run is the same as itself, in whatever lawful order and under whatever numbers", async () => {
  const { engine } = await engineOfPage();
  let compared = 0;
  await eachPlay((play, session, run) => {
    const { graph } = run, order = Graph.tidyOrder(graph, (number) => number % 3);
    if (graph.count === 0 || graph.count > 500 || graph.steps.some((step) => step.kind === "ask")) return;
    session.line(`arrange ${order.join(" ")}`);
    const told = Compare.compare(graph, graphOf(session));
    assert.deepEqual([told.alone, told.otherAlone, told.first, told.pairs.size], [0, 0, null, graph.count], play.name);
    const last = graph.stepAt(graph.count - 1);
    if (/^undone /.test(session.line(`undo ${last.number}`)[0])) {
      const again = session.line(`redo ${last.number}`);
      if (/^F/.test(again[0] || "")) return;
      assert.equal(Compare.compare(graph, graphOf(session)).alone, 0, play.name);
    }
    compared += 1;
  });
  assert.ok(engine && compared > 80, `${compared} runs`);
});

test("two asks of one text are two steps", () => {
  const lines = ["1 - ask p(_1_1) reads - binds - makes 1.1", "2 - ask p(_2_1) reads - binds - makes 2.1", "3 2.1 by 1 reads - binds - makes -"];
  const one = Graph.graphOf(Replies.readRecords(lines)), other = Graph.graphOf(Replies.readRecords([lines[0], lines[1], "4 1.1 by 1 reads - binds - makes -"]));
  const told = Compare.compare(one, other);
  assert.deepEqual([...told.pairs], [[1, 1], [2, 2]]);
  assert.deepEqual([told.first, told.instead], [3, null]);
});
