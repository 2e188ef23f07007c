// Tests of web/summing.mjs: steps are summed by predicate and by what else they did.
import assert from "node:assert/strict";
import test from "node:test";
import * as Graph from "../../front/run/graph.mjs";
import * as Summing from "../summing.mjs";

const CLAUSES = ["p/1", "q/1", "q/1", "q/2"].map((predicate) => ({ predicate }));
const RECORD = [
  "1 0.1 by 1 reads - binds - makes 1.1,1.2", "2 1.1 by 2 reads - binds - makes 2.1", "3 1.2 by 3 reads - binds - makes 3.1", "4 2.1 eq reads - binds _0_1=a makes -",
  "5 3.1 by 4 reads - binds - makes 5.1", "6 5.1 is reads - binds _5_1=3 makes -", "7 0.2 in a reads - binds _0_2=[a|_7_1] makes 7.1", "8 7.1 end reads - binds _7_1=[] makes -",
  "9 - ask q(_0_1) reads - binds - makes 9.1",
];
const run = { graph: Graph.graphOf(RECORD), clauses: CLAUSES };
const flags = (...steps) => Uint8Array.from(RECORD, (line, at) => (steps.includes(at + 1) ? 1 : 0));

test("the flagged steps are summed, the most first; clauses of one predicate are one", () => {
  assert.deepEqual(Summing.sums(run, flags(1, 2, 3, 4, 5, 6, 7, 8, 9)), [["inputs", 2], ["q/1", 2], [":=", 1], ["=", 1], ["added goals", 1], ["p/1", 1], ["q/2", 1]]);
  assert.deepEqual(Summing.sums(run, flags()), []);
});

test("in words a predicate has its arity where another one has its name", () => {
  assert.equal(Summing.words(run, flags(1, 2, 3, 4)), "q 2, = 1, p 1");
  assert.equal(Summing.words(run, flags(2, 3, 5)), "q/1 2, q/2 1");
});
