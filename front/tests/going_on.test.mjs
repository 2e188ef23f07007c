// By which clause a run went last that may have no end.
import assert from "node:assert";
import test from "node:test";
import { predicatesIn, wordsOf } from "../run/going_on.mjs";

const CLAUSES = [{ predicate: "count/2" }, { predicate: "show/1" }];
const steps = (count, clause) => Array.from({ length: count }, (none, at) => [`REDU ${at} 0.1 by ${clause}`, `REDU ${at} 0.2 eq`]).flat();

test("the clause by which the last reductions all went is told, with their number", () => {
  const told = (count) => `the last ${count} reductions all went by clause 1, of count/2: should another one have ended it?`;
  assert.deepStrictEqual(wordsOf([...steps(200, 1), "stopped limit"], CLAUSES), [told(200)]);
  assert.deepStrictEqual(wordsOf([...steps(600, 2), ...steps(150, 1), "stopped limit"], CLAUSES), [told(150)], "after others");
  assert.deepStrictEqual(wordsOf([...steps(2000, 1), "stopped limit"], CLAUSES), [told(500)], "of the last 1,000 steps");
});

test("of few reductions, or of several clauses, nothing is told", () => {
  assert.deepStrictEqual(wordsOf([...steps(99, 1), "stopped limit"], CLAUSES), []);
  assert.deepStrictEqual(wordsOf([...Array(300).fill([...steps(1, 1), ...steps(1, 2)]).flat(), "stopped limit"], CLAUSES), []);
  assert.strictEqual(predicatesIn([...steps(9, 2), ...steps(9, 1)], CLAUSES), "count/2, show/1");
});
