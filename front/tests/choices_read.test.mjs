// Tests of what is read from the lines of `clauses` and `goal`.
import assert from "node:assert";
import test from "node:test";
import * as Replies from "../protocol/replies.mjs";
import * as Short from "../protocol/short.mjs";

test("a clause says yes, for what it waits, or where it refuses", () => {
  const read = (line) => Replies.readChoice(line), saying = (says, waitsFor, at) => ({ number: 12, says, waitsFor, at, line: 34 });
  assert.deepStrictEqual(read("12 yes line 34"), saying("yes", [], undefined));
  assert.deepStrictEqual(read("12 waits _0_1,_3_2 line 34"), saying("waits", ["_0_1", "_3_2"], undefined));
  for (const part of ["head", "test", "value"]) assert.deepStrictEqual(read(`12 no ${part} 2 line 34`), saying("no", [], { part, number: 2 }));
  for (const line of ["12 no", "12 no head", "12 waits", "12 no body 1", "F7 no goal", "yes", "12 line 34"]) assert.strictEqual(read(line), null, line);
});

test("the goal that a step took is told with the line of its clause, where it has one", () => {
  const taken = { number: 2, goal: "1.1", act: "by 2", text: "price(12,_1_1)" };
  assert.deepStrictEqual(Replies.readTakenGoal("2 1.1 by 2 price(12,_1_1) line 34"), { ...taken, line: 34 });
  assert.deepStrictEqual(Replies.readTakenGoal("2 1.1 by 2 price(12,_1_1)"), taken); // as `whynot` tells it
  assert.deepStrictEqual(Replies.readTakenGoal("7 - ask p(X)"), { number: 7, goal: null, act: "ask p(X)", text: null });
});

test("of a goal that is shortened the line of its clause stays", () => {
  assert.strictEqual(Short.line("2 1.1 by 2 p([a,b,c,d,e,f]) line 34", 8), "2 1.1 by 2 p([a,b|…]) line 34");
});
