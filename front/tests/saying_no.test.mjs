// Why a clause says no, in words: what is made of the place that `clauses` tells.
import assert from "node:assert";
import test from "node:test";
import * as Reader from "../text/reader.mjs";
import * as Replies from "../protocol/replies.mjs";
import { whyNo } from "../run/reasons.mjs";

const CLAUSES = Reader.readProgram("p(a,[f(X)|L],N) :- integer(X), N * 2 > X, 1 < 0 | q(L).\n");

// A line of `clauses`, the call, and what is told.
const TOLD = [
  ["1 no head 1", "p(b,_0_1,1)", "the head wants a, the goal has b"],
  ["1 no head 2", "p(a,[g(1)|_0_1],1)", "the head wants [f(X)|L], the goal has [g(1)|_0_1]"],
  ["1 no test 1", "p(a,[f(b)],1)", "integer(X) says no (X = b)"],
  ["1 no test 2", "p(a,[f(7)|_0_1],3)", "N * 2 > X says no (N = 3, X = 7)"],
  ["1 no value 2", "p(a,[f(7)],b)", "N * 2 > X has no value (N = b, X = 7)"],
  ["1 no test 3", "p(a,[f(1)],3)", "1 < 0 says no"],
];

test("a place that says no is told with what stands there", () => {
  for (const [line, call, told] of TOLD) {
    assert.strictEqual(whyNo(CLAUSES[0], Replies.readChoice(line).at, Reader.readTerm(call)), told, line);
  }
});

test("`true` is no test: those after it are counted without it", () => {
  const [clause] = Reader.readProgram("p(N) :- true, N > 0, true, N < 9 | true.\n"), call = Reader.readTerm("p(9)");
  assert.strictEqual(whyNo(clause, Replies.readChoice("1 no test 2").at, call), "N < 9 says no (N = 9)");
});

test("of a call that is too long to be read the place alone is told", () => {
  const told = (line) => whyNo(CLAUSES[0], Replies.readChoice(line).at, undefined);
  const [head, value] = ["1 no head 2", "1 no value 2"].map(told);
  assert.deepStrictEqual([head, value], ["the head wants [f(X)|L] as argument 2", "N * 2 > X has no value"]);
});

test("a term of a goal is cut", () => {
  const long = Reader.readTerm(`p(${"g(".repeat(40)}1${")".repeat(40)},b,c)`);
  const told = whyNo(CLAUSES[0], { part: "head", number: 1 }, long);
  assert.strictEqual(told, `the head wants a, the goal has ${"g(".repeat(30)}…`);
});
