// Tests of web/colouring.mjs: what of a line is a comment, a variable, an integer or a mark, and what is underlined.
import assert from "node:assert/strict";
import test from "node:test";
import * as Colouring from "../colouring.mjs";
import { plays } from "./lib/runs.mjs";

const told = (parts) => parts.map(({ kind, text }) => (kind === "" ? text : `<${kind} ${text}>`)).join("");

const LINES = [
  ["% Query: p(X)", "<comment % Query: p(X)>"],
  ["p([A|X],-1) :- A > 0 | q(X). % 12", "p([<variable A><mark |><variable X>],<integer -1>) <mark :-> <variable A> > <integer 0> <mark |> q(<variable X>). <comment % 12>"],
  ["    q(a_1,_)", "    q(a_1,<variable _>)"], ["", ""], ["p(ä", "p(ä"],
];

test("the parts of a line have their kinds", () => {
  for (const [line, parts] of LINES) assert.equal(told(Colouring.partsOf(line)), parts);
});

test("all parts together are the line, in each example", () => {
  for (const { program } of plays()) {
    for (const line of program.split("\n")) assert.equal(Colouring.partsOf(line).map(({ text }) => text).join(""), line);
  }
});

test("what is wrong is a part of its own, within one part or over several", () => {
  assert.equal(told(Colouring.partsWithWrong("p(X) :- q", 8, 1)), "p(<variable X>) <mark :-> <wrong-word q>");
  assert.equal(told(Colouring.partsWithWrong("p(Xyz,Y)", 3, 4)), "p(<variable X><wrong-word yz,Y>)");
  assert.equal(told(Colouring.partsWithWrong("p(X)", 4, 1)), "p(<variable X>)");
});

test("comments of two lines and more are found, wherever they stand", () => {
  const found = (...lines) => Colouring.commentsIn(lines).map(({ at, count }) => [at, count]);
  assert.deepEqual(found("% a", "%", "p(1).", "% b", "p(2). % c", "", " % d", "\t% e"), [[0, 2], [6, 2]]);
  assert.deepEqual([found("% a", "", "% b"), found(""), found("% a", "% b")], [[], [], [[0, 2]]]);
});
