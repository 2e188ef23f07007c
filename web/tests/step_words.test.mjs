// Tests of web/step_words.mjs: what a step did, and what others did for it, in words.
import assert from "node:assert/strict";
import test from "node:test";
import * as Replies from "../../front/protocol/replies.mjs";
import * as StepWords from "../step_words.mjs";

// Each step with what it did, the same in few letters, and the same behind its goal.
const RECORD = [
  ["1 0.1 by 2 reads - binds - makes 1.1", "goal 0.1 was reduced by clause 2", "1 0.1 clause 2", "by clause 2"],
  ["3 1.2 eq reads - binds _0_1=[] makes -", "goal 1.2 made two things equal", "3 1.2 =", ""],
  ["4 1.3 is reads _0_1 binds _1_1=3 makes -", "goal 1.3 computed a number", "4 1.3 :=", ""],
  ["5 0.2 in f(a) reads - binds _0_2=[f(a)|_5_1] makes 5.1", "stream 0.2 was given f(a)", "5 0.2 in f(a)", "stream 0.2 was given f(a)"],
  ["6 5.1 end reads - binds _5_1=[] makes -", "stream 5.1 was ended", "6 5.1 end", "stream 5.1 was ended"],
  ["7 - ask p(_0_1) reads - binds - makes 7.1", "goals were added: p(_0_1)", "7 - ask p(_0_1)", "goals were added: p(_0_1)"],
];

test("each kind of step has its words", () => {
  for (const [line, words, short, how] of RECORD) {
    const step = Replies.readRecord(line);
    assert.deepEqual([StepWords.of(step), StepWords.shortOf(step), StepWords.howOf(step)], [words, short, how]);
  }
});

test("a cause is told with its variable, and whether it woke the goal", () => {
  assert.equal(StepWords.causeOf({ kind: "made", variables: [], woke: false }), "made its goal");
  assert.equal(StepWords.causeOf({ kind: "read", variables: ["_0_1"], woke: false }), "bound _0_1, which it read");
  assert.equal(StepWords.causeOf({ kind: "read", variables: ["_0_1"], woke: true }), "bound _0_1, which it read, and woke it");
  assert.equal(StepWords.causeOf({ kind: "named", variables: ["_0_1"], woke: false }), "made _0_1, which it names");
});
