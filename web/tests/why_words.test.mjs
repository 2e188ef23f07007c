// Tests of web/why_words.mjs: why something stays unbound, in words, with the steps and goals that one can go to.
import assert from "node:assert/strict";
import test from "node:test";
import * as Replies from "../../front/protocol/replies.mjs";
import * as WhyNotLines from "../../front/protocol/why_not_lines.mjs";
import * as WhyWords from "../why_words.mjs";

const GOALS = ["1.3 waits _1_2 report(_1_2,5,_0_1)", "16.3 waits _16_2 consumer(_16_2)", "19.3 waits _16_2 producer(_16_2)", "4.1 waits _1_2,_3_1 _4_1 := _1_2 + _3_1", "5.1 ready p(_5_1)"];
const STEPS = new Map([[16, { clause: 6 }], [2, { clause: null }]]);
const KNOWN = { run: { goals: Replies.readGoals(GOALS), graph: { byNumber: STEPS } }, texts: null };

const told = (...lines) => WhyNotLines.read(["X = _0_1", ...lines]);
const wordsOf = (parts) => parts.map((part) => (typeof part === "string" ? part : `<${part.step ?? part.goal}>`)).join("");
const causeOf = (reply) => wordsOf(WhyWords.causeWords(KNOWN, WhyWords.causeIn(reply)));

test("the cause is what nobody can bind who has it: a step let it go, or all wait for it", () => {
  const lost = told("_0_1 in 1.3 waits _1_2", "_1_2 in 1.3 waits _1_2", "_1_2 lost by 17 9.3 by 8 skip(_1_2)", "stays unbound");
  assert.equal(causeOf(lost), "report <1.3> waits for _1_2, which no other goal has: step <17> let it go, skip(_1_2) by clause 8.");
  const shared = told("_16_2 in 16.3 waits _16_2", "_16_2 in 19.3 waits _16_2", "stays unbound");
  assert.equal(causeOf(shared), "consumer <16.3> and producer <19.3> wait for _16_2, which no other goal has: step <16> made it by clause 6.");
  assert.equal(causeOf(told("_0_1 lost by 7 5.2 by 1 sum([],_0_1)", "_0_1 lost by 8 5.3 by 2 q(_0_1)", "stays unbound")),
    "_0_1 is never bound: step <7> let it go, sum([],_0_1) by clause 1 and step <8> let it go, q(_0_1) by clause 2.");
  assert.equal(causeOf(told("_2_1 in 7.1 failed F11", "stays unbound")), "_2_1 is never bound: step <2> made it.");
  assert.equal(causeOf(told("_0_1 in 0.1 waits _0_1", "stays unbound")), "<0.1> waits for _0_1, which no other goal has.");
});

test("where goals wait for each other, or one may go on, there is no such cause", () => {
  const circle = told("_1_2 in 1.3 waits _1_2", "_1_2 in 16.3 waits _16_2", "_16_2 in 1.3 waits _1_2", "_16_2 in 16.3 waits _16_2", "stays unbound");
  assert.equal(WhyWords.causeIn(circle), undefined);
  assert.equal(WhyWords.causeIn(told("_0_1 in 5.1 ready", "may be bound")), undefined);
  assert.equal(WhyWords.causeIn(told()), undefined);
});

test("each variable has a row: who has it and what that does, and which steps let it go", () => {
  const reply = told("_1_2 in 1.3 waits _1_2", "_1_2 in 4.1 waits _1_2,_3_1", "_3_1 in 5.1 ready", "_3_1 in 6.1 stream", "_3_1 in 7.1 failed F11",
    "_9_1 lost by 17 9.3 by 8 skip(_9_1)", "may be bound");
  assert.deepEqual(WhyWords.rowsOf(KNOWN, reply).map(wordsOf), [
    "_1_2: report <1.3> waits for it and <4.1> waits for it and _3_1.", "_3_1: p <5.1> is ready, <6.1> is an input and <7.1> has failed F11.",
    "_9_1: no goal has it; step <17> let it go, skip(_9_1) by clause 8.",
  ]);
  const many = told(...Array.from({ length: 9 }, (none, at) => `_1_2 in ${at + 20}.1 waits _1_2`), "stays unbound");
  assert.match(wordsOf(WhyWords.rowsOf(KNOWN, many)[0]), /^_1_2: <20\.1> waits for it, .*, <25\.1> waits for it and 3 more\.$/);
});

test("the verdict is told, and which steps let something go", () => {
  assert.deepEqual([["stays unbound"], ["may be bound"], []].map((lines) => WhyWords.verdictOf(told(...lines)).split(" ")[0]), ["No", "It", "All"]);
  const lost = told("_0_1 lost by 7 5.2 by 1 p(_0_1,_0_2)", "_0_2 lost by 7 5.2 by 1 p(_0_1,_0_2)", "stays unbound");
  assert.deepEqual([...WhyWords.lostBy({ why: [{ subject: "X", told: lost }, { subject: "Y", told: undefined }] })], [[7, ["_0_1", "_0_2"]]]);
  assert.equal(WhyWords.lostBy({}).size, 0);
});
