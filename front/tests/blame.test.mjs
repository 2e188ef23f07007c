// Tests of front/protocol/blame_lines.mjs: what the replies to `part` and `blame` tell, and the answers on a line. The texts are worked out by hand.
import test from "node:test";
import assert from "node:assert/strict";
import * as BlameLines from "../protocol/blame_lines.mjs";

const NOTHING = { given: null, asked: [], inTurns: false, gave: null, left: null, made: [], taken: null, standing: null, ask: null, fault: null };

test("a question tells what the call was given and gave, and asks about it", () => {
  const told = BlameLines.read(["given qs([2,1,3],_0_1,[])", "gave qs([2,1,3],[],[])", "ask 2.2 of 28"]);
  assert.deepEqual(told, { ...NOTHING, given: "qs([2,1,3],_0_1,[])", gave: "qs([2,1,3],[],[])", ask: { goal: "2.2", of: 28 } });
});

test("a question about a goal that failed tells how that stands, and which asks reach in", () => {
  const told = BlameLines.read(["given part([3,2],2,_2_1,_1_2)", "asked 4", "asked 6", "in turns", "gave part([3,2],2,_2_1,_1_2)", "left 4.2 failed F10", "ask 2.2 of 2"]);
  assert.deepEqual([told.asked, told.inTurns, told.left], [[4, 6], true, { goal: "4.2", status: "failed", waitsFor: [], refusal: "F10" }]);
  assert.deepEqual(BlameLines.read(["left 1.3 waits _1_1,_1_2"]).left, { goal: "1.3", status: "waits", waitsFor: ["_1_1", "_1_2"], refusal: "" });
});

test("a verdict tells the goals that the step made, and the step", () => {
  const lines = ["given qs([1],_0_1,[])", "gave qs([1],[],[])", "24.1 gave part([],1,[],[])", "24.2 left qs([],_1_1)", "24.3 stands p", "24.4 _3_1 := 2 * 3", "fault 24 16.2 by 2"];
  const told = BlameLines.read(lines);
  assert.deepEqual(told.made.map(({ goal, how, text }) => `${goal} ${how} ${text}`), ["24.1 gave part([],1,[],[])", "24.2 left qs([],_1_1)", "24.3 stands p", "24.4 written _3_1 := 2 * 3"]);
  assert.deepEqual(told.fault, { step: 24, goal: "16.2", clause: 2 });
  assert.deepEqual([BlameLines.read(["fault 4.2"]).fault, BlameLines.read(["fault 0"]).fault], [{ step: null, goal: "4.2", clause: null }, { step: null, goal: null, clause: null }]);
});

test("a part ends with its step, or with how its call stands", () => {
  const told = BlameLines.read(["given mk(_0_1)", "gave mk(f(5))", "1.1 _0_1 = f(_1_1)", "1.2 _1_2 = _1_1", "1 0.1 by 1"]);
  assert.deepEqual([told.taken, told.made.length, told.standing], [{ step: 1, goal: "0.1", clause: 1 }, 2, null]);
  assert.deepEqual(BlameLines.read(["given mk(_3_1)", "4.2 ready"]).standing, { goal: "4.2", status: "ready", waitsFor: [], refusal: "" });
});

test("an atom that is spelt like a word of a reply stays an atom", () => {
  const told = BlameLines.read(["given given(gave)", "gave given(gave)", "1.1 gave = left", "1.2 ready = x", "1.3 gave stands", "1 0.1 by 1"]);
  assert.deepEqual(told.made, [{ goal: "1.1", how: "written", text: "gave = left" }, { goal: "1.2", how: "written", text: "ready = x" }, { goal: "1.3", how: "gave", text: "stands" }]);
  assert.equal(told.given, "given(gave)");
});

test("a line takes an answer more, or one less", () => {
  assert.equal(BlameLines.answered("blame R -2.2 ", "16.2", true), "blame R -2.2 +16.2");
  assert.equal(BlameLines.unanswered("blame R -2.2  +16.2"), "blame R -2.2");
  assert.equal(BlameLines.unanswered("blame 4.2"), "blame 4.2");
  assert.deepEqual(BlameLines.answersOn("blame 4.2 -1.1 +2.2"), [{ goal: "1.1", isRight: false }, { goal: "2.2", isRight: true }]);
});

test("a reply is a question, a verdict, or a refusal", () => {
  assert.deepEqual([BlameLines.isQuestion(["given p", "gave p", "ask 0.1 of 1"]), BlameLines.isVerdict(["given p", "fault 0.1"])], [true, true]);
  assert.deepEqual([BlameLines.isQuestion(["F23 no variable"]), BlameLines.isVerdict(["fault 0"]), BlameLines.isVerdict(["F25 command"])], [false, true, false]);
  assert.deepEqual([BlameLines.isBlame(" blame R"), BlameLines.isBlame("blamed")], [true, false]);
});
