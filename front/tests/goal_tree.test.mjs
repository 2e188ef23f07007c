// Tests of front/run/goal_tree.mjs: the tree of an explanation's steps, which of many are shown, and their goals with the values of then.
import test from "node:test";
import assert from "node:assert/strict";
import * as GoalTree from "../run/goal_tree.mjs";

const BILL = [
  "T = 150", "1 0.1 by 1 reads - binds - makes 1.1,1.2,1.3", "2 1.1 by 2 reads - binds - makes 2.1 or 3", "3 2.1 is reads - binds _1_1=120 makes -",
  "4 1.2 by 2 reads - binds - makes 4.1", "5 4.1 is reads - binds _1_2=30 makes -", "6 1.3 is reads _1_1,_1_2 binds _0_1=150 makes -", "steps 6 of 6",
];
const shown = ({ rows, left }) => [...rows.map((row) => `${"  ".repeat(row.depth)}${GoalTree.wordsOf(row, row.step.goal ?? undefined)}`), left];

test("each step stands below the one that made its goal", () => {
  assert.deepEqual(shown(GoalTree.treeOf(GoalTree.stepsOf(BILL))), ["step 1: 0.1 by 1", "  step 2: 1.1 by 2", "    step 3: 2.1 is", "  step 4: 1.2 by 2", "    step 5: 4.1 is", "  step 6: 1.3 is", 0]);
});

test("of many steps the upper ones are shown, and the others are counted", () => {
  const steps = GoalTree.stepsOf(BILL);
  assert.deepEqual(shown(GoalTree.treeOf(steps, 4)), ["step 1: 0.1 by 1", "  step 2: 1.1 by 2 (and 1 below)", "  step 4: 1.2 by 2 (and 1 below)", "  step 6: 1.3 is", 0]);
  assert.deepEqual(shown(GoalTree.treeOf(steps, 1)), ["step 1: 0.1 by 1 (and 5 below)", 0]);
  assert.deepEqual(shown(GoalTree.treeOf(steps.slice(1), 2)), ["step 2: 1.1 by 2 (and 1 below)", "step 4: 1.2 by 2 (and 1 below)", 1]);
});

test("goals stand in the order of the clause, and an ask stands alone", () => {
  const steps = GoalTree.stepsOf(["1 0.1 by 1 reads - binds - makes 1.1,1.2", "2 1.2 eq reads - binds _0_1=a makes -", "3 1.1 eq reads - binds _0_2=b makes -", "4 - ask p(_0_1) reads - binds - makes 4.1"]);
  assert.deepEqual(shown(GoalTree.treeOf(steps)), ["step 1: 0.1 by 1", "  step 3: 1.1 eq", "  step 2: 1.2 eq", "step 4: ask p(_0_1)", 0]);
});

test("a goal is told with the values that stood before its step", () => {
  const values = new GoalTree.Values(GoalTree.stepsOf(BILL));
  assert.equal(GoalTree.goalText("_0_1 := _1_1 + _1_2", values.before(5)), "_0_1 := 120 + 30");
  assert.equal(GoalTree.goalText("_0_1 := _1_1 + _1_2", values.before(3)), "_0_1 := 120 + _1_2");
  assert.equal(GoalTree.goalText("app(_1_9,[2|_1_1],_1_2)", values.before(0)), "app(_1_9,[2|_1_1],_1_2)");
  assert.equal(GoalTree.goalText("p(((", values.before(0)), "p(((");
});

test("a tree of 200,000 steps, one below the other, is made in one go", () => {
  const steps = Array.from({ length: 200_000 }, (_, at) => ({ number: at + 1, goal: `${at}.1`, act: "by 1", kind: "reduce", clause: 1 }));
  assert.deepEqual(shown(GoalTree.treeOf(steps, 2)), ["step 1: 0.1 by 1", "  step 2: 1.1 by 1 (and 199998 below)", 0]);
  assert.equal(GoalTree.treeOf(steps).rows.at(-1).depth, 199_999);
});
