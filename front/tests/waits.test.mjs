// Why goals wait, in words: what the lines of `whynot` tell of it. The console's lines are played.
import assert from "node:assert";
import test from "node:test";
import * as Replies from "../protocol/replies.mjs";
import { holdersOf, isHelpless, linesOf, lostLines, waitsOf } from "../run/waits.mjs";
import { OPENED, TURNED, played } from "./lib/played.mjs";

const STAYS = "stays unbound", MAY = "may be bound";

/** What is told of goals, each a line of `goals`, and about which of them it was asked. */
async function told(lines, replies, query = "pass(_), pass(_), pass(_)") {
  const session = played(query, replies), goals = Replies.readGoals(lines);
  return { lines: linesOf(session, goals, await waitsOf(session, goals)), asked: session.asked };
}

test("goals that wait for each other are told by one question, and that they wait in vain", async () => {
  const circle = ["1.1 waits _1_1 p(_1_1,_1_2)", "1.2 waits _1_2 p(_1_2,_1_1)"];
  const held = ["_1_1 in 1.1 waits _1_1", "_1_1 in 1.2 waits _1_2", "_1_2 in 1.1 waits _1_1", "_1_2 in 1.2 waits _1_2"];
  assert.deepStrictEqual(await told(circle, { "whynot 1.1": [circle[0], ...held, STAYS] }), {
    lines: [
      "1.1 waits for _1_1: held by 1.2 (which waits)", "1.2 waits for _1_2: held by 1.1 (which waits)",
      "in vain: these stay unbound: _1_1, _1_2",
    ],
    asked: ["whynot 1.1"],
  });
});

test("nobody can bind what only goals have that failed, or wait for it too", async () => {
  const goals = ["1.3 waits _1_9 q(_1_9)", "1.4 failed F10 r(_1_9)", "1.5 waits _1_9 s(_1_9)"];
  const held = ["_1_9 in 1.3 waits _1_9", "_1_9 in 1.4 failed F10", "_1_9 in 1.5 waits _1_9"];
  const { lines } = await told(goals, { "whynot 1.3": [goals[0], ...held, STAYS] });
  const maker = "; clause 1 (line 2) made it";
  assert.deepStrictEqual(lines, [
    `1.3 waits for _1_9: nobody can bind it (only 1.4, which has failed, 1.5, which waits for it too)${maker}`,
    `1.5 waits for _1_9: nobody can bind it (only 1.3, which waits for it too, 1.4, which has failed)${maker}`,
  ]);
});

test("a goal that one of its clauses may take on may bind what it waits for itself", async () => {
  const goals = ["0.1 waits _0_1,_0_2 p(_0_1,_0_2)", "0.2 ready q(_0_2)"];
  const held = ["_0_1 in 0.1 waits _0_1,_0_2", "_0_2 in 0.1 waits _0_1,_0_2", "_0_2 in 0.2 ready"];
  const { lines } = await told(goals, { "whynot 0.1": [goals[0], ...held, MAY] }, "p(A,B), q(B)");
  assert.deepStrictEqual(lines, [
    "not stuck: some goal is ready", "0.1 waits for _0_1 (A of the query): no other goal has it",
    "0.1 waits for _0_2 (B of the query): held by 0.2 (which is ready)",
  ]);
});

const MANY = 5000, places = Array.from({ length: MANY }, (none, place) => place + 1);

test("of many goals that wait the first are told, and it is asked once where all wait for one variable", async () => {
  const goals = places.map((place) => `${place}.1 waits _9_9 w(_9_9)`);
  const held = places.map((place) => `_9_9 in ${place}.1 waits _9_9`);
  const { lines, asked } = await told(goals, { "whynot 1.1": [goals[0], ...held, STAYS] });
  assert.deepStrictEqual([lines.length, asked.length], [201, 1]);
  assert.match(lines[0], /^1\.1 waits for _9_9: nobody can bind it \(only 2\.1, which .*13\.1, which .* \(4999\)\)$/);
  assert.strictEqual(lines[200], ".. 4800 more goals wait; goals lists all goals");
});

test("of many goals that may go on it is asked about the first", async () => {
  const goals = places.slice(0, 50).map((place) => `${place}.1 waits _${place}_1 w(_${place}_1)`);
  const replies = Object.fromEntries(places.slice(0, 50).map((place) =>
    [`whynot ${place}.1`, [goals[place - 1], `_${place}_1 in 0.1 ready`, MAY]]));
  const { lines, asked } = await told(goals, replies);
  assert.deepStrictEqual([asked.length, lines.length], [40, 50]);
  assert.deepStrictEqual(lines.slice(39, 41),
    ["40.1 waits for _40_1: held by 0.1 (which is ready)", "41.1 waits for _41_1: whynot 41.1 tells who has it"]);
});

const LOST = [
  "0.2 waits _0_1 pass(_0_1)", "_0_1 in 0.2 waits _0_1", "_0_2 in 0.3 waits _0_2",
  `_0_1 ${OPENED}`, `_0_2 ${TURNED}`, STAYS,
];

test("where nobody can bind a variable, it is told who let it go, or that it is a `_`", async () => {
  const goals = ["0.2 waits _0_1 pass(_0_1)", "0.3 waits _0_2 pass(_0_2)", "0.4 waits _0_1 pass(_0_1)"];
  const session = played("open(D,K), pass(D), pass(K)", { "whynot 0.2": LOST }), all = Replies.readGoals(goals);
  const letGo = (lines) => lines.map((line) => line.slice(line.indexOf("; ")));
  assert.deepStrictEqual(letGo(linesOf(session, all, await waitsOf(session, all))), [
    "; step 1 let it go, open(D,K) by clause 1 (line 2)", "; step 2 let it go, turn(K) by clause 2 (line 3)",
    "; step 1 let it go, open(D,K) by clause 1 (line 2)",
  ]);
  assert.deepStrictEqual(session.asked, ["whynot 0.2"]);
  const wait = "0.1 waits _0_1 pass(_0_1)";
  const alone = await told([wait], { "whynot 0.1": [wait, "_0_1 in 0.1 waits _0_1", STAYS] }, "pass(_)");
  assert.deepStrictEqual(letGo(alone.lines), ["; it is a _ of the query"]);
});

test("a run that stops quietly is followed by the first step that let something go, but for a long one", async () => {
  const goals = Replies.readGoals(["0.2 waits _0_1 pass(_0_1)"]), query = "open(D,K), pass(D), pass(K)";
  const line = "_0_1 (D of the query) is never bound: step 1 let it go, open(D,K) by clause 1 (line 2)";
  assert.deepStrictEqual(await lostLines(played(query, { "whynot 0.2": LOST }), goals), [line]);
  assert.deepStrictEqual(await lostLines(played(query, { "whynot 0.2": [...LOST.slice(0, -1), MAY] }), goals), []);
  const long = played(query, { "whynot 0.2": LOST }, 10_001);
  assert.deepStrictEqual([await lostLines(long, goals), long.asked], [[], []]);
});

test("who has a variable is told by the goals' texts", () => {
  const goals = Replies.readGoals(["0.2 waits _0_1 f(_0_1,_0_2,_0_1)", "0.3 ready g(_0_2)"]);
  const names = (variable) => (holdersOf(goals).get(variable) ?? []).map(({ goal }) => goal.name);
  assert.deepStrictEqual(["_0_1", "_0_2", "_0_3"].map(names), [["0.2"], ["0.2", "0.3"], []]);
});

test("where `whynot` is refused, nothing is said of who has a variable", async () => {
  const goals = Replies.readGoals(["0.2 waits _0_1 f(_0_1)"]);
  const session = played("true", { "whynot 0.2": ["F1 no memory"] });
  const waits = await waitsOf(session, goals);
  assert.strictEqual(isHelpless(waits[0]), false);
  assert.deepStrictEqual(linesOf(session, goals, waits), ["0.2 waits for _0_1: whynot 0.2 tells who has it"]);
});
