// Who waits for whom in a picture: arcs and a circle, by the lines of `whynot`. The console's lines are played.
import assert from "node:assert";
import test from "node:test";
import * as Replies from "../protocol/replies.mjs";
import * as WhyNotLines from "../protocol/why_not_lines.mjs";
import { arcsAmong } from "../run/arcs.mjs";
import { played } from "./lib/played.mjs";

const STAYS = "stays unbound", MAY = "may be bound";

/** What is told of goals, each a line of `goals`, and about which of them it was asked. */
async function told(lines, replies, { why = [], leaps = 0 } = {}) {
  const session = played("true", replies, leaps);
  return { ...await arcsAmong(session, Replies.readGoals(lines), why), asked: session.asked };
}

const arc = (from, to, variable) => ({ from, to, variable });
const places = (count) => Array.from({ length: count }, (none, at) => at + 1);

/** Goals that wait for each other in a circle, and what `whynot` tells of the first. */
function circleOf(count) {
  const next = (place) => (place % count) + 1;
  const lineOf = (place) => `0.${place} waits _0_${place} w(_0_${place},_0_${next(place)})`;
  const holder = (place, goal) => `_0_${place} in 0.${goal} waits _0_${goal}`;
  const held = places(count).flatMap((place) => [holder(place, place), holder(next(place), place)]);
  return { lines: places(count).map(lineOf), reply: [lineOf(1), ...held, STAYS] };
}

test("three goals that wait for each other are a circle, which begins with the first", async () => {
  const [first, second, third] = [arc("0.1", "0.3", "_0_1"), arc("0.3", "0.2", "_0_3"), arc("0.2", "0.1", "_0_2")];
  const { lines, reply } = circleOf(3), circle = [first, second, third], arcs = [first, third, second];
  assert.deepStrictEqual(await told(lines, { "whynot 0.1": reply }), { arcs, circle, left: 0, asked: ["whynot 0.1"] });
  const why = [{ subject: "X", told: WhyNotLines.read(reply) }], long = await told(lines, {}, { why, leaps: 5_000 });
  assert.deepStrictEqual(long, { arcs, circle, left: 0, asked: [] });
});

test("a chain of waits is no circle: its arcs lead to who may bind what is waited for", async () => {
  const lines = ["0.1 waits _0_1 after(_0_1,_0_2)", "0.2 waits _0_2 after(_0_2,_0_3)", "0.3 ready _0_1 = done"];
  const held = ["_0_1 in 0.1 waits _0_1", "_0_1 in 0.3 ready"], replies = {
    "whynot 0.1": [lines[0], ...held, MAY],
    "whynot 0.2": [lines[1], "_0_2 in 0.1 waits _0_1", "_0_2 in 0.2 waits _0_2", ...held, MAY],
  };
  const arcs = [arc("0.1", "0.3", "_0_1"), arc("0.2", "0.1", "_0_2")];
  assert.deepStrictEqual(await told(lines, replies), { arcs, circle: [], left: 0, asked: Object.keys(replies) });
});

test("no arc leads to a goal that has failed, or waits for the same variable alone", async () => {
  const lines = ["0.1 waits _0_1 w(_0_1)", "0.2 waits _0_1 w(_0_1)", "0.3 failed F10 f(_0_1)"];
  const reply = [lines[0], "_0_1 in 0.1 waits _0_1", "_0_1 in 0.2 waits _0_1", "_0_1 in 0.3 failed F10", STAYS];
  const { arcs, circle, left } = await told(lines, { "whynot 0.1": reply });
  assert.deepStrictEqual([arcs, circle, left], [[], [], 0]);
});

test("a circle is found behind a goal that no other one helps; one of more than 24 goals is not told", async () => {
  const lines = ["0.1 waits _0_1,_0_2 p(_0_1,_0_2)", "0.2 waits _0_3 q(_0_3,_0_4)", "0.3 waits _0_4 r(_0_4,_0_3,_0_1)"];
  const reply = [
    lines[2], "_0_1 in 0.1 waits _0_1,_0_2", "_0_2 in 0.1 waits _0_1,_0_2",
    "_0_3 in 0.2 waits _0_3", "_0_3 in 0.3 waits _0_4", "_0_4 in 0.2 waits _0_3", "_0_4 in 0.3 waits _0_4", STAYS,
  ];
  const { circle } = await told(lines, {}, { why: [{ subject: "X", told: WhyNotLines.read(reply) }] });
  assert.deepStrictEqual(circle, [arc("0.2", "0.3", "_0_3"), arc("0.3", "0.2", "_0_4")]);
  for (const [count, length] of [[24, 24], [25, 0]]) {
    const { lines: goals, reply: first } = circleOf(count);
    assert.strictEqual((await told(goals, { "whynot 0.1": first })).circle.length, length);
  }
});

test("of many goals that wait twelve are asked about, of a long run none; how many lack arcs is told", async () => {
  const lines = places(1000).map((place) => `${place}.1 waits _${place}_1 w(_${place}_1)`);
  const held = (place) => [`_${place}_1 in 0.1 ready`, `_${place}_1 in ${place}.1 waits _${place}_1`];
  const answerOn = (place) => [`whynot ${place}.1`, [lines[place - 1], ...held(place), MAY]];
  const replies = Object.fromEntries(places(12).map(answerOn));
  const { arcs, left, asked } = await told(lines, replies);
  assert.deepStrictEqual([arcs.length, left, asked.length], [12, 988, 12]);
  assert.deepStrictEqual(await told(lines, replies, { leaps: 1_501 }), { arcs: [], circle: [], left: 1000, asked: [] });
  const refused = await told(lines.slice(0, 1), { "whynot 1.1": ["F1 no memory"] });
  assert.deepStrictEqual(refused, { arcs: [], circle: [], left: 1, asked: ["whynot 1.1"] });
});

/** So many goals that wait for the same two variables, and what `whynot` tells of the first. */
function alike(count) {
  const lines = places(count).map((place) => `${place}.1 waits _0_1,_0_2 w(_0_1,_0_2)`);
  const holdersOf = (variable) => places(count).map((place) => `${variable} in ${place}.1 waits _0_1,_0_2`);
  const held = ["_0_1", "_0_2"].flatMap(holdersOf);
  return { lines, reply: [lines[0], ...held, STAYS] };
}

test("40 arcs are drawn; among more than 1,000 goals nobody is looked for", async () => {
  const few = alike(300), many = alike(30_000), why = [{ subject: "X", told: WhyNotLines.read(many.reply) }];
  const { arcs, left } = await told(few.lines, { "whynot 1.1": few.reply });
  assert.deepStrictEqual([arcs.length, left], [40, 300]);
  assert.deepStrictEqual(await told(many.lines, {}, { why }), { arcs: [], circle: [], left: 30_000, asked: [] });
});
