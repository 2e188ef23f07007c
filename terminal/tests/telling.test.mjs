// The commands that tell of a step, a goal or a value: what the terminal and the adapter add to them.
import assert from "node:assert";
import path from "node:path";
import test from "node:test";
import { fileURLToPath } from "node:url";
import { Client } from "../../editors/tests/lib/client.mjs";
import { completionsOf } from "../../front/protocol/complete.mjs";
import { Front } from "../front.mjs";
import { objectOf } from "../objects.mjs";

const HERE = path.dirname(fileURLToPath(import.meta.url));

const BILL = path.join(HERE, "..", "..", "examples", "bill.ghc");
const RECORDS = [
  "1 0.1 by 1 reads - binds - makes 1.1,1.2,1.3", "2 1.1 by 2 reads - binds - makes 2.1", "3 2.1 is reads - binds _1_1=120 makes -",
  "4 1.2 by 2 reads - binds - makes 4.1", "5 4.1 is reads - binds _1_2=30 makes -", "6 1.3 is reads _1_1,_1_2 binds _0_1=150 makes -",
];
const EXPLAINED = ["T = 150", RECORDS[0], `${RECORDS[1]} or 3`, ...RECORDS.slice(2), "steps 6 of 6"];
const TREE = ["% step 1: bill(12,3,_0_1) by 1", "%   step 2: price(12,_1_1) by 2", "%     step 3: _1_1 := 12 * 10 is", "%   step 4: price(3,_1_2) by 2", "%     step 5: _1_2 := 3 * 10 is",
  "%   step 6: _0_1 := 120 + 30 is"];
const CAUSES = ["2 1 made", "3 2 made", "4 1 made", "5 4 made", "6 1 made", "6 3 read _1_1", "6 5 read _1_2 woke"];

const begun = []; // each is ended after its test, so that one that failed leaves nothing that waits
test.afterEach(() => Promise.all([...begun.splice(0).map((one) => one.kill()), Client.endAll()]));

/** Begins a session; `type` gives what is shown after a line, `given` the lines that the program was given. */
async function begin() {
  let shown = [];
  const front = new Front({ words: [BILL, "--query", "bill(12,3,T)"], native: undefined, out: (line) => shown.push(line), errors: (line) => shown.push(line) });
  await front.begin();
  const { program } = front.session, ask = program.ask.bind(program), given = [];
  begun.push(program);
  program.ask = (line) => {
    given.push(String(line));
    return ask(line);
  };
  const type = async (line) => {
    shown = [];
    await front.answer(line);
    return shown;
  };
  return { front, type, given };
}

test("the console answers, and the terminal adds what helps", async () => {
  const { front, type } = await begin();
  assert.deepStrictEqual((await type("> > leap")).slice(0, 2), ["REDU 1 0.1 by 1", "REDU 2 1.1 by 2"]);
  assert.deepStrictEqual(await type("save 2"), ["% 2 is no version: save tells the whole session, save 1 the kept steps; a file of that name is ./2"]);
  assert.deepStrictEqual(await type("explain T"), [...EXPLAINED, "% rests on 2 of 3 clauses: 1, 2", ...TREE, "% another clause than step 2 took: roll 2, step 1.1 3"]);
  assert.deepStrictEqual((await type("explain P")).slice(0, 2), ["% sent: explain _1_1", "_1_1 = 120"]);
  assert.deepStrictEqual(await type("goal 2."), ["% sent: goal 2", "2 1.1 by 2 price(12,_1_1) line 7", "% by clause 2: price(N,P) :- N > 0 | P := N * 10.", "% with N = 12, P = 120"]);
  assert.deepStrictEqual(await type("goal 99"), ["F16 not a kept step", "% records lists the kept steps"]);
  assert.match((await type("goal x")).join("\n"), /^F25 command\n% usage: goal N +tell which goal step N took, as written then; with its clause$/);
  assert.deepStrictEqual(await type("clauses 0.1"), ["F7 no goal", "% 0.1 was taken by step 1; goals lists those that are there"]);
  assert.deepStrictEqual(await type("causes"), CAUSES);
  assert.deepStrictEqual(await type("keep P"), ["% sent: keep _1_1", "undone 4,5,6", "kept 3", "% 3 steps left; shelf lists what was taken back, redo N puts a step there again"]);
  assert.deepStrictEqual([...front.session.kept.steps.keys()], [1, 2, 3]);
  assert.deepStrictEqual(await type("clauses 1.2"), ["2 yes line 7", "3 no test 1 line 8", "% clause 3: N >= 10 says no (N = 3)"]);
  assert.deepStrictEqual((await type("keep 1.2")).slice(0, 1), ["undone 2,3"]);
  await front.session.end();
});

test("a predicate is taken for another one where its name is nearly the same", async () => {
  const { front, type } = await begin();
  assert.deepStrictEqual(await type("spy prize/2"), ["F5 undefined prize/2", "% price/2?"]);
  assert.deepStrictEqual(await type("spy price/7"), ["F5 undefined price/7", "% price/2?"]);
  assert.deepStrictEqual(await type("spy pull/3"), ["F5 undefined pull/3", "% the program's predicates: bill/3, price/2"]);
  await front.session.end();
});

test("only the records that are not known are asked for", async () => {
  const { front, type, given } = await begin();
  await type("leap 4");
  assert.strictEqual((await front.session.look()).records.size, 4);
  await type("leap");
  const run = await front.session.look();
  assert.deepStrictEqual([run.records.size, run.binders.get("_0_1"), run.textOf("4.1")], [6, 6, "_1_2 := 3 * 10"]);
  await type("roll 4");
  assert.deepStrictEqual([...(await front.session.look()).records.keys()], [1, 2, 3]);
  assert.strictEqual(run.binders.has("_0_1"), false);
  await type("redo 4");
  assert.strictEqual((await front.session.look()).records.size, 4);
  assert.deepStrictEqual(given.filter((line) => /^(records|since)/.test(line)), ["records", "since 5", "since 4"]);
  await front.session.end();
});

test("Tab offers what may follow them", async () => {
  const { front, type } = await begin();
  await type("step");
  const offered = async (line) => (await completionsOf(front.session, line)).words.join(" ");
  assert.deepStrictEqual([await offered("ex"), await offered("ke"), await offered("si"), await offered("ca"), await offered("ef")], ["explain ", "keep ", "since ", "causes ", "effects "]);
  assert.deepStrictEqual([await offered("explain "), await offered("keep 1")], ["T _1_1 _1_2 _0_1 1.1 1.2 1.3", "1.1 1.2 1.3"]);
  assert.deepStrictEqual([await offered("since "), await offered("causes "), await offered("effects ")], ["1", "", "1"]);
  assert.deepStrictEqual([await offered("ask pr"), await offered("ask price(_1"), await offered("ask T = b")], ["price(", "_1_1 _1_2", "bill("]);
  await front.session.end();
});

test("the adapter asks for them, too, and a stop follows where steps went", async () => {
  const client = new Client({ env: { GHCDB: "page" } });
  await client.begin(BILL, { stopOnEntry: false });
  assert.match(await client.type("explain T"), /^2 1\.1 by 2 .* or 3$/m);
  assert.deepStrictEqual((await client.type("explain T all")).split("\n").slice(-7), [...TREE.map((line) => line.slice(2)), "another clause than step 2 took: roll 2, step 1.1 3"]);
  assert.match(await client.type("goal 2"), /price\(12,_1_1\)/);
  assert.match(await client.type("goal 99"), /^F16 not a kept step\nrecords lists/);
  assert.match(await client.type("keep _1_1"), /^undone 4,5,6\n(SUSP 1\.3 _1_2\n)?kept 3$/);
  assert.strictEqual((await client.stop()).text, "keep _1_1");
  assert.strictEqual((await client.type("records")).split("\n").length, 3);
  await client.end();
});

test("their replies as objects", () => {
  const textOf = (goal) => `goal ${goal}`;
  const explained = objectOf("explain Ps", ["Ps = [2|_4_1]", "_4_1 in 4.3 ready", `${RECORDS[1]} or 3,4`, "steps 1 of 12"], textOf);
  assert.deepStrictEqual([explained.variable, explained.value, explained.holders, explained.of], ["Ps", "[2|_4_1]", [{ variable: "_4_1", goal: "4.3", status: "ready" }], 12]);
  assert.deepStrictEqual(explained.steps.map((step) => [step.step, step.text, step.others]), [[2, "goal 1.1", [3, 4]]]);
  assert.deepStrictEqual(objectOf("explain T", ["T = _0_1", "_0_1 in 0.1 ready", "steps 0 of 0"], textOf), { command: "explain T", ok: true, variable: "T", value: "_0_1",
    holders: [{ variable: "_0_1", goal: "0.1", status: "ready" }], steps: [], of: 0 });
  const goal = objectOf("explain 1.3", ["1.3 waits _1_1 _0_1 := _1_1 + 30", "_1_1 in 1.1 ready", RECORDS[0], "steps 1 of 3"], textOf);
  assert.deepStrictEqual([goal.goal.goal, goal.goal.waitsFor, goal.steps.length], ["1.3", ["_1_1"], 1]);
  assert.deepStrictEqual(objectOf("causes", CAUSES, textOf).dependences.slice(5), [{ step: 6, on: 3, kind: "read", variable: "_1_1" }, { step: 6, on: 5, kind: "read", variable: "_1_2", woke: true }]);
  assert.deepStrictEqual(objectOf("goal 2", ["2 1.1 by 2 price(12,_1_1) line 34"], textOf), { command: "goal 2", ok: true, step: 2, goal: "1.1", act: "by 2", text: "price(12,_1_1)", line: 34 });
  assert.deepStrictEqual(objectOf("goal 7", ["7 - ask p(X)"], textOf), { command: "goal 7", ok: true, step: 7, goal: null, act: "ask p(X)", text: null });
  assert.deepStrictEqual(objectOf("clauses 1.2", ["2 waits _1_1,_1_2 line 34", "3 no test 1 line 35"], textOf).clauses, [{ clause: 2, says: "waits", waitsFor: ["_1_1", "_1_2"], line: 34 }, { clause: 3, says: "no", line: 35 }]);
  assert.deepStrictEqual(objectOf("since 5", RECORDS.slice(4), textOf).steps.map(({ step }) => step), [5, 6]);
  assert.deepStrictEqual(objectOf("effects 4", RECORDS.slice(4), textOf).steps.map(({ step }) => step), [5, 6]);
  assert.deepStrictEqual(objectOf("effects 6", ["none"], textOf), { command: "effects 6", ok: true, steps: [] });
  assert.deepStrictEqual(objectOf("keep T", ["undone 1,2", "kept 4"], textOf), { command: "keep T", ok: true, ports: [], undone: [1, 2], told: "kept 4" });
});
