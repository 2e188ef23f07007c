// The model of a run against the console: goals as written, names, what a rollback takes.
import assert from "node:assert";
import fs from "node:fs";
import path from "node:path";
import test from "node:test";
import { fileURLToPath } from "node:url";
import * as Asking from "../protocol/asking.mjs";
import * as Graph from "../run/graph.mjs";
import Kept from "../run/kept.mjs";
import * as Print from "../text/print.mjs";
import * as Reader from "../text/reader.mjs";
import Run from "../run/run.mjs";
import { engineOfPage } from "../session/engine_of_page.mjs";
import * as Replies from "../protocol/replies.mjs";

const HERE = path.dirname(fileURLToPath(import.meta.url));

const ROOT = path.join(HERE, "..", "..");
const LONGER = { "primes.ghc": "primes(12,Ps)", "quicksort.ghc": "quicksort([5,3,8,1,9,2,4],R)", "reverse.ghc": "reverse([1,2,3,4,5,6],R)" };
const QUERY = /^% Query:\s*(.+)$/m;

/** The examples and the wrong ones, each with the query of its comment. */
function programs() {
  const files = ["examples", "examples/wrong", "examples/wrong/mended"].flatMap((folder) => fs.readdirSync(path.join(ROOT, folder)).filter((name) => name.endsWith(".ghc")).map((name) => path.join(ROOT, folder, name)));
  const own = files.map((file) => fs.readFileSync(file, "utf8")).map((program) => ({ program, query: QUERY.exec(program)[1] }));
  const longer = Object.entries(LONGER).map(([name, query]) => ({ program: fs.readFileSync(path.join(ROOT, "examples", name), "utf8"), query }));
  return [...own, ...longer];
}

/** A session, and the run that is known of it. */
function begin(engine, { program, query }) {
  const session = engine.open({ program, query }), kept = new Kept(), run = new Run(Reader.readProgram(program), query, kept);
  const type = (line) => {
    const reply = session.line(line);
    kept.learn(line, reply);
    return reply;
  };
  const look = () => run.learn(session.line("records"));
  return { session, kept, run, type, look };
}

test("goals are as the console wrote them, also where a run told none of them", async () => {
  const { engine } = await engineOfPage();
  let compared = 0;
  for (const given of programs()) {
    const { session, kept, run, type, look } = begin(engine, given);
    type("leap 300");
    look();
    assert.strictEqual(kept.steps.size, run.records.size);
    const texts = new Map(), second = engine.open(given);
    for (const { name, text } of Replies.readGoals(second.line("goals"))) texts.set(name, text);
    for (const { goal, clause } of Replies.readRecords(session.line("records"))) Asking.addCalls(texts, second.line(clause === null ? `step ${goal}` : `step ${goal} ${clause}`));
    for (const [name, text] of texts) {
      assert.strictEqual(run.textOf(name), text, `${given.query}: ${name}`);
      compared += 1;
    }
  }
  assert.ok(compared > 900, `${compared} goals`);
});

test("a rollback takes the consequences that were told", async () => {
  const { engine } = await engineOfPage();
  for (const given of programs()) {
    const { session, kept, type } = begin(engine, given);
    type("leap 60");
    while (kept.steps.size > 0) {
      const numbers = [...kept.steps.keys()], number = numbers[Math.floor(numbers.length / 2)];
      const told = [number, ...Replies.readRecords(session.line(`effects ${number}`)).map((step) => step.number)].join(",");
      const graph = Graph.graphOf(session.line("records"));
      const { isIn } = Graph.effectsReached(graph, graph.indexOf(number));
      assert.strictEqual(numbers.filter((kept) => isIn[graph.indexOf(kept)] === 1).join(","), told);
      assert.strictEqual(type(`roll ${number}`)[0], `undone ${told}`);
      assert.strictEqual(kept.steps.has(number), false);
    }
  }
});

test("nothing is computed of a run that has changed since it was told", async () => {
  const { engine } = await engineOfPage();
  const { run, type, look } = begin(engine, { program: "p(X) :- true | q(X,Y), Y = b.\nq(a,_) :- true | r.\nr :- true | true.\n", query: "p(X), X = a" });
  for (const line of ["step 0.1", "step 0.2"]) type(line);
  look();
  assert.strictEqual(run.endOf({ variable: "_0_1" }).name, "a");
  type("undo 2");
  assert.strictEqual(run.endOf({ variable: "_0_1" }).variable, "_0_1");
  type("ask X = c");
  type("leap 1");
  assert.strictEqual(run.environmentOf(1), undefined);
  look();
  assert.deepStrictEqual([...run.environmentOf(1).keys()], ["X", "Y"]);
});

test("asks and inputs have goals, places and names", async () => {
  const { engine } = await engineOfPage();
  const given = { program: "p(X,Y) :- true | Y = f(X,Z), q(Z).\nq(_) :- true | true.\n", query: "instream(S), p(S,T)" };
  const { run, type, look } = begin(engine, given);
  for (const line of ["in 1 a", "step 0.2", "ask q(Q), q(T)", "step 2.1"]) type(line);
  look();
  assert.strictEqual(run.textOf("1.1"), "instream 1 _1_1");
  assert.strictEqual(run.textOf("3.1"), "q(_3_1)");
  assert.strictEqual(run.labelOf("_2_1"), "_2_1 (Z of step 2)");
  assert.strictEqual(run.labelOf("_0_2"), "_0_2 (T of the query)");
  assert.deepStrictEqual(run.variablesNamed("Z"), ["_2_1"]);
  assert.strictEqual(run.placeOf("2.1").clause, 1);
  assert.strictEqual(run.placeOf("0.2").clause, 0);
});

test("kept steps are known from replies, also behind arrange, undo and redo", async () => {
  const { engine } = await engineOfPage();
  const { session, kept, type } = begin(engine, { program: "p(X) :- true | X = 1.\n", query: "p(X), p(Y), p(Z)" });
  for (const line of ["leap", "undo 2", "redo 2", "undo 99", "arrange 3 1 2 4 5 6", "roll 1"]) type(line);
  assert.deepStrictEqual([...kept.steps.keys()], Replies.readRecords(session.line("records")).map(({ number }) => number));
  assert.strictEqual(kept.last, [...kept.steps.keys()].at(-1));
});

test("a long list, a long chain and a deep term are walked by loops", () => {
  const kept = new Kept(), run = new Run([], "p(X)", kept), length = 200000;
  run.learn([]);
  run.bound = new Map(Array.from({ length }, (none, place) => [`_1_${place + 1}`, place + 1 < length ? { name: "s", arguments: [{ variable: `_1_${place + 2}` }] } : { integer: 1n }]));
  assert.strictEqual(Print.term({ variable: "_1_1" }, { store: run }).length, 3 * (length - 1) + 1);
  assert.strictEqual(Print.term({ variable: "_1_1" }, { store: run, most: 10 }), "s(s(s(s(s(…");
});
