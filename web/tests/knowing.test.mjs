// Tests of what the page asks the console: `since`, `goal`, `explain` and `keep`.
import assert from "node:assert/strict";
import test from "node:test";
import * as Asking from "../../front/protocol/asking.mjs";
import * as Graph from "../../front/run/graph.mjs";
import * as Reader from "../../front/text/reader.mjs";
import RunModel from "../../front/run/run_model.mjs";
import Told from "../../front/protocol/told.mjs";
import WorkerSide from "../../front/session/worker_side.mjs";
import { engineOfPage } from "../../front/session/engine_of_page.mjs";
import { QUERIES, programOf, chance, plainGraph, lineByChance, follow } from "./lib/chance.mjs";
import { eachPlay, writtenText } from "./lib/runs.mjs";
import * as Replies from "../../front/protocol/replies.mjs";

const LINES = 25, SEEDS = 2;
const bytes = (text) => new TextEncoder().encode(text);

/** The words of all lines that a session is asked from now on. */
function askedOf(session) {
  const asked = [], plain = session.bytes.bind(session);
  session.bytes = (text) => {
    asked.push(text.trim().split(" ")[0]);
    return plain(text);
  };
  return asked;
}

test("after each line the steps, the goals' texts and the lines of clauses are those of the console, and the whole record is not asked for again", async () => {
  const { engine } = await engineOfPage();
  let compared = 0;
  for (const [name, query] of Object.entries(QUERIES)) {
    const program = programOf(name);
    for (let seed = 1; seed <= SEEDS; seed++) {
      const side = new WorkerSide(engine), next = chance(seed * 104729 + name.length), model = new RunModel(program);
      follow(model, side.open({ given: { program, query, history: "" } }).look);
      const asked = askedOf(side.session);
      for (let count = 0; count < LINES; count++) {
        const line = lineByChance(next, model), before = model.graph.count;
        asked.length = 0;
        follow(model, side.lines({ lines: [line] }).look);
        const words = `${name}, seed ${seed}, line ${count}, ${line}`;
        if (/^(step|in|ask|redo|undo|roll|leap)/.test(line) && before > 0) assert.ok(!asked.includes("records"), `${words} asked ${asked}`);
        const steps = Replies.readRecords(side.session.line("records"));
        assert.deepEqual(plainGraph(model.graph), plainGraph(Graph.graphOf(steps)), words);
        for (const step of steps.filter(({ goal }) => goal !== null)) {
          const where = step.clause === null ? "" : ` line ${model.clauses[step.clause - 1].from}`;
          const taken = `${step.number} ${step.goal} ${step.act} ${model.texts.get(step.goal)}${where}`;
          assert.equal(side.session.line(`goal ${step.number}`)[0], taken, words);
        }
        compared += 1;
      }
    }
  }
  assert.ok(compared > 400, `${compared} graphs were compared`);
});

test("of a run that was too long for the texts of its goals all are asked for once it is short again", async () => {
  const { engine } = await engineOfPage(), side = new WorkerSide(engine), model = new RunModel(""), given = { program: programOf("primes"), query: "primes(300,Ps)", history: "" };
  follow(model, side.open({ given }).look);
  follow(model, side.lines({ lines: ["leap 3100"] }).look);
  assert.equal(model.texts.size, 1);
  const { replies, look } = side.lines({ lines: ["roll 1500"] });
  follow(model, look);
  assert.ok(model.graph.count <= 3000 && model.graph.count > 100, replies[0][0]);
  for (const step of model.graph.steps) assert.ok(model.texts.has(step.goal), step.goal);
});

test("what was told of a record is added to, taken from, and compared with the whole of it", () => {
  const told = new Told(), line = (number) => `${number} 0.${number} eq reads - binds - makes -\n`, text = () => new TextDecoder().decode(told.bytes);
  assert.deepEqual([told.lastNumber, told.count], [null, 0]);
  assert.deepEqual(told.replace(bytes("none\n")), { kept: 0, come: new Uint8Array(0) });
  told.replace(bytes([1, 12, 3].map(line).join("")));
  assert.deepEqual([told.count, told.lastNumber], [3, 3]);
  assert.equal(new TextDecoder().decode(told.addSince(bytes(line(3) + line(20)))), line(20));
  assert.equal(told.addSince(bytes("F16 not a kept step\n")), null);
  told.take(new Set([20, 12]));
  assert.equal(text(), line(1) + line(3));
  told.take(new Set([3]));
  assert.deepEqual([text(), told.count, told.lastNumber], [line(1), 1, 1]);
  const { kept, come } = told.replace(bytes(line(1) + line(4)));
  assert.deepEqual([kept, new TextDecoder().decode(come), told.count], [1, line(4), 2]);
});

test("what a reply to `explain` tells: its head, its steps, their clauses, the other clauses, and how many there are", () => {
  const lines = ["T = 150", "_1_1 in 4.3 ready", "1 0.1 by 1 reads - binds - makes 1.1,1.2,1.3", "2 1.1 by 2 reads - binds - makes 2.1 or 3", "3 - ask p(X) reads - binds - makes 3.1", "13 6.2 by 9 reads _0_1 binds _0_2=f(a) makes - or 9,10", "steps 4 of 6"];
  const slice = Asking.sliceIn(lines), { head, numbers, clauses, others, last } = slice;
  assert.deepEqual([head, [...numbers], clauses, last], [lines.slice(0, 2), [1, 2, 3, 13], [1, 2, 9], "steps 4 of 6"]);
  assert.deepEqual(others, [[2, [3], "1.1"], [13, [9, 10], "6.2"]]);
  assert.equal(Asking.clausesTold(slice, 40), "rests on 3 of 40 clauses: 1, 2, 9");
  assert.deepEqual(Asking.sliceIn(["F23 no variable"]).head, ["F23 no variable"]);
  assert.equal(Asking.clausesTold(Asking.sliceIn(["F23 no variable"]), 40), undefined);
});

test("which clauses a slice used: none where a query's unification did all, and the first twelve of many", () => {
  const told = (lines, count) => Asking.clausesTold(Asking.sliceIn(lines), count);
  assert.equal(told(["X = 1", "1 0.1 eq reads - binds _0_1=1 makes -", "steps 1 of 1"], 1), "rests on none of 1 clause");
  assert.equal(told(["X = 1", "1 - ask p(by 7 q) reads - binds - makes 1.1", "2 1.1 by 4 reads - binds - makes -", "steps 2 of 2"], 9), "rests on 1 of 9 clauses: 4");
  assert.equal(told(["X = _0_1", "steps 0 of 3"], 2), undefined);
  assert.equal(told(["X = 1", "1 0.1 eq reads - binds _0_1=1 makes -", "steps 1 of 1"], 0), undefined);
  const many = Array.from({ length: 14 }, (_, at) => `${at + 1} 0.${at + 1} by ${14 - at} reads - binds - makes -`);
  assert.equal(told([...many, "steps 14 of 14"], 20), "rests on 14 of 20 clauses: 1, 2, 3, 4, 5, 6, 7, 8, 9, 10, 11, 12, ..");
});

/** A program with the clauses of these numbers, and in the place of each other one a clause of its predicate that does nothing. */
function withOnly(program, numbers) {
  const used = new Set(numbers), blank = ({ name, arity }) => `${name}${arity > 0 ? `(${Array(arity).fill("_").join(",")})` : ""} :- true | true.`;
  return Reader.readProgram(program).map((clause) => (used.has(clause.number) ? clause.text : blank(clause))).join("\n");
}

test("what a value rests on gives the same value when `keep` has taken all the rest back, and in any program that has its clauses", async () => {
  const { engine } = await engineOfPage();
  let kept = 0, again = 0;
  await eachPlay((play, session, run) => {
    const [[name] = []] = [...Asking.queryVariables(play.query)];
    const before = name === undefined ? ["F23"] : session.line(`show ${name}`);
    if (/^F\d/.test(before[0]) || run.graph.count === 0 || run.graph.count > 400) return;
    const { numbers, clauses, head, last } = Asking.sliceIn(session.line(`explain ${name}`));
    assert.deepEqual([head[0], last], [before[0], `steps ${numbers.length} of ${run.graph.count}`], play.name);
    assert.equal(session.line(`keep ${name}`).at(-1), `kept ${numbers.length}`, play.name);
    assert.deepEqual(session.line(`show ${name}`), before, play.name);
    assert.deepEqual(Replies.readRecords(session.line("records")).map((step) => step.number), [...numbers], play.name);
    kept += 1;
    const history = session.line("save 1");
    if (history[0].startsWith("F6")) return; // where goals were asked for
    const other = engine.open({ program: withOnly(play.program, clauses), query: play.query, history: `${history.join("\n")}\n` });
    assert.deepEqual(other.line(`show ${name}`), before, play.name);
    again += 1;
  });
  assert.ok(kept > 80 && again > 80, `${kept} runs, ${again} by another program`);
});

test("the page follows `keep` of a value and of a goal", async () => {
  const { engine } = await engineOfPage(), side = new WorkerSide(engine), model = new RunModel("");
  follow(model, side.open({ given: { program: programOf("quicksort"), query: "quicksort([3,1,2],R)", history: "" } }).look);
  follow(model, side.lines({ lines: ["leap 12"] }).look);
  const waiting = model.goals.find((goal) => goal.status === "waits"), inner = model.graph.steps.find((step) => step.binds.length > 0).binds[0].variable;
  for (const name of [waiting.name, inner]) {
    const { slice } = side.slice({ name }), { replies, look } = side.lines({ lines: [`keep ${name}`] });
    assert.equal(replies[0].at(-1), `kept ${slice.numbers.length}`);
    follow(model, look);
    assert.deepEqual(model.graph.steps.map((step) => step.number), [...slice.numbers]);
  }
});

test("the texts of goals that are worked out are those that the console tells", async () => {
  let compared = 0;
  await eachPlay((play, session, run) => {
    if (play.lines.some((line) => /^ *(in|ask|undo|roll|redo|arrange) /.test(line)) || run.graph.count > 400) return;
    for (const step of run.graph.steps) {
      assert.equal(writtenText(run, step.goal) || undefined, run.texts.get(step.goal), `${play.name}, goal ${step.goal}`);
      compared += 1;
    }
  });
  assert.ok(compared > 300, `${compared} texts compared`);
});

test("of the lines of part and blame each names the step or the goal that a click goes to", () => {
  const named = (line) => { const found = Replies.namedIn(line); return found && [found.before, found.step ?? found.goal, found.after]; };
  assert.deepEqual(["ask 2.2 of 28", "left 4.2 failed F10", "asked 3", "24.1 gave part([],1,[],[])", "7.1 _3_1 := 2 * 3", "16 2.2 by 2", "4.2 waits _1_1"].map(named),
    [["ask ", "2.2", " of 28"], ["left ", "4.2", " failed F10"], ["asked ", 3, ""], ["", "24.1", " gave part([],1,[],[])"], ["", "7.1", " _3_1 := 2 * 3"], ["", 16, " 2.2 by 2"], ["", "4.2", " waits _1_1"]]);
  assert.deepEqual(["fault 24 16.2 by 2", "fault 4.2", "fault 0", "given qs([],_0_1,[])", "gave qs([],[],[])", "in turns"].map(named), [["fault ", 24, " 16.2 by 2"], ["fault ", "4.2", ""], null, null, null, null]);
});
