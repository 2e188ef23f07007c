// Tests of a reload as the page does it: the worker goes on under a text with the steps that stay, as the console judges
// them, and the button counts what the plan counts.
import assert from "node:assert/strict";
import test from "node:test";
import * as Replies from "../../front/protocol/replies.mjs";
import * as Clauses from "../../front/text/clauses.mjs";
import * as Graph from "../../front/run/graph.mjs";
import * as ReloadPlan from "../../front/run/reload_plan.mjs";
import WorkerSide from "../../front/session/worker_side.mjs";
import { engineOfPage } from "../../front/session/engine_of_page.mjs";
import * as StepWords from "../step_words.mjs";
import { plays, rows } from "./lib/runs.mjs";

const { engine } = await engineOfPage();
const MOST_STEPS = 300, LEAST_RELOADS = 80;

/** The worker's side of a session after lines; null where it is refused, has ended, or is long. */
function sideOf({ program, query, history, lines }) {
  const side = new WorkerSide(engine);
  if (side.open({ given: { program, query, history: history || "" } }).refusal) return null;
  side.lines({ lines: lines.map((line) => line.replace(/^leap 1000$/, "leap 60")) });
  return side.session.hasEnded || side.told.count === 0 || side.told.count > MOST_STEPS ? null : side;
}

/** A program without comments, with another clause in front, and with each of its clauses written otherwise in turn. */
function textsOf(program) {
  const clauses = Clauses.clausesOf(program).map(({ text }) => text);
  const other = (at) => clauses.map((text, place) => (place === at ? `${text.replace(/:- (.*)\|/, ":- true, $1|")} % other` : text)).join("\n");
  return [clauses.join("\n"), ["fresh(a) :- true | true.", ...clauses].join("\n"), ...clauses.map((none, at) => other(at)), clauses.toReversed().join("\n")];
}

const standOf = (session) => ["goals", "records", "shelf"].map((line) => session.line(line));
const stepsIn = (session) => Replies.readRecords(session.line("records"));

/** Whether what goes is closed: no step that stays depends on one that goes, by what the console tells of causes. */
function assertClosed(side, graph, going) {
  for (const [index, { number }] of graph.steps.entries()) {
    if (going.isIn[index] === 1) continue;
    for (const line of side.session.line(`why ${number}`)) {
      const cause = graph.indexOf(Number.parseInt(line, 10));
      assert.ok(cause < 0 || going.isIn[cause] === 0, `${number} stays, and ${line} goes`);
    }
  }
}

test("under each text the session goes on with the steps that the button counts, and stands where that is refused", () => {
  let reloads = 0;
  for (const play of [...plays(), ...rows()]) {
    if (reloads > LEAST_RELOADS * 2) break;
    for (const program of textsOf(play.program)) {
      const side = sideOf(play);
      if (side === null) break;
      const before = standOf(side.session), graph = Graph.graphOf(side.session.line("records"));
      const going = ReloadPlan.goingUnder({ graph, clauses: Clauses.clausesOf(play.program) }, program);
      assertClosed(side, graph, going);
      const told = side.reload({ program });
      if (told.refusal) {
        assert.match(told.refusal, /^program: F\d+ /, `${play.name}: ${told.refusal}`);
        assert.deepEqual(standOf(side.session), before, "the session stands");
        continue;
      }
      const stay = graph.steps.filter((none, index) => going.isIn[index] === 0), now = stepsIn(side.session);
      assert.deepEqual([told.staying, told.going, now.length], [stay.length, going.count, stay.length], play.name);
      if (!told.isRenumbered) assert.deepEqual(now.map(({ number, goal }) => [number, goal]), stay.map(({ number, goal }) => [number, goal]));
      const again = engine.open(told.given);
      assert.deepEqual(standOf(again), standOf(side.session), "its history brings it back");
      reloads += 1;
    }
  }
  assert.ok(reloads > LEAST_RELOADS, `${reloads} reloads`);
});

const BILL = "bill(A,B,T) :- true | price(A,P), price(B,Q), T := P + Q.\nprice(N,P) :- N > 0 | P := N * 10.\nprice(N,P) :- N >= 10 | P := N * 8.\n";

test("a clause that has changed takes its steps along, and what was spied is told", () => {
  const side = sideOf({ program: BILL, query: "bill(12,3,T)", lines: ["spy price/2", "step 0.1", "step 1.1 2", "step 1.2", "leap", "leap", "leap", "leap"] });
  const told = side.reload({ program: BILL.replace("N > 0", "N > 0, N < 10") });
  assert.deepEqual([told.staying, told.going, told.gone, told.come, told.spied], [1, 5, [2], [2], ["price/2"]]);
  assert.equal(StepWords.reloaded(told), "1 of 6 steps stays. Gone with clause 2 of the text before: step 2 (goal 1.1 was reduced by clause 2), step 3 (goal 1.2 was reduced by clause 2), and 3 more.");
  assert.equal(told.given.history, "ghc-history 2\nopening 1 7\n1 0.1 by 1\nentries 0\nspies 0\nend 7\n");
  assert.equal(StepWords.reloaded(side.reload({ program: `% x\n${told.given.program}` })), "1 of 1 step stays.");
  const asked = sideOf({ program: BILL, query: "bill(12,3,T)", lines: ["step 0.1", "step 1.2 2", "ask price(1,X)", "roll 1", "leap"] });
  const anew = asked.reload({ program: `x.\n${BILL}` });
  assert.deepEqual([anew.going, anew.isRenumbered], [0, true]);
  assert.match(StepWords.reloaded(anew), /^(\d) of \1 steps stay\. One of them asked for goals, so they are numbered anew, from 1 on\.$/);
});

test("what was undone stays undone, and can be redone, where its clause is still there", () => {
  const side = sideOf({ program: BILL, query: "bill(12,3,T)", lines: ["leap", "undo 6"] });
  assert.deepEqual([side.reload({ program: `% x\n${BILL}` }).staying, side.session.line("shelf")], [5, ["6 1.3 is"]]);
});

test("a refused text leaves the session as it was, and the next one is taken", () => {
  const side = sideOf({ program: BILL, query: "bill(12,3,T)", lines: ["leap 3"] }), before = standOf(side.session);
  assert.deepEqual(side.reload({ program: BILL.replace("price(N,P) :- N > 0 |", "price(N,P) :- N > 0") }), { refusal: "program: F2 syntax at 2:21" });
  assert.deepEqual(standOf(side.session), before);
  assert.equal(side.reload({ program: BILL }).staying, 3);
});

test("a history that does not load, and one without memory, leave the session as it was", () => {
  const side = sideOf({ program: BILL, query: "bill(12,3,T)", lines: ["leap 3"] }), before = standOf(side.session), { session } = side;
  side.engine = { open: (given) => engine.open({ ...given, history: given.history?.replace(/by \d+/, "by 9") }) };
  assert.match(side.reload({ program: `% x\n${BILL}` }).refusal, /^history: F24 /);
  side.engine = engine;
  side.session = { line: () => ["ghc-history 2", "F1 no memory"], bytes: (line) => session.bytes(line) };
  assert.deepEqual(side.reload({ program: `% x\n${BILL}` }), { refusal: "F1 no memory" });
  assert.deepEqual([standOf(session), side.given.program], [before, BILL]);
});
