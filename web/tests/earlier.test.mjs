// Tests of what the page knows without a browser: the goals at an earlier time, what clauses say, and that long work
// comes in parts.
import assert from "node:assert/strict";
import test from "node:test";
import * as Links from "../links.mjs";
import RunModel from "../../front/run/run_model.mjs";
import * as SessionText from "../../front/protocol/session_text.mjs";
import WorkerSide from "../../front/session/worker_side.mjs";
import * as Replies from "../../front/protocol/replies.mjs";
import { engineOfPage } from "../../front/session/engine_of_page.mjs";
import { chance, follow } from "./lib/chance.mjs";
import { plays, rows } from "./lib/runs.mjs";

const MOST_STEPS = 30, LEAST_TIMES = 300, LEAST_CLAUSES = 100;
const MOST_IN_ONE_PART = 5000; // steps that are worked on between two places where the page may pause

const stepsOf = (session) => Replies.readRecords(session.line("records"));

/** A history of the first kept steps of a session. */
function historyOf(session, count) {
  const steps = stepsOf(session).slice(0, count), last = Math.max(0, ...steps.map(({ number }) => number));
  const told = steps.map(({ number, goal, act }) => `${number} ${goal ?? "-"} ${act}`);
  return ["ghc-history 1", `steps ${steps.length}`, ...told, `end ${last + 1}`, ""].join("\n");
}

/** Whether one of the first steps asks for goals: such a run has no history of its kept steps alone. */
const asks = (session, count) => stepsOf(session).slice(0, count).some(({ kind }) => kind === "ask");

/** The worker's sides of runs that are not long, each with what it was given. */
async function* sides() {
  const { engine } = await engineOfPage();
  for (const { program, query, lines, history } of [...plays(), ...rows()]) {
    const side = new WorkerSide(engine), given = { program, query, history: history || "" };
    if (side.open({ given }).refusal) continue;
    side.lines({ lines: lines.map((line) => line.replace(/^leap 1000$/, "leap 20")) });
    if (!side.session.hasEnded && side.told.count <= MOST_STEPS) yield { engine, side, given };
  }
}

const standOf = (session) => ["goals", "records", "shelf"].map((line) => session.line(line));

test("the goals after the first steps, forth and back, are those of a session of these steps alone", async () => {
  let compared = 0;
  for await (const { engine, side, given } of sides()) {
    const before = standOf(side.session), next = chance(compared + 1);
    const all = Array.from({ length: side.told.count + 1 }, (none, count) => count);
    const times = [...all, ...all.map(() => next(all.length))].filter((steps) => !asks(side.session, steps));
    for (const count of times) {
      const session = engine.open({ ...given, history: historyOf(side.session, count) });
      assert.deepEqual(side.ask({ line: "goals", count }).reply, session.line("goals"), `${given.query}, after ${count} steps`);
      compared += 1;
    }
    assert.deepEqual(standOf(side.session), before, "the session itself stays as it is");
    if (compared > LEAST_TIMES * 2) break;
  }
  assert.ok(compared > LEAST_TIMES, `${compared} times were compared`);
});

const REPLIES = { yes: /^REDU /, no: /^F10 /, waits: /^F9 / };

/** Compares what clauses say to a goal with the replies to `step`, each in a session of its own; gives how many. */
function compareClauses(told, goal, open) {
  let compared = 0;
  for (const line of told.filter((one) => /^\d/.test(one))) {
    const [clause, says] = line.split(" "), [reply] = open().line(`step ${goal} ${clause}`);
    if (reply === "F22 full") continue; // there is no number for any step
    assert.match(reply, REPLIES[says], `step ${goal} ${clause}, which says ${says}`);
    compared += 1;
  }
  return compared;
}

test("what a clause says is what `step G C` replies; also to the goal of a step, as after its roll", async () => {
  let compared = 0;
  for await (const { engine, side, given } of sides()) {
    const open = () => engine.open({ ...given, history: `${side.session.line("save").join("\n")}\n` });
    const calls = Replies.readGoals(side.session.line("goals")).filter(({ sort }) => sort === "call").slice(0, 3);
    for (const { name } of calls) compared += compareClauses(side.ask({ line: `clauses ${name}` }).reply, name, open);
    const step = stepsOf(side.session).find(({ kind }) => kind === "reduce"), rolled = () => {
      const session = open();
      session.line(`roll ${step.number}`);
      return session;
    };
    const told = step === undefined ? [] : side.without({ step: step.number, line: `clauses ${step.goal}` }).reply;
    compared += compareClauses(told, step && step.goal, rolled);
    if (compared > LEAST_CLAUSES * 2) break;
  }
  assert.ok(compared > LEAST_CLAUSES, `${compared} clauses were compared`);
});

test("lines that come in parts are followed as if they had come at once, also where one ends the session", async () => {
  const { engine } = await engineOfPage(), given = { program: "loop :- true | loop.\n", query: "loop", history: "" };
  for (const lines of [["step 0.1", "leap 5", "undo 6", "redo 6", "goals", "leap 3"], ["leap 4", "quit", "leap 4"]]) {
    const [side, once] = [new WorkerSide(engine), new WorkerSide(engine)], replies = [];
    const [model, other] = [new RunModel(given.program), new RunModel(given.program)];
    follow(model, side.open({ given }).look);
    follow(other, once.open({ given }).look);
    for (let at = 0; at < lines.length; at += 2) {
      const told = side.lines({ lines: lines.slice(at, at + 2), isMore: at + 2 < lines.length });
      replies.push(...told.replies);
      follow(model, told.look);
    }
    const told = once.lines({ lines });
    follow(other, told.look);
    assert.deepEqual(replies, told.replies);
    assert.deepEqual(model.graph.steps, other.graph.steps);
    assert.ok(model.graph.count > 0);
  }
});

const linesOf = (bytes) => new TextDecoder().decode(bytes).split("\n").filter(Boolean);

test("a roll of the middle of a long run is followed in parts", async () => {
  const { engine } = await engineOfPage(), program = "p(N) :- true | q(N), M := N + 1, p(M).\nq(_) :- true | true.\n";
  const side = new WorkerSide(engine), model = new RunModel(program), given = { program, query: "p(0)", history: "" };
  follow(model, side.open({ given }).look);
  follow(model, side.lines({ lines: ["leap 30000"] }).look);
  const { forgetStep } = model.graph, { look } = side.lines({ lines: ["roll 15000"] });
  let sincePause = 0, most = 0;
  model.graph.forgetStep = (index) => {
    sincePause += 1;
    most = Math.max(most, sincePause);
    return forgetStep.call(model.graph, index);
  };
  const parts = model.change({ ...look, goals: linesOf(look.goals), shelf: linesOf(look.shelf) }, []);
  while (!parts.next().done) sincePause = 0;
  assert.ok(model.graph.count < 30000 && most <= MOST_IN_ONE_PART, `${most} steps at once`);
});

test("letters of a link are inflated up to 3,000,000 bytes, and no further; its lines are counted", async () => {
  const long = await Links.pack("x".repeat(30000000));
  await assert.rejects(Links.unpack(long), { name: "RangeError", message: "it has more than 3,000,000 bytes" });
  assert.equal((await Links.unpack(await Links.pack("x".repeat(3000000)))).length, 3000000);
  assert.equal(await Links.unpack(await Links.pack("")), "");
  assert.throws(() => Links.testLines({ lines: Array(20001).fill("goals") }), /^RangeError: it has more than 20,000 /);
  Links.testLines({ lines: Array(20000).fill("goals") });
});

test("a session whose reply has 300,000 lines is written as a text", () => {
  const entries = [{ line: "records", reply: Array(300000).fill("1 0.1 eq") }];
  const text = SessionText.write({ program: "", query: "true", history: "", entries });
  assert.equal(SessionText.read(text, () => undefined).replies[0].length, 300000);
});

test("a line of a listing that memory was refused for is a hole; the same words in a longer line are none", () => {
  assert.equal(Replies.hasHole("ghc-history 1\nsteps 2\n1 0.1 by 2\nF1 no memory\nend 3\n"), true);
  assert.equal(Replies.hasHole("ghc-history 1\nsteps 1\n1 0.1 in 'F1 no memory'\nend 2\n"), false);
});
