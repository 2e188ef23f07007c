// A run that ends without binding a variable of its query: what the terminal says, and the status of a script. What
// the console tells of that is played, so that any engine may run it.
import assert from "node:assert";
import fs from "node:fs";
import os from "node:os";
import path from "node:path";
import test from "node:test";
import { ScriptSession } from "../../front/session/script_session.mjs";
import { Front } from "../front.mjs";
import { objectOf } from "../objects.mjs";
import { STATUS, statusOfGoals } from "../scripted.mjs";

const folder = fs.mkdtempSync(path.join(os.tmpdir(), "ghcdb-test-"));
test.after(() => fs.rmSync(folder, { recursive: true }));

const SUM = path.join(folder, "sum.ghc"), DOOR = path.join(folder, "door.ghc");
fs.writeFileSync(SUM, "sum([],_,_) :- true | true.\nsum([X|Xs],A,S) :- true | B := A + X, sum(Xs,B,S).\n");
fs.writeFileSync(DOOR, "open(_,Key) :- true | turn(Key).\nturn(_) :- true | true.\npass(Door) :- wait(Door) | true.\n");
const OF_SUM = ["S = _0_1", "_0_1 lost by 5 3.2 by 1 sum([],_3_1,_0_1)", "stays unbound"];
const OF_DOOR = ["_0_1 in 0.2 waits _0_1", "_0_1 lost by 1 0.1 by 1 open(_0_1,_0_2)", "stays unbound"];
const REPLIES = {
  "whynot S": OF_SUM, "whynot D": ["D = _0_1", ...OF_DOOR], "whynot 0.2": ["0.2 waits _0_1 pass(_0_1)", ...OF_DOOR],
};

/** Makes a session's program answer `whynot` by the lines above; it is ended after the test. */
function play(session, t) {
  const { program } = session, ask = program.ask.bind(program);
  program.ask = (line, hear) => (REPLIES[line] === undefined ? ask(line, hear) : Promise.resolve([...REPLIES[line]]));
  t.after(() => program.kill());
}

/** Types lines at a terminal: what is shown after each. */
async function typed(t, file, query, lines) {
  const shown = [], all = [], tell = (line) => shown.push(line);
  const front = new Front({ words: [file, "--query", query], out: tell, errors: tell });
  await front.begin();
  play(front.session, t);
  for (const line of lines) {
    shown.length = 0;
    await front.answer(line);
    all.push([...shown]);
  }
  return all;
}

const WHO = "step 5 let it go, sum([],3,S) by clause 1 (line 1); whynot S tells more";

test("at the end of a run the terminal tells which step let go of the answer", async (t) => {
  const [run, step, value, why] = await typed(t, SUM, "sum([1,2],0,S)", ["leap", "step", "S", "whynot S"]);
  assert.deepStrictEqual(run.slice(-2), ["stopped quiet", `% S is never bound: ${WHO}`]);
  assert.deepStrictEqual(step, [`% no goal is ready: S is never bound: ${WHO}`]);
  assert.deepStrictEqual(value.slice(1), ["S = _0_1", `% _0_1 (S of the query) is unbound; no goal has it: ${WHO}`]);
  const names = "% _0_1 (S of the query), _3_1 (B of step 3)";
  assert.deepStrictEqual(why, [...OF_SUM, names, "% step 5 took sum([],3,S) by clause 1 (line 1)"]);
});

test("of a goal that waits in vain it is told who let go of what it waits for", async (t) => {
  const by = "open(D,K) by clause 1 (line 1)", lines = ["leap", "stuck", "step 0.2", "whynot D all"];
  const vain = `% 0.2 waits for _0_1 (D of the query): nobody can bind it (no other goal has it); step 1 let it go, ${by}`;
  const [, stuck, step, why] = await typed(t, DOOR, "open(D,K), pass(D)", lines);
  assert.deepStrictEqual([stuck, step], [[vain], ["F9 waits", vain]]);
  const names = "% _0_1 (D of the query), _0_2 (K of the query)";
  assert.deepStrictEqual(why, ["% sent: whynot D", ...REPLIES["whynot D"], names, `% step 1 took ${by}`]);
});

test("a script's status tells that a variable of the query was let go", async (t) => {
  const session = new ScriptSession([SUM, "--query", "sum([1,2],0,S)"]);
  await session.begin();
  play(session, t);
  const before = await statusOfGoals(session);
  await session.ask("leap");
  assert.deepStrictEqual([before, await statusOfGoals(session), STATUS.letGo], [STATUS.unfinished, STATUS.letGo, 10]);
  REPLIES["whynot S"] = ["S = _0_1", "stays unbound"];
  assert.strictEqual(await statusOfGoals(session), STATUS.done);
});

test("a reply to whynot has an object", () => {
  const told = (line, reply) => JSON.parse(JSON.stringify(objectOf(line, reply)));
  const lost = [{ variable: "_0_1", step: 1, goal: "0.1", act: "by 1", text: "open(_0_1,_0_2)" }];
  const of = { ok: true, holders: [{ variable: "_0_1", goal: "0.2", status: "waits _0_1" }], staysUnbound: true, lost };
  const goal = { goal: "0.2", status: "waits", waitsFor: ["_0_1"], text: "pass(_0_1)" };
  const ofD = { command: "whynot D", variable: "D", value: "_0_1" };
  assert.deepStrictEqual(told("whynot D", REPLIES["whynot D"]), { ...ofD, ...of });
  assert.deepStrictEqual(told("whynot 0.2", REPLIES["whynot 0.2"]), { command: "whynot 0.2", goal, ...of });
  assert.deepStrictEqual(told("whynot D", ["D = 1"]), { ...ofD, ok: true, value: "1", holders: [], lost: [] });
});
