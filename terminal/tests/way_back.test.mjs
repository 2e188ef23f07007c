// The way back to a session: which lines are played again, when a history is due, and what is left for the next start.
import assert from "node:assert";
import fs from "node:fs";
import os from "node:os";
import path from "node:path";
import test from "node:test";
import { fileURLToPath } from "node:url";

const HERE = path.dirname(fileURLToPath(import.meta.url));

const home = fs.mkdtempSync(path.join(os.tmpdir(), "ghcdb-test-"));
process.env.HOME = home; // before the module looks for what was left there
process.env.GHCDB = "page";
const Program = await import("../../front/session/program.mjs");
const Unsaved = await import("../unsaved.mjs");
const { Front } = await import("../front.mjs");
const { NotEnded, WayBack, isWhole } = await import("../../front/session/way_back.mjs");

const BILL = path.join(HERE, "..", "..", "examples", "bill.ghc");
const RUN = ["REDU 1 0.1 by 2", "CALL 1.1 _0_1 = [1|_1_1]", "REDU 2 1.1 eq", "REDU 3 1.2 is"];

test.after(() => fs.rmSync(home, { recursive: true }));

/** A program that gives these replies; `asked` has what it was asked. */
function answering(...replies) {
  const asked = [];
  return { asked, ask: async (line) => asked.push(line) && replies.shift() };
}

test("lines that change a session are played again, and no others", async () => {
  const way = new WayBack(false), program = answering([...RUN, "stopped limit", "spying p/1"]);
  for (const line of ["goals", "show X", "records", "save", "clauses 0.1"]) way.note(line, ["told"]);
  way.note("leap 3", [...RUN, "stopped limit"]);
  way.note("step 9.9", ["F7 no goal"]);
  way.note(" spy p/1", ["spying p/1"]);
  await way.play(program);
  assert.deepStrictEqual(program.asked, ["leap 3\n spy p/1"]);
});

test("what would not come alike again is played as it came", () => {
  const many = new WayBack(true), one = new WayBack(false), steps = ["step 0.1 2", "step 1.1", "step 1.2"];
  many.note("leap", [...RUN, "stopped quiet"]);
  one.note("leap", [...RUN, "stopped memory"]);
  assert.deepStrictEqual([many.lines, one.lines], [steps, steps]);
  assert.deepStrictEqual([many.isHeavy, one.isHeavy], [true, true], "a history is due");
  one.note("keep X", ["undone 1,3", "F1 no memory"]);
  assert.deepStrictEqual(one.lines.slice(3), ["undo 3", "undo 1"]);
  many.begin("history", 3);
  many.note("leap 1", ["REDU 4 0.2 eq", "stopped limit"]);
  assert.deepStrictEqual([many.lines, many.isHeavy], [["step 0.2"], false]);
});

test("where other steps come of the lines, the session is not taken for the same", async () => {
  const way = new WayBack(false);
  way.note("leap 3", [...RUN, "stopped limit"]);
  await assert.rejects(way.play(answering([...RUN.slice(0, 3), "stopped limit"])), NotEnded);
  await assert.rejects(way.play(answering([...RUN, "F1 no memory"])), NotEnded);
});

test("a history is due where more is played again than it is long", () => {
  const way = new WayBack(false);
  way.begin("history", 3000);
  for (let count = 0; count < 3000; count += 1) way.note("leap 1", ["REDU 1 0.1 eq"]);
  assert.strictEqual(way.isHeavy, false);
  way.note("leap 1", ["REDU 1 0.1 eq"]);
  assert.strictEqual(way.isHeavy, true);
  way.wait();
  assert.strictEqual(way.isHeavy, false);
});

test("a history with a line for which there was no memory is not whole", () => {
  assert.strictEqual(isWhole(["ghc-history 1", "F1 no memory", "end 1"]), false);
  assert.strictEqual(isWhole(["ghc-history 1", "steps 0", "end 1"]), true);
});

test("sessions are left, each until another is on the disk, and not without end", () => {
  const places = Array.from({ length: 67 }, (_, turn) => {
    const place = Unsaved.leave({ file: "p.ghc", query: `p(${turn})` }, `history ${turn}\n`);
    fs.utimesSync(place, turn, turn); // as if time went by
    return place;
  });
  const left = Unsaved.left();
  assert.deepStrictEqual(left.map(({ query }) => query), Array.from({ length: 64 }, (_, turn) => `p(${turn + 3})`));
  assert.deepStrictEqual([left[63].file, fs.readFileSync(places[66], "utf8")], [path.resolve("p.ghc"), "history 66\n"]);
  assert.strictEqual(fs.readdirSync(home).length, 128);
  Unsaved.forget(places[66]);
  assert.strictEqual(Unsaved.left(places[65]).length, 62);
  assert.deepStrictEqual([Unsaved.isLeft(places[65]), Unsaved.isLeft(places[66])], [true, false]);
});

test("at the start the sessions of this program are told in a line, and no others", () => {
  Unsaved.left().forEach(({ place }) => Unsaved.forget(place));
  const places = ["other.ghc", BILL, BILL].map((file, turn) => {
    const place = Unsaved.leave({ file, query: `p(${turn})` }, "a history\n");
    fs.utimesSync(place, turn, turn); // as if time went by
    return place;
  });
  const notes = [];
  const front = { session: { given: { file: BILL } }, note: (line) => notes.push(line) };
  Front.prototype.tellUnsaved.call(front, Unsaved.left());
  assert.deepStrictEqual(notes, [
    `a session of ${BILL} --query 'p(2)' was not saved: --load ${places[2]} goes on from it; before it: ${places[1]}`,
  ]);
});

test("lines that are asked at once are answered in turn", { timeout: 300_000 }, async () => {
  const program = Program.open([BILL, "--query", "bill(12,3,T)"], undefined);
  const [goals, shelf, shown] = await Promise.all(["goals", "shelf", "show T"].map((line) => program.ask(line)));
  assert.deepStrictEqual([goals, shelf, shown], [["0.1 ready bill(12,3,_0_1)"], ["none"], ["T = _0_1"]]);
  await program.kill();
});
