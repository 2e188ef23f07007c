// What a session must not lose: histories with holes are not saved, each line can be ended, and a program that was
// ended is begun again.
import assert from "node:assert";
import fs from "node:fs";
import os from "node:os";
import path from "node:path";
import test from "node:test";
import { Readable } from "node:stream";
import { fileURLToPath } from "node:url";
import { until } from "./lib/waiting.mjs";

const HERE = path.dirname(fileURLToPath(import.meta.url));

const home = fs.mkdtempSync(path.join(os.tmpdir(), "ghcdb-test-"));
process.env.HOME = home; // before the modules look for what was left there
const { Front } = await import("../front.mjs");
const { play } = await import("../scripted.mjs");

const BILL = path.join(HERE, "..", "..", "examples", "bill.ghc"), QUERY = "bill(12,3,T)";
const FAULTY = path.join(HERE, "lib", "faulty_ghcdb");
const NONE = {};
const AT_MOST = { timeout: 300_000 };

const place = (name) => path.join(home, name);
process.env.FAULTS = place("faults");
const hung = place("faults.hung"), read = place("faults.read");

/** From now on the programs have these faults. */
function has(faults) {
  for (const name of [hung, read]) fs.rmSync(name, { force: true });
  fs.writeFileSync(place("faults.new"), JSON.stringify(faults));
  fs.renameSync(place("faults.new"), process.env.FAULTS);
}

test.beforeEach(() => has(NONE));

process.env.GHCDB = "page"; // where a test names no other
const begun = [];
test.afterEach(() => Promise.all(begun.splice(0).map((front) => front.session.program?.kill())));
test.after(() => fs.rmSync(home, { recursive: true }));

/** Begins a session; `type` gives what is shown after a line. `native` undefined is what GHCDB names. */
async function begin({ native = FAULTY, more = [], file = BILL, query = QUERY } = {}) {
  let shown = [];
  const show = (line) => shown.push(line);
  const front = new Front({ words: [file, "--query", query, ...more], native, out: show, errors: show });
  begun.push(front);
  const told = async (what) => {
    shown = [];
    await what();
    return shown;
  };
  const start = await told(() => front.begin());
  return { front, start, type: (line) => told(() => front.answer(line)) };
}

/** Types a line that is never answered, and ^C; what is shown then. When the line is given again it is answered. */
async function interrupted({ front, type }, line, { sent = line, ...faults } = {}) {
  has({ hangs: [sent], ...faults });
  const shown = type(line);
  await untilHung(shown);
  has(NONE);
  front.interrupt();
  return shown;
}

/** Waits until a program does not answer the line that was typed. */
const untilHung = (line) => until(() => fs.existsSync(hung), { line, told: () => `the programs read:\n${textOf(read)}` });

const textOf = (file) => (fs.existsSync(file) ? fs.readFileSync(file, "latin1") : "");

const LINE_ENDED = "% the line was ended; the session stands as before it", RUN_ENDED = "% the run was ended; the session stands as before it";

test("a history with a hole is not saved", AT_MOST, async () => {
  const { front, type } = await begin(), file = place("hole.history");
  await type("leap");
  has({ hole: 4 });
  assert.deepStrictEqual(await type(`save ${file}`),
    ["F1 no memory", "% memory was refused for it, so nothing was saved: undo or roll some steps, or save again"]);
  assert.ok(!fs.existsSync(file));
  assert.deepStrictEqual(await type("quit"), ["% 6 steps kept and not saved: save FILE keeps them; quit again ends"]);
  has(NONE);
  await type(`save ${file}`);
  const before = fs.readFileSync(file, "utf8");
  await type("back");
  has({ hole: 4 });
  await type(`save ${file}`);
  assert.strictEqual(fs.readFileSync(file, "utf8"), before);
  assert.strictEqual(front.session.isSaved, false);
});

test("the way back has no hole", AT_MOST, async () => {
  const { front, type } = await begin();
  await type("step");
  const before = await type("records");
  has({ hole: 4 });
  await front.session.prepareForEnding();
  const [shown] = (await interrupted({ front, type }, "leap", { sent: "leap 1000", hole: 4 })).slice(-1);
  assert.strictEqual(shown, RUN_ENDED);
  assert.deepStrictEqual(await type("records"), before);
});

test("each line can be ended, and the session stands", AT_MOST, async () => {
  const session = await begin(), { type } = session;
  await type("leap 4");
  await type("undo 3");
  const before = await type("records");
  for (const line of ["step 1.2", "redo 3", "leap 5"]) {
    assert.deepStrictEqual(await interrupted(session, line), [LINE_ENDED], line);
    assert.deepStrictEqual(await type("records"), before, line);
  }
  assert.deepStrictEqual(await interrupted(session, "records"), ["% the line was ended; the session stands"]);
  const shown = await interrupted(session, "back 3", { sent: "undo 2" });
  assert.deepStrictEqual(shown, ["% sent: undo 4", "undone 4", "% sent: undo 2", LINE_ENDED]);
  assert.deepStrictEqual(await type("redo 4"), ["REDU 4 1.2 by 2", "CALL 4.1 _1_2 := 3 * 10"]);
});

test("where a slice of a run does not answer, the slices before it are kept", AT_MOST, async () => {
  fs.writeFileSync(place("endless.ghc"), "p(N) :- true | M := N + 1, p(M).\n");
  const { front, type } = await begin({ file: place("endless.ghc"), query: "p(0)" }), shown = type("leap");
  await until(() => front.session.kept.steps.size >= 2000, { line: shown });
  has({ hangs: ["leap 1000"] });
  await untilHung(shown);
  has(NONE);
  front.interrupt();
  front.interrupt(); // which waits no longer
  const lines = await shown, { size } = front.session.kept.steps;
  assert.deepStrictEqual(lines.slice(-2), ["stopped limit", `% the run was ended where it did not answer; the ${size} steps before stand`]);
  assert.strictEqual(size % 1000, 0);
  assert.strictEqual((await front.session.ask("records")).length, size);
  assert.deepStrictEqual(await type("leap 1"), [`REDU ${size + 1} ${size - 1}.2 by 1`, "stopped limit", "% leap goes on"]);
});

test("where several workers make the runs, a history is kept after each", AT_MOST, async () => {
  const session = await begin({ more: ["--workers", "2"] }), { front, type } = session;
  await type("leap");
  assert.deepStrictEqual([front.session.way.lines, front.session.way.length], [[], 11]);
  const before = await type("records");
  assert.deepStrictEqual(await interrupted(session, "roll 2"), [LINE_ENDED]);
  assert.deepStrictEqual(await type("records"), before);
});

test("the page's engine, too, is ended in the midst of a line", AT_MOST, async () => {
  const { front, type } = await begin({ native: undefined });
  await type("leap 3");
  const before = await type("records"), { program } = front.session;
  program.send = () => {}; // as if it never answered
  const shown = type("step 1.2");
  await until(() => program.isBusy);
  front.interrupt();
  assert.deepStrictEqual(await shown, [LINE_ENDED]);
  assert.deepStrictEqual(await type("records"), before);
});

test("nothing is ended where the session could not come back", AT_MOST, async () => {
  const { front, type } = await begin(), { program } = front.session;
  await type("leap 3");
  front.session.way.lines.push("step 9.9"); // a line that will be refused
  has({ hangs: ["leap 1"] });
  const shown = type("leap 1");
  await untilHung(shown);
  front.interrupt();
  await until(() => front.ending !== undefined);
  await front.ending;
  assert.strictEqual(front.session.program, program);
  await program.kill();
  assert.match((await shown)[0], /^% the session could not be begun again: F7 no goal; the line goes on$/);
});

test("where the way back takes long, a second ^C leaves the line as it is", AT_MOST, async () => {
  const { front, type } = await begin(), { program } = front.session;
  await type("leap 3");
  has({ hangs: ["step 1.2"] });
  const shown = type("step 1.2");
  await untilHung(shown);
  has({ hangs: ["leap 3"] });
  front.interrupt();
  await untilHung(shown);
  front.interrupt();
  await front.ending;
  assert.strictEqual(front.session.program, program);
  has(NONE);
  front.interrupt();
  const goesOn = "% the session could not be begun again: the session was ended; the line goes on";
  assert.deepStrictEqual(await shown, [goesOn, LINE_ENDED]);
});

test("no folder is wanted for the way back", AT_MOST, async () => {
  const { TMPDIR, HOME } = process.env;
  process.env.TMPDIR = place("none");
  try {
    const session = await begin(), { type } = session;
    await type("leap 3");
    assert.deepStrictEqual(await interrupted(session, "leap 2000", { sent: "leap 1000" }), [RUN_ENDED]);
    assert.strictEqual((await type("records")).length, 3);
  } finally {
    Object.assign(process.env, { TMPDIR: TMPDIR ?? "", HOME });
    if (TMPDIR === undefined) delete process.env.TMPDIR;
  }
});

test("a program that a signal ended is begun again", AT_MOST, async () => {
  const { front, type } = await begin();
  await type("leap 3");
  const before = await type("records");
  has({ dies: ["leap 1000"] });
  assert.deepStrictEqual(await type("leap"),
    ["ghcdb was ended by SIGKILL", "% the program was started again; the session stands as before the last line"]);
  assert.deepStrictEqual([await type("records"), front.hasEnded], [before, false]);
  has(NONE);
  assert.ok((await type("leap")).includes("% all is done"));
});

test("where it cannot be begun again, what is known of the session is left", AT_MOST, async () => {
  const { front, type } = await begin();
  await type("leap 3");
  await type(`save ${place("known.history")}`);
  await type("leap 1");
  has({ dies: ["show T"] });
  front.session.way.lines.push("step 9.9"); // a line that will be refused
  const left = place(".ghcdb_unsaved.1"), shown = await type("show T");
  assert.deepStrictEqual(shown, [
    "ghcdb was ended by SIGKILL", "% the session could not be begun again: F7 no goal",
    `% the last lines are lost: --load ${left} goes on from what was kept`,
  ]);
  assert.deepStrictEqual([front.hasEnded, front.status], [true, 70]);
  assert.strictEqual(fs.readFileSync(left, "utf8"), fs.readFileSync(place("known.history"), "utf8"));
});

test("of scripts such an end is a status of its own, with a line why", AT_MOST, async () => {
  process.env.GHCDB = FAULTY;
  has({ dies: ["goals"] });
  let errors = "";
  const tell = async () => has({ dies: ["show T"] });
  const teller = { begin() {}, hear: tell, end: tell, ended() {} };
  has(NONE);
  const input = Readable.from([Buffer.from("leap\nshow T\n")]);
  const status = await play([BILL, "--query", QUERY], input, teller, (text) => { errors += text; });
  process.env.GHCDB = "page";
  assert.deepStrictEqual([status, errors], [70, "ghcdb was ended by SIGKILL\n"]);
});
