// Runs in slices: they tell what one run tells, and ^C ends them between two slices with all steps kept.
import assert from "node:assert";
import fs from "node:fs";
import os from "node:os";
import path from "node:path";
import test from "node:test";
import { fileURLToPath } from "node:url";
import { engineOfPage } from "../../front/session/engine_of_page.mjs";
import { queryOf } from "../../front/text/query_comment.mjs";
import { begin, endAll } from "./lib/fronts.mjs";
import { until } from "./lib/waiting.mjs";

const EXAMPLES = path.join(path.dirname(fileURLToPath(import.meta.url)), "..", "..", "examples");
const ENDLESS = "p(N) :- true | M := N + 1, p(M).\n"; // of which one goal is ready at a time
const AT_MOST = { timeout: 300_000 };
const loaded = engineOfPage();
const folder = fs.mkdtempSync(path.join(os.tmpdir(), "ghcdb-test-"));

test.after(() => fs.rmSync(folder, { recursive: true }));
test.afterEach(endAll);

/** A file with the endless program. */
function endless() {
  fs.writeFileSync(path.join(folder, "endless.ghc"), ENDLESS);
  return path.join(folder, "endless.ghc");
}

/** What a console replies to a line. */
async function replyTo(file, query, line) {
  const { engine } = await loaded;
  return engine.open({ program: fs.readFileSync(file, "latin1"), query }).line(line);
}

/** What a front tells of a run of some steps. */
async function runOf(file, query, most) {
  const { front } = await begin([file, "--query", query]);
  return (await front.runOn(most)).reply;
}

const GOES_ON = "% the last 500 reductions all went by clause 1, of p/1: should another one have ended it?";

test("a run in slices tells, byte for byte, what one run tells", AT_MOST, async () => {
  for (const most of [999, 1000, 1001, 2500]) {
    assert.deepStrictEqual(await runOf(endless(), "p(0)", most), await replyTo(endless(), "p(0)", `leap ${most}`), `${most}`);
    await endAll();
  }
});

test("the examples run as by one line", AT_MOST, async () => {
  const files = fs.readdirSync(EXAMPLES).filter((name) => name.endsWith(".ghc")).map((name) => path.join(EXAMPLES, name));
  assert.ok(files.length > 9);
  for (const file of files) {
    const query = queryOf(fs.readFileSync(file, "utf8"));
    assert.deepStrictEqual(await runOf(file, query, 1_000_000), await replyTo(file, query, "leap"), file);
    await endAll();
  }
});

test("^C ends a run between two slices, and all its steps are kept", AT_MOST, async () => {
  const { front, type } = await begin([endless(), "--query", "p(0)"]), shown = type("leap"), { kept } = front.session;
  await until(() => kept.steps.size >= 3000, { line: shown });
  front.interrupt();
  const lines = await shown, { size } = kept.steps, records = await front.session.ask("records");
  assert.ok(size >= 3000 && size % 1000 === 0, `${size}`);
  assert.deepStrictEqual([records.length, records.at(-1).split(" ")[0]], [size, String(size)]);
  assert.deepStrictEqual(lines.slice(0, 2), ["REDU 1 0.1 by 1", "REDU 2 1.1 is"]);
  const last = [`REDU ${size} ${size - 1}.1 is`, "stopped limit"], ended = `% ended by ^C after ${size} steps, which stand; leap goes on`;
  assert.deepStrictEqual(lines.slice(-4), [...last, ended, GOES_ON]);
  assert.deepStrictEqual(await type("leap 1"), [`REDU ${size + 1} ${size - 1}.2 by 1`, "stopped limit", "% leap goes on"]);
});

test("a slice that answers after ^C ends as a run of its own", AT_MOST, async () => {
  const { front, type } = await begin([endless(), "--query", "p(0)"]), shown = type("leap 1000");
  while (!front.session.program.isBusy) await new Promise((resolve) => { setImmediate(resolve); });
  front.interrupt();
  assert.deepStrictEqual((await shown).slice(-3), ["stopped limit", "% leap goes on", GOES_ON]);
});

test("of a long run it is told that it goes on, and that ^C ends it", AT_MOST, async () => {
  const { front } = await begin([endless(), "--query", "p(0)"]), notes = [], { session } = front;
  const steps = (count) => Array.from({ length: count }, () => "REDU 1 0.1 by 1");
  session.ask = async (line) => [...steps(Number(line.split(" ")[1])), "stopped limit"];
  front.note = (line) => notes.push(line);
  await front.runOn(250_000);
  const goesOn = (count) => `${count} steps so far, the last of p/1; ^C ends the run, and they stand`;
  assert.deepStrictEqual(notes, ["100,000", "200,000"].map(goesOn));
});
