// Where Node gives little memory, a long run stops before it is used up, so that the session can be saved.
import assert from "node:assert";
import fs from "node:fs";
import os from "node:os";
import path from "node:path";
import test from "node:test";
import { spawnSync } from "node:child_process";
import { Session } from "../../front/session/session.mjs";

const FOLDER = fs.mkdtempSync(path.join(os.tmpdir(), "ghcdb-test-")), place = (name) => path.join(FOLDER, name);
const PROGRAM = place("loop.ghc"), WORDS = [PROGRAM, "--query", "loop(0)"];
const HEAP = 100; // MB

test.before(() => { fs.writeFileSync(PROGRAM, "loop(N) :- true | N1 := N + 1, loop(N1).\n"); });
test.after(() => fs.rmSync(FOLDER, { recursive: true }));

/** Runs a text of a module in a process of little memory. */
function runsIn(module, words) {
  const file = place("run.mjs"), options = [`--max-old-space-size=${HEAP}`, file, ...words];
  fs.writeFileSync(file, module);
  return spawnSync(process.execPath, options, { encoding: "utf8", timeout: 300_000, cwd: FOLDER });
}

test("a terminal stops its run, says what helps, and saves what was done", async () => {
  const file = place("saved.history"), here = JSON.stringify(new URL("../front.mjs", import.meta.url).href);
  const { stdout, stderr, status } = runsIn(`
    import { Front } from ${here};
    const shown = [], out = (line) => shown.push(line);
    const front = new Front({ words: process.argv.slice(3), native: undefined, out, errors: out });
    await front.begin();
    for (const line of ["leap 1000000", "save " + process.argv[2]]) await front.answer(line);
    console.log(shown.slice(-2).join("\\n"));
    process.exit(0);`, [file, ...WORDS]);
  assert.deepStrictEqual([stderr, status], ["", 0]);
  const [cure, saved] = stdout.split("\n");
  assert.match(cure, /^% most of the \d+ MB that Node gives is used: save the session, then roll steps; or begin with/);
  assert.strictEqual(saved, `% saved in ${file}; --load ${file} goes on from it`);
  const session = new Session([...WORDS, "--load", file], undefined);
  await session.begin();
  assert.ok(session.kept.steps.size > 10_000, `${session.kept.steps.size} steps`);
  await session.program.kill();
});
