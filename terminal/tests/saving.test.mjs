// A history of another session is written over only where somebody says so, and a session counts as saved where all of
// it is in a file.
import assert from "node:assert";
import fs from "node:fs";
import os from "node:os";
import path from "node:path";
import test from "node:test";
import { begin, endAll } from "./lib/fronts.mjs";

const FOLDER = fs.mkdtempSync(path.join(os.tmpdir(), "ghcdb-test-")), place = (name) => path.join(FOLDER, name);
const PROGRAM = place("program.ghc"), WORDS = [PROGRAM, "--query", "p(1), p(2)"];

test.before(() => { fs.writeFileSync(PROGRAM, "p(X) :- true | q(X).\nq(_).\n"); });
test.afterEach(endAll);
test.after(() => fs.rmSync(FOLDER, { recursive: true }));

test("save asks before it writes over the history of another session", async () => {
  const file = place("first.history"), first = await begin(WORDS), saved = `% saved in ${file}; --load ${file} goes on from it`;
  await first.type("step");
  assert.deepStrictEqual(await first.type(`save ${file}`), [saved]);
  const before = fs.readFileSync(file, "utf8");
  await first.type("leap");
  assert.deepStrictEqual(await first.type(`save ${file}`), [saved], "its own");
  fs.writeFileSync(file, before);

  const other = await begin(WORDS), asked = [`% ${file} is the history of another session: y writes over it`];
  await other.type("leap 2");
  assert.deepStrictEqual(await other.type(`save ${file}`), asked);
  assert.deepStrictEqual(await other.type("n"), ["% the session stands"]);
  assert.strictEqual(fs.readFileSync(file, "utf8"), before);
  await other.type(`save ${file}`);
  assert.deepStrictEqual(await other.type("y"), [saved]);
  assert.notStrictEqual(fs.readFileSync(file, "utf8"), before);

  const third = await begin([...WORDS, "--load", file]);
  await third.type("leap");
  assert.deepStrictEqual(await third.type(`save ${file}`), [saved], "that from which it went on");
});

test("a session of which only the kept steps were saved is not saved, where it has more", async () => {
  const file = place("steps.history"), saved = `% saved in ${file}; --load ${file} goes on from it`;
  const more = "% what was taken back, and what is spied, is not in it: save FILE keeps that, too";
  for (const [line, isAll] of [["show X", true], ["undo 3", false], ["spy q/1", false]]) {
    const { type } = await begin(WORDS);
    await type("leap 3");
    await type(line);
    assert.deepStrictEqual(await type(`save 1 ${file}`), isAll ? [saved] : [saved, more], line);
    const [told] = await type("quit");
    const warned = `% ${line === "undo 3" ? 2 : 3} steps kept and not saved: save FILE keeps them; quit again ends`;
    assert.strictEqual(told, isAll ? undefined : warned);
    fs.rmSync(file);
  }
});

test("steps that were all taken back are not lost without a word", async () => {
  const { type } = await begin(WORDS);
  await type("leap 2");
  await type("undo 2");
  await type("undo 1");
  assert.deepStrictEqual(await type("quit"), ["% 2 steps taken back and not saved: save FILE keeps them; quit again ends"]);
  assert.deepStrictEqual(await type("quit"), []);
});
