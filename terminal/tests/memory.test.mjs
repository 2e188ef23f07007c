// Where memory is short for the native program, nothing is called saved that does not load. MEMORY_LIMITS names
// megabytes, as 24,48,100,200.
import assert from "node:assert";
import fs from "node:fs";
import os from "node:os";
import path from "node:path";
import test from "node:test";
import { spawnSync } from "node:child_process";
import { Front } from "../front.mjs";
import { nativeProgram } from "../../front/session/program.mjs";

const NATIVE = nativeProgram(), LIMITS = (process.env.MEMORY_LIMITS ?? "24").split(",").map(Number);
const PROGRAM = "p(N,_) :- true | M := N + 1, p(M,_).\n", QUERY = "p(0,X), instream(S)";
const BIG = `in 1 [${"1,".repeat(4000)}1]`; // a term of which each line is long

const folder = fs.mkdtempSync(path.join(os.tmpdir(), "ghcdb-test-"));
test.after(() => fs.rmSync(folder, { recursive: true }));

/** The native program, where it may take so many megabytes. */
function limited(megabytes) {
  const file = path.join(folder, `ghcdb.${megabytes}`);
  const script = ["#!/bin/sh", `ulimit -v ${megabytes * 1024}`, `exec "${path.resolve(NATIVE)}" "$@"`, ""];
  fs.writeFileSync(file, script.join("\n"), { mode: 0o755 });
  return file;
}

/** Plays lines, with a `save` after each; how many were called saved, each of which was loaded again. */
async function savedAmong(words, native, lines) {
  const file = path.join(folder, "saved");
  let shown = [], saved = 0;
  const front = new Front({ words, native, out: (line) => shown.push(line), errors: (line) => shown.push(line) });
  await front.begin();
  for (const line of lines.flatMap((one) => [one, `save ${file}`])) {
    shown = [];
    await front.answer(line);
    assert.strictEqual(front.hasEnded, false, `${line.slice(0, 20)}: ${shown}`);
    if (!shown.some((told) => told.startsWith("% saved in "))) continue;
    saved += 1;
    const { status, stderr } = spawnSync(NATIVE, [...words, "--load", file], { input: "", encoding: "utf8" });
    assert.deepStrictEqual([status, stderr], [0, ""], line.slice(0, 20));
    assert.ok(front.session.isSaved);
  }
  await front.session.program.kill();
  return saved;
}

const OPTIONS = { skip: NATIVE === undefined && "no native program is there", timeout: 600_000 };
const LINES = ["leap 500", ...Array(12).fill(BIG), "leap", "back 3", BIG, "leap 1000", "back 40", BIG, "leap"];

for (const megabytes of LIMITS) {
  test(`within ${megabytes} MB`, OPTIONS, async () => {
    const program = path.join(folder, "p.ghc");
    fs.writeFileSync(program, PROGRAM);
    const saved = await savedAmong([program, "--query", QUERY], limited(megabytes), LINES);
    assert.ok(saved > 0, "nothing was saved");
  });
}
