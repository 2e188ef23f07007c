// How many lines of the console the terminal asks for what is typed: one, where that has all that is told.
import assert from "node:assert";
import fs from "node:fs";
import os from "node:os";
import path from "node:path";
import test from "node:test";
import { begin, endAll } from "./lib/fronts.mjs";

const AT_MOST = { timeout: 120_000 };
const APPEND = "append([],Y,Z) :- true | Z = Y.\nappend([A|X],Y,Z) :- true | Z = [A|Z1], append(X,Y,Z1).\n";
const folder = fs.mkdtempSync(path.join(os.tmpdir(), "ghcdb-asking-"));

test.after(async () => {
  await endAll();
  fs.rmSync(folder, { recursive: true });
});

/** A session of append, and what is sent to its console for a typed line. */
async function spied() {
  const file = path.join(folder, "append.ghc");
  fs.writeFileSync(file, APPEND);
  const client = await begin([file, "--query", "append([1],[2],R)"]), { program } = client.front.session, sent = [];
  const ask = program.ask.bind(program);
  program.ask = (line, hear) => (sent.push(String(line)), ask(line, hear));
  return { ...client, sent: async (line) => { sent.length = 0; await client.type(line); return [...sent]; } };
}

test("explain and clauses ask one line each, whatever was taken before", AT_MOST, async () => {
  const client = await spied();
  assert.deepStrictEqual(await client.sent("clauses 0.1"), ["clauses 0.1"]);
  assert.deepStrictEqual(await client.sent("step 0.1"), ["step 0.1"]);
  assert.deepStrictEqual(await client.sent("clauses 1.2"), ["clauses 1.2"]);
  await client.type("leap");
  assert.deepStrictEqual(await client.sent("explain R"), ["explain R"]);
  assert.deepStrictEqual(await client.sent("explain R all"), ["explain R"]);
});

test("undo that is refused asks one line more: what depends on the step", AT_MOST, async () => {
  const client = await spied();
  await client.type("leap");
  assert.deepStrictEqual(await client.sent("undo 1"), ["undo 1", "effects 1"]);
  assert.deepStrictEqual(await client.sent("undo 2"), ["undo 2"]);
});
