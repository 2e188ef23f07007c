// Where Node gives little memory, a run in an editor stops before it is used up, and the session goes on.
import assert from "node:assert";
import fs from "node:fs";
import os from "node:os";
import path from "node:path";
import test from "node:test";
import { Client } from "./lib/client.mjs";

const FOLDER = fs.mkdtempSync(path.join(os.tmpdir(), "ghcdb-test-")), PROGRAM = path.join(FOLDER, "loop.ghc");

test.after(() => {
  Client.begun.forEach((child) => child.kill());
  fs.rmSync(FOLDER, { recursive: true });
});

test("an endless run stops, says what helps, and saves what was done", async () => {
  fs.writeFileSync(PROGRAM, "loop(N) :- true | N1 := N + 1, loop(N1).\n");
  const client = new Client({ env: { NODE_OPTIONS: "--max-old-space-size=100" } });
  await client.begin(PROGRAM, { query: "loop(0)", stopOnEntry: true });
  await client.ask("continue", { threadId: client.thread });
  const { text } = await client.stop();
  assert.match(text, /^most of the \d+ MB that Node gives is used: save the session/);
  const { result } = await client.ask("evaluate", { expression: "save done.history", context: "repl" });
  assert.match(result, /^saved in /);
  assert.match(fs.readFileSync(path.join(FOLDER, "done.history"), "latin1"), /^ghc-history 2\n[^]*\nend \d+\n$/);
});
