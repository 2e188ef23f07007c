// Goals that fail, in an editor: the filter of exceptions for them, by runs and by steps.
import assert from "node:assert";
import fs from "node:fs";
import os from "node:os";
import path from "node:path";
import test from "node:test";
import { Client } from "./lib/client.mjs";

test.afterEach(Client.endAll);

/** A client with a session of the program `p(1).` at its first stop. */
async function begun(query) {
  const file = path.join(fs.mkdtempSync(path.join(os.tmpdir(), "ghcdb-test-")), "one.ghc");
  fs.writeFileSync(file, "p(1).\n");
  const client = new Client();
  await client.begin(file, { query });
  return client;
}

// Step 1 binds X to 2, by which both goals of p/1 fail; nothing binds Y.
const QUERY = "X = 2, p(X), p(X), p(Y)";

test("a goal that fails stops as an exception, in a run and at a step, where its filter is set", async () => {
  const client = await begun(QUERY);
  const tried = [[["failed", "stuck"], "exception"], [["failed"], "exception"], [["stuck"], "pause"], [[], "pause"]];
  for (const [filters, reason] of tried) {
    await client.ask("setExceptionBreakpoints", { filters });
    const run = await client.go("continue"), stepped = reason === "exception" ? "0.2 p(2) has failed" : "step 0.1";
    assert.deepStrictEqual([run.reason, run.text], [reason, "0.2 p(2) has failed"], filters.join());
    assert.strictEqual((await client.go("continue")).reason, reason, "it has failed still");
    await client.go("restart");
    const step = await client.go("stepIn");
    const wanted = [reason === "exception" ? reason : "step", stepped];
    assert.deepStrictEqual([step.reason, step.text], wanted, filters.join());
    assert.strictEqual((await client.frames())[0].name, "p(2)");
    await client.go("restart");
  }
  await client.end();
});

test("what had failed before a step is no exception of it, and each process tells why its own goal failed", async () => {
  const client = await begun(QUERY), { threads } = await client.ask("threads");
  const told = async (threadId) => (await client.ask("exceptionInfo", { threadId })).description;
  const idOf = (name) => threads.find((thread) => thread.name.startsWith(`${name} `)).id;
  assert.strictEqual((await client.go("stepIn")).threadId, idOf("0.2"));
  assert.strictEqual(await told(idOf("0.2")), "0.2 p(2)\nclause 1: the head wants 1, the goal has 2");
  assert.strictEqual(await told(idOf("0.3")), "0.3 p(2)\nclause 1: the head wants 1, the goal has 2");
  assert.strictEqual(await told(idOf("0.4")), await told(idOf("0.2")), "one that waits: the first that has failed");
  await client.type("ask Y = 1");
  assert.strictEqual((await client.stop()).reason, "step");
  await client.end();
});

test("a goal that had failed before the first step is no exception of a later one", async () => {
  const client = await begun("p(2), p(1)");
  const { threads } = await client.ask("threads"), { id } = threads.find(({ name }) => name.startsWith("0.2 "));
  assert.strictEqual((await client.go("stepIn", { threadId: id })).reason, "step");
  assert.match((await client.ask("exceptionInfo", { threadId: id })).description, /^0\.1 p\(2\)\n/);
  await client.end();
});
