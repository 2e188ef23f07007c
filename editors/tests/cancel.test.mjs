// `cancel`, by a client: of a line that goes on, a request that waits for its turn, a run, and what is done by then.
import assert from "node:assert";
import fs from "node:fs";
import os from "node:os";
import path from "node:path";
import test from "node:test";
import { Adapter } from "../dap/adapter.mjs";
import { Client } from "./lib/client.mjs";

const LIMIT = { timeout: 120000 };
const SOON = 300; // milliseconds, in which no leap of the program below ends

// A run ends at a million kept steps, and a quick processor takes a million short ones in a second. An assignment of 800
// operations makes each second step long, so that a leap lasts most of a minute.
const LONG_SUM = `N + 1${" + 1 - 1".repeat(400)}`;

test.afterEach(Client.endAll);

const pass = (milliseconds) => new Promise((resolve) => { setTimeout(resolve, milliseconds); });

/** A file with a program that has no end, and goes slowly. */
function endless() {
  const file = path.join(fs.mkdtempSync(path.join(os.tmpdir(), "ghcdb-test-")), "endless.ghc");
  fs.writeFileSync(file, `p(N) :- true | M := ${LONG_SUM}, p(M).\n`);
  return file;
}

/** A client with a session of the endless program at its first stop. */
async function begun(wants = {}) {
  const client = new Client();
  await client.begin(endless(), { query: "p(0)" }, undefined, wants);
  return client;
}

/** Sends a request without waiting: its number, and its answer to come. */
function sent(client, command, given) {
  const answer = client.put(command, given);
  return { requestId: client.sent, answer };
}

const typed = (client, expression) => sent(client, "evaluate", { expression, context: "repl" });
const CANCELLED = [false, "cancelled"];

/** What a request was answered: is it done, and the short word why not. */
async function said({ answer }) {
  const { success, message } = await answer;
  return [success, message];
}

test("a line that goes on is ended, and the session is as before it", LIMIT, async () => {
  const client = await begun();
  await client.go("stepIn");
  const line = typed(client, "leap");
  await pass(SOON);
  const { requestId } = line;
  await Promise.all([client.ask("cancel", { requestId }), client.ask("cancel", { requestId })]);
  assert.deepStrictEqual(await said(line), CANCELLED);
  assert.strictEqual(await client.type("records"), "1 0.1 by 1 reads - binds - makes 1.1,1.2");
  assert.strictEqual((await client.go("next")).reason, "step");
  assert.strictEqual((await client.go("stepBack")).reason, "step");
  await client.end();
});

test("a request that waits is not begun, and what it waits for goes on", LIMIT, async () => {
  const client = await begun(), line = typed(client, "leap");
  const step = sent(client, "stepIn", { threadId: client.thread }), other = typed(client, "goals");
  await pass(SOON);
  await client.ask("cancel", { requestId: step.requestId });
  assert.deepStrictEqual(await said(step), CANCELLED);
  await client.ask("cancel", { requestId: line.requestId });
  assert.deepStrictEqual(await said(line), CANCELLED);
  const { success, body } = await other.answer;
  assert.deepStrictEqual([success, body.result], [true, "0.1 ready p(0)"]);
  await client.end();
});

test("a run pauses where the request that began it is cancelled, and its steps are kept", LIMIT, async () => {
  const client = await begun(), run = sent(client, "continue", { threadId: client.thread });
  assert.deepStrictEqual(await said(run), [true, undefined]);
  await pass(SOON);
  await client.ask("cancel", { requestId: run.requestId });
  const { reason, text } = await client.stop();
  assert.strictEqual(reason, "pause");
  assert.match(text, /^after \d+ steps$/);
  await client.type("roll 1");
  await client.stop();
  const out = sent(client, "stepOut", { threadId: client.thread });
  await pass(SOON);
  await client.ask("cancel", { requestId: out.requestId });
  assert.match((await client.stop()).text, /^the run was ended; the session stands as before it$/);
  assert.strictEqual(await client.type("records"), "none");
  await client.end();
});

test("to cancel what is done, or what there never was, does nothing", LIMIT, async () => {
  const client = await begun(), line = typed(client, "goals");
  assert.deepStrictEqual(await said(line), [true, undefined]);
  const { requestId } = line, unknown = [{ requestId: 99999 }, { progressId: "x" }, {}, null, "quit"];
  for (const given of [{ requestId }, ...unknown]) await client.ask("cancel", given);
  assert.strictEqual(await client.type("goals"), "0.1 ready p(0)");
  await client.end();
});

test("who hears of progress is told where a line goes on for long, and cancels it by that", LIMIT, async () => {
  const client = await begun({ supportsProgressReporting: true }), line = typed(client, "leap"), { requestId } = line;
  const begin = await Promise.race([client.event("progressStart"), said(line)]), progressId = String(requestId);
  assert.deepStrictEqual(begin, { progressId, title: "leap", requestId, cancellable: true });
  await client.ask("cancel", { progressId });
  assert.deepStrictEqual(await said(line), CANCELLED);
  assert.deepStrictEqual(await client.event("progressEnd"), { progressId });
  await client.end();
});

// ---- the adapter by itself

/** An adapter with a session of the endless program. `put` sends a request, `answerTo` gives an answer that came. */
async function adapterBegun(wants) {
  const messages = [], send = (message) => messages.push(message);
  const adapter = new Adapter({ send, leave: () => {}, native: undefined });
  const put = (seq, command, given) => adapter.hear({ type: "request", seq, command, arguments: given });
  const answerTo = (seq) => messages.find(({ type, request_seq: number }) => type === "response" && number === seq);
  await put(1, "initialize", wants);
  await put(2, "launch", { program: endless(), query: "p(0)" });
  return { adapter, messages, put, answerTo };
}

test("where a line cannot be ended it goes on to its end, and the answer to cancel says why", LIMIT, async () => {
  const { adapter, put, answerTo } = await adapterBegun({}), passOn = adapter.session.endRun;
  adapter.session.endRun = async () => { throw new Error("no folder can be written"); };
  const line = put(3, "evaluate", { expression: "leap 20000", context: "repl" });
  await pass(1);
  await put(4, "cancel", { requestId: 3 });
  assert.strictEqual(answerTo(4).body.error.format, "cancel: no folder can be written");
  await line;
  assert.match(answerTo(3).body.result, /\nstopped limit$/);
  adapter.session.endRun = passOn;
  await put(5, "disconnect", {});
});

test("a short line, and an editor that did not ask for it, hear nothing of progress", LIMIT, async () => {
  for (const [wants, expression] of [[{ supportsProgressReporting: true }, "goals"], [{}, "leap 1"]]) {
    const { messages, put } = await adapterBegun(wants);
    await put(3, "evaluate", { expression, context: "repl" });
    await pass(1200);
    assert.deepStrictEqual(messages.filter(({ event }) => event?.startsWith("progress")), []);
    await put(4, "disconnect", {});
  }
});
