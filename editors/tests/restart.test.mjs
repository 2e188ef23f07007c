// The request `restart` after the program's file has changed: the steps by clauses that are still there stay, with
// breakpoints and what is spied; what is refused leaves the session as it was.
import assert from "node:assert";
import fs from "node:fs";
import os from "node:os";
import path from "node:path";
import test from "node:test";
import { Adapter } from "../dap/adapter.mjs";
import { Client } from "./lib/client.mjs";

test.afterEach(Client.endAll);

const BILL = [
  "bill(A,B,T) :- true | price(A,P), price(B,Q), T := P + Q.", "price(N,P) :- N > 0, N < 10 | P := N * 10.",
  "price(N,P) :- N >= 10 | P := N * 80.",
];
const MENDED = [BILL[0], "free(0).", BILL[1], BILL[2].replace("80", "8")];
const textOf = (clauses) => clauses.map((clause) => `${clause}\n`).join("");

/** A file with clauses, and a function that puts others into it. */
function fileWith(clauses) {
  const file = path.join(fs.mkdtempSync(path.join(os.tmpdir(), "ghcdb-test-")), "bill.ghc");
  const write = (others) => fs.writeFileSync(file, textOf(others));
  write(clauses);
  return { file, write };
}

/** A client with a session of the bill at its end. */
async function billed(given = {}) {
  const client = new Client(), { file, write } = fileWith(BILL);
  await client.begin(file, { query: "bill(12,3,T)", ...given });
  await client.go("continue");
  return { client, file, write };
}

/** What is told in the editor's console while something is done: each text with its category and line. */
async function toldBy(does) {
  const { length } = Client.heard;
  await does();
  const told = Client.heard.slice(length).filter(({ event }) => event === "output").map(({ body }) => body);
  return told.map(({ output, category, line }) => [category, line, output.trimEnd()]);
}

const textsOf = (told) => told.map(([, , text]) => text);

const KEPT = [
  "1 0.1 by 1 reads - binds - makes 1.1,1.2,1.3", "4 1.2 by 3 reads - binds - makes 4.1",
  "5 4.1 is reads - binds _1_2=30 makes -",
];
const CHANGES = [
  "gone: clause 3 (line 3) price(N,P) :- N >= 10 | P := N * 80.", "new: clause 2 (line 2) free(0).",
  "new: clause 4 (line 4) price(N,P) :- N >= 10 | P := N * 8.",
  "goes: step 2, goal 1.1 by 3", "goes: step 3, goal 2.1 is", "goes: step 6, goal 1.3 is",
];
const RELOADED = "reloaded: 3 of 6 steps stay, and nothing is on the shelf", AGAIN = "a further restart begins anew";

test("the steps by clauses that are still there stay, and a further restart begins anew", async () => {
  const { client, write } = await billed();
  assert.strictEqual(await client.type("T"), "990");
  write(MENDED);
  const told = await toldBy(async () => {
    const { reason, text } = await client.go("restart");
    assert.deepStrictEqual([reason, text], ["restart", RELOADED]);
  });
  assert.deepStrictEqual(textsOf(told), [...CHANGES, RELOADED, AGAIN]);
  assert.deepStrictEqual((await client.type("records")).split("\n"), KEPT);
  const frames = (await client.frames()).map(({ name }) => name);
  assert.deepStrictEqual(frames, ["price(12,_1_1)", "step 1: bill(12,3,_0_1) by 1"]);
  await client.go("continue");
  assert.strictEqual(await client.type("T"), "126");
  assert.match(await client.type("records"), /^7 1\.1 by 4 /m);
  assert.strictEqual((await client.go("restart")).text, "begun anew");
  assert.strictEqual(await client.type("records"), "none");
  await client.end();
});

test("processes keep their numbers, and one whose goal is there again is told as begun", async () => {
  const client = new Client(), { file, write } = fileWith(BILL);
  await client.begin(file, { query: "bill(12,3,T)" });
  await client.go("stepIn");
  const names = async () => (await client.ask("threads")).threads.map(({ id, name }) => `${id} ${name.split(" ")[0]}`);
  assert.deepStrictEqual(await names(), ["1 1.2", "2 1.1", "3 1.3"]);
  await client.go("continue", { threadId: 2 });
  write(MENDED);
  await client.go("restart");
  const begun = Client.heard.filter(({ event, body }) => event === "thread" && body.reason === "started").slice(-2);
  assert.deepStrictEqual(begun.map(({ body }) => body.threadId), [2, 3]);
  assert.deepStrictEqual(await names(), ["2 1.1", "3 1.3"]);
  await client.end();
});

test("another query, other words, or what is as it was begin anew", async () => {
  const { client, file, write } = await billed();
  const anew = async (given) => (await client.go("restart", { arguments: given && { program: file, ...given } })).text;
  assert.strictEqual(await anew(undefined), "begun anew");
  await client.go("continue");
  write(MENDED);
  assert.strictEqual(await anew({ query: "bill(2,3,T)" }), "begun anew");
  await client.go("continue");
  assert.strictEqual(await client.type("T"), "50");
  write(BILL);
  assert.strictEqual(await anew({ query: "bill(2,3,T)", workers: 2 }), "begun anew");
  await client.go("continue");
  write(MENDED);
  assert.match(await anew({ query: "bill(2,3,T)", workers: 2, slice: 10 }), /^reloaded: 6 of 6 steps stay/);
  write([`% Query: bill(3,3,T)`, ...MENDED]);
  assert.strictEqual(await anew({ workers: 2 }), "begun anew");
  assert.strictEqual((await client.frames())[0].name, "bill(3,3,_0_1)");
  await client.end();
});

test("all that a text is refused for is told at its place, and the session stands", async () => {
  const { client, file, write } = await billed(), before = await client.type("records");
  write([BILL[0], "price(N,P) :- N == 1 | P := N.", "price(N,N) :- true | true."]);
  const told = await toldBy(async () => {
    const words = await client.refusal("restart", {});
    assert.match(words, /^program: F2 syntax at 2:18\nsyntax: == is not/);
    assert.match(words, /\nand 1 refusal more, in the console$/);
  });
  assert.deepStrictEqual(told.map(([category, line, text]) => [category, line, text.split("\n")[0]]), [
    ["stderr", 2, "program: F2 syntax at 2:18"],
    ["stderr", 3, "program: F4 variable N repeated in the head of clause 3"],
    ["stderr", undefined, "the session before stands"],
  ]);
  fs.rmSync(file);
  const words = `${file}: no such file`;
  const said = await toldBy(async () => assert.strictEqual(await client.refusal("restart", {}), words));
  assert.deepStrictEqual(textsOf(said), [words, "the session before stands"]);
  assert.strictEqual(await client.type("records"), before);
  await client.end();
});

test("breakpoints and what is spied stay; one at a variable of a step that went is told as gone", async () => {
  const { client, file, write } = await billed();
  await client.type("spy bill/3");
  const set = { source: { path: file }, breakpoints: [{ line: 2, condition: "price(12,_)" }] };
  const [atClause] = (await client.ask("setBreakpoints", set)).breakpoints;
  const atVariables = { breakpoints: [{ dataId: "_0_1" }, { dataId: "_1_1" }] };
  const [named] = (await client.ask("setFunctionBreakpoints", { breakpoints: [{ name: "price(3,_)" }] })).breakpoints;
  write([...MENDED.slice(0, 1), ...MENDED.slice(2), "more(1)."]);
  const points = (await client.ask("setDataBreakpoints", atVariables)).breakpoints;
  assert.deepStrictEqual(points.map(({ verified }) => verified), [true, true]);
  await client.go("restart");
  const told = () => Client.heard.filter(({ event }) => event === "breakpoint").map(({ body }) => body.breakpoint);
  const changed = told().slice(-2).map(({ id, verified, line }) => [id, verified, line]);
  assert.deepStrictEqual(changed, [[atClause.id, true, 2], [named.id, true, undefined]]);
  assert.match(await client.type("save"), /^spies 2\nbill\/3\nprice\/2$/m);
  assert.strictEqual((await client.go("continue")).text, "_1_1 (P of step 1) was bound");
  write([BILL[0].replace("T :=", "T  :="), "price(N,P) :- true | P := N * 2."]);
  const { id } = points[1];
  await client.go("restart");
  await client.ask("setDataBreakpoints", { breakpoints: [{ dataId: "_0_1" }] });
  assert.strictEqual((await client.go("continue")).text, "1.1 price(12,_1_1)");
  write([BILL[0].replace("P + Q", "Q + P"), "price(N,P) :- true | P := N * 2."]);
  await client.ask("setDataBreakpoints", atVariables);
  await client.go("restart");
  const gone = told().findLast(({ verified }) => !verified);
  assert.deepStrictEqual([gone.id > id, gone.message], [true, "_1_1 is of a step that went"]);
  await client.end();
});

test("what was asked for stays, with other numbers", async () => {
  const { client, write } = await billed();
  await client.type("ask bill(1,T,Q)");
  await client.stop();
  write(MENDED);
  assert.strictEqual((await client.go("restart")).text, "reloaded: 4 of 7 steps stay, and nothing is on the shelf");
  assert.match(await client.type("records"), /^4 - ask bill\(1,_0_1,_4_1\) reads - binds - makes 4\.1$/m);
  await client.go("continue");
  assert.strictEqual(await client.type("T"), "126");
  await client.end();
});

test("a restart ends a run first, whose steps stay", { timeout: 60000 }, async () => {
  const client = new Client(), clauses = ["count(N) :- true | M := N + 1, count(M).", "never(1)."];
  const { file, write } = fileWith(clauses);
  await client.begin(file, { query: "count(0)", slice: 100 });
  await client.ask("continue", { threadId: 1 });
  write(clauses.slice(0, 1));
  await client.ask("restart");
  assert.strictEqual((await client.stop()).reason, "pause");
  const [, kept, all] = /^reloaded: (\d+) of (\d+) steps stay/.exec((await client.stop()).text);
  assert.deepStrictEqual([kept, Number(kept) >= 100], [all, true]);
  await client.end();
});

test("a history that does not load leaves the session as it was", async () => {
  const sent = [], send = (message) => sent.push(message), { file, write } = fileWith(BILL);
  const adapter = new Adapter({ send, leave: () => {}, native: undefined });
  const ask = async (command, given) => {
    await adapter.hear({ type: "request", seq: sent.length + 1000, command, arguments: given });
    return sent.findLast(({ type, command: answered }) => type === "response" && answered === command);
  };
  await ask("initialize", {});
  await ask("launch", { program: file, query: "bill(12,3,T)" });
  await ask("configurationDone", {});
  await ask("continue", { threadId: 1 });
  const { session, session: { program } } = adapter, { ask: passOn } = program;
  write(MENDED);
  const wrong = ["1 0.1 by 1 reads - binds - makes 1.1", "2 9.9 by 1 reads - binds - makes -"];
  program.ask = async (line) => (line === "records" ? wrong : passOn.call(program, line));
  const { success, body } = await ask("restart", {});
  assert.deepStrictEqual([success, body.error.format], [false, "history: F24 history line 4"]);
  const told = sent.filter(({ event }) => event === "output").slice(-2).map(({ body: { output } }) => output);
  assert.deepStrictEqual(told, ["history: F24 history line 4\n", "the session before stands\n"]);
  program.ask = passOn;
  assert.strictEqual(adapter.session, session);
  assert.strictEqual((await session.ask("records")).length, 6);
  await ask("disconnect", {});
});
