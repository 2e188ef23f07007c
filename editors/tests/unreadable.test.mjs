// What an editor gives that cannot be read, that would be two lines, or that would be read without end: the adapter
// says so in words, does nothing, and the session stands.
import assert from "node:assert";
import fs from "node:fs";
import os from "node:os";
import path from "node:path";
import test from "node:test";
import { execFileSync } from "node:child_process";
import { fileURLToPath } from "node:url";
import { Client } from "./lib/client.mjs";
import { Adapter } from "../dap/adapter.mjs";
import { encode } from "../dap/wire.mjs";

const HERE = path.dirname(fileURLToPath(import.meta.url));

const BILL = path.join(HERE, "..", "..", "examples", "bill.ghc");
const lineOf = (start) => fs.readFileSync(BILL, "utf8").split("\n").findIndex((line) => line.startsWith(start)) + 1;
const CLAUSE_1 = lineOf("bill("), CLAUSE_2 = lineOf("price(");
const room = () => fs.mkdtempSync(path.join(os.tmpdir(), "ghcdb-test-"));

test.afterEach(Client.endAll);

/** A client with a session of bill(12,3,T) at its first stop. */
async function begun(given) {
  const client = new Client();
  await client.begin(BILL, given);
  return client;
}

/** What is said of a breakpoint at the first clause of price/2, or at another line: is it there, and its words. */
async function said(client, options, line = CLAUSE_2) {
  const given = { source: { path: BILL }, breakpoints: [{ line, ...options }] };
  const [{ verified, message }] = (await client.ask("setBreakpoints", given)).breakpoints;
  return [verified, message];
}

test("a condition is a pattern of the whole goal, or the breakpoint is not there", async () => {
  const words = "a condition is a pattern of the whole goal, price(_,_) with values in some places";
  const client = await begun();
  const wrong = ["N > 100", "price(", "T = 5", "!!", "price(3,_) more", "price(3,_).", "price(3)", "cost(3,_)", "X", 7];
  for (const condition of wrong) {
    assert.deepStrictEqual(await said(client, { condition }), [false, `${condition}: ${words}`]);
  }
  const twice = "price(X,X): a variable of a pattern fits everything, so that X twice compares nothing";
  assert.deepStrictEqual(await said(client, { condition: "price(X,X)" }), [false, twice]);
  assert.strictEqual((await client.go("continue")).text, "all is done: step back, or end");
  await client.go("reverseContinue");
  const right = "stops before a goal to which clause 2 says yes and that fits price(3, _)";
  assert.deepStrictEqual(await said(client, { condition: " price(3, _) " }), [true, right]);
  assert.match((await client.go("continue")).text, /^7\.2 price\(3,/);
  await client.end();
});

test("a function breakpoint is at the predicates of which its condition is a pattern", async () => {
  const file = path.join(room(), "two.ghc");
  fs.writeFileSync(file, "p(1) :- true | p(2,3).\np(_,_).\n");
  const client = new Client();
  await client.begin(file, { query: "p(1)" });
  const made = async (condition) => {
    const { breakpoints } = await client.ask("setFunctionBreakpoints", { breakpoints: [{ name: "p", condition }] });
    return breakpoints[0];
  };
  const { verified, message } = await made("p");
  assert.strictEqual(verified, false);
  assert.strictEqual(message, "p: a condition is a pattern of the whole goal, p(_) with values in some places");
  assert.strictEqual((await made("p(_,3)")).verified, true);
  assert.match((await client.go("continue")).text, /^1\.1 p\(2,3\)$/);
  await client.end();
});

test("a function breakpoint's name is a predicate or a pattern of its goals, or it is not there", async () => {
  const client = await begun(), words = "no predicate, and no pattern of one's goals; there are: bill(_,_,_) price(_,_)";
  const made = async (point) => (await client.ask("setFunctionBreakpoints", { breakpoints: [point] })).breakpoints[0];
  for (const name of ["cost", "price/3", "price(", "price(3)", "price(3,_) more", "N > 100", "", "P"]) {
    const { verified, message } = await made({ name });
    assert.deepStrictEqual([verified, message], [false, `${name}: ${words}`]);
  }
  assert.match((await made({ name: "price(X,X)" })).message, /^price\(X,X\): .* so that X twice compares nothing$/);
  const stops = [
    [{ name: "price" }, "1.1 price(12,_1_1)"],
    [{ name: "price/2" }, "1.1 price(12,_1_1)"],
    [{ name: " price(3, _) " }, "1.2 price(3,_1_2)"],
    [{ name: "price(N,_)", hitCondition: "2" }, "1.2 price(3,_1_2)"],
    [{ name: "price(3,_)", condition: "price(12,_)" }, "all is done: step back, or end"],
  ];
  for (const [point, text] of stops) {
    assert.strictEqual((await made(point)).verified, true, point.name);
    assert.strictEqual((await client.go("continue")).text, text, point.name);
    await client.go("restart");
  }
  await client.end();
});

test("a hit condition is a number, or the breakpoint is not there", async () => {
  const client = await begun(), words = "a hit condition is a number, as 3 or >= 3; from that hit on it stops";
  for (const hitCondition of ["> 2", "every 3", "2 times", "-1", "2.5", "== 2", "% 2", "two"]) {
    assert.deepStrictEqual(await said(client, { hitCondition }), [false, `${hitCondition}: ${words}`]);
  }
  for (const hitCondition of ["2", " >=2 ", ">= 2"]) {
    assert.strictEqual((await said(client, { hitCondition }))[0], true, hitCondition);
    assert.match((await client.go("continue")).text, /^1\.2 price\(3,/, hitCondition);
    await client.go("restart");
  }
  await client.end();
});

/** What a run tells by a log text at a line. */
async function toldBy(client, logMessage, line) {
  assert.strictEqual((await said(client, { logMessage }, line))[0], true, logMessage);
  await client.ask("continue", { threadId: 1 });
  const told = [];
  while (!told.at(-1)?.startsWith("all is done")) told.push((await client.event("output")).output);
  await client.stop();
  await client.go("restart");
  return told.filter((text) => text.startsWith("met "));
}

test("a name in a log text is the clause's variable, and is refused where it stands for nothing", async () => {
  const client = await begun();
  const pieces = ["met 1.1: 12 pieces, price _1_1\n", "met 1.2: 3 pieces, price _1_2\n"];
  assert.deepStrictEqual(await toldBy(client, "met {name}: {N} pieces, price {P}"), pieces);
  const goals = ["met price(12,_1_1) of _0_1\n", "met price(3,_1_2) of _0_1\n"];
  assert.deepStrictEqual(await toldBy(client, "met {goal} of {T}"), goals);
  assert.deepStrictEqual(await toldBy(client, "met {A} and { B }, {T}", CLAUSE_1), ["met 12 and 3, _0_1\n"]);
  for (const logMessage of ["{A}", "{}", "{N * 10}", "{_}"]) {
    const words = `${logMessage} stands for nothing; a log text can name {goal} {name} {N} {P} {T}`;
    assert.deepStrictEqual(await said(client, { logMessage }), [false, words]);
  }
  for (const logMessage of ["{N", "N}", "{N} of {", "{N}}"]) {
    assert.deepStrictEqual(await said(client, { logMessage }), [false, `${logMessage}: a brace in it has no partner`]);
  }
  const ofBody = "the clause's body makes P, and is not reached yet; a log text can name {goal} {name} {A} {B} {T}";
  assert.deepStrictEqual(await said(client, { logMessage: "price {P}" }, CLAUSE_1), [false, ofBody]);
  await client.end();
});

test("a data breakpoint is on a variable that is there, and a filter is one of those named", async () => {
  const client = await begun();
  const made = async (point) => (await client.ask("setDataBreakpoints", { breakpoints: [point] })).breakpoints[0];
  for (const dataId of ["zzz", "T", "_9_9", "_1_1\nquit", "", null]) {
    const { verified, message } = await made({ dataId });
    assert.deepStrictEqual([verified, message], [false, `${dataId} is no variable of the run; one is named as _1_2`]);
  }
  const { verified, message } = await made({ dataId: "_0_1", condition: "T > 3" });
  assert.strictEqual(verified, false);
  assert.strictEqual(message, "no condition is read here: a run stops where the variable is bound");
  const filterOptions = [{ filterId: "failed" }, { filterId: "failed", condition: "p(1)" }];
  const filters = (await client.ask("setExceptionBreakpoints", { filters: ["stuck", "raised"], filterOptions })).breakpoints;
  assert.deepStrictEqual(filters.map((filter) => [filter.verified, filter.message]), [
    [true, undefined],
    [false, "no such filter; there are: failed, stuck"],
    [true, undefined],
    [false, "no condition is read here: a run stops at each such goal"],
  ]);
  await client.go("stepIn");
  assert.strictEqual((await made({ dataId: "_1_1" })).verified, true);
  await client.go("restart");
  assert.strictEqual((await client.go("continue")).text, "_1_1 (P of step 1) was bound");
  assert.match(await client.type("show _1_1"), /^_1_1 = 120$/);
  await client.end();
});

test("after a restart breakpoints are those of the program as it is then", async () => {
  const file = path.join(room(), "sum.ghc"), write = (...clauses) => fs.writeFileSync(file, `${clauses.join("\n")}\n`);
  const done = "sum([],S) :- true | S = 0.", more = "sum([X|L],S) :- true | sum(L,T), S := T + X.";
  write(done, more);
  const client = new Client();
  await client.begin(file, { query: "sum([1,2],S)" });
  const set = { source: { path: file }, breakpoints: [{ line: 1 }, { line: 2, condition: "sum([1|_],_)" }] };
  const [first, second] = (await client.ask("setBreakpoints", set)).breakpoints;
  const named = (await client.ask("setFunctionBreakpoints", { breakpoints: [{ name: "total" }] })).breakpoints[0];
  assert.deepStrictEqual([first.verified, second.verified, named.verified], [true, true, false]);
  write(more, "total(1) :- true | true.", done);
  await client.go("restart");
  const told = Client.heard.filter(({ event }) => event === "breakpoint").slice(-3);
  const changed = told.map(({ body }) => body.breakpoint);
  assert.deepStrictEqual(changed.map(({ id }) => id), [first.id, second.id, named.id]);
  assert.deepStrictEqual(changed.map(({ verified }) => verified), [true, false, true]);
  assert.match((await client.go("continue")).text, /^0\.1 sum\(\[1,2\],/);
  await client.end();
});

test("where a breakpoint cannot be looked at, the run stops and says so", { timeout: 60000 }, async () => {
  const file = path.join(room(), "deep.ghc");
  const clauses = ["d(0,T,R) :- true | R = T.", "d(N,T,R) :- N > 0 | M := N - 1, d(M,f(T,T),R).", "e(_)."];
  fs.writeFileSync(file, `${clauses.join("\n")}\n`);
  const client = new Client();
  await client.begin(file, { query: "d(19,a,R)" });
  await client.go("continue");
  await client.type("ask e(R)");
  await client.stop();
  await client.ask("setFunctionBreakpoints", { breakpoints: [{ name: "e", condition: "e(f(a,_))" }] });
  assert.match((await client.go("continue")).text, /^the value of \S+ has \d+ letters, and is not taken apart$/);
  await client.end();
});

test("what would be two lines is not sent", async () => {
  const client = await begun(), oneLine = /one line is taken at a time$/;
  const [frame] = await client.frames(), { scopes } = await client.ask("scopes", { frameId: frame.id });
  const query = scopes.find(({ name }) => name === "Query").variablesReference;
  const wrong = ["1\nquit", "1, price(1,_)", "1 + 2", "a = b", "f(", "", "1\u0085"];
  for (const value of wrong) {
    const words = `${value}: a value is one term, as 3, red or [1,2]; nothing is computed`;
    assert.strictEqual(await client.refusal("setExpression", { expression: "T", value }), words);
    assert.strictEqual(await client.refusal("setVariable", { variablesReference: query, name: "T", value }), words);
  }
  assert.match(await client.refusal("setExpression", { expression: "T", value: "f(1,\nquit)" }), oneLine);
  for (const expression of ["show T\nquit", "show T\r\nquit", "ask T = 1\u0000", "quit\u001b"]) {
    assert.match(await client.refusal("evaluate", { expression, context: "repl" }), oneLine);
  }
  assert.match(await client.refusal("ghcdb/undo", { step: "1\nquit" }), oneLine);
  assert.strictEqual(await client.type("show T\n"), "T = _0_1");
  assert.strictEqual(await client.type("records"), "none");
  await client.end();
});

test("a message that is no request, or a request of another form, is passed over or refused", async () => {
  const client = await begun(), others = [null, [], 7, "quit", true, {}, { type: "event", event: "stopped" }];
  for (const message of others) client.child.stdin.write(encode(message));
  for (const given of [null, [], 7, "quit"]) assert.match(await client.refusal("evaluate", given), /^evaluate: /);
  for (const command of [null, 7, [], {}]) assert.match(await client.refusal(command, {}), /is not known here$/);
  assert.strictEqual(await client.type("show T"), "T = _0_1");
  await client.end();
});

test("a device or a pipe is not read for a program or a history", { timeout: 60000 }, async () => {
  const client = new Client(), pipe = path.join(room(), "pipe");
  execFileSync("mkfifo", [pipe]);
  await client.ask("initialize", { adapterID: "ghcdb" });
  for (const file of [pipe, "/dev/zero"]) {
    const words = `${file}: it is a device or a pipe, and no file`;
    assert.strictEqual(await client.refusal("launch", { program: file, query: "p" }), words);
    assert.strictEqual(await client.refusal("launch", { program: BILL, load: file }), words);
  }
  await client.end();
});

test("the adapter says of a process alone that it has ended while others have goals", async () => {
  const client = await begun(), ended = "this process has ended; others have 3 goals";
  const { threadId } = await client.go("stepIn");
  const named = async () => (await client.ask("stackTrace", { threadId })).stackFrames[0].name;
  assert.strictEqual(await named(), "price(3,_1_2)");
  await client.go("stepIn");
  assert.strictEqual(await named(), ended);
  assert.strictEqual(await client.refusal("next", { threadId }), `${ended}: step back, or end`);
  await client.go("continue");
  assert.strictEqual(await named(), "all is done");
  await client.end();
});

// ---- the adapter by itself, so that its session can be made to fail

/** An adapter with a session of a program's copy; `ask` gives the answer to a request, `sent` has all messages. */
async function adapterBegun() {
  const sent = [], send = (message) => sent.push(message);
  const adapter = new Adapter({ send, leave: () => {}, native: undefined });
  let last = 0;
  const put = (command, given) => adapter.hear({ type: "request", seq: (last += 1), command, arguments: given });
  const ask = async (command, given) => {
    await put(command, given);
    return sent.find(({ type, request_seq: seq }) => type === "response" && seq === last);
  };
  const program = path.join(room(), "bill.ghc");
  fs.copyFileSync(BILL, program);
  await ask("initialize", {});
  assert.ok((await ask("launch", { program })).success);
  await ask("configurationDone", {});
  return { adapter, ask, put, sent, program };
}

test("a run that could not be ended goes on, and the adapter says so", async () => {
  const { adapter, ask, put, sent } = await adapterBegun(), { session } = adapter, passOn = session.ask.bind(session);
  let hasBegun, letGo;
  const begins = new Promise((resolve) => { hasBegun = resolve; });
  const held = new Promise((resolve) => { letGo = resolve; });
  session.ask = async (line) => {
    if (!line.startsWith("skip ")) return passOn(line);
    hasBegun();
    await held;
    return passOn(line);
  };
  session.endRun = async () => { throw new Error("no folder can be written"); };
  const out = put("stepOut", { threadId: 1 });
  await begins;
  assert.ok((await ask("pause", {})).success);
  letGo();
  await out;
  const told = sent.filter(({ event }) => event === "output").map(({ body }) => body.output);
  assert.ok(told.includes("no folder can be written; the run goes on\n"), told.join(""));
  assert.strictEqual(sent.findLast(({ event }) => event === "stopped").body.reason, "step");
  await ask("disconnect", {});
});

test("a history is written whole or not at all", async () => {
  const { adapter, ask, program } = await adapterBegun(), folder = path.dirname(program);
  const typed = async (expression) => {
    const { success, body } = await ask("evaluate", { expression, context: "repl" });
    return success ? body.result : body.error.format;
  };
  await typed("step 0.1");
  const file = path.join(folder, "run.history"), whole = await typed("save");
  assert.match(whole, /^ghc-history 2\n/);
  const words = `saved in ${file}: with "load" in the launch configuration a session goes on from it`;
  assert.strictEqual(await typed("save run.history"), words);
  assert.strictEqual(fs.readFileSync(file, "utf8"), `${whole}\n`);
  await typed("step 1.1 2");
  assert.match(await typed("save run.history"), /^saved in /);
  assert.strictEqual(await typed("save bill.ghc"), `${program} is there: name another file`);
  const { program: engine } = adapter.session, passOn = engine.ask.bind(engine), kept = fs.readFileSync(file, "utf8");
  const hole = ["ghc-history 2", "F1 no memory", "end 1"];
  engine.ask = async (line) => (line.startsWith("save") ? hole : passOn(line));
  const none = "F1 no memory: lines of the history are missing, so it is none, and nothing was saved";
  assert.strictEqual(await typed("save"), none);
  assert.strictEqual(await typed("save run.history"), none);
  assert.strictEqual(fs.readFileSync(file, "utf8"), kept);
  engine.ask = passOn;
  const noVersion = "2 is no version: save tells the whole session, save 1 the kept steps; a file of that name is ./2";
  for (const line of ["save 2", "save 1 2"]) assert.strictEqual(await typed(line), noVersion);
  assert.match(await typed("save nosuch/run.history"), /ENOENT.*; nothing was saved$/);
  await ask("disconnect", {});
});
