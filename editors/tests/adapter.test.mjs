// The debug adapter, by a client that plays sessions as an editor does, and tries every request that the adapter says it has.
import assert from "node:assert";
import fs from "node:fs";
import os from "node:os";
import path from "node:path";
import test from "node:test";
import { fileURLToPath } from "node:url";
import { Adapter } from "../dap/adapter.mjs";
import { Client } from "./lib/client.mjs";
import * as protocol from "./lib/protocol.mjs";

const HERE = path.dirname(fileURLToPath(import.meta.url));

const ROOT = path.join(HERE, "..", "..");
const example = (name) => path.join(ROOT, "examples", name);
const lineOf = (file, start) => fs.readFileSync(file, "utf8").split("\n").findIndex((line) => line.startsWith(start)) + 1;

/** A program's text in a file of its own. */
function programFile(text) {
  const file = path.join(fs.mkdtempSync(path.join(os.tmpdir(), "ghcdb-test-")), "program.ghc");
  fs.writeFileSync(file, text);
  return file;
}

const LONGEST = 400, MOST_ROUNDS = 8; // milliseconds, times the load for each processor; rounds, of which the least counts, for other work may be done

test.afterEach(Client.endAll);

const TRIED = new Set();
let capabilities;

async function session(play) {
  const client = new Client();
  try {
    await play(client);
    await client.end();
  } finally {
    client.child.kill();
    client.tried.forEach((command) => TRIED.add(command));
    capabilities ??= client.can;
  }
}

test("the tutorial: from the result to the step that bound it, another clause, and on", () => session(async (client) => {
  const file = example("bill.ghc");
  assert.strictEqual((await client.begin(file)).reason, "entry");
  const [query] = await client.frames();
  assert.deepStrictEqual([query.name, query.line, query.column], ["bill(12,3,_0_1)", 4, 13]);
  assert.strictEqual((await client.go("continue")).text, "all is done: step back, or end");
  assert.strictEqual((await client.ask("evaluate", { expression: "T", context: "hover" })).result, "150");
  const { dataId } = await client.ask("dataBreakpointInfo", { name: "T" });
  await client.ask("setDataBreakpoints", { breakpoints: [{ dataId }] });
  const back = await client.go("reverseContinue");
  assert.match(back.text, /^before step \d+, which bound _0_1 \(T of the query\)$/);
  const frames = await client.frames();
  assert.match(frames[0].name, /^_0_1 := 120 \+ 30$/);
  assert.strictEqual(frames[0].line, lineOf(file, "bill"));
  assert.match(frames[1].name, /^step 1: bill\(12,3,_0_1\) by 1$/);
  const clause = await client.scope(frames[1], "Clause");
  assert.deepStrictEqual(clause, { A: "12", B: "3", T: "_0_1", P: "120", Q: "30" });
  const inner = await client.ask("dataBreakpointInfo", { name: "P", frameId: frames[1].id });
  await client.ask("setDataBreakpoints", { breakpoints: [{ dataId: inner.dataId }] });
  await client.go("reverseContinue");
  await client.ask("setDataBreakpoints", { breakpoints: [] });
  const { targets } = await client.ask("gotoTargets", { source: { path: file }, line: lineOf(file, "price") });
  await client.go("goto", { targetId: targets.find(({ label }) => label.includes("price(12")).id });
  const [price] = await client.frames(), choices = await client.ask("stepInTargets", { frameId: price.id });
  assert.deepStrictEqual(choices.targets.map(({ id }) => id), [2, 3]);
  await client.go("stepIn", { targetId: 3 });
  await client.go("continue");
  assert.strictEqual(await client.type("T"), "126");
  assert.match(await client.type("shelf"), /^2 1\.1 by 2$/m);
}));

test("blame: two questions, the clause at fault, back to before its step", () => session(async (client) => {
  const file = example("bill.ghc");
  await client.begin(file);
  await client.go("continue");
  assert.match(await client.type("blame T"), /^sent: blame T\n.*\nask 0\.1 of 3\nquestion 1 of about 2: bill\(12,3,T\) gave T = 150\. Is that right\?\n/s);
  assert.strictEqual((await client.stop()).text, "right or wrong? bill(12,3,T) gave T = 150");
  assert.match(await client.type("n"), /question 2 of about 3: price\(12,P\) gave P = 120\./);
  assert.strictEqual((await client.stop()).text, "right or wrong? price(12,P) gave P = 120");
  assert.match(await client.type("n"), /fault 2 1\.1 by 2\n/);
  await client.stop();
  const [fault] = await client.frames();
  assert.deepStrictEqual([fault.name, fault.line], ["at fault: price(12,P) gave P = 120", lineOf(file, "price(N,P) :- N > 0")]);
  assert.strictEqual((await client.go("restartFrame", { frameId: fault.id })).text, "before step 2");
  assert.strictEqual((await client.frames())[0].name, "price(12,_1_1)");
}));

test("steps and back, by each process", () => session(async (client) => {
  await client.begin(example("append.ghc"));
  await client.go("stepIn");
  const { threads } = await client.ask("threads");
  assert.deepStrictEqual(threads.map(({ name }) => name.split(" ")[0]).sort(), ["1.1", "1.2"]);
  await client.go("next");
  assert.strictEqual((await client.type("records")).split("\n").length, 3);
  assert.match((await client.go("stepBack")).text, /^undone 3$/);
  assert.match((await client.go("stepBack")).text, /^undone 2$/);
  await client.go("stepOut");
  await client.go("continue");
  assert.strictEqual(await client.type("R"), "[1,2]");
  const list = await client.ask("evaluate", { expression: "R", context: "watch" });
  const { variables } = await client.ask("variables", { variablesReference: list.variablesReference });
  assert.deepStrictEqual(variables.map(({ name, value }) => `${name}=${value}`), ["1=1", "2=2"]);
  assert.strictEqual((await client.go("reverseContinue")).reason, "entry");
  assert.strictEqual(await client.type("records"), "none");
  assert.match(await client.refusal("stepBack", { threadId: client.thread }), /nothing was done yet/);
}));

test("breakpoints at a clause stop where that clause says yes, others not; conditions, hits, messages", () => session(async (client) => {
  const file = example("bill.ghc"), clause = lineOf(file, "price(N,P) :- N >= 10");
  const stop = await client.begin(file, { stopOnEntry: false }, async () => {
    const { breakpoints } = await client.ask("setBreakpoints", { source: { path: file }, breakpoints: [{ line: clause }, { line: 1 }] });
    assert.deepStrictEqual(breakpoints.map(({ verified }) => verified), [true, false]);
    assert.deepStrictEqual((await client.ask("breakpointLocations", { source: { path: file }, line: clause })).breakpoints, [{ line: clause }]);
  });
  assert.strictEqual(stop.reason, "breakpoint");
  assert.match(stop.text, /price\(12,/);
  await client.ask("setBreakpoints", { source: { path: file }, breakpoints: [{ line: lineOf(file, "price"), condition: "price(3,_)", logMessage: "met {goal}" }] });
  const { breakpoints } = await client.ask("setFunctionBreakpoints", { breakpoints: [{ name: "nosuch" }, { name: "price/2", condition: "price(99,_)" }] });
  assert.deepStrictEqual(breakpoints.map(({ verified }) => verified), [false, true]);
  assert.strictEqual((await client.go("continue")).text, "all is done: step back, or end");
  await client.go("reverseContinue");
  await client.ask("setFunctionBreakpoints", { breakpoints: [{ name: "price", hitCondition: "2" }] });
  await client.ask("setBreakpoints", { source: { path: file }, breakpoints: [] });
  assert.strictEqual((await client.go("continue")).reason, "function breakpoint");
}));

test("a message of a breakpoint is told", () => session(async (client) => {
  const file = example("bill.ghc");
  await client.begin(file, {}, () => client.ask("setBreakpoints", { source: { path: file }, breakpoints: [{ line: lineOf(file, "price"), logMessage: "met {goal}, T is {T}" }] }));
  await client.ask("continue", { threadId: 1 });
  const told = [];
  while (!told.at(-1)?.startsWith("met ")) told.push((await client.event("output")).output);
  assert.match(told.at(-1), /^met price\(12,_1_1\), T is _0_1\n$/);
  await client.stop();
}));

test("a deadlock stops as an exception that tells who waits for whom", () => session(async (client) => {
  const stop = await client.begin(example("wrong/philo.ghc"), { stopOnEntry: false });
  assert.strictEqual(stop.reason, "exception");
  const { exceptionId, description } = await client.ask("exceptionInfo", { threadId: client.thread });
  assert.strictEqual(exceptionId, "stuck");
  assert.match(description, /held by .*\nin vain: these stay unbound: /);
  const [frame] = await client.frames(), waits = await client.scope(frame, "Waits for");
  assert.match(Object.values(waits)[0], /held by|nobody/);
  await client.ask("setExceptionBreakpoints", { filters: [] });
  assert.strictEqual((await client.go("continue")).reason, "pause");
}));

test("a goal that fails tells what each clause says", () => session(async (client) => {
  await client.begin(example("bill.ghc"), { query: "price(0,T)", stopOnEntry: false });
  assert.match((await client.ask("exceptionInfo", { threadId: 1 })).description, /clause 2: N > 0 says no \(N = 0\)/);
}));

test("a variable is bound by hand, and what was done by hand is taken back", () => session(async (client) => {
  await client.begin(example("wrong/buffer.ghc"), { stopOnEntry: false });
  await client.go("setExpression", { expression: "_16_2", value: "[X,Y,Z]" });
  await client.go("continue");
  assert.strictEqual(await client.type("Sum"), "15");
  assert.match(await client.refusal("setExpression", { expression: "Sum", value: "1" }), /is bound: take back/);
  const asked = /^(\d+) - ask/m.exec(await client.type("records"))[1];
  await client.go("ghcdb/roll", { step: Number(asked) });
  assert.match(await client.type("Sum"), /^_/);
  await client.go("ghcdb/redo", { step: Number(asked) });
  await client.go("ghcdb/undo", { step: Number(asked) });
  const [frame] = await client.frames(), { scopes } = await client.ask("scopes", { frameId: frame.id });
  const query = scopes.find(({ name }) => name === "Query").variablesReference;
  await client.go("setVariable", { variablesReference: query, name: "Sum", value: "7" });
  assert.strictEqual(await client.type("Sum"), "7");
}));

test("texts, completions, the console, restart, frames started anew", () => session(async (client) => {
  const file = example("bill.ghc");
  await client.begin(file);
  await client.go("stepIn");
  assert.strictEqual((await client.ask("source", { sourceReference: 1 })).content, "bill(12,3,T)");
  assert.match((await client.ask("source", { sourceReference: 2 })).content, /1 bill\(12,3,_0_1\) {3}by 1/);
  assert.strictEqual((await client.ask("source", { sourceReference: 3 })).content, "none\n");
  assert.strictEqual((await client.ask("loadedSources")).sources.length, 4);
  assert.deepStrictEqual((await client.ask("completions", { text: "ro", column: 3 })).targets.map(({ label }) => label), ["roll"]);
  assert.deepStrictEqual((await client.ask("completions", { text: "step 1", column: 7 })).targets.map(({ label }) => label), ["1.1", "1.2"]);
  assert.match(await client.type("help"), /step G \[C\] /);
  assert.match(await client.type("why 99"), /F16 not a kept step/);
  assert.match(await client.type("stuck"), /1\.3 waits for _1_1 \(P of step 1\)/);
  assert.match(await client.type("goal 1"), /bill\(12,3,_0_1\)/);
  assert.match(await client.type("clauses 1.1"), /2.*yes/);
  assert.match(await client.refusal("evaluate", { expression: "undoo 3", context: "repl" }), /undoo: no such command; undo\?/);
  assert.match(await client.refusal("evaluate", { expression: "Nobody", context: "hover" }), /no variable/);
  assert.ok((await client.ask("ghcdb/graph")).records.length === 1);
  const frames = await client.frames();
  await client.go("restartFrame", { frameId: frames[1].id });
  assert.strictEqual(await client.type("records"), "none");
  assert.strictEqual((await client.go("restart")).text, "begun anew");
  assert.match(await client.refusal("attach", {}), /nothing to attach to/);
  await client.go("pause");
  await client.ask("terminate");
  await client.event("terminated");
  await client.ask("terminate");
  await new Promise((resolve) => { setTimeout(resolve, 100); });
  assert.deepStrictEqual(client.events.filter(({ event }) => event === "terminated"), [], "the end is told once");
}));

test("a pause is heard in an endless run, and requests are answered in it", () => session(async (client) => {
  await client.begin(programFile("p(N) :- true | M := N + 1, p(M).\n"), { query: "p(0)" });
  await client.ask("continue", { threadId: client.thread });
  await client.ask("cancel", { requestId: 0 });
  await client.ask("setFunctionBreakpoints", { breakpoints: [] });
  assert.match(await client.refusal("next", { threadId: 1 }), /a run goes on/);
  await client.ask("pause", { threadId: client.thread });
  assert.match((await client.stop()).text, /^after \d+ steps?$/);
  await client.type("roll 1");
  await client.stop();
  await client.ask("stepOut", { threadId: client.thread });
  await new Promise((resolve) => { setTimeout(resolve, 200); });
  await client.ask("pause", { threadId: client.thread });
  assert.match((await client.stop()).text, /the run was ended; the session stands as before it|stopped limit/);
}));

test("a pause ends a slice that does not answer, and what was kept before it stands", () => session(async (client) => {
  const text = "d(0,A,X) :- true | X = A.\nd(N,A,X) :- N > 0 | M := N - 1, d(M,f(A,A),X).\n";
  await client.begin(programFile(text), { query: "d(45,a,Y), d(45,a,Z), Y = Z" });
  await client.ask("continue", { threadId: client.thread });
  await new Promise((resolve) => { setTimeout(resolve, 500); });
  await client.ask("pause", { threadId: client.thread });
  assert.match((await client.stop()).text, /^ended where it did not answer, after \d+ steps?, which stand$/);
  await client.ask("threads");
}));

test("at 10,000 steps a stop, its frames and a step back come without a felt delay", () => session(async (client) => {
  await client.begin(example("primes.ghc"), { query: "primes(480,Ps)" });
  const time = async (what) => {
    const start = performance.now();
    await what();
    return performance.now() - start;
  };
  const show = async () => {
    await client.ask("threads");
    const [frame] = await client.frames();
    await client.ask("scopes", { frameId: frame.id });
    await client.scope(frame, "Query");
  };
  await client.go("continue");
  assert.ok((await client.type("records")).split("\n").length > 10000, "too few steps");
  await show();
  const acts = { back: () => client.go("stepBack"), "shown after it": show, step: () => client.go("stepIn"), "shown after that": show }, times = {};
  const longest = () => LONGEST * Math.max(1, os.loadavg()[0] / os.cpus().length), isSlow = (name) => !(Math.min(...times[name]) < longest());
  for (const name of Object.keys(acts)) times[name] = [];
  for (let round = 0; round < MOST_ROUNDS && Object.keys(acts).some(isSlow); round += 1) {
    for (const [name, does] of Object.entries(acts)) times[name].push(Math.round(await time(does)));
  }
  for (const name of Object.keys(acts)) assert.ok(!isSlow(name), `${name}: ${times[name]} ms`);
}));

test("what ghcdb refuses is told with its cause", async () => {
  const client = new Client();
  await client.ask("initialize", { adapterID: "ghcdb" });
  assert.match(await client.refusal("launch", { program: programFile("p(X) :- true | Y is X + 1.\n"), query: "p(1)" }), /`is` is written :=/);
  assert.match(await client.refusal("launch", { program: programFile("p(1).\n") }), /no query/);
  assert.match(await client.refusal("nosuch", {}), /not known here/);
  await client.end();
});

test("a refusal is told at its place", async () => {
  const client = new Client(), query = "p(a) p(b)", file = programFile(`% Query: ${query}\np(_).\n`), wrong = programFile("p(1).\n\np(X) :-\n  true | Y is X + 1.\n");
  await client.ask("initialize", { adapterID: "ghcdb" });
  await client.refusal("launch", { program: wrong, query: "p(1)" });
  const told = await client.event("output");
  assert.deepStrictEqual([told.category, told.source.path, told.line, told.column], ["stderr", wrong, 4, 12]);
  assert.match(told.output, /^program: F2 syntax at 4:12\nsyntax: `is` is written :=\n --> program.ghc:4:12\n/);
  await client.refusal("launch", { program: file });
  const inComment = await client.event("output");
  assert.deepStrictEqual([inComment.source.path, inComment.line, inComment.column], [file, 1, 15]);
  await client.refusal("launch", { program: file, query: "p(a" });
  assert.strictEqual((await client.event("output")).source, undefined);
  await client.end();
});

test("a value that is too long to be told is shown by its beginning", () => session(async (client) => {
  const file = programFile("d(0,T,R) :- true | R = T.\nd(N,T,R) :- N > 0 | M := N - 1, d(M,f(T,T),R).\n");
  await client.begin(file, { query: "d(19,a,R), X = [b,R]" });
  await client.go("continue");
  const [frame] = await client.frames(), values = await client.scope(frame, "Query");
  assert.match(values.R, /^f\(f\(f\(.*…$/);
  assert.match(values.X, /^\[b,f\(f\(f\(.*…/);
  assert.match((await client.ask("evaluate", { expression: "R", context: "watch" })).result, /^f\(f\(f\(.*…$/);
  await client.type("ask R = g(1)");
  assert.match(await client.type("step 42.1"), /F11 clash\nf\(f\(f\(.*… and g\(1\) are two different things\n_0_1 \(R of the query\) was bound by step 41; explain _0_1 tells why$/);
}));

test("goals that wait for an input stream are told so", () => session(async (client) => {
  await client.begin(example("sum.ghc"), { query: "instream(S), sum(S,0,R)" });
  assert.strictEqual((await client.go("continue")).text, "1 goal waits, and none is ready; `in 1 TERM` feeds the input stream");
}));

test("a note on an accepted program leads to its place", () => session(async (client) => {
  const file = programFile("p(_).\np(Xs) :- true | true.\n");
  await client.begin(file, { query: "p(1)" });
  const note = Client.heard.findLast(({ event, body }) => event === "output" && body.category === "important").body;
  assert.deepStrictEqual([note.source.path, note.line, note.column, note.output.split("\n")[0]], [file, 2, 3, "note: Xs stands once in clause 2"]);
}));

test("what cannot be begun is told with the reason", async () => {
  const client = new Client(), bill = example("bill.ghc"), history = programFile("ghc-history 2\nopening 0 1\nentries 1\n1 7.1 by 1\nspies 0\nend 2\n");
  await client.ask("initialize", { adapterID: "ghcdb" });
  const refusals = [[{ program: "/nosuch.ghc", query: "p" }, /^\/nosuch.ghc: no such file$/], [{ program: os.tmpdir(), query: "p" }, /: it is a folder$/],
    [{ program: bill, query: "bill(12,3,T)", load: "/nosuch" }, /^history: F26 device\n\/nosuch: no such file$/], [{ program: bill, query: "bill(12,3,T)", load: history }, /^history: F24 history line 4\n.*1 7\.1 by 1\n.*is it of this program and query\?$/],
    [{ program: programFile("p(1).\n".repeat(10001)), query: "p(1)" }, /^program: F6 limit: clauses\nthe clauses of a program: 10,000 at most$/]];
  for (const [given, wanted] of refusals) assert.match(await client.refusal("launch", given), wanted);
  for (const command of ["configurationDone", "setBreakpoints", "threads", "continue", "evaluate", "restart"]) assert.match(await client.refusal(command, {}), /no program was launched$/);
  await client.end();
});

test("a restart that is refused leaves the session as it is", () => session(async (client) => {
  const file = programFile("p(1).\n");
  await client.begin(file, { query: "p(X), X = 1" });
  await client.go("stepIn");
  fs.writeFileSync(file, "p(1)\n");
  assert.match(await client.refusal("restart", {}), /write a full stop after/);
  assert.match(await client.type("records"), /^1 0\.2 eq /);
}));

test("every request that the adapter says it has was tried", () => {
  const requests = { ConfigurationDoneRequest: "configurationDone", FunctionBreakpoints: "setFunctionBreakpoints", DataBreakpoints: "setDataBreakpoints", StepBack: "stepBack", RestartFrame: "restartFrame",
    RestartRequest: "restart", GotoTargetsRequest: "gotoTargets", StepInTargetsRequest: "stepInTargets", CompletionsRequest: "completions", SetVariable: "setVariable", SetExpression: "setExpression",
    LoadedSourcesRequest: "loadedSources", ExceptionInfoRequest: "exceptionInfo", TerminateRequest: "terminate", BreakpointLocationsRequest: "breakpointLocations", EvaluateForHovers: "evaluate",
    ConditionalBreakpoints: "setBreakpoints", HitConditionalBreakpoints: "setBreakpoints", LogPoints: "setBreakpoints", SingleThreadExecutionRequests: "stepOut", CancelRequest: "cancel" };
  for (const can of Object.keys(capabilities).filter((name) => name.startsWith("supports"))) assert.ok(TRIED.has(requests[can.slice("supports".length)]), can);
  const all = Object.getOwnPropertyNames(Adapter.prototype).filter((name) => name.startsWith("on_")).map((name) => name.slice(3).replace("ghcdb_", "ghcdb/"));
  assert.deepStrictEqual(all.filter((name) => !TRIED.has(name)), []);
});

test("all messages are of the protocol's own types", { skip: protocol.isThere ? false : "there is no node-vscode-debugprotocol with node-typescript" }, () => {
  const { told, count, kinds } = protocol.wrongTypes(Client.heard);
  assert.strictEqual(told, "");
  assert.ok(count > 200 && kinds > 35, `${count} messages of ${kinds} kinds`);
});
