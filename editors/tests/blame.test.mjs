// `blame` in the editor's console: its question is the frame that is shown, and so is the clause at fault. What the console replies to it is
// worked out by hand.
import assert from "node:assert";
import path from "node:path";
import test from "node:test";
import { fileURLToPath } from "node:url";
import { Adapter } from "../dap/adapter.mjs";

const BILL = path.join(path.dirname(fileURLToPath(import.meta.url)), "..", "..", "examples", "bill.ghc");
const BLAMED = {
  "blame T": ["given bill(12,3,_0_1)", "gave bill(12,3,150)", "ask 0.1 of 3"],
  "blame T -0.1": ["given price(12,_1_1)", "gave price(12,120)", "ask 1.1 of 2"],
  "blame T -0.1 +1.1": ["given price(3,_1_2)", "gave price(3,30)", "ask 1.2 of 1"],
  "blame T -0.1 -1.1": ["given price(12,_1_1)", "gave price(12,120)", "2.1 _1_1 := 12 * 10", "fault 2 1.1 by 2"],
};

/** An adapter with the bill's session, run to its end. `ask` sends a request and gives its answer's body, `stop` the last stop. */
async function begin() {
  const answers = new Map(), events = [];
  const send = (message) => { if (message.type === "response") answers.get(message.request_seq)(message); else events.push(message); };
  const adapter = new Adapter({ send, leave: () => {}, native: undefined });
  const ask = async (command, given = {}) => {
    const answer = await new Promise((resolve) => { answers.set(answers.size + 1, resolve); adapter.hear({ type: "request", seq: answers.size, command, arguments: given }); });
    assert.ok(answer.success, `${command}: ${answer.body?.error?.format}`);
    await adapter.work();
    return answer.body;
  };
  await ask("initialize", {});
  await ask("launch", { program: BILL, query: "bill(12,3,T)" });
  const { program } = adapter.session, told = program.ask.bind(program);
  program.ask = async (line) => BLAMED[String(line)] ?? told(line);
  await adapter.session.ask("leap");
  const type = async (expression) => (await ask("evaluate", { expression, context: "repl" })).result.split("\n");
  const settled = async () => { while (adapter.isBusy) await new Promise((resolve) => { setImmediate(resolve); }); };
  const stop = async () => { await settled(); return events.findLast(({ event }) => event === "stopped").body; };
  return { ask, type, stop, end: () => ask("disconnect") };
}

test("a question is the frame that is shown, and an answer leads to the next", async () => {
  const { ask, type, stop, end } = await begin();
  assert.deepStrictEqual((await type("blame T")).slice(0, 5), ["sent: blame T", ...BLAMED["blame T"], "question 1 of about 2: bill(12,3,T) gave T = 150. Is that right?"]);
  await type("n");
  const { threadId, text } = await stop();
  assert.strictEqual(text, "right or wrong? price(12,P) gave P = 120");
  assert.deepStrictEqual((await ask("threads")).threads.map(({ id }) => id), [threadId]);
  const { stackFrames, totalFrames } = await ask("stackTrace", { threadId });
  assert.deepStrictEqual([stackFrames.map(({ name }) => name), totalFrames], [[text, "step 1: bill(12,3,_0_1) by 1"], 2]);
  assert.deepStrictEqual([stackFrames[0].line, stackFrames[0].column], [6, 23]);
  await end();
});

test("at the end the clause at fault is shown, and its frame can be restarted", async () => {
  const { ask, type, stop, end } = await begin();
  await type("blame T");
  await type("n");
  assert.deepStrictEqual((await type("n")).slice(5, 8), ["found by 2 answers: price(12,P) gave P = 120, which is wrong", "so the fault is in clause 2 (line 7): price(N,P) :- N > 0 | P := N * 10.",
    "another clause than step 2 took: roll 2, step 1.1 3"]);
  const { threadId, text } = await stop(), { stackFrames: [frame] } = await ask("stackTrace", { threadId });
  assert.deepStrictEqual([text, frame.line, frame.column, frame.endLine, frame.endColumn], ["at fault: price(12,P) gave P = 120", 7, 1, 7, 35]);
  const { scopes } = await ask("scopes", { frameId: frame.id }), { variables } = await ask("variables", { variablesReference: scopes[0].variablesReference });
  assert.deepStrictEqual(variables.map(({ name, value }) => `${name} = ${value}`), ["N = 12", "P = 120"]);
  await ask("restartFrame", { frameId: frame.id });
  assert.strictEqual((await stop()).text, "before step 2");
  assert.deepStrictEqual((await ask("threads")).threads.map(({ id }) => id).includes(threadId), false);
  await end();
});

test("the answer before is taken back, and a predicate is trusted", async () => {
  const { type, end } = await begin();
  await type("blame T");
  await type("n");
  assert.deepStrictEqual((await type("u")).slice(0, 2), ["sent: blame T", "given bill(12,3,_0_1)"]);
  assert.deepStrictEqual(await type("u"), ["no answer was given yet; undo takes back a step"]);
  assert.deepStrictEqual(await type("trust price"), ["price/2 is trusted: blame takes its calls for right"]);
  await end();
});
