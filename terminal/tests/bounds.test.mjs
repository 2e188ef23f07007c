// Scripts at their bounds: replies with holes, a program that ends by itself, endless lines and programs, long runs.
import assert from "node:assert";
import fs from "node:fs";
import path from "node:path";
import test from "node:test";
import { fileURLToPath } from "node:url";
import { spawn, spawnSync } from "node:child_process";
import { objectOf, ObjectText } from "../objects.mjs";
import { ScriptSession } from "../../front/session/script_session.mjs";
import { play } from "../scripted.mjs";
import { played } from "./lib/playing.mjs";

const HERE = path.dirname(fileURLToPath(import.meta.url));

const ROOT = path.join(HERE, "..", "..");
const APPEND = [path.join(ROOT, "examples", "append.ghc"), "--query", "append([1],[2],R)"];
const CONSOLE = path.join(HERE, "lib", "console_of_replies");
const MOST_BYTES = 1_048_576; // of a line
const MOST_MEMORY = 150; // MB
const hasProc = fs.existsSync("/proc/self/status");

const commandOf = (name) => path.join(ROOT, "terminal", name);

/** The environment of a command, whose program gives these replies, where any are named. */
function settingsOf(replies) {
  return replies === undefined ? process.env : { ...process.env, GHCDB: CONSOLE, REPLIES: JSON.stringify(replies) };
}

/** What a command of terminal/ tells of lines; `replies` are those of the program, where it is not ghcdb. */
function told(command, { words = APPEND, input = "", replies }) {
  const given = { input, env: settingsOf(replies), encoding: "utf8", maxBuffer: 2 ** 28 };
  const { stdout, stderr, status } = spawnSync(process.execPath, [commandOf(command), ...words], given);
  return { stdout, stderr, status };
}

const objectsOf = (text) => text.split("\n").slice(0, -1).map((line) => JSON.parse(line));

/** The most memory of a process so far, in MB. */
function memoryOf({ pid }) {
  const [, kilobytes] = /^VmHWM:\s*(\d+)/m.exec(fs.readFileSync(`/proc/${pid}/status`, "latin1"));
  return Number(kilobytes) / 1024;
}

/** Gives a command input in pieces, until its output ends so: its status, how much it wrote, and its most memory. */
function measured(command, { pieces, replies, end }) {
  const given = { env: settingsOf(replies), stdio: ["pipe", "pipe", "inherit"] };
  const child = spawn(process.execPath, [commandOf(command), ...APPEND], given);
  const seen = { written: 0, memory: 0 };
  let last = "";
  child.stdout.on("data", (piece) => {
    seen.written += piece.length;
    last = (last + piece.toString("latin1")).slice(-end.length);
    seen.memory = Math.max(seen.memory, memoryOf(child));
    if (last === end) child.stdin.end();
  });
  const give = async () => {
    for (const piece of pieces) await new Promise((resolve) => { child.stdin.write(piece, resolve); });
  };
  give();
  return new Promise((resolve) => { child.on("close", (status) => resolve({ ...seen, status })); });
}

/** What is told of a text of lines, to which a program gives these replies. */
async function playedWith(replies, input) {
  const { env } = process, { GHCDB } = env;
  Object.assign(env, settingsOf(replies));
  try {
    return await played(APPEND, input);
  } finally {
    if (GHCDB === undefined) delete env.GHCDB;
    else env.GHCDB = GHCDB;
  }
}

test("what is left is not known where memory was refused for a goal, or for a line of a reply", async () => {
  const hole = "F1 no memory", leap = ["REDU 1 0.1 by 1", "stopped quiet"];
  const cases = [
    [{ goals: ["0.1 waits _0_1 p(_0_1)", hole] }, 9],
    [{ goals: [hole, "0.1 waits _0_1 p(_0_1)"] }, 9],
    [{ goals: ["none"], leap: [...leap.slice(0, 1), hole, "stopped quiet"] }, 9],
    [{ goals: ["0.1 waits _0_1 p(_0_1)"], leap }, 6],
    [{ goals: [hole], leap: ["F1 no memory"] }, 4],
    [{ goals: ["F6 limit: print"], leap }, 7],
  ];
  for (const [replies, wanted] of cases) {
    const { status } = await playedWith(replies, replies.leap === undefined ? "" : "leap\n");
    assert.strictEqual(status, wanted, JSON.stringify(replies));
  }
});

test("the object of a listing counts the lines that are missing", () => {
  const replies = { goals: ["0.1 ready p", "F1 no memory", "F1 no memory"] };
  const goals = [{ goal: "0.1", status: "ready", text: "p" }];
  const { stdout, status } = told("json", { input: "goals\n", replies });
  assert.deepStrictEqual(objectsOf(stdout), [{ command: "goals", ok: true, goals, holes: 2 }]);
  assert.strictEqual(status, 9);
});

test("a program that a signal ends has a status of its own, and a line why", () => {
  const killed = "ghcdb was ended by SIGKILL\n";
  const replies = { leap: ["REDU 1 0.1 by 1", "SIGKILL"], goals: ["0.1 ready loop"] };
  const { stderr, status } = told("check", { input: "leap\ngoals\n", replies });
  assert.deepStrictEqual([stderr, status], [killed, 70]);
  const json = told("json", { input: "goals\nleap\ngoals\n", replies });
  assert.deepStrictEqual([json.stderr, json.status], [killed, 70]);
  const ended = { command: "leap", ok: false, ended: "ghcdb was ended by SIGKILL", status: 70 };
  assert.deepStrictEqual(objectsOf(json.stdout).slice(1), [ended]);
});

test("an object that was begun when a signal ended the program is whole, and says so", () => {
  const replies = { leap: [20_000, "SIGKILL"] }, { stdout, status } = told("json", { input: "leap\n", replies });
  const [{ ports, ...rest }, ...more] = objectsOf(stdout);
  assert.deepStrictEqual(rest, { command: "leap", ok: true, ended: "ghcdb was ended by SIGKILL", status: 70 });
  assert.deepStrictEqual([more, status], [[], 70]);
  assert.deepStrictEqual(ports[0], { port: "REDU", step: 1, goal: "0.1", act: "by 1" });
  assert.deepStrictEqual(ports[1], { port: "CALL", goal: "1.1", text: "loop(1)" });
});

test("a refused program has an object, too", () => {
  const { stdout, stderr, status } = told("json", { words: [...APPEND.slice(0, 2), "a(1)"], input: "leap\n" });
  const title = "undefined: no clause has the head a with 1 argument", hint = "defined are: append/3";
  const refusals = [{ in: "query", refused: "F5 undefined a/1", line: 1, column: 1, length: 1, title, hints: [hint] }];
  assert.deepStrictEqual(objectsOf(stdout), [{ command: null, ok: false, ended: "query: F5 undefined a/1", status: 1, refusals }]);
  const lines = ["query: F5 undefined a/1", `% ${title}`, "%  --> query:1:1", "%   |", "% 1 | a(1)", "%   | ^", `%   = ${hint}`];
  assert.deepStrictEqual([stderr, status], [`${lines.join("\n")}\n`, 1]);
});

test("an object is the same, however the reply comes", () => {
  const replies = {
    leap: ["REDU 1 0.1 by 2", "CALL 1.1 p(X)", "SUSP 1.1 _1_1", "F1 no memory", "FAIL 1.2 F11", "stopped clash 1.2"],
    "roll 1": ["undone 1,2", "RESU 0.1"],
    "undo 7": ["F16 not a kept step"],
    goals: ["0.1 ready p", "0.2 waits _0_1 q(_0_1)"],
    "skip 2": ["stopped quiet"],
  };
  for (const [line, reply] of Object.entries(replies)) {
    const wanted = `${JSON.stringify(objectOf(line, reply))}\n`;
    for (let at = 0; at <= reply.length; at += 1) {
      const object = new ObjectText(line), first = at === 0 ? "" : object.hear(reply.slice(0, at));
      assert.strictEqual(first + object.end(reply.slice(at)), wanted, `${line} ${at}`);
    }
  }
});

test("a line at the limit is taken, and a longer one refused, whatever stands in it", async () => {
  const letters = (count, ends) => "a".repeat(count) + ends, F25 = "F25 command\n", F6 = "F6 limit: line\n";
  const cases = [
    [letters(MOST_BYTES, "\n"), F25], [letters(MOST_BYTES, "\r\n"), F25], [letters(MOST_BYTES, ""), F25],
    [letters(MOST_BYTES + 1, "\n"), F6], [letters(MOST_BYTES + 1, "\r\n"), F6], [letters(MOST_BYTES + 2, "\n"), F6],
    [letters(MOST_BYTES - 1, "\r"), F25], [letters(MOST_BYTES, "\r"), F6], [letters(MOST_BYTES, "\rb\n"), F6],
    [`${" ".repeat(MOST_BYTES)}\n`, ""], [`${" ".repeat(MOST_BYTES + 1)}\n`, F6],
    [`quit${" ".repeat(MOST_BYTES)}\nfoo\n`, F6 + F25],
  ];
  for (const [input, wanted] of cases) {
    const what = `${input.length} bytes, ${JSON.stringify(input.slice(-4))}`;
    const { out, status } = await played(APPEND, input);
    assert.deepStrictEqual([out, status], [wanted, wanted === "" ? 7 : 4], what);
  }
});

test("a line of 100 MB is refused soon, and takes no memory", { skip: !hasProc, timeout: 300_000 }, async () => {
  const piece = Buffer.alloc(1_000_000, "a"), pieces = [...Array(100).fill(piece), "\nshow R\n"];
  const { status, memory } = await measured("check", { pieces, end: "F6 limit: line\nR = _0_1\n" });
  assert.strictEqual(status, 4);
  assert.ok(memory < MOST_MEMORY, `${memory} MB`);
});

test("an endless program is read up to its limit", { skip: !fs.existsSync("/dev/zero") }, () => {
  const limited = `ulimit -t 60; exec "$@" < /dev/null`; // seconds of the processor
  for (const command of ["check", "json"]) {
    const words = [process.execPath, commandOf(command), "/dev/zero", ...APPEND.slice(1)];
    const { stderr, status } = spawnSync("bash", ["-c", limited, "bash", ...words], { encoding: "utf8" });
    assert.deepStrictEqual([stderr, status], ["program: F6 limit: text\n% the bytes of a program or a query: 1,048,576 at most\n", 1]);
  }
});

test("a program from a pipe is read once", () => {
  const line = `exec "$1" "$2" <(cat "$3") "\${@:4}" <<< 'leap'`;
  for (const command of ["check", "json"]) {
    const words = ["-c", line, "bash", process.execPath, commandOf(command), ...APPEND];
    const { stderr, status } = spawnSync("bash", words, { encoding: "utf8", timeout: 60_000 });
    assert.deepStrictEqual([stderr, status], ["", 0]);
  }
});

test("input that cannot be read to its end is told", async () => {
  const told = [], tell = async (lines) => { told.push(...lines); };
  async function* broken() {
    yield Buffer.from("step 0.1\n");
    throw new Error("EIO: i/o error, read");
  }
  const teller = { begin() {}, hear: tell, end: tell, ended(error) { told.push(error.errors); } };
  const status = await play(APPEND, broken(), teller, () => {});
  const step = ["REDU 1 0.1 by 2", "CALL 1.1 _0_1 = [1|_1_1]", "CALL 1.2 append([],[2],_1_1)"];
  assert.deepStrictEqual([told, status], [[...step, "session: F26 device\n"], 3]);
});

test("what was not kept of a run is told alike when somebody looks", async () => {
  const wanted = ["append([1],[2],_0_1)", "_0_1 = [1|_1_1]", "append([],[2],_1_1)", "_1_1 = [2]"];
  for (const mostKept of [Infinity, 2]) {
    const session = Object.assign(new ScriptSession(APPEND), { mostKept });
    await session.begin();
    await session.ask("leap");
    assert.strictEqual(session.kept.steps.size, mostKept === 2 ? 0 : 4);
    const run = await session.look();
    assert.deepStrictEqual([...session.kept.steps.values()].map(({ goal }) => run.textOf(goal)), wanted);
    await session.ask("undo 4");
    assert.strictEqual((await session.look()).records.size, 3);
    await session.end();
  }
});

test("a run of 300,000 steps goes out as it comes", { skip: !hasProc, timeout: 300_000 }, async () => {
  const replies = { "leap 300000": [300_000, "stopped limit"] };
  const end = `{"port":"CALL","goal":"300000.1","text":"loop(300000)"}],"stopped":"limit"}\n`;
  const { status, written, memory } = await measured("json", { pieces: ["leap 300000\n"], replies, end });
  assert.strictEqual(status, 0);
  assert.ok(written > 30_000_000, `${written} bytes`);
  assert.ok(memory < MOST_MEMORY, `${memory} MB`);
});
