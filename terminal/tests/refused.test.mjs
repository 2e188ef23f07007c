// A refused program: a terminal, `--check` and `--json` tell all that it is refused for, each with its cause.
import assert from "node:assert";
import fs from "node:fs";
import os from "node:os";
import path from "node:path";
import test from "node:test";
import { spawnSync } from "node:child_process";
import { fileURLToPath } from "node:url";
import { Front } from "../front.mjs";

const TERMINAL = fileURLToPath(new URL("../", import.meta.url));
const PROGRAM = "p(X) :- X == 1 | true.\nq(X,X) :- true | p(X).\n", QUERY = "p(1), r";
const EQUAL = "numbers: X =:= 1 in the guard; terms: the head says it, as p(1) :- ..";
const TWICE = [
  "is it a result? name the second one X1, and write X1 = X in the body",
  "is it a test of numbers? name the second one X1, and write X =:= X1 in the guard",
  "other terms have no test of equality: write a clause for each value, as q(a,a) :- ..",
];
const FIRST = "program: F2 syntax at 1:12";
const told = (file) => [
  "% syntax: == is not of the language", `%  --> ${file}:1:12`, "%   |", "% 1 | p(X) :- X == 1 | true.", "%   |            ^",
  `%   = ${EQUAL}`,
  "% program: F4 variable X repeated in the head of clause 2",
  "% not linear, clause 2: X stands twice in the head", `%  --> ${file}:2:5`, "%   |", "% 2 | q(X,X) :- true | p(X).", "%   |     ^",
  ...TWICE.map((hint) => `%   = ${hint}`),
  "% query: F5 undefined r/0",
  "% undefined: no clause has the head r with 0 arguments",
  "%  --> query:1:7", "%   |", "% 1 | p(1), r", "%   |       ^",
  "%   = defined are: p/1, q/2",
];

/** What comes of a use of a folder of its own. */
async function inFolder(use) {
  const folder = fs.mkdtempSync(path.join(os.tmpdir(), "ghcdb-test-"));
  try {
    return await use(folder);
  } finally {
    fs.rmSync(folder, { recursive: true });
  }
}

/** What comes of the program in a file of its own. */
const withFile = (use) => inFolder((folder) => {
  const file = path.join(folder, "a.ghc");
  fs.writeFileSync(file, PROGRAM);
  return use(file);
});

/** What a command of the terminal's folder tells of a program. */
function run(command, file, query = QUERY, ...more) {
  const words = [path.join(TERMINAL, command), file, "--query", query, ...more], env = { ...process.env, GHCDB: "page" };
  return spawnSync(process.execPath, words, { input: "leap\n", encoding: "utf8", env });
}

test("the terminal tells all at its start", () => withFile(async (file) => {
  const out = [], errors = [], tell = (list) => (line) => list.push(line);
  const front = new Front({ words: [file, "--query", QUERY], native: undefined, out: tell(out), errors: tell(errors) });
  await front.begin();
  assert.deepStrictEqual([out, errors, front.hasEnded, front.status], [[], [FIRST, ...told(file)], true, 1]);
}));

test("--check tells it on standard error, after what ghcdb says, and nothing on standard output", () => withFile((file) => {
  const { stdout, stderr, status } = run("check", file);
  assert.deepStrictEqual([stdout, stderr.split("\n"), status], ["", [FIRST, ...told(file), ""], 1]);
}));

test("--json tells it in the object of the end, too", () => withFile((file) => {
  const { stdout, stderr, status } = run("json", file);
  const of = (where, refused, line, column, title, hints) => ({ in: where, refused, line, column, length: 1, title, hints });
  const linear = ["F4 variable X repeated in the head of clause 2", 2, 5, "not linear, clause 2: X stands twice in the head", TWICE];
  const unknown = ["F5 undefined r/0", 1, 7, "undefined: no clause has the head r with 0 arguments", ["defined are: p/1, q/2"]];
  const refusals = [
    of("program", "F2 syntax at 1:12", 1, 12, "syntax: == is not of the language", [EQUAL]),
    of("program", ...linear), of("query", ...unknown),
  ];
  assert.deepStrictEqual(JSON.parse(stdout), { command: null, ok: false, ended: FIRST, status: 1, refusals });
  assert.deepStrictEqual([stderr.split("\n"), status], [[FIRST, ...told(file), ""], 1]);
}));

test("--json and --check tell why a history is refused", () => inFolder((folder) => {
  const program = path.join(folder, "b.ghc"), history = path.join(folder, "h");
  fs.writeFileSync(program, "p(_).\n");
  fs.writeFileSync(history, "ghc-history 1\nnothing\n");
  const said = "history: F24 history line 2", hint = "the line is not of its form, or its step cannot be taken: is it of this program and query?";
  const json = run("json", program, "p(1)", "--load", history), check = run("check", program, "p(1)", "--load", history);
  const refusals = [{ in: "history", refused: "F24 history line 2", hints: [`${history}:2: nothing`, hint] }];
  assert.deepStrictEqual(JSON.parse(json.stdout), { command: null, ok: false, ended: said, status: 1, refusals });
  const errors = `${said}\n% ${history}:2: nothing\n% ${hint}\n`;
  assert.deepStrictEqual([check.stdout, check.stderr, check.status], ["", errors, 1]);
}));
