// Runs that tell their answers alone: what stands on output and errors, the status, values that are expected; and what is said of a
// text that was refused.
import assert from "node:assert";
import fs from "node:fs";
import os from "node:os";
import path from "node:path";
import test from "node:test";
import { spawnSync } from "node:child_process";
import { fileURLToPath } from "node:url";
import { readExpected, whyOther } from "../../front/protocol/expected.mjs";
import { readRun } from "../../front/protocol/words.mjs";

const TERMINAL = path.join(path.dirname(fileURLToPath(import.meta.url)), ".."), EXAMPLES = path.join(TERMINAL, "..", "examples");
const folder = fs.mkdtempSync(path.join(os.tmpdir(), "ghcdb-test-"));
test.after(() => fs.rmSync(folder, { recursive: true }));

const BILL = path.join(EXAMPLES, "bill.ghc"), DEADLOCK = path.join(EXAMPLES, "deadlock.ghc"), SUM = path.join(EXAMPLES, "sum.ghc");

/** What a command of terminal/ tells of words: output, errors, status. */
function told(command, words, input = "") {
  const { stdout, stderr, status } = spawnSync(process.execPath, [path.join(TERMINAL, command), ...words], { input, encoding: "utf8", env: { ...process.env, GHCDB: "page" } });
  return [stdout, stderr, status];
}

const FREE = "% 1 step could have gone by another clause: choices T tells\n";

// Words, what stands on standard output, what on standard error, the status.
const RUNS = [
  [[BILL, "--run"], "T = 150\n", FREE, 0],
  [["--run", "--query", "bill(1,2,Sum), price(3,P)", BILL], "Sum = 30\nP = 30\n", "", 0],
  [[BILL, "--run", "--query", "true"], "", "", 0],
  [[BILL, "--run", "--expect", "T = 150", "--expect=T=150"], "T = 150\n", FREE, 0],
  [[BILL, "--run", "--expect", "T = 126", "--expect", "Q = [1, a]"], "T = 150\n", `${FREE}% expected T = 126, got T = 150\n% expected Q = [1,a], and the query has no variable Q\n`, 8],
  [[BILL, "--run", "--expect", "T = 126."], "", "--expect 'T = 126.': X = TERM is wanted\n", 2],
  [[BILL, "--run", "--expect"], "", "--expect '': X = TERM is wanted\n", 2],
  [["--run"], "", "a program and a query are wanted, as bill.ghc --query 'bill(12,3,T)'; --help lists the options\n", 2],
  [[BILL, "--run", "--query", "price(0,T)", "--expect", "T = 1"], "T = _0_1\n",
    "% price(0,_0_1) has failed: F10\n% clause 2: N > 0 says no (N = 0)\n% clause 3: N >= 10 says no (N = 0)\n% expected T = 1, got T = _0_1\n", 5],
  [[DEADLOCK, "--run", "--query", "after(A,B)"], "A = _0_1\nB = _0_2\n", "% 0.1 waits for _0_1 (A of the query): nobody can bind it (no other goal has it)\n", 6],
  [[SUM, "--run", "--query", "instream(S), sum(S,0,R)"], "S = _0_1\nR = _0_2\n",
    "% 0.2 waits for _0_1 (S of the query): held by 0.1 (which is an input)\n% open at the end: 1 input stream\n", 7],
  [[BILL, "--run", "--query", "A = B"], "A = _0_2\nB = _0_2\n",
    "% _0_2 (B of the query) is unbound; no goal has it\n".repeat(2), 0],
  [[BILL, "--run", "--query", "q(1)"], "", "query: F5 undefined q/1\n% undefined: no clause has the head q with 1 argument\n%  --> query:1:1\n%   |\n% 1 | q(1)\n%   | ^\n%   = defined are: bill/3, price/2\n", 1],
  [["nosuch.ghc", "--run", "--query", "true"], "", "program: F26 device\n% nosuch.ghc: no such file\n", 3],
];

for (const [words, ...wanted] of RUNS) {
  test(`ghcdb ${words.map((word) => path.basename(word)).join(" ")}`, () => assert.deepStrictEqual(told("run", words), wanted));
}

test("a refused text has an object, and its cause stands on standard error", () => {
  const errors = "query: F2 syntax at 1:4\n% syntax: the query ends within brackets\n%  --> query:1:4\n%   |\n% 1 | q(1\n%   |    ^\n%   = '(' of line 1, column 2 is not closed\n";
  const object = {
    command: null, ok: false, ended: "query: F2 syntax at 1:4", status: 1,
    refusals: [{
      in: "query", refused: "F2 syntax at 1:4", line: 1, column: 4, length: 1, title: "syntax: the query ends within brackets",
      hints: ["'(' of line 1, column 2 is not closed"],
    }],
  };
  const [out, ...rest] = told("json", [BILL, "--query", "q(1"], "leap\n");
  assert.deepStrictEqual([JSON.parse(out), ...rest], [object, errors, 1]);
  assert.deepStrictEqual(told("check", [BILL, "--query", "q(1"], "leap\n"), ["", errors, 1]);
});

test("a file that cannot be read, and a history that does not load, have objects without a place", () => {
  const history = path.join(folder, "history"), load = ["--query", "true", "--load"];
  fs.writeFileSync(history, "ghc-history 1\nsteps 1\n1 0.1 by 1\nend 2\n");
  const objects = [told("json", [BILL, ...load, "/nosuch"]), told("json", [BILL, ...load, history])].map(([out]) => JSON.parse(out));
  assert.deepStrictEqual(objects, [
    {
      command: null, ok: false, ended: "history: F26 device", status: 3,
      refusals: [{ in: "history", refused: "F26 device", hints: ["/nosuch: no such file"] }],
    },
    {
      command: null, ok: false, ended: "history: F24 history line 3", status: 1,
      refusals: [{
        in: "history", refused: "F24 history line 3",
        hints: [`${history}:3: 1 0.1 by 1`, "the line is not of its form, or its step cannot be taken: is it of this program and query?"],
      }],
    },
  ]);
});

test("a run is bounded, and a long value is told short beside another", () => {
  const file = path.join(folder, "endless.ghc"), query = ["--query", "l(X)"];
  fs.writeFileSync(file, "l(X) :- true | X = [a|Y], l(Y).\n");
  const [out, , status] = told("run", [file, "--run", ...query, "--steps", "9"]);
  assert.deepStrictEqual([out, status], ["X = [a,a,a,a|_7_1]\n", 7]);
  const [expected, got] = ["a", "b"].map((one) => `f(${one.repeat(500)})`);
  const refused = ["", "--steps N: 1 to 9,999,999 are wanted\n", 2];
  assert.deepStrictEqual(told("run", [file, "--run", ...query, "--steps", "0"]), refused);
  const why = whyOther({ name: "X", value: expected }, `X = ${got}`);
  assert.ok(why.length < 900, why);
});

test("the words of a run", () => {
  const words = ["a.ghc"], ofTwo = ["a.ghc", "--query", "--run", "--workers", "2"];
  const cases = [
    [["a.ghc", "--run"], { isRun: true, expected: [], steps: [], words }],
    [["--run", ...ofTwo], { isRun: true, expected: [], steps: [], words: ofTwo }],
    [["a.ghc", "--query", "--run"], { isRun: false, expected: [], steps: [], words: ["a.ghc", "--query", "--run"] }],
    [[...words, "--expect", "--run", "--expect=X"], { isRun: false, expected: ["--run", "X"], steps: [], words }],
    [["a.ghc", "--run", "--steps", "9"], { isRun: true, expected: [], steps: ["9"], words: ["a.ghc"] }],
    [["a.ghc", "--run", "--expect"], { isRun: true, expected: [undefined], steps: [], words: ["a.ghc"] }],
  ];
  for (const [words, wanted] of cases) assert.deepStrictEqual(readRun(words), wanted, words.join(" "));
});

test("what is expected is read as a term, and compared as ghcdb prints it", () => {
  const read = [["X = [1, 2|T]", "X = [1,2|T]"], ["_y=f( a )", "_y = f(a)"], ["X = -07", "X = -7"], ["X = 1 = 2", undefined], ["x = 1", undefined], ["X", undefined], ["X = ", undefined], [`X = ${"f(".repeat(65)}`, undefined]];
  for (const [text, wanted] of read) {
    const found = readExpected(text);
    assert.strictEqual(found && `${found.name} = ${found.value}`, wanted, text);
  }
  assert.strictEqual(whyOther({ name: "X", value: "1" }, "X = 1"), undefined);
  assert.strictEqual(whyOther({ name: "X", value: "1" }, "F6 limit: print"), "expected X = 1, got F6 limit: print");
});
