// The sessions of scripts: standard output is that of the program, byte for byte, and the status tells what is left; JSON lines; words.
import assert from "node:assert";
import fs from "node:fs";
import os from "node:os";
import path from "node:path";
import test from "node:test";
import { execFileSync, spawnSync } from "node:child_process";
import { fileURLToPath } from "node:url";
import { readWords, isSession, wordsFrom } from "../../front/protocol/words.mjs";
import { played } from "./lib/playing.mjs";

const HERE = path.dirname(fileURLToPath(import.meta.url));

const ROOT = path.join(HERE, "..", "..");
const example = (name) => path.join(ROOT, "examples", name);
const ONE_OF = Number(process.env.ROWS_ONE_OF ?? 8); // which part of the rows is played
const hasPython = spawnSync("python3", ["--version"]).status === 0;

/** The rows of tests/rows and the manuals that are sessions on the standard streams. */
function rows() {
  const told = execFileSync("python3", [path.join(ROOT, "tests", "run_rows.py"), "--tell"], { encoding: "utf8", maxBuffer: 2 ** 28 });
  const all = told.trimEnd().split("\n").map((line) => JSON.parse(line));
  return all.filter((row) => row.bad === undefined && row.to.length === 0 && !row["left open"] && isSession(readWords(row.words)) && row["output contains"].length === 0 && row["errors contain"].length === 0 && row.status !== 2);
}

const ADDED = /^% .*\n/gm; // lines that tell why a text was refused

test("on the rows output and errors are the program's, and lines are added where a text was refused", { skip: !hasPython }, async () => {
  const home = process.cwd(), chosen = rows().filter((row, place) => place % ONE_OF === 0);
  for (const row of chosen) {
    const folder = fs.mkdtempSync(path.join(os.tmpdir(), "ghcdb-test-"));
    try {
      for (const [name, text] of Object.entries(row.files)) fs.writeFileSync(path.join(folder, name), text, "latin1");
      process.chdir(folder);
      const { out, errors, status } = await played(row.words, row.input);
      assert.strictEqual(out, row.output, row.name);
      assert.strictEqual(errors.replace(ADDED, ""), row.errors, row.name);
      assert.ok(errors === row.errors || (/^(program|query|history): F/.test(errors) && errors.startsWith(row.errors)), `${row.name}: ${errors}`);
      assert.ok(row.status === 0 ? [0, 4, 5, 6, 7, 10].includes(status) : status === row.status, `${row.name}: ${status}`);
    } finally {
      process.chdir(home);
      fs.rmSync(folder, { recursive: true });
    }
  }
  assert.ok(chosen.length * ONE_OF > 400, `${chosen.length} rows`);
});

test("the status tells how it went", async () => {
  const cases = [
    [["append.ghc", "append([1],[2],R)"], "leap\n", 0], [["append.ghc", "append([1],[2],R)"], "leap\nfoo\n", 4], [["bill.ghc", "price(0,T)"], "leap\n", 5],
    [["deadlock.ghc", "after(A,B), after(B,A)"], "leap\n", 6], [["bill.ghc", "bill(1,2,T)"], "step 0.1\nquit\nfoo\n", 7], [["sum.ghc", "instream(S), sum(S,0,R)"], "leap", 7],
    [["bill.ghc", "bill(1,2,T"], "", 1], [["nosuch.ghc", "true"], "", 3],
  ];
  for (const [[name, query], input, wanted] of cases) assert.strictEqual((await played([example(name), "--query", query], input)).status, wanted, `${query} ${input}`);
});

test("check and json run as commands", () => {
  const run = (command, ...words) => spawnSync(process.execPath, [path.join(ROOT, "terminal", command), example("append.ghc"), "--query", "append([1],[2],R)", ...words], { input: "leap\nshow R\nshow Q\nrecords\nwhy 2\nwho R\ngoals\nshelf\nroll 1\nask q(X)\nsave 1\n", encoding: "utf8" });
  assert.strictEqual(run("check").status, 4);
  assert.match(run("check").stdout, /^R = \[1,2\]$/m);
  const json = run("json"), objects = json.stdout.trim().split("\n").map((line) => JSON.parse(line)), of = (command) => objects.find((object) => object.command === command);
  assert.strictEqual(json.status, 4);
  assert.strictEqual(of("leap").stopped, "quiet");
  assert.deepStrictEqual([of("show R").value, of("show Q").ok, of("show Q").refused], ["[1,2]", false, "F23 no variable"]);
  assert.deepStrictEqual([of("records").steps[0].text, of("records").steps[1].binds], ["append([1],[2],_0_1)", { _0_1: "[1|_1_1]" }]);
  assert.deepStrictEqual(of("why 2").causes, [{ step: 1, kind: "made" }]);
  assert.deepStrictEqual(of("who R").bound[0], { variable: "_0_1", step: 2 });
  assert.deepStrictEqual([of("goals").goals, of("shelf").steps, of("roll 1").undone], [[], [], [1, 2, 3, 4]]);
  assert.strictEqual(of("ask q(X)").refused, "F5 undefined q/1");
  assert.strictEqual(of("save 1").lines[0], "ghc-history 1");
});

test("a line that is not ASCII stands in its object as it was given", () => {
  const { stdout } = spawnSync(process.execPath, [path.join(ROOT, "terminal", "json"), example("append.ghc"), "--query", "true"], { input: "ä\n", encoding: "utf8" });
  assert.deepStrictEqual(JSON.parse(stdout), { command: "ä", ok: false, refused: "F25 command" });
});

test("the words of the command line", () => {
  const given = readWords(["--query=p(X)", "a.ghc", "--load", "h", "--workers=2"]);
  assert.deepStrictEqual([given.file, given.query, given.load, given.workers, isSession(given)], ["a.ghc", "p(X)", "h", "2", true]);
  assert.strictEqual(isSession(readWords(["a.ghc", "--query", "--help"])), true);
  for (const words of [["--help"], ["a.ghc", "--query", "p", "--schedule", "s"], ["a.ghc"], ["--query", "p"]]) assert.strictEqual(isSession(readWords(words)), false, words.join(" "));
  assert.deepStrictEqual(wordsFrom(["--query", "a.ghc", "a.ghc", "--load=x", "--load", "y"], { history: "z", program: "b" }), ["--query", "a.ghc", "b", "--load", "z"]);
});
