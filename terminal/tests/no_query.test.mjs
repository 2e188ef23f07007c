// A command line that names no query: scripts and the terminal take the one of the program's comment, a pipe does not.
import assert from "node:assert";
import fs from "node:fs";
import os from "node:os";
import path from "node:path";
import test from "node:test";
import { spawnSync } from "node:child_process";
import { fileURLToPath } from "node:url";
import { withQuery } from "../../front/session/words_with_query.mjs";

const TERMINAL = path.join(path.dirname(fileURLToPath(import.meta.url)), "..");
const folder = fs.mkdtempSync(path.join(os.tmpdir(), "ghcdb-test-"));
test.after(() => fs.rmSync(folder, { recursive: true }));

const PROGRAM = "p(X) :- true | X = a.\n";

/** A file with a program and a comment. */
function fileWith(comment) {
  const file = path.join(folder, `${fs.readdirSync(folder).length}.ghc`);
  fs.writeFileSync(file, `${PROGRAM}${comment}`);
  return file;
}

/** What a command of terminal/ tells of lines, and its status. */
function told(command, words, input) {
  const { stdout, stderr, status } = spawnSync(process.execPath, [path.join(TERMINAL, command), ...words], { input, encoding: "utf8" });
  return [stdout, stderr, status];
}

test("the query is added where none is named, and only there", () => {
  const file = fileWith("% Query:  p(X), p(Y) \r\n% Query: p(Z)\n");
  assert.deepStrictEqual(withQuery([file]), [file, "--query=p(X), p(Y)"]);
  assert.deepStrictEqual(withQuery(["--load", "h", file]), ["--load", "h", file, "--query=p(X), p(Y)"]);
  const same = [[file, "--query", "p(Z)"], [file, "--query=p(Z)"], [file, "--schedule", "s"], [file, "--help"], [], ["--version"], [fileWith("")], [fileWith("% Query:\n")], [path.join(folder, "none")], [folder]];
  for (const words of same) assert.strictEqual(withQuery(words), words, words.join(" "));
});

test("a script's session is on the query of the comment", () => {
  const file = fileWith("% Query: p(X)\n"), ran = "REDU 1 0.1 by 1\nREDU 2 1.1 eq\nstopped quiet\n";
  assert.deepStrictEqual(told("check", [file], "leap\nshow X\n"), [`${ran}X = a\n`, "", 0]);
  assert.deepStrictEqual(told("check", [file, "--query", "p(b)"], "show X\n"), ["F23 no variable\n", "", 4]);
  assert.deepStrictEqual(JSON.parse(told("json", [file], "show X\n")[0]), { command: "show X", ok: true, variable: "X", value: "_0_1" });
});

test("without a query a script is refused as before, and so is a pipe", () => {
  const bare = fileWith("");
  const noQuery = `${bare} has no comment \`% Query: GOALS\`: --query GOALS is wanted\n`;
  assert.deepStrictEqual(told("check", [bare], "leap\n"), ["", noQuery, 2]);
  assert.deepStrictEqual(told("check", [`${bare}.not`], "leap\n"), ["", `there is no file ${bare}.not\n`, 2]);
  const [out, errors, status] = told("ghcdb", [fileWith("% Query: p(X)\n")], "leap\n");
  assert.deepStrictEqual([out, status], ["", 2]);
  assert.match(errors, /--query <TEXT>/);
});
