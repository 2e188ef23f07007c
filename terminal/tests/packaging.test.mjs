// The man page and the completion for bash.
import assert from "node:assert";
import fs from "node:fs";
import path from "node:path";
import test from "node:test";
import { execFileSync, spawnSync } from "node:child_process";
import { fileURLToPath } from "node:url";
import { COMMANDS } from "../../front/protocol/commands.mjs";

const HERE = path.dirname(fileURLToPath(import.meta.url));

const ROOT = path.join(HERE, "..", "..");
const isThere = (program) => spawnSync("sh", ["-c", `command -v ${program}`]).status === 0;

/** What bash offers after the words. */
function offered(...words) {
  const script = `source packaging/ghcdb.bash; COMP_WORDS=("$@"); COMP_CWORD=$(($# - 1)); _ghcdb; printf '%s\\n' "\${COMPREPLY[@]}"`;
  return execFileSync("bash", ["-c", script, "bash", ...words], { cwd: ROOT, encoding: "utf8" }).trim().split("\n");
}

test("bash completes files, options, and the query of the program's comment", () => {
  assert.deepStrictEqual(offered("ghcdb", "examples/app"), ["examples/append.ghc"]);
  assert.deepStrictEqual(offered("ghcdb", "examples/append.ghc", "--q"), ["--query"]);
  assert.deepStrictEqual(offered("ghcdb", "examples/bill.ghc", "--query", ""), ["'bill(12,3,T)'"]);
  assert.deepStrictEqual(offered("ghcdb", "--load", "README"), ["README.md"]);
});

test("the man page names each command, and its text has no fault", () => {
  const text = fs.readFileSync(path.join(ROOT, "packaging", "ghcdb.1"), "utf8");
  for (const { name } of COMMANDS) assert.match(text, new RegExp(`\\b${name}\\b`), name);
  if (isThere("man")) assert.strictEqual(spawnSync("man", ["--warnings", "-l", path.join(ROOT, "packaging", "ghcdb.1")], { encoding: "utf8", env: { ...process.env, MANWIDTH: "80" } }).stderr, "");
});
