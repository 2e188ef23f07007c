// The table of mistakes: on each text the engine refuses what it has to, and the cause is the one of the table.
import assert from "node:assert";
import fs from "node:fs";
import path from "node:path";
import test from "node:test";
import { fileURLToPath } from "node:url";
import * as Causes from "../text/causes.mjs";
import { engineOfPage } from "../session/engine_of_page.mjs";
import MISTAKES from "./lib/mistakes.mjs";

const HERE = path.dirname(fileURLToPath(import.meta.url));

const ROOT = path.join(HERE, "..", "..");
const programsIn = (folder) => fs.readdirSync(path.join(ROOT, folder)).filter((name) => name.endsWith(".ghc")).map((name) => path.join(ROOT, folder, name));

/** The cause of what the engine says, or the first note where it accepts the text. */
function causeOf(said, program, query) {
  const [, who, refusal] = /^(program|query): (.*)$/.exec(said) ?? [];
  if (who === undefined) return Causes.notesOn(program, "program")[0];
  const isQuery = who === "query";
  return Causes.causeOf(refusal, { text: isQuery ? query : program, which: who, isQuery, program });
}

test("each mistake is told with its cause", async () => {
  const { engine } = await engineOfPage();
  assert.ok(MISTAKES.length >= 66);
  for (const [what, program, query, said, place, title, hints] of MISTAKES) {
    const session = engine.open({ program, query });
    assert.strictEqual(session.start.trim(), said, what);
    const cause = causeOf(said, program, query);
    assert.strictEqual(`${cause.which}:${cause.line}:${cause.column}`, place, what);
    assert.strictEqual(cause.title, title, what);
    assert.strictEqual(cause.hints.join(" / "), hints, what);
  }
});

test("the caret stands below the place, whatever letters and tabs are before it", () => {
  const program = "p(X) :-\ttrue | X = \"ä\".\n";
  const cause = Causes.causeOf("F2 syntax at 1:20", { text: program, which: "m.ghc" });
  const [, , , source, caret] = Causes.linesOf(cause, program);
  assert.strictEqual(source.indexOf("\""), caret.indexOf("^"));
  assert.strictEqual(caret.includes("\t"), true);
  const wide = "% ä\np(ä).\n", at = Causes.linesOf(Causes.causeOf("F2 syntax at 2:3", { text: wide, which: "m.ghc" }), wide);
  assert.strictEqual(at[3].indexOf("ä"), at[4].indexOf("^"));
});

test("a text gives a terminal no orders", () => {
  const program = "p(X) :- true | X == 1. % \u001b[2J\n", lines = Causes.linesOf(Causes.causeOf("F2 syntax at 1:19", { text: program, which: "m.ghc" }), program);
  assert.strictEqual(lines[3], "1 | p(X) :- true | X == 1. % \ufffd[2J");
});

test("of a long line the place is shown, with what stands around it", () => {
  const program = `p(X) :- true | ${"X = 1, ".repeat(100)}X == 2.\n`, cause = Causes.causeOf("F2 syntax at 1:718", { text: program, which: "m.ghc" });
  const [, place, , source, caret] = Causes.linesOf(cause, program);
  assert.strictEqual(place, " --> m.ghc:1:718");
  assert.ok(source.length < 140 && source.startsWith("1 | .. ") && source.endsWith("X == 2."), source);
  assert.strictEqual(source[caret.indexOf("^")], "=");
  const early = Causes.linesOf({ ...cause, column: 3 }, program);
  assert.ok(early[3].startsWith("1 | p(X)") && early[3].endsWith(" .."), early[3]);
  assert.strictEqual(Causes.letterOf({ line: 1, column: 6 }, "ä ä\n"), 4);
});

test("a cause is told for every text that is cut short", () => {
  const program = "app([A|X],Y,Z) :- X =\\= 1, true | Z = [A|Z1], N := 1 + 2, app(X,Y,Z1).\n";
  for (let length = 1; length < program.length - 2; length += 1) {
    const text = program.slice(0, length), cause = Causes.causeOf(`F2 syntax at 1:${length + 1}`, { text, which: "m.ghc" });
    assert.ok(cause.title.length > 10 && cause.hints.length > 0, text);
  }
});

test("the examples get no note, and of the wrong ones those with a lone variable", () => {
  for (const file of programsIn("examples")) assert.deepStrictEqual(Causes.notesOn(fs.readFileSync(file, "utf8"), file), [], file);
  const noted = programsIn("examples/wrong").filter((file) => Causes.notesOn(fs.readFileSync(file, "utf8"), file).length > 0);
  assert.deepStrictEqual(noted.map((file) => path.basename(file)), ["buffer.ghc", "sieve.ghc"]);
});
