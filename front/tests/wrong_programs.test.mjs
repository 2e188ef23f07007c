// The wrong programs of examples/wrong/habits: what is told of each text, and that whoever does as told gets a program
// that is right, and no other wrong one.
import assert from "node:assert";
import fs from "node:fs";
import path from "node:path";
import test from "node:test";
import { fileURLToPath } from "node:url";
import * as Causes from "../text/causes.mjs";
import { engineOfPage } from "../session/engine_of_page.mjs";
import { everyRefusal } from "../session/every_refusal.mjs";
import { queryOf } from "../text/query_comment.mjs";
import WRONG from "./lib/wrong_programs.mjs";

const HABITS = fileURLToPath(new URL("../../examples/wrong/habits/", import.meta.url));
const textOf = (name) => fs.readFileSync(path.join(HABITS, `${name}.ghc`), "utf8");
const wantedOf = (text) => /^% Wanted: (\w+ = [^\s,]+(?:,[^\s,]+)*)/m.exec(text)?.[1];

test("each program of the folder stands in the table, and the other way round", () => {
  const groups = fs.readdirSync(HABITS), names = groups.flatMap((group) => fs.readdirSync(path.join(HABITS, group)).map((name) => `${group}/${name}`));
  assert.deepStrictEqual(names.sort(), WRONG.map(([name]) => `${name}.ghc`).sort());
  assert.strictEqual(WRONG.length, 33);
});

/** The hints that are told of a text: those of all refusals, else of the notes. */
async function hintsOf(text) {
  const refusals = await everyRefusal({ text, query: queryOf(text) }, undefined);
  const causes = refusals.length > 0 ? refusals.map(({ cause }) => cause) : Causes.notesOn(text, "program");
  return causes.flatMap(({ hints }) => hints);
}

test("of each the hints are told that its habit needs", async () => {
  for (const [name, hints] of WRONG) assert.deepStrictEqual((await hintsOf(textOf(name))).sort(), [...hints].sort(), name);
});

/** The text with each replacement made, which has to change it. */
function edited(text, edits, name) {
  return edits.reduce((before, [from, to]) => {
    const after = before.replace(from, () => to);
    assert.notStrictEqual(after, before, `${name}: ${from}`);
    return after;
  }, text);
}

test("done as told, the text is taken without a note, and the run is right", async () => {
  const { engine } = await engineOfPage();
  for (const [name, , done] of WRONG) {
    for (const { edits, query, value } of done) {
      const text = edited(textOf(name), edits, name), asked = query ?? queryOf(text), wanted = value ?? wantedOf(text);
      const session = engine.open({ program: text, query: asked });
      assert.strictEqual(session.start, "", `${name}: ${text}`);
      assert.deepStrictEqual(Causes.notesOn(text, "program"), [], name);
      assert.strictEqual(session.line("leap").at(-1), "stopped quiet", `${name}: ${text}`);
      assert.deepStrictEqual([session.line(`show ${wanted.split(" ")[0]}`), session.line("goals")], [[wanted], ["none"]], name);
    }
  }
});

test("each hint is followed by a program", () => {
  for (const [name, hints, done] of WRONG) {
    const followed = new Set(done.flatMap((one) => one.hints));
    assert.deepStrictEqual(hints.map((hint, place) => followed.has(place) || hint), hints.map(() => true), name);
  }
});

test("as they stand none is right", async () => {
  const { engine } = await engineOfPage();
  for (const [name] of WRONG.filter(([one]) => !one.startsWith("prolog/order"))) {
    const text = textOf(name), session = engine.open({ program: text, query: queryOf(text) }), wanted = wantedOf(text);
    const isRight = () => session.line("leap").at(-1) === "stopped quiet" && session.line("goals")[0] === "none" &&
      session.line(`show ${wanted.split(" ")[0]}`)[0] === wanted;
    assert.ok(session.refused || !isRight(), name);
  }
});
