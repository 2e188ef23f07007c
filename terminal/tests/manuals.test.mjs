// The commands as manuals tell them, beside what the console takes.
import assert from "node:assert";
import fs from "node:fs";
import path from "node:path";
import test from "node:test";
import { fileURLToPath } from "node:url";
import { COMMANDS } from "../../front/protocol/commands.mjs";
import { engineOfPage } from "../../front/session/engine_of_page.mjs";

const HERE = path.dirname(fileURLToPath(import.meta.url));

const ROOT = path.join(HERE, "..", "..");
const read = (file) => fs.readFileSync(path.join(ROOT, file), "utf8");
const CONSOLE = read("commands.txt").trim().split("\n");

const inBackticks = (text) => [...text.matchAll(/`([^`]+)`/g)].map(([, form]) => form);
const part = (text, start, end) => text.slice(text.indexOf(start), text.indexOf(end, text.indexOf(start)));

/** The lines of a table of Markdown after a heading, each as its cells. */
function rowsAfter(text, heading) {
  const lines = part(text, heading, "\n\n```").split("\n").filter((line) => line.startsWith("| "));
  return lines.map((line) => line.split(" | ").map((cell) => cell.replace(/^\| | \|$/g, "")));
}

const SAMPLES = { G: "0.1", C: "1", N: "1", X: "T", "F/N": "bill/3", K: "1", TERM: "a", GOALS: "true", FILE: "run.history", COMMAND: "step" };
const lineOf = (form) => form.replace(/ \.\.$/, "").replace(/ or \w$/, "").split(" ").map((word, place) => (place > 0 && SAMPLES[word]) || word).join(" ");

const loaded = engineOfPage();

/** Does a console take a form, with its optional word and without it? */
async function isTaken(form) {
  const { engine } = await loaded, lines = [form.replace(/ \[.*\]/, ""), form.replace(/[[\]]/g, "")];
  const session = engine.open({ program: read("examples/bill.ghc"), query: "bill(12,3,T)" });
  return lines.every((line) => session.line(lineOf(line))[0] !== "F25 command");
}

test("the console takes each form of the table, and none that is the terminal's", async () => {
  for (const { form, isOwn } of COMMANDS) {
    assert.strictEqual(await isTaken(form), !isOwn, form);
  }
});

test("what a manual gives to the terminal no console takes", async () => {
  const forms = rowsAfter(read("docs/TERMINAL.md"), "## 1. The terminal").flatMap(([cell]) => inBackticks(cell));
  assert.ok(forms.includes("stuck") && forms.includes("save FILE") && forms.length > 7, `${forms}`);
  for (const form of forms) assert.ok(!(await isTaken(form)), form);
});

const DOUBTS = /\bnot known\b|\bnot know\b|\bknows? (it|them)\b|\bnewer\b/;

test("no manual doubts that the console knows its commands", () => {
  for (const file of ["docs/TERMINAL.md", "docs/PAGE.md"]) {
    const sentences = read(file).replace(/\s+/g, " ").split(/[.|] /);
    const isOfConsole = (sentence) => inBackticks(sentence).some((form) => CONSOLE.includes(form.split(" ")[0]));
    for (const sentence of sentences.filter(isOfConsole)) {
      assert.doesNotMatch(sentence, DOUBTS, file);
    }
  }
});

test("the man page tells the launcher's words, its variables and each status", () => {
  const text = read("packaging/ghcdb.1").replaceAll("\\-", "-");
  for (const word of ["--test", "--prove", "--check", "--json", "GHCDB_QUIET"]) assert.ok(text.includes(word), word);
  const [, alone, checked] = /\.SH EXIT STATUS\n([^]*?)\.PP\nWith([^]*?)\.SH/.exec(text);
  for (const status of [0, 1, 2, 3, 70, 127]) assert.match(alone, new RegExp(`\\b${status} `));
  for (const status of [0, 4, 5, 6, 7, 8, 9, 10, 70]) assert.match(checked, new RegExp(`\\b${status} `));
});
