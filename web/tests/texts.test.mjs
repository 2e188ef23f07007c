// Tests of the page's texts: saved sessions, the notes of the examples, and the tour, which is the story of docs/TUTORIAL.md.
import assert from "node:assert/strict";
import fs from "node:fs";
import path from "node:path";
import test from "node:test";
import { fileURLToPath } from "node:url";
import * as ExampleNotes from "../example_notes.mjs";
import * as SessionText from "../../front/protocol/session_text.mjs";
import * as Tour from "../tour.mjs";
import { tutorialSessions } from "./lib/tutorial.mjs";

const HERE = path.dirname(fileURLToPath(import.meta.url));

const ROOT = path.join(HERE, "..", "..");

const SESSION = {
  program: "p({a}).\n\np(b)", query: "p(X)", history: "ghc-history 1\nsteps 0\nend 1\n",
  entries: [{ line: "step 0.1", reply: ["F9 waits"] }, { line: "in 1 a{", reply: [] }, { line: "goals", reply: ["none", ""] }],
};
const SAVED = `# A session of ghcdb, saved by web/ghcdb.html.
program:
| p({7B}a}).
|
| p(b){}
query:
| p(X){}
file run.history:
| ghc-history 1
| steps 0
| end 1
options:
| --load
| run.history
session:
| > step 0.1
| F9 waits
| > in 1 a{7B}
| > goals
| none
|
`;

test("a session is written as a row, and read again as it was", () => {
  assert.equal(SessionText.write(SESSION), SAVED);
  const { program, query, history } = SESSION;
  assert.deepEqual(SessionText.read(SAVED), { program, query, history, lines: ["step 0.1", "in 1 a{", "goals"], replies: [["F9 waits"], [], ["none", ""]] });
  assert.deepEqual(SessionText.read(SAVED.replace(/\n/g, "\r\n")).lines, ["step 0.1", "in 1 a{", "goals"]);
});

test("a bad session is told, and the first reply that is another than the saved one", () => {
  const none = () => undefined;
  assert.throws(() => SessionText.read("example: no.ghc\nsession:\n| > goals\n", none), /names the example no\.ghc, which is not here/);
  assert.throws(() => SessionText.read("example: a.ghc\nsession:\n| > goals\n", () => "p."), /has no query/);
  const { lines, replies } = SessionText.read(SAVED);
  assert.equal(SessionText.firstOther(lines, replies, [["F9 waits"], [], ["none", ""]]), null);
  assert.deepEqual(SessionText.firstOther(lines, replies, [["F9 waits"], ["F14 no open stream"], ["none", ""]]), { at: 1, line: "in 1 a{", saved: [], now: ["F14 no open stream"] });
});

test("a row of tests/rows is read as a session, and a program is none", () => {
  const read = SessionText.read(fs.readFileSync(path.join(ROOT, "tests/rows/load.row"), "utf8"));
  assert.equal(read.query, "append([1],[2],R)");
  assert.equal(read.program.split("\n")[0], "append([],Y,Z) :- true | Z = Y.");
  assert.equal(read.history.split("\n")[1], "steps 4");
  assert.equal(read.lines[0], "goals");
  assert.equal(SessionText.read("p(a) :- true | true.\n"), null);
});

test("every example has a query and something to look at", () => {
  const notes = fs.readdirSync(path.join(ROOT, "examples")).filter((file) => file.endsWith(".ghc")).map((file) =>
    ExampleNotes.read({ name: file.replace(".ghc", ""), program: fs.readFileSync(path.join(ROOT, "examples", file), "utf8") }));
  assert.equal(notes.length, 11);
  for (const note of notes) assert.ok(note.query && note.lookAt && note.larger);
  assert.equal(notes[0].query, "append([1],[2],R)");
  assert.match(notes[0].lookAt, /^`step 0\.1` makes two goals, .* wherever it stands \(`undo N`\)\.$/);
});

test("the tour's lines are those of docs/TUTORIAL.md, in its order", () => {
  const told = tutorialSessions();
  assert.deepEqual(Object.keys(Tour.SESSIONS), ["first", "again", "asked", "mended"]);
  for (const [index, name] of Object.keys(Tour.SESSIONS).entries()) {
    const stations = Tour.STATIONS.filter((station) => station.session === name);
    assert.deepEqual([...Tour.SESSIONS[name].lines, ...stations.map((station) => station.line)], told[index].map((entry) => entry.line), name);
  }
  const bill = fs.readFileSync(path.join(ROOT, "examples/bill.ghc"), "utf8");
  assert.match(Tour.SESSIONS.mended.program(bill), /^price\(N,P\) :- N > 0, N < 10 \| P := N \* 10\.$/m);
});

test("the lines before a station are those of its own session", () => {
  const again = Tour.STATIONS.findIndex((station) => station.session === "again");
  assert.deepEqual(Tour.linesBefore(again), ["step 0.1", "step 1.1", "step 2.1", "step 1.2", "step 4.1", "step 1.3"]);
  assert.deepEqual(Tour.linesBefore(2), ["step 0.1", "step 1.1"]);
  assert.ok(Tour.beginsSession(again) && !Tour.beginsSession(again + 1));
});

test("the page is one file below 1.5 MB that names no other one, and its policy lets nothing out", () => {
  const page = fs.readFileSync(path.join(ROOT, "web/ghcdb.html"), "utf8");
  assert.ok(Buffer.byteLength(page) < 1.5e6, `${Buffer.byteLength(page)} bytes`);
  assert.match(page, /<meta http-equiv="Content-Security-Policy" content="default-src 'none'; [^"]*"/);
  assert.doesNotMatch(page, /<(script|link|img|iframe)[^>]* (src|href)=/);
  const scripts = [...page.matchAll(/<script data-file="([^"]+)">\n([^]*?)<\/script>/g)].filter(([, name]) => name !== "examples.js").map(([, , text]) => text).join("");
  assert.deepEqual([...new Set(scripts.match(/https?:\/\/[^"'`\s]+/g))], ["http://www.w3.org/2000/svg"]);
  assert.doesNotMatch(scripts, /\b(fetch|XMLHttpRequest|WebSocket|EventSource|importScripts|sendBeacon)\b/);
});
