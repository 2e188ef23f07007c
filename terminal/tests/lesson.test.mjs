// Lessons: a text in Markdown gets the replies to what is typed in it, and pictures; a wrong one is told with its line.
import assert from "node:assert";
import fs from "node:fs";
import os from "node:os";
import path from "node:path";
import test from "node:test";
import { spawnSync } from "node:child_process";
import { fileURLToPath } from "node:url";
import { Lesson } from "../lesson_played.mjs";

const TERMINAL = fileURLToPath(new URL("../", import.meta.url)), EXAMPLES = path.join(TERMINAL, "..", "examples");
const PICTURE = "<svg>a picture</svg>\n";

/** What comes of a use of a folder of its own. */
async function inFolder(use) {
  const folder = fs.mkdtempSync(path.join(os.tmpdir(), "ghcdb-test-"));
  try {
    return await use(folder);
  } finally {
    fs.rmSync(folder, { recursive: true });
  }
}

/** A lesson's text, filled in. */
const filled = (folder, lines) => new Lesson({ folder, draw: () => PICTURE, native: undefined }).fill(lines.join("\n"));

function command(...words) {
  const env = { ...process.env, GHCDB: "page" };
  return spawnSync(process.execPath, [path.join(TERMINAL, "lesson"), ...words], { encoding: "utf8", env });
}

test("the lesson of examples/lessons comes with its replies and its picture", () => inFolder((folder) => {
  const lesson = path.join(folder, "streams.md"), wanted = fs.readFileSync(path.join(TERMINAL, "tests", "lib", "streams.filled.md"), "utf8");
  fs.copyFileSync(path.join(EXAMPLES, "lessons", "streams.md"), lesson);
  const { stdout, stderr, status } = command(lesson);
  assert.deepStrictEqual([stdout, stderr, status], [wanted, "", 0]);
  const svg = fs.readFileSync(path.join(folder, "streams.svg"), "utf8"), steps = [...svg.matchAll(/data-step="(\d+)"/g)].map(([, step]) => Number(step));
  assert.ok(svg.startsWith("<svg ") && svg.endsWith("</svg>\n"), svg.slice(0, 80));
  assert.deepStrictEqual([...new Set(steps)].sort((one, other) => one - other), Array.from({ length: 11 }, (none, place) => place + 1));
}));

test("a program of a file, with the query of its comment; a session that goes on in the next block; pictures alone", () => inFolder(async (folder) => {
  fs.writeFileSync(path.join(folder, "one.ghc"), "% Query: p(X)\n\np(X) :- true | X = 1.\n");
  const lines = [
    "Text.", "```ghcdb", "file     one.ghc", "> step 0.1", "```", "```js", "> step", "```", "```ghcdb", "continued", "picture  a.svg", "> leap", "picture  b.svg", "picture  c.svg", "```", "",
  ];
  assert.deepStrictEqual((await filled(folder, lines)).split("\n"), [
    "Text.", "```", "p(X) :- true | X = 1.", "> step 0.1", "REDU 1 0.1 by 1", "CALL 1.1 _0_1 = 1", "```", "```js", "> step", "```",
    "![the run of p(X)](a.svg)", "```", "> leap", "REDU 2 1.1 eq", "stopped quiet", "% all is done", "```",
    "![the run of p(X)](b.svg)", "![the run of p(X)](c.svg)", "",
  ]);
  assert.strictEqual(fs.readFileSync(path.join(folder, "b.svg"), "utf8"), PICTURE);
  assert.deepStrictEqual(await filled(folder, lines), await filled(folder, lines), "pictures are written over");
}));

const PROGRAM = "program  p(1).";
const WRONG = [
  [["```ghcdb", PROGRAM], "line 1: the block is not closed by ```"],
  [["```ghcdb", "leap", "```"], "line 2: a block has lines \"program ..\", \"file ..\", \"query ..\", \"> ..\" and \"picture ..\"; this is none"],
  [["", "```ghcdb", "> leap", "```"], "line 3: a program and a query stand before what is typed"],
  [["```ghcdb", "query    p(1)", "```"], "line 2: a program stands before its query"],
  [["```ghcdb", PROGRAM, "> leap", "```"], "program.ghc: no query is given, and no comment % Query: .. names one"],
  [["```ghcdb", "file     none.ghc", "```"], "line 2: there is no file none.ghc"],
  [["```ghcdb", PROGRAM, "query    p(1", "> leap", "```"], "line 4: the session has ended, so nothing can be typed"],
  [["```ghcdb", PROGRAM, "query    p(1)", "> quit", "> leap", "```"], "line 5: the session has ended, so nothing can be typed"],
  [["```ghcdb", PROGRAM, "query    p(1", "picture  a.svg", "```"], "line 4: there is no run to be drawn"],
  [["```ghcdb", PROGRAM, "query    p(1)", "> save text.svg", "```"],
    "line 4: a lesson writes no file but its pictures: save alone shows the history"],
  [["```ghcdb", PROGRAM, "query    p(1)", "picture  ../a.svg", "```"], "line 4: picture NAME.svg names a file beside the lesson"],
  [["```ghcdb", PROGRAM, "query    p(1)", "picture  text.svg", "```"], "line 4: text.svg is there, and is no picture"],
  [["```ghcdb", PROGRAM, "query    p(1)", "picture  out.svg", "```"], "line 4: out.svg is there, and is no picture"],
  [["```ghcdb", "file     pipe", "```"], "line 2: there is no file pipe"],
];

test("a wrong lesson is told with its line, and nothing is written over", () => inFolder(async (folder) => {
  fs.writeFileSync(path.join(folder, "text.svg"), "a text\n");
  fs.symlinkSync("../nowhere.svg", path.join(folder, "out.svg")); // a link out of the folder, to no file yet
  spawnSync("mkfifo", [path.join(folder, "pipe")]);
  for (const [lines, message] of WRONG) await assert.rejects(filled(folder, lines), { message });
  assert.strictEqual(fs.readFileSync(path.join(folder, "text.svg"), "utf8"), "a text\n");
  assert.deepStrictEqual(fs.readdirSync(folder), ["out.svg", "pipe", "text.svg"]);
  assert.ok(!fs.existsSync(path.join(folder, "..", "nowhere.svg")));
}));

test("the command tells by its status what is wrong", () => inFolder((folder) => {
  const lesson = path.join(folder, "l.md");
  fs.writeFileSync(lesson, "```ghcdb\n> leap\n```\n");
  const of = ({ stdout, stderr, status }) => [stdout, stderr, status];
  assert.deepStrictEqual(of(command()), ["", "ghcdb --lesson: name one lesson, a text in Markdown\n", 2]);
  assert.deepStrictEqual(of(command(lesson)), ["", `ghcdb --lesson: ${lesson}: line 2: a program and a query stand before what is typed\n`, 1]);
  assert.strictEqual(command(path.join(folder, "none.md")).status, 3);
}));
