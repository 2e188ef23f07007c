// Plays a lesson, a text in Markdown whose blocks ```ghcdb hold programs, queries and typed lines: what is typed gets
// its replies, and a run its picture. The text that comes is Markdown.
import fs from "node:fs";
import os from "node:os";
import path from "node:path";
import { queryOf } from "../front/text/query_comment.mjs";
import { beginningOf, isFile } from "../front/session/files.mjs";
import { Front } from "./front.mjs";
import { MARK } from "./plain.mjs";

const FENCE = "```", OPENS = `${FENCE}ghcdb`;
const FIRST = /^(program|query|file|picture) +(\S.*)$/, MORE = /^ {9}(.*)$/, TYPED = /^> ?(.*)$/;
const BESIDE = "picture NAME.svg names a file beside the lesson";
const NO_ITEM = "a block has lines \"program ..\", \"file ..\", \"query ..\", \"> ..\" and \"picture ..\"; this is none";
const NO_FILE = "a lesson writes no file but its pictures: save alone shows the history";
const MOST_BYTES = 1_048_577; // of a program: ghcdb reads one byte further to see that it is longer
const SVG = "<svg"; // how a picture begins
const PICTURE = /^[\w-]+\.svg$/;
const GREETING = `${MARK}Flat GHC. help`; // how the line begins that a session begins with
const PROGRAM = "program.ghc"; // what a program of the lesson's own is called in replies
const NO_QUERY = "no query is given, and no comment % Query: .. names one";
const INDENT = " ".repeat(9);

/** What is thrown where a lesson is wrong: why, and in which line. */
const wrongAt = (line, why) => new Error(`line ${line}: ${why}`);

/** What a line of a block says: `{ kind, text }`. */
function itemOf(line, number) {
  const [, kind, text] = FIRST.exec(line) ?? [], [, typed] = TYPED.exec(line) ?? [];
  if (kind === "picture" && !PICTURE.test(text)) throw wrongAt(number, BESIDE);
  if (kind !== undefined) return { kind, text, number };
  if (typed !== undefined) return { kind: "typed", text: typed, number };
  if (line.trim() === "" || line === "continued") return { kind: "blank", number };
  throw wrongAt(number, NO_ITEM);
}

/** The items of a block's lines: further lines of a program are indented by nine blanks. */
function itemsOf(lines, first) {
  const items = [];
  lines.forEach((line, place) => {
    const last = items.at(-1), [, more] = (last?.kind === "program" && MORE.exec(line)) || [];
    if (more === undefined) items.push(itemOf(line, first + place));
    else last.text += `\n${more}`;
  });
  return items;
}

/** The parts of a lesson in their order: `{ lines }` that stay as they are, and blocks, `{ items }`. */
function readLesson(text) {
  const parts = [], lines = text.split("\n");
  let from = 0;
  for (let at = lines.indexOf(OPENS); at >= 0; at = lines.indexOf(OPENS, from)) {
    const end = lines.indexOf(FENCE, at);
    if (end < 0) throw wrongAt(at + 1, `the block is not closed by ${FENCE}`);
    parts.push({ lines: lines.slice(from, at) }, { items: itemsOf(lines.slice(at + 1, end), at + 2) });
    from = end + 1;
  }
  return [...parts, { lines: lines.slice(from) }];
}

/** May a picture be written there? A link could lead out of the folder, also one to no file yet. */
function isOwn(place) {
  const there = fs.lstatSync(place, { throwIfNoEntry: false });
  return there === undefined || (there.isFile() && beginningOf(place, SVG.length).toString("latin1") === SVG);
}

class Lesson {
  /** `folder` is the lesson's, `draw(history, program, query)` gives a picture's text, `native` plays sessions. */
  constructor({ folder, draw, native }) {
    this.folder = folder;
    this.draw = draw;
    this.native = native;
    this.out = [];
    this.file = this.name = this.query = undefined; // of the session that is meant
    this.own = fs.mkdtempSync(path.join(os.tmpdir(), "ghcdb-lesson-"));
  }

  /** The lesson with what comes of it. */
  async fill(text) {
    try {
      for (const { lines, items } of readLesson(text)) {
        if (lines !== undefined) this.out.push(...lines);
        else await this.play(items);
      }
      return this.out.join("\n");
    } finally {
      await this.front?.session.program?.kill();
      this.forget();
    }
  }

  /** Takes away what was written for it alone. */
  forget() {
    fs.rmSync(this.own, { recursive: true, force: true });
  }

  /** A block: what is shown stands between fences, but for pictures. */
  async play(items) {
    const from = this.out.length;
    this.out.push(FENCE);
    for (const item of items) await this[`play_${item.kind}`](item);
    await this.begin();
    this.out.push(FENCE);
    this.dropEmptyFences(from);
  }

  /** Between two pictures, and before or after one, nothing may stand. */
  dropEmptyFences(from) {
    for (let at = this.out.length - 2; at >= from; at -= 1) {
      if (this.out[at] === FENCE && this.out[at + 1] === FENCE) this.out.splice(at, 2);
    }
  }

  play_blank() {
    if (this.out.at(-1) !== "" && this.out.at(-1) !== FENCE) this.out.push("");
  }

  play_program({ text }) {
    this.file = path.join(this.own, PROGRAM);
    fs.writeFileSync(this.file, `${text}\n`);
    this.take({ name: PROGRAM, query: undefined });
    this.out.push(...`program  ${text}`.split("\n").map((line, place) => (place === 0 ? line : INDENT + line)));
  }

  play_file({ text, number }) {
    this.file = path.resolve(this.folder, text);
    if (!isFile(this.file)) throw wrongAt(number, `there is no file ${text}`);
    this.take({ name: text, query: undefined });
    const lines = beginningOf(this.file, MOST_BYTES).toString("utf8").split("\n").filter((line) => line !== "" && !line.startsWith("%"));
    this.out.push(...lines);
  }

  play_query({ text, number }) {
    if (this.file === undefined) throw wrongAt(number, "a program stands before its query");
    this.take({ name: this.name, query: text });
    this.out.push(`query    ${text}`, "");
  }

  /** From here on another session is meant, which begins when something is typed. */
  take({ name, query }) {
    this.name = name;
    this.query = query;
    this.isBegun = false;
  }

  /** Tells a line; not the greeting, and what a start says after it, of sessions before. */
  tell(line) {
    if (line.startsWith(GREETING)) this.isGreeted = true;
    else if (!(this.isGreeted && this.isBeginning)) this.out.push(line.replaceAll(this.file, this.name));
  }

  /** Begins the session that is meant, where it has not begun. */
  async begin() {
    if (this.isBegun !== false) return;
    this.isBegun = true;
    this.query ??= queryOf(fs.readFileSync(this.file, "utf8"));
    if (this.query === undefined) throw new Error(`${this.name}: ${NO_QUERY}`);
    await this.front?.session.program?.kill();
    const tell = (line) => this.tell(line);
    this.front = new Front({ words: [this.file, "--query", this.query], native: this.native, out: tell, errors: tell });
    this.isBeginning = true;
    this.isGreeted = false;
    await this.front.begin();
    this.isBeginning = false;
  }

  async play_typed({ text, number }) {
    await this.begin();
    if (this.front === undefined) throw wrongAt(number, "a program and a query stand before what is typed");
    if (this.front.hasEnded) throw wrongAt(number, "the session has ended, so nothing can be typed");
    let wantsFile = false;
    this.front.saveInto = async () => { wantsFile = true; };
    this.out.push(`> ${text}`);
    await this.front.answer(text);
    if (wantsFile) throw wrongAt(number, NO_FILE);
  }

  async play_picture({ text, number }) {
    await this.begin();
    if (this.front === undefined || this.front.hasEnded) throw wrongAt(number, "there is no run to be drawn");
    const history = path.join(this.own, "run.history"), to = path.join(this.folder, text);
    if (!isOwn(to)) throw wrongAt(number, `${text} is there, and is no picture`);
    await this.front.session.save(history);
    fs.writeFileSync(to, this.draw(history, this.file, this.query));
    this.out.push(FENCE, `![the run of ${this.query}](${text})`, FENCE);
  }
}

export { Lesson };
