// Why ghcdb refused a program, a query or a history before a session began, in words; and all refusals of a program and
// a query at once. ghcdb tells one at a time, so it is asked again without what it refused: it judges, and what stands
// here only repeats.
import fs from "node:fs";
import * as Replies from "../protocol/replies.mjs";
import * as Causes from "../text/causes.mjs";
import * as TakingOut from "../text/taking_out.mjs";
import Engine from "./engine.mjs";
import { isFile, lineOf, tried } from "./files.mjs";
import { HANDED, ofPage, open, unlessEnded } from "./program.mjs";

const MOST = 20; // refusals that are told
const MOST_ASKED = 60; // times that ghcdb is asked
const NO_QUERY = "true";
const SAID = /^(program|query): (F[2-5]) (.*)$/;
const MOST_SHOWN = 200; // letters of a line of a history
const NOT_READ = { ENOENT: "no such file", EACCES: "reading it is not allowed", EISDIR: "it is a folder" };

/** Why a file cannot be read; nothing where it can. It is not read: it may never end, or be a pipe. */
function whyNotRead(file) {
  try {
    fs.accessSync(file, fs.constants.R_OK);
    return fs.statSync(file).isDirectory() ? [`${file}: ${NOT_READ.EISDIR}`] : [];
  } catch (error) {
    return [`${file}: ${NOT_READ[error.code] ?? error.message}`];
  }
}

/** The line of a history at which loading it stopped. */
function whyNotLoaded(file, refusal) {
  const [, number] = /^F24 history line (\d+)$/.exec(refusal) ?? [];
  if (number === undefined || file === undefined) return []; // a history that is in no file was made by the front
  if (!isFile(file)) return [`${file}: line ${number} is wrong`];
  const line = tried(() => lineOf(file, Number(number), MOST_SHOWN));
  return [`${file}:${number}: ${line ?? "the file ends before this line"}`, "the line is not of its form, or its step cannot be taken: is it of this program and query?"];
}

/**
 * What helps with a line of standard error that refuses a text or a file: lines, and the cause in a text where there is
 * one. `file` and `load` are the names of the program's and the history's files.
 */
function whyRefused(line, { text, query, file, load }) {
  const [, who, refusal] = /^(program|query|history|schedule): (F\d+ .*)$/.exec(line) ?? [];
  if (who === undefined) return { lines: [] };
  if (refusal.startsWith("F26")) return { lines: whyNotRead(who === "history" ? load : file) };
  if (who === "history") return { lines: whyNotLoaded(load, refusal) };
  const isQuery = who === "query", source = isQuery ? query : text;
  const limit = Replies.limitIn(refusal);
  if (limit !== undefined) return { lines: [limit] };
  const cause = Causes.causeOf(refusal, { text: source, which: isQuery ? "query" : file, isQuery, program: text });
  return cause === undefined ? { lines: [] } : { lines: Causes.linesOf(cause, source), cause: { ...cause, isQuery } };
}

/**
 * What ghcdb says of a program and a query; undefined where it accepts both. Without a native program the page's engine
 * tells at once, for it only reads.
 */
async function refusalOf({ program: text, query }, native) {
  if (native === undefined) {
    const { refused, start } = new Engine(ofPage()).open({ program: text, query });
    return refused ? start.trim() : undefined;
  }
  const program = open([HANDED.program, "--query", query], native, new Map([[HANDED.program, Buffer.from(text)]]));
  try {
    return await unlessEnded(program.ask("goals").then(() => undefined), ({ errors }) => errors.trim());
  } finally {
    await program.kill();
  }
}

/** By the places in the texts, the query's last. */
function byPlace({ cause: one }, { cause: other }) {
  const isLater = Number(one?.isQuery ?? 1) - Number(other?.isQuery ?? 1);
  return isLater || (one === undefined ? 0 : one.line - other.line || one.column - other.column);
}

/** Is a place before another one, or that? */
const isBefore = (place, other) => place.line < other.line || (place.line === other.line && place.column <= other.column);

// The texts as they are judged, after what was refused is out.
class Judged {
  constructor({ text, query, file = "program", load }) {
    this.given = { text, query, file, load };
    this.readable = text; // without what is no syntax
    this.text = text; // without all that was refused
    this.query = query;
    this.added = []; // clauses of predicates that have none
    this.names = new Set(); // what the parts that are out may have defined
    this.isOpen = false; // may they have defined anything?
    this.taken = undefined; // the goal that was taken out last: the text before, where it was refused, begins and ends
    this.mends = new Map(); // by a clause's number, what takes out what its checks refused
    this.places = new Set(); // at which something was told
  }

  get program() {
    return this.added.length === 0 ? this.text : `${this.text}\n${this.added.join("\n")}\n`;
  }

  /** What ghcdb said, taken apart. */
  read(said) {
    const [, who, number, rest] = SAID.exec(said) ?? [], numbers = rest?.match(/\d+/g)?.map(Number) ?? [];
    return { who, number, rest, place: { line: numbers[0], column: numbers[1] }, clause: numbers.at(-1) };
  }

  /** Was a goal not all that is wrong, since ghcdb stops in it again? */
  isSame({ who, number, place }) {
    const { taken } = this;
    if (taken === undefined || number !== "F2" || who !== taken.who) return false;
    return isBefore(taken.start, place) && isBefore(place, taken.end);
  }

  /** The refusal with its cause, in a list, told of the text as it was; none where it may be due to what is out. */
  told(said) {
    const { who, number, rest, clause } = this.read(said), { query, given } = this;
    if (number === "F5" && (this.isOpen || this.names.has(/^undefined (\w+)\//.exec(rest)[1]))) return [];
    const mends = number === "F3" || number === "F4" ? this.mends.get(clause) ?? [] : [];
    const text = mends.reduce((before, mend) => mend(before) ?? before, this.readable);
    const { lines, cause } = whyRefused(said, { ...given, text, query });
    if (cause === undefined) return [{ said, lines, cause }];
    const key = `${who} ${cause.line}:${cause.column}`, isTold = number !== "F5" && this.places.has(key);
    this.places.add(key);
    return isTold ? [] : [{ said, lines: Causes.linesOf(cause, who === "query" ? given.query : given.text), cause }];
  }

  /** Takes out what was refused, of which `cause` was told; false where that cannot be. */
  takeOut(said, cause) {
    const read = this.read(said), { who, number, rest } = read;
    if (number === undefined) return false;
    if (number === "F5") return this.define(...rest.slice("undefined ".length).split("/"));
    if (who === "query") return this.takeOutOfQuery(read);
    return number === "F2" ? this.takeOutOfProgram(read) : this.takeOutOfClause(read, cause);
  }

  /** Takes a goal out that is no syntax; where that does not help all goals. */
  takeOutOfQuery(read) {
    const { query } = this, without = this.isSame(read) ? undefined : TakingOut.withoutGoal(query, read.place, true);
    this.taken = without && { who: read.who, ...without };
    return this.judge("query", without === undefined || without.text === query ? NO_QUERY : without.text);
  }

  /** Takes a goal out that is no syntax; its clause where that does not help, and where no goal is wrong. */
  takeOutOfProgram(read) {
    const isSame = this.isSame(read);
    const { before, place } = isSame ? this.taken : { before: this.text, place: read.place };
    const without = TakingOut.withoutPlace(before, place, isSame);
    if (without === undefined || without.text === before) return false;
    this.taken = without.end && { who: read.who, before, place, ...without };
    without.names.forEach((name) => this.names.add(name));
    this.isOpen ||= without.isAnybodys === true;
    this.readable = without.text;
    return this.judge("text", without.text);
  }

  /** Takes a test out, or a variable that stands in a head again; the clause where nothing was told of these. */
  takeOutOfClause({ number, rest, clause }, cause) {
    const [, name] = /^variable (\w+) repeated/.exec(rest) ?? [];
    const withoutTest = (text) => TakingOut.withoutGoal(text, cause)?.text;
    const mend = number === "F4" ? (text) => TakingOut.withoutRepeated(text, clause, name) : withoutTest;
    const mended = cause === undefined ? undefined : mend(this.text);
    if (mended === undefined || mended === this.text) return this.judge("text", TakingOut.withoutClause(this.text, clause));
    this.mends.set(clause, [...this.mends.get(clause) ?? [], mend]);
    return this.judge("text", mended);
  }

  /** From now on a text is judged in place of the `text` or `query` before; false where it is the same. */
  judge(which, text) {
    const isOther = text !== this[which];
    this[which] = text;
    return isOther;
  }

  define(name, arity) {
    this.added.push(TakingOut.clauseFor(name, Number(arity)));
    return true;
  }
}

/**
 * The refusals of a program and a query, each as `{ said, lines, cause }`: the one that ghcdb tells, then the others by
 * their places; at most 20. `given` has `text` and `query`, and the names of the program's and the history's files as
 * `file` and `load`; `first` is what ghcdb said, where it was asked already, and `native` judges.
 * @returns {Promise<import("../types").Refusal[]>}
 */
async function everyRefusal(given, native, first) {
  const judged = new Judged(given), refusals = [];
  let said = first ?? await refusalOf(judged, native);
  for (let asked = 0; said !== undefined && asked < MOST_ASKED; asked += 1) {
    const told = judged.isSame(judged.read(said)) ? [] : judged.told(said);
    refusals.push(...told);
    if (refusals.length === MOST || !judged.takeOut(said, told[0]?.cause)) break;
    said = await refusalOf(judged, native);
  }
  return [...refusals.slice(0, 1), ...refusals.slice(1).sort(byPlace)];
}

/** What is told after the words of the first refusal, which ghcdb said itself: what helps with it, and the others. */
const linesAfterFirst = (refusals) => refusals.flatMap(({ said, lines }, at) => (at === 0 ? lines : [said, ...lines]));

export { everyRefusal, linesAfterFirst, whyNotRead };
