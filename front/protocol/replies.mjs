// What the lines of the console tell: each of their forms is read here, and nowhere else. Pure.
import Limits from "./limits.mjs";
import * as Printed from "../text/printed.mjs";

/**
 * @typedef {import("../types").Step} Step
 * @typedef {import("../types").ShortStep} ShortStep
 * @typedef {import("../types").Goal} Goal
 * @typedef {import("../types").Reply} Reply
 */

const { numbersOf, splitOutside, variablesIn } = Printed;

/** Is the line a refusal? `F1 = 2` is none: it tells the value of a variable. */
const isRefusal = (line) => /^F\d+ (?!= )/.test(line ?? "");

/** Does the reply to a line refuse it? */
const isRefused = (reply) => isRefusal(reply[0]);

const NO_MEMORY = "F1 no memory";

/** Did memory run out for a line of a listing? Such a text of a history does not load. */
const hasHole = (text) => /^F1 no memory$/m.test(text);

/**
 * Reads lines of one form: what a function makes of its parts; null where a line is not of that form.
 * @template T
 * @param {RegExp} form
 * @param {(parts: RegExpExecArray) => T} made
 */
const reading = (form, made) => (/** @type {string} */ line) => {
  const parts = form.exec(line);
  return parts && made(parts);
};

const listed = (text = "-") => (text === "-" ? [] : text.indexOf(",") < 0 ? [text] : text.split(","));

function readBinding(text) {
  const sign = text.indexOf("=");
  return { variable: text.slice(0, sign), term: text.slice(sign + 1) };
}

const byNumbers = (one, other) => {
  const [step, place] = numbersOf(one), [otherStep, otherPlace] = numbersOf(other);
  return step - otherStep || place - otherPlace;
};

const ACTS = { eq: "unify", is: "assign", end: "close" };

/** What an act does: `reduce`, `unify`, `assign`, `input`, `close` or `ask`; none where it is no act. */
function kindOf(act) {
  if (ACTS[act] !== undefined) return ACTS[act];
  if (/^by \d+$/.test(act)) return "reduce";
  return act.startsWith("in ") ? "input" : act.startsWith("ask ") ? "ask" : undefined;
}

/** The variables that an act of the step of a number names, the least first: those of an ask that are not its own. */
function namesIn(act, number) {
  if (!act.startsWith("ask ")) return [];
  return variablesIn(act).filter((variable) => numbersOf(variable)[0] !== number).sort(byNumbers);
}

const NONE_AT_ALL = Object.freeze([]);

/**
 * A step as its line tells it, of the number, the goal and the act; null where that is no step. An ask consumes no goal: its `goal` is null.
 * @returns {Step | null}
 */
function readStep(number, goal, act) {
  const kind = kindOf(act);
  if (kind === undefined || !/^\d+$/.test(number) || !/^(\d+\.\d+|-)$/.test(goal)) return null;
  return { number: Number(number), goal: goal === "-" ? null : goal, act, kind, clause: kind === "reduce" ? Number(act.slice(3)) : null };
}

/** @param {readonly string[]} parts of a line that tells a step */
const readParts = ([, number, goal, act]) => readStep(number, goal, act);

/** Where the last three parts of a record line begin, found from its end, since an act can hold their words; null where it is none. */
function placesIn(line) {
  const makes = line.lastIndexOf(" makes "), binds = line.lastIndexOf(" binds ", makes - 1), reads = line.lastIndexOf(" reads ", binds - 1);
  return reads < 0 ? null : { reads, binds, makes };
}

/** The bindings that a record line tells: none of a term has a semicolon but between brackets. */
function bindingsIn(line, { binds, makes }) {
  const bound = line.slice(binds + 7, makes);
  if (bound === "-") return NONE_AT_ALL;
  return (bound.indexOf(";") < 0 ? [bound] : splitOutside(bound, ";")).map(readBinding);
}

/**
 * A step of a line such as `3 0.1 by 2 reads _0_1 binds - makes 3.1,3.2`; null where it is none.
 * @param {string} line
 * @returns {Step | null}
 */
function readRecord(line) {
  const places = placesIn(line), first = line.indexOf(" "), second = line.indexOf(" ", first + 1);
  if (places === null || second < 0 || second >= places.reads) return null;
  const { reads, binds, makes } = places, step = readStep(line.slice(0, first), line.slice(first + 1, second), line.slice(second + 1, reads));
  if (step === null) return null;
  step.names = step.kind === "ask" ? namesIn(step.act, step.number) : NONE_AT_ALL;
  step.reads = listed(line.slice(reads + 7, binds));
  step.binds = bindingsIn(line, places);
  step.makes = listed(line.slice(makes + 7));
  return step;
}

/**
 * The steps of the reply to `records`, in recorded order.
 * @type {(lines: Reply) => Step[]}
 */
const readRecords = (lines) => lines.map(readRecord).filter(Boolean);

/** A record line with the term of each binding changed by a function. */
function withTerms(line, change) {
  const places = placesIn(line);
  if (places === null) return line;
  const changed = bindingsIn(line, places).map(({ variable, term }) => `${variable}=${change(term)}`);
  return line.slice(0, places.binds + 7) + (changed.join(";") || "-") + line.slice(places.makes);
}

/** The number with which a line begins. */
const numberIn = (line) => Number.parseInt(line, 10);

const SPACE = 32, FIRST_DIGIT = 48, LAST_DIGIT = 57;

/** Do bytes begin with a line of a step? A record that is empty or refused does not. */
const beginsWithStep = (bytes) => bytes.length > 0 && bytes[0] >= FIRST_DIGIT && bytes[0] <= LAST_DIGIT;

/** The number with which a line begins that stands at a place of bytes. */
function numberAt(bytes, place) {
  let number = 0;
  for (let at = place; bytes[at] !== SPACE && at < bytes.length; at++) number = number * 10 + bytes[at] - FIRST_DIGIT;
  return number;
}

/**
 * The steps of the reply to `shelf`.
 * @type {(lines: Reply) => ShortStep[]}
 */
const readShelf = (lines) => lines.map(reading(/^(\d+) (\S+) (.+)$/, readParts)).filter(Boolean);

/** What a step consumes and does, in words: `goal 1.1 by 2`, or the act alone where it consumes no goal. */
const wordsOf = (step) => (step.goal === null ? step.act : `goal ${step.goal} ${step.act}`);

const GOAL = /^(\d+\.\d+) (ready|waits (\S+)|failed (\S+)|stream) (.*)$/;

/** A goal of a line such as `1.3 waits _1_1 p(_1_1)`; null where it is none. */
const readGoal = reading(GOAL, ([, name, status, waitsFor, refusal = "", text]) =>
  ({ name, status: status.split(" ")[0], waitsFor: listed(waitsFor), refusal, text, sort: Printed.sortOfText(text) }));

/**
 * The goals of the reply to `goals`.
 * @type {(lines: Reply) => Goal[]}
 */
const readGoals = (lines) => lines.map(readGoal).filter(Boolean);

/** What stands in front of the goal's text in a line that tells one. */
const beforeGoal = (line) => (/^(?:CALL )?\d+\.\d+ (?:ready |waits \S+ |failed \S+ |stream )?/.exec(line) || [""])[0];

const BEFORE_TERM = /^(?:[A-Z_]\w* = |given |gave |\d+\.\d+ (?:gave|left|stands) |(?:_\d+_\d+ lost by )?\d+ \d+\.\d+ (?:by \d+|eq|is|end) )/;

/** What stands in front of the one term, or goal, that a line tells; empty where it tells none. */
const beforeTerm = (line) => BEFORE_TERM.exec(line)?.[0] ?? beforeGoal(line);

/** What stands behind it: the line of a clause. */
const afterTerm = (line) => (/ line \d+$/.exec(line) || [""])[0];

const REDU = /^REDU (\d+) (\d+\.\d+|-) (.+)$/, CALL = /^CALL (\d+\.\d+) (.*)$/;

/** The step of a line such as `REDU 1 0.1 by 2`; null where it is none. */
const readTaken = reading(REDU, readParts);

/** The goal of a line such as `CALL 1.1 p(_1_1)`; null where it is none. */
const readCall = reading(CALL, ([, name, text]) => ({ name, text }));

/** The names of the goals that CALL lines tell. */
const goalsMade = (lines) => lines.map(readCall).filter(Boolean).map(({ name }) => name);

/** The numbers of the steps that a line such as `undone 3,2` tells to be taken back; null where it is none. */
const readUndone = reading(/^undone ([\d,]+)$/, ([, numbers]) => numbers.split(",").map(Number));

const PORTS = [
  reading(REDU, ([, step, goal, act]) => ({ port: "REDU", step: Number(step), goal: goal === "-" ? null : goal, act })),
  reading(CALL, ([, goal, text]) => ({ port: "CALL", goal, text })),
  reading(/^RESU (\S+)$/, ([, goal]) => ({ port: "RESU", goal })),
  reading(/^SUSP (\S+) (\S+)$/, ([, goal, variables]) => ({ port: "SUSP", goal, waitsFor: listed(variables) })),
  reading(/^FAIL (\S+) (\S+)$/, ([, goal, refusal]) => ({ port: "FAIL", goal, refusal })),
];

/** What a line of a port tells; null where it is none. */
const readPort = (line) => PORTS.map((read) => read(line)).find(Boolean) ?? null;

const OTHERS = / or ([\d,]+)$/;

/** A step of an explanation, with the other clauses that could have been taken in its place; null where the line tells none. */
function readExplained(line) {
  const found = OTHERS.exec(line), step = readRecord(found ? line.slice(0, found.index) : line);
  return step && { ...step, others: found ? found[1].split(",").map(Number) : NONE_AT_ALL };
}

/** What a cause is, as `why` tells it: a step, whether it made, was read or is named, the variable, and whether it woke. */
function readCause(line) {
  const [number, kind, variable, woke] = line.split(" ");
  return { number: Number(number), kind, variable, woke: woke === "woke" };
}

/** A direct dependence, as `causes` tells it: the step, and its cause. */
function readDependence(line) {
  const [number] = line.split(" ", 1);
  return { number: Number(number), cause: readCause(line.slice(number.length + 1)) };
}

/** The variable and the value of a line such as `R = [1,2]`. */
const readValue = (line) => ({ variable: line.slice(0, line.indexOf(" ")), value: line.slice(line.indexOf(" = ") + 3) });

/** Does a line tell a variable that nothing has bound, as `X = _1_2`? */
const isUnbound = (line) => / = _\d+_\d+$/.test(line);

/** A goal that has an unbound variable, as `explain` tells it; null where the line tells none. */
const readHolder = reading(
  /^(_\d+_\d+) in (\d+\.\d+) (.+)$/, ([, variable, goal, status]) => ({ variable, goal, status }));

/** Of how many steps the last line of an explanation speaks; undefined where it is none. */
const readExtent = (line) => { const [, of] = /^steps \d+ of (\d+)$/.exec(line) ?? []; return of && Number(of); };

/** The line of the program at which a clause begins; nothing where none is told. */
const lineIn = (line) => line && { line: Number(line) };

const TAKEN_GOAL = /^(\d+) (?:(\d+\.\d+) (by \d+|eq|is|end|in \S+) (.*?)|- (ask .*?))(?: line (\d+))?$/;

/** The goal that a step took, and the line of its clause, as `goal N` tells it; null where the line tells none. */
const readTakenGoal = reading(TAKEN_GOAL, ([, number, goal = null, act, text = null, asked, line]) =>
  ({ number: Number(number), goal, act: act ?? asked, text, ...lineIn(line) }));

const CHOICE = /^(\d+) (?:(yes)|(waits) (\S+)|(no) (head|test|value) (\d+))(?: line (\d+))?$/;

/**
 * What a clause says to a goal, as `clauses` tells it: `yes`, `no` or `waits`, and for what; where it says no, also the argument of its
 * head, or the test, that does, from 1 on: of a `value` a side of the test has none; and at which line of the program the clause begins.
 * Null where the line tells none.
 */
const readChoice = reading(CHOICE, ([, number, yes, waits, variables, no, part, which, line]) => ({
  number: Number(number), says: yes ?? waits ?? no, waitsFor: listed(variables),
  at: no === undefined ? undefined : { part, number: Number(which) }, ...lineIn(line),
}));

/** Which step bound a variable, as `who` tells it; null where the line tells none. */
const readBinder = reading(/^(\S+) by (\d+)$/, ([, variable, number]) => ({ variable, number: Number(number) }));

const WITH_STEP = [/^()(\d+)( (?:made|read|named)\b.*)$/, /^(\S+ by )(\d+)()$/, /^((?:REDU|fault|_\d+_\d+ lost by) )(\d+)( .*)$/, /^(asked )(\d+)()$/, /^(F17 step )(\d+)( .*)$/, /^()(\d+)( (?:\d+\.\d+|-) .*)$/];
const WITH_GOAL = [/^(_\d+_\d+ in )(\d+\.\d+)( .*)$/, /^()(\d+\.\d+)( .*)$/, /^((?:CALL|RESU|SUSP|FAIL|stopped spied|ask|left|fault) )(\d+\.\d+)(.*)$/];
const firstOf = (forms, line) => forms.map((form) => form.exec(line)).find(Boolean);

/** A line in three: before the `step` or the `goal` that it names first, that name, and what follows; null where it names none. */
function namedIn(line) {
  const step = firstOf(WITH_STEP, line), [, before, name, after] = step || firstOf(WITH_GOAL, line) || [];
  if (name === undefined) return null;
  return { before, ...(step ? { step: Number(name) } : { goal: name }), after };
}

const SPIES = /^spies \d+$/, END = /^end (\d+)$/;

/** The predicates that are spied, of the lines of a whole session, as `save` tells it. */
function spiesIn(lines) {
  const at = lines.findLastIndex((line) => SPIES.test(line));
  return at < 0 ? [] : lines.slice(at + 1, -1);
}

/** The number that the next step gets, of the lines of a whole session. */
const nextIn = (lines) => Number(END.exec(lines.at(-1))?.[1]);

const NOT_IN_1 = "history 1 cannot hold a step that asked for goals: use save alone";

/** What the limit means at which a line, or a text at the start, was refused; undefined where it was not at a limit. */
function limitIn(refusal, line = "") {
  const [, word] = /^F6 limit: (\w+)$/.exec(refusal) ?? [];
  return word === "version" && line.startsWith("save") ? NOT_IN_1 : Limits[word];
}

export {
  reading, spiesIn, nextIn,
  isRefusal, isRefused, limitIn, hasHole, NO_MEMORY, readRecord, readRecords, withTerms, numberIn, beginsWithStep, numberAt, readShelf, wordsOf, readGoals, beforeGoal, beforeTerm, afterTerm,
  readTaken, readCall, goalsMade, readUndone, readPort, readExplained, readCause, readDependence, readValue, isUnbound, readHolder, readExtent, readTakenGoal, readChoice, readBinder, namedIn,
};
