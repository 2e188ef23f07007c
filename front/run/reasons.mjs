// Why something stands as it does, in words: a goal that waits or failed, a clause that says no, a step others rest on.
// Why a goal has failed is told in parts, as front/run/in_words.mjs has them: page and terminal tell the same.
import * as Print from "../text/print.mjs";
import * as Printed from "../text/printed.mjs";
import * as Reader from "../text/reader.mjs";
import { plural } from "../text/plural.mjs";
import Refusals from "../protocol/refusals.mjs";
import * as Replies from "../protocol/replies.mjs";
import { inWords } from "./in_words.mjs";
import { cut, termOf } from "./named.mjs";
import Run from "./run.mjs";
import { buildingLines, lineOf, waitsOf } from "./waits.mjs";

const MOST = 12; // lines of a kind that it tells
const WIDEST = 60; // letters of a term or a side that are shown
const MOST_LOOKED = 200_000; // kept steps: of a longer run not all that depends on a step is looked for

const FAILED = {
  F10: "no clause takes it (F10)", F11: "its two sides are different things (F11)",
  F12: "a value would hold itself (F12)", F13: "it has no value (F13)",
};

const some = (words) => (words.length > MOST ? [...words.slice(0, MOST), ".."] : words);

const labelOf = (session) => (variable) => session.run.labelOf(variable);

/** A term in few letters, with what a store gives. */
const shown = (term, store) => Print.term(term, { store, most: WIDEST });

/** What a test's variables stand for in a call, as `(N = 0)`; nothing where it has none, or the call is unknown. */
function valuesIn({ head }, test, call) {
  const terms = test.sort === "comparison" ? [test.left, test.right] : [test.call];
  const names = [...Reader.addVariables(new Set(), ...terms)];
  if (call === undefined || names.length === 0) return "";
  const bindings = Run.bindingsOf(head, call);
  return ` (${names.map((name) => `${name} = ${shown(bindings.get(name))}`).join(", ")})`;
}

/** Why a clause says no, `at` one of its places, to a call as it stands; of one that is too long it is undefined. */
function whyNo(clause, { part, number }, call) {
  if (part === "head") {
    const wants = `the head wants ${shown(clause.head.arguments[number - 1])}`;
    if (call === undefined) return `${wants} as argument ${number}`;
    return `${wants}, the goal has ${shown(call.arguments[number - 1])}`;
  }
  const test = clause.tests[number - 1];
  return `${test.text} ${part === "value" ? "has no value" : "says no"}${valuesIn(clause, test, call)}`;
}

/** Why clauses say no to a call with a text, by the lines of `clauses`. */
function whyNoTo(session, text, lines) {
  const call = text === undefined ? undefined : termOf(text);
  const all = lines.map(Replies.readChoice).filter((choice) => choice?.says === "no");
  return all.map(({ number, at }) => `clause ${number}: ${whyNo(session.clauses[number - 1], at, call)}`);
}

/** The same for a goal: how it was made tells it, but where a variable is shown, which may be bound by now. */
async function whyTheySayNo(session, name, lines) {
  const made = session.kept.texts.get(name), told = made === undefined ? undefined : whyNoTo(session, made, lines);
  if (told?.every((words) => Printed.variablesIn(words).length === 0)) return told;
  const goal = (await session.goalsTold())?.find((other) => other.name === name);
  return whyNoTo(session, goal?.text, lines);
}

/** Why the clauses of a call that has failed say no, or one of them. */
async function whyNoClause(session, name, clause) {
  const lines = await session.ask(`clauses ${name}`);
  return whyTheySayNo(session, name, lines.filter((line) => clause === undefined || Replies.numberIn(line) === Number(clause)));
}

/** The variable that was bound to the value of a term, at the end of its chain; undefined where the term is no variable, or unbound. */
function boundVariable(run, term) {
  let last;
  const boundTo = ({ variable }) => run.termOf(variable, WIDEST);
  const end = Printed.endOfChain(term, boundTo, ({ variable }) => { last = variable; });
  return end.variable === undefined ? last : undefined;
}

/** Which steps had bound the two sides of what could not be made equal. */
function boundBefore(run, goal) {
  const variables = [goal.left, goal.right].map((term) => boundVariable(run, term)).filter((variable) => variable !== undefined);
  return [...new Set(variables)].map((variable) =>
    [{ variable, label: run.labelOf(variable) }, " was bound by step ", { step: run.binders.get(variable) }, `; explain ${variable} tells why`]);
}

/** What could not be made equal. */
async function whyUnequal(session, name) {
  const run = await session.look(), goal = run.goalOf(name);
  if (goal?.right === undefined) return [];
  const [left, right] = [goal.left, goal.right].map((term) => shown(term, run.shown));
  return [[`${left} and ${right} are two different things`], ...boundBefore(run, goal)];
}

/** What could not be computed: which of these the console does not tell. */
async function whyNoValue(session, name) {
  const goal = await session.goalNamed(name), [, right] = / := (.*)$/.exec(goal?.text ?? "") ?? [];
  return right === undefined ? [] : [`${cut(right, WIDEST)}: division by zero, no integer, or beyond 64 bits`];
}

/** Who could bind what a goal waits for. */
async function whyWaits(session, name) {
  const goals = (await session.goals()).filter((goal) => goal.name === name), waits = await waitsOf(session, goals);
  return [...waits.map((wait) => lineOf(session, wait)), ...buildingLines(session, waits)];
}

/** What else goes where a step goes. */
async function hasConsequences(session, [word]) {
  const number = Number(word), takesAll = `roll ${number} takes it back with all that depends on it`;
  const effects = session.kept.steps.size > MOST_LOOKED ? undefined : await session.ask(`effects ${number}`);
  if (effects === undefined || Replies.isRefused(effects)) return [takesAll];
  const all = [number, ...Replies.readRecords(effects).map((step) => step.number)];
  return [`${takesAll}: ${some(all).join(",")}${all.length > MOST ? ` (${all.length} steps)` : ""}`];
}

/** Why a goal has failed: lines, each in parts. */
async function failedParts(session, name, refusal) {
  if (refusal === "F11") return whyUnequal(session, name);
  const lines = refusal === "F10" ? whyNoClause(session, name) : refusal === "F13" ? whyNoValue(session, name) : [Refusals[refusal]];
  return (await lines).map((line) => [line]);
}

const whyFailed = async (...asked) => (await failedParts(...asked)).map(inWords);

export { FAILED, MOST, failedParts, plural, some, labelOf, whyNo, whyTheySayNo, whyNoClause, whyWaits, whyFailed, hasConsequences };
