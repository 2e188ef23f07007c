// What a question or a verdict of `blame` means, in words for those who know the program and not yet the console.
import * as BlameLines from "../protocol/blame_lines.mjs";
import * as Asking from "../protocol/asking.mjs";
import * as Replies from "../protocol/replies.mjs";
import * as Print from "../text/print.mjs";
import { inOneLine } from "../text/clauses.mjs";
import * as Printed from "../text/printed.mjs";
import * as Reader from "../text/reader.mjs";
import { WIDEST, cut, namesIn, termOf } from "./named.mjs";
import { FAILED, plural, some, whyFailed, whyWaits, hasConsequences } from "./reasons.mjs";
import Run from "./run.mjs";

const WIDEST_VALUE = 80, WIDEST_CLAUSE = 120; // letters of a value and of a clause that are shown
const MOST_UNREAD = 3; // variables that a call did not read, and whose values are told

/** A call, and what it gave, in words with the names of variables: `call` and `gave`, the latter nothing where it is not told. */
function callIn(run, { given, gave }) {
  const texts = [given, gave].filter((text) => text !== null), terms = texts.map(termOf), [before, after] = terms;
  if (terms.includes(undefined)) return { call: cut(given, WIDEST), gave: gave === null ? "" : cut(gave, WIDEST) };
  const store = namesIn(run, texts), call = Print.term(before, { store, most: WIDEST });
  if (gave === null) return { call, gave: "" };
  const gains = [...Run.bindingsOf(before, after)].filter(([variable, value]) => value.variable !== variable);
  const shown = (term) => Print.term(term, { store, most: WIDEST_VALUE });
  const told = gains.map(([variable, value]) => `${Print.term({ variable }, { store })} = ${shown(value)}`);
  return { call, gave: told.length === 0 ? "nothing" : some(told).join(", ") };
}

/** How a goal stands, in words. */
function standingWords(session, { status, waitsFor, refusal }) {
  if (status === "failed") return `has failed: ${FAILED[refusal] ?? refusal}`;
  return status === "waits" ? `waits for ${waitsFor.map((variable) => session.run.labelOf(variable)).join(", ")}` : "was not stepped yet";
}

/** What a call did: what it gave, and to which goal it led. */
function callWords(session, told, goal) {
  if (told.given === null) return goal; // memory was refused for its line
  const { call, gave } = callIn(session.run, told), { left } = told;
  if (left === null) return gave === "" ? call : `${call} gave ${gave}`;
  if (left.goal === goal) return `${call} ${standingWords(session, left)}`;
  return `${call} gave ${gave}, and led to goal ${left.goal}, which ${standingWords(session, left)}`;
}

const IN_TURNS = "some of what it was given came only after something that it gave: judge the order too, as causes tells it";

/** What stands beside given and gave, and has to be judged with them. */
function warnings({ asked, inTurns }) {
  const asks = asked.length === 0 ? [] : [`${asked.length === 1 ? "step" : "steps"} ${some(asked).join(", ")} asked for goals that reach into it: judge what it gave together with these`];
  return inTurns ? [...asks, IN_TURNS] : asks;
}

/** Which variables a call was given that no step read which counts here, with what they are by now. */
async function unreadWords(session, { given, gave }) {
  const [before, after] = [given, gave ?? given].map((text) => (text === null ? undefined : termOf(text)));
  if (before === undefined || after === undefined) return [];
  const run = await session.look(), store = namesIn(run, [given]), left = Reader.addVariables(new Set(), after);
  const unread = [...Reader.addVariables(new Set(), before)].filter((variable) => left.has(variable) && run.binders.has(variable));
  const nameOf = (variable) => Print.term({ variable }, { store });
  const valueOf = (variable) => Print.term({ variable }, { store: run.shown, most: WIDEST_VALUE });
  return unread.slice(0, MOST_UNREAD).map((variable) => `${nameOf(variable)} was not read; it is ${valueOf(variable)}`);
}

/** A clause with its place in the program's text. */
function clauseWords({ clauses }, number, widest = WIDEST_CLAUSE) {
  const { line, text } = clauses[number - 1];
  return `clause ${number} (line ${line}): ${cut(inOneLine(text), widest)}`;
}

/** By which step and clause a goal was taken, where one took it. */
function takenWords(session, goal) {
  const step = session.kept.steps.get(session.kept.takers.get(goal));
  return step?.clause ? [`step ${step.number} took ${goal} by ${clauseWords(session, step.clause)}`] : [];
}

/** About how many questions are left while so many calls are in question: each leaves about half of them. */
const questionsLeft = (of) => Math.ceil(Math.log2(of + 1));

/** What can be answered. */
const hint = (predicate) => `y: right as given, n: wrong, u: back, trust ${predicate}: always right`;

/** A question in words. `answers` counts those that stand on the line. */
async function questionWords(session, told, answers) {
  const { goal, of } = told.ask, count = answers + questionsLeft(of);
  const question = `question ${answers + 1} of about ${count}: ${callWords(session, told, goal)}. Is that right?`;
  return [question, ...await unreadWords(session, told), ...warnings(told), ...takenWords(session, goal), ...(answers === 0 && told.given !== null ? [hint(Printed.predicateOf(told.given))] : [])];
}

/**
 * How a step goes by another clause than it took.
 * @param {[number, readonly number[], string]} choice
 */
const otherClauseWords = ([number, [first, ...more], goal]) =>
  `another clause than step ${number} took: roll ${number}, step ${goal} ${first}${more.length > 0 ? ` (or ${more.join(", ")})` : ""}`;

/** The other clauses by which the step at fault could have gone, or else how many other steps could, as `explain` of the same thing tells it. */
async function otherClauses(session, subject, number) {
  const { others } = Asking.sliceIn(await session.ask(`explain ${subject}`)), other = others.find(([step]) => step === number);
  if (other === undefined) return others.length === 0 ? [] : [`or a choice is: explain ${subject} tells ${plural(others.length, "step")} that could have gone by another clause`];
  return [otherClauseWords(other)];
}

const foundBy = (answers) => (answers === 0 ? "found without an answer" : `found by ${plural(answers, "answer")}`);

/** The clause of a step is at fault: with it what a call gave is wrong, though all is right that its goals gave. */
async function clauseAtFault(session, told, subject, answers) {
  const { step, goal, clause } = told.fault, isMade = told.made.some(({ how }) => how === "gave");
  const inner = isMade ? ", though all that its goals gave is right" : "";
  return [`${foundBy(answers)}: ${callWords(session, told, goal)}, which is wrong${inner}`, ...warnings(told),
    `so the fault is in ${clauseWords(session, clause, Infinity)}`,
    ...await otherClauses(session, subject, step), ...await hasConsequences(session, [step])];
}

/** No clause answers a goal as it should be. */
async function callAtFault(session, told, answers) {
  const { left, given, fault: { goal } } = told, { call } = given === null ? { call: "its call" } : callIn(session.run, told);
  const why = left?.status === "failed" ? await whyFailed(session, goal, left.refusal) : left?.status === "waits" ? await whyWaits(session, goal) : [];
  const how = left === null ? "" : `, and it ${standingWords(session, left)}`;
  const should = left?.status === "waits" ? `${goal}, ${call}, should not have to wait` : `a clause should answer ${goal}, ${call}`;
  return [`${foundBy(answers)}: ${should}${how}`, ...some(why)];
}

/** What to type where a variable is asked about that is unbound: a run may not have come to its end. */
async function adviceOnUnbound(session) {
  const ready = (await session.goals()).find(({ status }) => status === "ready");
  if (ready === undefined) return "stuck tells who waits for whom, blame G asks about a goal G that waits";
  const runsOn = `The run has not come to its end, for ${ready.name} is ready: leap runs on`;
  return `${runsOn}; does it never end, blame ${ready.name} asks which call should have`;
}

/** No clause is at fault. */
async function noClauseAtFault(session, told, subject, answers) {
  const [value] = await session.ask(`show ${subject}`);
  const isUnbound = `${subject} is unbound: no step gave it a value`;
  if (Replies.isUnbound(value)) return [`${isUnbound}. ${await adviceOnUnbound(session)}`];
  if (!told.made.some(({ how }) => how === "gave")) return [`no call gave anything to ${subject}: what bound it stands in the query`];
  return [`${foundBy(answers)}: all that the query's goals gave is right. So the query asks for something else, or ${subject} is right`];
}

/** What a verdict means. `subject` is what was asked about. */
async function verdictWords(session, told, subject, answers) {
  if (told.fault.step !== null) return clauseAtFault(session, told, subject, answers);
  return told.fault.goal !== null ? callAtFault(session, told, answers) : noClauseAtFault(session, told, subject, answers);
}

/** What a reply to `blame` means: the question, or the verdict. */
async function afterBlame(session, line, reply) {
  const told = BlameLines.read(reply), answers = new Set(BlameLines.answersOn(line).map(({ goal }) => goal)).size, [, subject] = line.trim().split(/ +/);
  if (told.ask !== null) return questionWords(session, told, answers);
  return told.fault === null ? [] : verdictWords(session, told, subject, answers);
}

/** After `part`: the names of the variables, and the clause that took the call. */
function afterPart(session, { words: [goal] }, reply) {
  const told = BlameLines.read(reply), made = told.taken === null ? [] : takenWords(session, goal);
  return [callWords(session, told.gave === null && told.left === null ? { ...told, left: told.standing } : told, goal), ...warnings(told), ...made];
}

export { IN_TURNS, afterBlame, afterPart, callWords, clauseWords, otherClauseWords, questionsLeft };
