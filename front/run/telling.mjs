// What the terminal adds after a reply: why it was refused and what would help, what a stop means, and the names of variables.
import * as Asking from "../protocol/asking.mjs";
import * as BlameLines from "../protocol/blame_lines.mjs";
import * as Causes from "../text/causes.mjs";
import { inOneLine } from "../text/clauses.mjs";
import * as GoalTree from "./goal_tree.mjs";
import * as GoingOn from "./going_on.mjs";
import Run from "./run.mjs";
import * as Print from "../text/print.mjs";
import * as Printed from "../text/printed.mjs";
import * as Reader from "../text/reader.mjs";
import { nearest, predicatesNamed } from "../text/nearest.mjs";
import Refusals from "../protocol/refusals.mjs";
import * as Replies from "../protocol/replies.mjs";
import * as WhyNotLines from "../protocol/why_not_lines.mjs";
import { afterPart, otherClauseWords } from "./blame_words.mjs";
import { holdersOf, linesAtEnd, lostLines, takenWords, whoLetGo } from "./waits.mjs";
import { MOST, plural, some, labelOf, whyTheySayNo, whyNoClause, whyWaits, whyFailed, hasConsequences } from "./reasons.mjs";

const BEGINNING = 200; // letters that it tells of a value that is too long

async function noGoal(session, [name]) {
  const taker = session.kept.takers.get(name);
  if (taker !== undefined) return [`${name} was taken by step ${taker}; goals lists those that are there`];
  if ((await session.goalNamed(name))?.status === "stream") return [`${name} is an input stream: in K TERM feeds it`];
  return ["goals lists those that are there"];
}

async function noSuchClause(session, [name]) {
  await session.look();
  const predicate = session.run.predicateOf(name);
  const numbers = session.clauses.filter((clause) => clause.predicate === predicate).map(({ number }) => number);
  return [predicate === undefined ? `${name} is no call, and is stepped without a clause` : `the clauses of ${predicate}: ${numbers.join(", ")}`];
}

async function noOpenStream(session) {
  const open = (await session.goals()).filter(({ status }) => status === "stream");
  return [open.length === 0 ? "no input stream is open; instream(S) in the query makes one" : `open: ${open.map(({ text }) => text.split(" ")[1]).join(", ")}`];
}

async function notKept(session, [number]) {
  const shelf = await session.ask("shelf");
  const isThere = shelf.some((line) => line.startsWith(`${Number(number)} `));
  return [isThere ? `step ${Number(number)} was taken back: redo ${Number(number)} puts it there again` : "records lists the kept steps"];
}

/** Why a step that was taken back cannot be put there again: what it rested on is not there, or somebody else took its goal. */
async function notRedone(session, [word]) {
  const number = Number(word), line = (await session.ask("shelf")).find((one) => one.startsWith(`${number} `));
  if (line === undefined) return undefined;
  const [, goal] = line.split(" "), maker = Number.parseInt(goal, 10), taker = session.kept.takers.get(goal);
  if (taker !== undefined) return [`step ${number} takes ${goal}, which step ${taker} has taken: take that back first`];
  if (maker > 0 && !session.kept.steps.has(maker)) return [`step ${number} takes ${goal}, which step ${maker} made: redo ${maker} first`];
  return [`it rested on steps that are not there: redo those before it first; shelf lists what was taken back`];
}

async function notLawful(session, words, reply) {
  const [, later, earlier] = /^F21 not lawful: (\d+) (\d+)$/.exec(reply[0]);
  if (earlier === "0") return [`step ${later} is kept, and is not in the list`];
  return [later === earlier ? `${later} is no kept step, or stands twice` : `step ${earlier} depends on step ${later}`];
}

function noVariable(session, [name = ""]) {
  const near = nearest(name, session.variables);
  const all = session.variables.length === 0 ? "the query has no variables" : `the query's variables: ${session.variables.join(", ")}`;
  const named = session.run.variablesNamed(name);
  if (named.length > 0) return [`${name} is ${some(named.map((variable) => session.run.labelOf(variable))).join(", ")}`];
  return [near === undefined ? all : `${near}?  ${all}`];
}

function noPredicate(session, words, reply) {
  const [, wanted] = /^F5 undefined (\w+)\/\d+$/.exec(reply[0]), near = predicatesNamed(wanted, session.predicates);
  return [near.length === 0 ? `the program's predicates: ${some(session.predicates).join(", ")}` : `${some(near).join(", ")}?`];
}

/** Why the text after `ask` or `in` is refused. */
function badText(session, meaning, reply) {
  const text = meaning.line.replace(meaning.name === "in" ? /^in +\S+ +/ : /^ask +/, ""), [, column] = /^F2 syntax at 1:(\d+)$/.exec(reply[0]) ?? [];
  const own = meaning.name === "in" && column !== undefined ? Causes.causeInTerm(text, Number(column)) : undefined;
  const cause = own ?? Causes.causeOf(reply[0], { text, which: meaning.name, isQuery: true, program: session.text });
  return cause === undefined ? undefined : Causes.linesOf(cause, text);
}

/** How a value begins that is too long to be printed. */
async function beginningOf(session, [word]) {
  const run = await session.look(), variable = Reader.isState(word) ? word : run.variablesNamed(word)[0];
  if (variable === undefined) return [];
  return [`it begins so: ${Print.term({ variable }, { store: run.shown, most: BEGINNING })}`];
}

/** Which answer names no call on which the value or the goal rests; or why the goal asked about is not there. */
async function notBlamed(session, [subject, ...words]) {
  const answered = words.some((word) => BlameLines.readAnswer(word) !== null);
  return /^\d+\.\d+$/.test(subject) && !answered ? noGoal(session, [subject]) : [`an answer names no call on which ${subject} rests: blame ${subject} asks anew`];
}

/** Which of the variables is unknown. */
function unknownOf(session, words) {
  const isKnown = (word) => session.variables.includes(word) || Reader.isState(word) || BlameLines.readAnswer(word) !== null;
  return noVariable(session, [words.find((word) => !isKnown(word)) ?? words[0]]);
}

const notPart = () => ["no such call is there, and no kept step took one: goals and records list them"];

// What helps with a refusal; where it is another thing for one command, that command stands before it.
const HELPERS = {
  F5: noPredicate, F7: noGoal, F8: noSuchClause, F14: noOpenStream, F16: notKept, F17: hasConsequences, F21: notLawful,
  F23: noVariable, "blame F7": notBlamed, "blame F23": unknownOf, "part F7": notPart,
  F9: (session, [name]) => whyWaits(session, name),
  F10: (session, [name, clause]) => whyNoClause(session, name, clause),
  F11: (session, [name]) => whyFailed(session, name, "F11"),
  F13: (session, [name]) => whyFailed(session, name, "F13"),
};

/** What helps with a refusal. */
async function afterRefusal(session, meaning, reply) {
  const [number] = reply[0].split(" "), isText = ["ask", "in"].includes(meaning.name);
  const why = isText ? badText(session, meaning, reply) : undefined;
  if (why !== undefined) return why;
  const limit = Replies.limitIn(reply[0], meaning.line);
  if (limit !== undefined) return [limit, ...(meaning.name === "show" ? await beginningOf(session, meaning.words) : [])];
  const helper = meaning.name === "redo" ? notRedone : HELPERS[`${meaning.name} ${number}`] ?? HELPERS[number];
  const told = await helper?.(session, meaning.words, reply);
  return told === undefined || told.length === 0 ? [Refusals[number]] : told;
}

const STOPS = {
  limit: ["leap goes on"], full: ["no step has room any more: 1,000,000 are kept, or all numbers are used up"], memory: ["memory was refused; what was done stands"],
};

/** Why a run has nothing left to do. */
async function afterQuiet(session, goals) {
  const count = goals.filter(({ status }) => status === "waits").length, streams = goals.filter(({ status }) => status === "stream").length;
  const open = streams > 0 ? [`${plural(streams, "input stream")} open: in K TERM feeds one, end K closes it`] : [];
  if (count > 0) return [`${plural(count, "goal")} wait${count === 1 ? "s" : ""}: stuck tells why`, ...await lostLines(session, goals), ...open];
  if (open.length > 0) return open;
  return goals.length === 0 ? linesAtEnd(session) : ["nothing that comes of it is left to do"];
}

/** What the last line of a run means. */
async function afterStop(session, reply) {
  const [, reason, name] = reply.at(-1).split(" "), goals = await session.goalsTold();
  if (reason === "limit") return [...STOPS.limit, ...GoingOn.wordsOf(reply, session.clauses)];
  if (goals === undefined || STOPS[reason] !== undefined) return STOPS[reason] ?? [];
  const goal = goals.find((other) => other.name === name);
  if (reason === "quiet") return afterQuiet(session, goals);
  if (reason === "clash" && goal) return [`${goal.text} has failed: ${goal.refusal}`, ...await whyFailed(session, name, goal.refusal)];
  return reason === "spied" && goal ? [`next is ${goal.text}: step ${name} takes it`] : [];
}

/** After SUSP and FAIL lines: for what a goal waits, by the names of the text; why it has failed. */
async function afterSettling(session, meaning, reply) {
  const told = [];
  for (const line of reply) {
    const [port, name, rest] = line.split(" ");
    if (port === "SUSP" && told.length < MOST) {
      const names = rest.split(",").filter((variable) => session.run.nameOf(variable) !== undefined);
      if (names.length > 0) told.push(`${name} waits for ${names.map(labelOf(session)).join(" and ")}`);
    }
    if (port === "FAIL") told.push(`${name} has failed: ${rest}`, ...await whyFailed(session, name, rest));
  }
  return told;
}

/** Who could bind a variable that `show` tells to be unbound. */
async function afterShow(session, { words: [name] }, reply) {
  const [, variable] = /^\S+ = (_\d+_\d+)$/.exec(reply[0]) ?? [];
  if (variable === undefined) return [];
  const goals = await session.goalsTold(), holders = holdersOf(goals ?? []).get(variable) ?? [];
  if (goals === undefined) return [`${session.run.labelOf(variable)} is unbound`];
  const held = `held by ${some(holders.map(({ goal }) => goal.name)).join(", ")}`, isHeld = holders.length > 0;
  const who = isHeld ? held : `no goal has it${await whoLetGo(session, name)}`;
  return [`${session.run.labelOf(variable)} is unbound; ${who}`];
}

/** The names that the text gives to variables; nothing where it names none. */
function namesOf(session, variables, start = "") {
  const named = [...new Set(variables)].filter((variable) => session.run.nameOf(variable) !== undefined);
  return named.length === 0 ? [] : [`${start}${some(named.map(labelOf(session))).join(", ")}`];
}

/** The same of variables that begin lines. */
const namesOfFirst = (session, lines) => namesOf(session, lines.map((line) => line.split(" ")[0]));

/** The same of all variables of a reply. */
const namesOfAll = (session, reply) => namesOf(session, reply.flatMap(Printed.variablesIn));

/** The clause by which a step was taken, and what its variables stand for. */
async function afterGoal(session, { words: [word] }) {
  const step = session.kept.steps.get(Number(word)), clause = session.clauses[step?.clause - 1];
  if (clause === undefined) return [];
  const run = await session.look(), values = [...run.environmentOf(step.number) ?? []].filter(([name]) => Reader.isWritten(name));
  const shown = values.map(([name, term]) => `${name} = ${Print.term(term, { store: run.shown, most: 40 })}`).join(", ");
  return [`by clause ${clause.number}: ${inOneLine(clause.text)}`, ...(shown === "" ? [] : [`with ${shown}`])];
}

const SCREEN = 20, DEEPEST = 12; // lines of a tree that are shown at once; how far its lines are moved in at most

/** The steps of an explanation as a tree, with their goals as they stood then; a screen of it, where not all is asked for. */
async function treeLines(session, { words: [subject], isWhole }, reply) {
  const steps = GoalTree.stepsOf(reply), { rows, left } = GoalTree.treeOf(steps, isWhole ? Infinity : SCREEN), lines = [];
  const values = new GoalTree.Values(steps), places = new Map(steps.map(({ number }, place) => [number, place]));
  const run = Run.ofSteps(session.clauses, session.given.query, steps, session.kept.texts); // none rests on another step
  const textOf = async (step) => run.textOf(step.goal) || session.goalTaken(step);
  for (const row of rows) {
    const { step, depth } = row, store = values.before(places.get(step.number));
    const text = step.goal === null ? undefined : GoalTree.goalText(await textOf(step), store);
    lines.push("  ".repeat(Math.min(depth, DEEPEST)) + GoalTree.wordsOf(row, text));
  }
  const hidden = left + rows.reduce((sum, { below }) => sum + below, 0);
  return hidden > 0 ? [...lines, `${plural(hidden, "step")} more: explain ${subject} all shows them`] : lines;
}

/** After an explanation: variables by the names of the text, the clauses and the steps on which it rests, and where another clause could be taken. */
async function afterExplain(session, meaning, reply) {
  const slice = Asking.sliceIn(reply), rests = Asking.clausesTold(slice, session.clauses.length);
  const lines = slice.others.map(otherClauseWords);
  return [...namesOfFirst(session, reply), ...(rests === undefined ? [] : [rests]), ...await treeLines(session, meaning, reply), ...some(lines)];
}

/** After `whynot`: variables by the names of the text, and the clauses of the steps that let them go. */
function afterWhyNot(session, meaning, reply) {
  const { lost } = WhyNotLines.read(reply), steps = new Map(lost.map((step) => [step.number, step]));
  const taken = [...steps.values()].map((step) => `step ${step.number} took ${takenWords(session, step)}`);
  return [...namesOfAll(session, reply), ...some(taken)];
}

/** After `keep`: what the last line counts. */
function afterKeep(session, meaning, reply) {
  const [, count] = /^kept (\d+)$/.exec(reply.at(-1)) ?? [];
  if (count === undefined) return [];
  return [`${plural(Number(count), "step")} left; shelf lists what was taken back, redo N puts a step there again`];
}

// What is added after a reply to some commands; after one to any other it is told what was settled.
const AFTER = {
  show: afterShow, explain: afterExplain, part: afterPart, whynot: afterWhyNot, keep: afterKeep, goal: afterGoal,
  goals: (session, meaning, reply) =>
    namesOf(session, Replies.readGoals(reply).flatMap(({ waitsFor }) => waitsFor), "waited for: "),
  who: (session, meaning, reply) => namesOfFirst(session, reply),
  clauses: async (session, { words: [name] }, reply) =>
    [...await whyTheySayNo(session, name, reply), ...namesOfAll(session, reply)],
};

/** All that is added after a reply to a line of the console. */
async function notesAfter(session, meaning, reply) {
  if (Replies.isRefused(reply)) return afterRefusal(session, meaning, reply);
  const last = reply.at(-1) ?? "";
  if (last.startsWith("stopped ")) return afterStop(session, reply);
  return (AFTER[meaning.name] ?? afterSettling)(session, meaning, reply);
}

export { notesAfter };
