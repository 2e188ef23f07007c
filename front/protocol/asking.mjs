// Asks a session all that the page and the picture show: record, goals, what was taken back, values, and the texts of goals.
import * as Replies from "./replies.mjs";
import * as Short from "./short.mjs";
import * as Tokens from "../text/tokens.mjs";
import { plural } from "../text/plural.mjs";

const MOST_LETTERS = 500000; // of the goals' texts that are asked for at once
const MOST_CLAUSES = 12; // that are named

/** The variables of a query as the state names them, by their names: `_0_1` is the first that stands there, and each `_` is one of its own. */
function queryVariables(query) {
  const found = new Map();
  let last = 0;
  for (const { kind, text } of Tokens.tokensOf(query)) {
    if (kind !== "variable" || found.has(text)) continue;
    last += 1;
    if (text !== "_") found.set(text, `_0_${last}`);
  }
  return found;
}

/** What a session tells of where it stands: four lists of lines. */
function whereItStands(session, query) {
  const [records, goals, shelf] = ["records", "goals", "shelf"].map((line) => session.line(line));
  return { records, goals, shelf, values: [...queryVariables(query).keys()].flatMap((name) => session.line(`show ${name}`)) };
}

/** Adds to `texts` what CALL lines tell: the text of each goal, by its name. */
function addCalls(texts, lines) {
  for (const line of lines) {
    const call = Replies.readCall(line);
    if (call !== null) texts.set(call.name, Short.goalText(call.text));
  }
}

/** The text of the goal that a step took, in the reply to `goal N`. */
const textOfGoal = ([line]) => Replies.readTakenGoal(line)?.text ?? undefined;

/** Completes the texts of the goals that steps took: as they were written then. False where they are so long that some are not asked for. */
function completeTexts(texts, steps, session) {
  let letters = 0;
  for (const step of steps.filter(({ goal }) => goal !== null && !texts.has(goal))) {
    if (letters > MOST_LETTERS) return false;
    const text = textOfGoal(session.line(`goal ${step.number}`));
    if (text === undefined) continue;
    letters += text.length;
    texts.set(step.goal, Short.goalText(text));
  }
  return true;
}

/**
 * What a reply to `explain` tells: the lines in front of its steps, the steps' numbers, the clauses by which they went, the other clauses
 * by which some of them could go (of each its number, the clauses and its goal), and its last line.
 */
function sliceIn(lines) {
  const head = [], numbers = [], clauses = new Set();
  /** @type {[number, readonly number[], string][]} */
  const others = [];
  for (const line of lines) {
    const step = Replies.readExplained(line);
    if (step !== null) numbers.push(step.number);
    else if (numbers.length === 0) head.push(line);
    if (step === null) continue;
    if (step.clause !== null) clauses.add(step.clause);
    if (step.others.length > 0) others.push([step.number, step.others, step.goal]);
  }
  const sorted = [...clauses].sort((one, other) => one - other);
  return { head, numbers: Float64Array.from(numbers), clauses: sorted, others, last: lines[lines.length - 1] || "" };
}

/**
 * On which of a program's clauses a slice rests, in words; nothing where it has no step, or the program no clause. In any program that
 * has these clauses, at their numbers, the steps of the slice do what they did.
 */
function clausesTold({ numbers, clauses }, count) {
  if (numbers.length === 0 || count === 0) return undefined;
  const named = clauses.length > MOST_CLAUSES ? [...clauses.slice(0, MOST_CLAUSES), ".."] : clauses;
  return `rests on ${clauses.length || "none"} of ${plural(count, "clause")}${named.length > 0 ? `: ${named.join(", ")}` : ""}`;
}

export {
  queryVariables, whereItStands, addCalls, textOfGoal, completeTexts, sliceIn, clausesTold,
};
