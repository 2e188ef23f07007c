// Why something stays unbound, in words, by what the console told of it: parts of texts, and between them steps
// (`{ step }`) and goals (`{ goal }`) that one can go to. `known` has the run, and its texts as they are read, or null
// where these are too long. Pure.
import * as WhyNotLines from "../front/protocol/why_not_lines.mjs";
import * as Printed from "../front/text/printed.mjs";
import * as Terms from "../front/run/terms.mjs";
import { gathered } from "../front/run/waits.mjs";

const MOST = 6, LONGEST = 120; // goals or steps that are named; letters of a goal that a step took

/** Some words as a list: `a, b and c`; of many the first, and how many more there are. */
function listed(all) {
  const shown = all.slice(0, MOST), more = all.length - shown.length, last = more > 0 ? MOST : shown.length - 1;
  const between = (at) => (at === 0 ? [] : [at < last ? ", " : " and "]);
  return [...shown.flatMap((words, at) => [...between(at), ...words]), ...(more > 0 ? [` and ${more} more`] : [])];
}

/** Each variable that was told, with the goals that reach it and the steps that let it go. */
function byVariable(told) {
  const { holders, lost } = gathered(told), among = (all, variable) => all.get(variable) ?? [];
  const variables = [...new Set([...holders.keys(), ...lost.keys()])];
  return variables.map((variable) => ({ variable, holders: among(holders, variable), lost: among(lost, variable) }));
}

/**
 * The first variable that none of the goals can bind that reach it: each waits for it alone, or has failed. Where there
 * is none, goals wait for each other.
 */
const causeIn = (told) => byVariable(told).find(({ holders }) => !holders.some(WhyNotLines.mayBind));

/** A goal, a call with its predicate's name in front. */
function goalWords({ run: { goals } }, name) {
  const { sort, text } = goals.find((goal) => goal.name === name) ?? { sort: "", text: "" };
  return [...(sort === "call" ? [`${Printed.predicateOf(text).split("/")[0]} `] : []), { goal: name }];
}

/** A step that let a variable go, with the goal that it took. */
function letGo({ number, text, act }) {
  return ["step ", { step: number }, ` let it go, ${Terms.cut(text, LONGEST)} ${act.replace("by ", "by clause ")}`];
}

/** Where a variable comes from: whether it is a `_`, and which step made it; nothing of one that the query names. */
function originWords({ run: { graph }, texts }, variable) {
  const [step] = Printed.numbersOf(variable), clause = graph.byNumber.get(step)?.clause;
  const isUnnamed = texts !== null && texts.isUnnamed(variable);
  if (step === 0) return isUnnamed ? ["it is a _ of the query"] : [];
  return [isUnnamed ? "it is a _, and step " : "step ", { step }, ` made it${clause ? ` by clause ${clause}` : ""}`];
}

/** Why nobody binds a variable: who waits for it, and which step let it go, else where it comes from. */
function causeWords(known, { variable, holders, lost }) {
  const isWaiting = (holder) => WhyNotLines.waitsFor(holder).length > 0;
  const waiting = holders.filter(isWaiting).map(({ goal }) => goalWords(known, goal));
  const wait = waiting.length === 1 ? "waits" : "wait";
  const who = waiting.length === 0 ? [`${variable} is never bound`]
    : [...listed(waiting), ` ${wait} for ${variable}, which no other goal has`];
  const why = lost.length > 0 ? listed(lost.map(letGo)) : originWords(known, variable);
  return [...who, ...(why.length > 0 ? [": ", ...why] : []), "."];
}

const STATUSES = new Map([["ready", "is ready"], ["stream", "is an input"]]);

/** What a goal does that reaches a variable. */
function statusWords({ variable, status }) {
  const waitsFor = WhyNotLines.waitsFor({ status });
  if (waitsFor.length === 0) return ` ${STATUSES.get(status) ?? `has ${status}`}`;
  return ` waits for ${waitsFor.map((one) => (one === variable ? "it" : one)).join(" and ")}`;
}

/** Of each variable in words: which goals reach it, and which steps let it go. */
const rowsOf = (known, told) => byVariable(told).map(({ variable, holders, lost }) => {
  const who = holders.map((holder) => [...goalWords(known, holder.goal), statusWords(holder)]);
  const reach = who.length > 0 ? listed(who) : ["no goal has it"];
  return [`${variable}: `, ...reach, ...(lost.length > 0 ? ["; ", ...listed(lost.map(letGo))] : []), "."];
});

const VERDICTS = new Map([
  [true, "No step, and no input, can bind it any more."],
  [false, "It may still be bound: a goal is ready, or an input is open."], [undefined, "All of it is bound."],
]);

const verdictOf = ({ staysUnbound }) => VERDICTS.get(staysUnbound);

/** The variables that each step let go, by its number, as far as it was asked why a run goes on no more. */
function lostBy({ why = [] }) {
  const found = new Map(), steps = why.flatMap(({ told }) => told?.lost ?? []);
  for (const { number, variable } of steps) found.set(number, [...found.get(number) ?? [], variable]);
  return found;
}

export { causeIn, causeWords, rowsOf, verdictOf, lostBy };
