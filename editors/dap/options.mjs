// What an editor's options of a breakpoint say: a condition, a count of hits, a log text. Each is read whole; what
// cannot be read is refused, with words that say what would be.
import * as Print from "../../front/text/print.mjs";
import * as Printed from "../../front/text/printed.mjs";
import * as Reader from "../../front/text/reader.mjs";
import Run from "../../front/run/run.mjs";
import { formOf, repeatedIn, whyRepeated } from "../../front/run/patterns.mjs";
import { Refused } from "./requests.mjs";

/** @typedef {import("../../front/types").Clause} Clause */

const isGiven = (text) => text !== undefined && text !== null && String(text).trim() !== "";

const termOf = (text) => Reader.termIn(String(text));

/** The pattern of a condition on goals of a predicate, as `price(3,_)`; undefined where there is no condition. */
function readCondition(text, predicate) {
  if (!isGiven(text)) return undefined;
  const pattern = termOf(text), form = formOf(predicate);
  if (Print.predicateOf(pattern) !== predicate) {
    throw new Refused(`${text}: a condition is a pattern of the whole goal, ${form} with values in some places`);
  }
  const [repeated] = repeatedIn(pattern);
  if (repeated === undefined) return pattern;
  throw new Refused(`${text}: ${whyRepeated(repeated)}`);
}

/**
 * What the name of a function breakpoint means: predicates by `price` or `price/2`, or one with a pattern of its goals,
 * as `price(3,_)`.
 */
function readFunction(text, predicates) {
  const name = String(text).trim(), named = predicates.filter((one) => Printed.isNamed(one, name)).map((predicate) => ({ predicate }));
  if (named.length > 0) return named;
  const term = termOf(name), predicate = term && predicates.find((other) => Print.predicateOf(term) === other);
  if (predicate !== undefined) return [{ predicate, pattern: readCondition(name, predicate) }];
  throw new Refused(`${name}: no predicate, and no pattern of one's goals; there are: ${predicates.map(formOf).join(" ")}`);
}

/** From which hit on a breakpoint stops. */
function readHits(text) {
  if (!isGiven(text)) return 1;
  const [, number] = /^\s*(?:>=\s*)?(\d+)\s*$/.exec(text) ?? [];
  if (number !== undefined) return Number(number);
  throw new Refused(`${text}: a hit condition is a number, as 3 or >= 3; from that hit on it stops`);
}

const LONGEST = 200; // letters of a value in a text
const valueOf = (term, run) => Print.term(term, { store: run.shown, most: LONGEST });

/**
 * What the words of a log text stand for, by the words: functions of the run and the goal's name. A name of the clause
 * means its variable, and only where the head has it: those of the body are not there yet.
 */
function wordsFor(clause, query) {
  const words = new Map([["goal", (run, name) => run.textOf(name)], ["name", (run, name) => name]]);
  const inHead = clause === undefined ? new Set() : Reader.addVariables(new Set(), clause.head);
  const headOf = (run, name) => Run.bindingsOf(clause.head, run.goalOf(name).call, run);
  for (const word of new Set([...inHead, ...query].filter(Reader.isWritten))) {
    if (inHead.has(word)) words.set(word, (run, name) => valueOf(headOf(run, name).get(word), run));
    else if (!clause?.news.includes(word)) words.set(word, (run) => valueOf(run.environmentOf(0).get(word), run));
  }
  return words;
}

const IN_BRACES = /\{([^{}]*)\}/g;

/** Why a word in braces is refused that is none of those known, in words. */
function whyNoWord(word, clause, known) {
  const isOfBody = clause?.news.includes(word);
  const why = isOfBody ? `the clause's body makes ${word}, and is not reached yet` : `{${word}} stands for nothing`;
  return `${why}; a log text can name ${[...known.keys()].map((name) => `{${name}}`).join(" ")}`;
}

/** What a log text becomes at a hit, as a function of the run and the goal's name; undefined where there is none. */
function readMessage(text, clause, query) {
  if (!isGiven(text)) return undefined;
  const known = wordsFor(clause, query), words = [...String(text).matchAll(IN_BRACES)].map(([, word]) => word.trim());
  const meant = (word) => (Reader.isState(word) ? (run) => valueOf({ variable: word }, run) : known.get(word));
  const wrong = words.find((word) => meant(word) === undefined);
  if (wrong !== undefined) throw new Refused(whyNoWord(wrong, clause, known));
  if (/[{}]/.test(String(text).replace(IN_BRACES, ""))) throw new Refused(`${text}: a brace in it has no partner`);
  return (run, name) => String(text).replace(IN_BRACES, (all, word) => meant(word.trim())(run, name));
}

/**
 * The options of a breakpoint at a predicate, and at a clause where one is given; `query` has the query's names.
 * @param {{ condition?: string, hitCondition?: string, logMessage?: string }} given
 * @param {{ predicate: string, clause?: Clause, query: string[] }} place
 */
function readOptions({ condition, hitCondition, logMessage }, { predicate, clause, query }) {
  const pattern = readCondition(condition, predicate), least = readHits(hitCondition);
  return { pattern, least, messageOf: readMessage(logMessage, clause, query) };
}

export { readFunction, readOptions, termOf };
