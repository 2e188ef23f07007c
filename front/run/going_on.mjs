// Whether a run may have no end, as far as its last steps tell: they all went by one clause. Pure.
import { readTaken } from "../protocol/replies.mjs";
import { some } from "./reasons.mjs";

const MOST = 1000, LEAST = 100; // steps that are looked at; reductions by one clause of which it is told

/**
 * The clause by which the last reductions all went, with their `count`; undefined where they are few. `numbers` are the
 * clauses of the last steps, the last one first, with 0 for a step that is no reduction.
 */
function loneClause(numbers, clauses) {
  let lone = 0, count = 0;
  for (const number of numbers.slice(0, MOST).filter((one) => one !== 0)) {
    if (count > 0 && number !== lone) break;
    lone = number;
    count += 1;
  }
  const clause = clauses[lone - 1];
  return count < LEAST || clause === undefined ? undefined : { number: lone, count, predicate: clause.predicate };
}

/** In words about the clause's number: those before it, and those after it. */
const wordsAbout = ({ count, predicate }) =>
  [`the last ${count} reductions all went by clause `, `, of ${predicate}: should another one have ended it?`];

/** The clauses of the last steps that lines tell, the last one first. */
const latestIn = (lines) => lines.slice(-MOST).reverse().map((line) => readTaken(line)?.clause ?? 0);

/** The words as lines, of the reply to a run. */
function wordsOf(reply, clauses) {
  const lone = loneClause(latestIn(reply.slice(0, -1)), clauses);
  return lone === undefined ? [] : [wordsAbout(lone).join(String(lone.number))];
}

/** Which predicates the last steps were of that lines tell, as `count/2, show/1`. */
function predicatesIn(lines, clauses) {
  const numbers = new Set(latestIn(lines).filter((number) => number !== 0));
  return some([...new Set([...numbers].map((number) => clauses[number - 1]?.predicate))]).join(", ");
}

export { MOST, loneClause, predicatesIn, wordsAbout, wordsOf };
