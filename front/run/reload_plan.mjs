// What becomes of a run where its program has changed: which clauses are gone, which steps go with them, and the
// history by which the rest goes on under the new program. A clause is the same where its tokens are. The console
// judges the history: nothing is promised here. Pure.
import * as Replies from "../protocol/replies.mjs";
import * as Clauses from "../text/clauses.mjs";
import * as Printed from "../text/printed.mjs";
import * as Reader from "../text/reader.mjs";
import * as Tokens from "../text/tokens.mjs";
import * as Graph from "./graph.mjs";

const VARIABLE = /\b_(\d+)_(\d+)\b/g;
const MOST_TAKEN = 8; // steps that are named

/** A clause without blanks and comments. */
const wordsOf = ({ text }) => Tokens.tokensOf(text).map((token) => token.text).join(" ");

/**
 * Which clause of the new program each clause of the old one is, by their numbers: clauses of one text are paired in
 * their order.
 */
function pairsOf(before, after) {
  const places = new Map(), pairs = new Map();
  for (const clause of after) {
    const words = wordsOf(clause);
    if (!places.has(words)) places.set(words, []);
    places.get(words).push(clause.number);
  }
  for (const clause of before) {
    const number = places.get(wordsOf(clause))?.shift();
    if (number !== undefined) pairs.set(clause.number, number);
  }
  return pairs;
}

/**
 * Which steps of a graph go with clauses: those by one of them, and all that depend on these. 1 for each by its index,
 * and how many they are.
 */
function goingWith(clauses, graph) {
  const isGone = new Set(clauses.map(({ number }) => number));
  return Graph.dependents(graph, (index) => isGone.has(graph.clauses.at(index)));
}

/**
 * The plan for clauses, those before and after, and the steps of a record: the `pairs` of clauses, those that are
 * `gone` and `come`, the steps that go, `going`, and those that stay, `staying`, both in recorded order. A step goes
 * where its clause is gone, and where it depends on one that goes.
 */
function planOf({ before, after, steps }) {
  const pairs = pairsOf(before, after), numbers = new Set(pairs.values());
  const gone = before.filter(({ number }) => !pairs.has(number)), { isIn } = goingWith(gone, Graph.graphOf(steps));
  return {
    pairs,
    gone,
    come: after.filter(({ number }) => !numbers.has(number)),
    going: steps.filter((step, at) => isIn[at] === 1),
    staying: steps.filter((step, at) => isIn[at] === 0),
  };
}

/** Are the steps that stay numbered anew? So they are where one asked for goals: no opening can hold it. */
const isRenumbered = ({ staying }) => staying.some(({ kind }) => kind === "ask");

/** The number that a step gets which stays, as a function of its number before; that of the query is 0. */
function numbering(plan) {
  const isAnew = isRenumbered(plan), after = (number, place) => (isAnew ? place + 1 : number);
  const numbers = new Map([[0, 0], ...plan.staying.map(({ number }, place) => [number, after(number, place)])]);
  return (number) => numbers.get(Number(number));
}

/** The name that a variable has afterwards; undefined where the step goes that made it. A name of the query stays. */
function nameAfter(plan, variable) {
  if (!Reader.isState(variable)) return variable;
  const [number, place] = Printed.numbersOf(variable), after = numbering(plan)(number);
  return after === undefined ? undefined : `_${after}_${place}`;
}

/**
 * The steps of a shelf, by their numbers, that may stand there afterwards: by clauses that stay, and of goals that
 * are there after the steps that stay, or that one of them makes. None where the steps are numbered anew.
 */
function shelvedOf(plan, shelf) {
  const { staying, pairs } = plan, shelved = [];
  const made = new Set([0, ...staying.map(({ number }) => number)]), taken = new Set(staying.map(({ goal }) => goal));
  for (const step of isRenumbered(plan) ? [] : shelf) {
    const { number, goal, clause } = step, isMade = goal !== null && made.has(Number.parseInt(goal, 10));
    if (!isMade || taken.has(goal) || (clause !== null && !pairs.has(clause))) continue;
    made.add(number);
    taken.add(goal);
    shelved.push(step);
  }
  return shelved;
}

/** What gives the line of a step in a history, with its clause's number afterwards. */
const lineIn = ({ pairs }) => ({ number, goal, clause, act }) =>
  `${number} ${goal ?? "-"} ${clause === null ? act : `by ${pairs.get(clause)}`}`;

/** The steps that stay, with their numbers, goals and variables as they are afterwards. */
function renumbered(plan) {
  const after = numbering(plan);
  const renamed = (act) => act.replace(VARIABLE, (all, number, place) => `_${after(number) ?? number}_${place}`);
  const goalOf = (goal) => goal?.replace(/^\d+/, (number) => String(after(number)));
  return plan.staying.map(({ number, goal, clause, act }) =>
    ({ number: after(number), goal: goalOf(goal), clause, act: renamed(act) }));
}

const FIRST = 3; // the line of a history at which the steps of its opening begin

/** The step of the shelf that stands at a line of the history; undefined where none does. */
const shelvedAt = ({ staying }, shelved, line) => shelved[line - FIRST - staying.length];

/**
 * The text of the history by which the steps that stay go on: `next` is the number that the next step would get,
 * `spied` has the predicates that are spied, `shelved` the steps of the shelf. Steps that keep their numbers are its
 * opening, and those of the shelf stand after them, and are taken back; steps with other numbers are its entries.
 */
function historyOf(plan, { next, spied, shelved }) {
  const isAnew = isRenumbered(plan), lineOf = lineIn(plan);
  const opening = isAnew ? [] : [...plan.staying, ...shelved].map(lineOf);
  const entries = isAnew ? renumbered(plan).map(lineOf) : shelved.map(({ number }) => `undo ${number}`).reverse();
  const [first, last] = isAnew ? [1, entries.length + 1] : [next, next];
  const text = [
    "ghc-history 2", `opening ${opening.length} ${first}`, ...opening, `entries ${entries.length}`, ...entries,
    `spies ${spied.length}`, ...spied, `end ${last}`,
  ];
  return text.map((line) => `${line}\n`).join("");
}

/**
 * The plan by the lines that `records`, `save` and `shelf` tell of a session: also the steps of its `shelf`, the number
 * that the `next` step would get, and the predicates that are `spied`. Undefined where memory was refused for a line.
 */
function planTold({ before, after, records, saved, shelf }) {
  if ([records, saved, shelf].some((lines) => lines.includes(Replies.NO_MEMORY))) return undefined;
  const plan = planOf({ before, after, steps: Replies.readRecords(records) });
  return { ...plan, shelf: Replies.readShelf(shelf), next: Replies.nextIn(saved), spied: Replies.spiesIn(saved) };
}

/** The histories by which the steps that stay may go on: with what may stay of the shelf, and with an empty one. */
const historiesOf = (plan) => [shelvedOf(plan, plan.shelf), []]
  .map((shelved) => historyOf(plan, { next: plan.next, spied: [], shelved }));

/** Which steps of a run go under a text that may be half written: 1 for each by its index, and how many they are. */
const goingUnder = ({ graph, clauses }, text) =>
  goingWith(planOf({ before: clauses, after: Clauses.clausesOf(text), steps: [] }).gone, graph);

/** What is told of a plan: how many steps stay and go, the first that took a clause that is gone, and clauses. */
function inShort(plan) {
  const { going, staying, spied } = plan, numbersOf = (all) => all.map(({ number }) => number);
  const [gone, come] = [plan.gone, plan.come].map(numbersOf);
  const taken = going.filter(({ clause }) => gone.includes(clause)).slice(0, MOST_TAKEN);
  return { going: going.length, staying: staying.length, gone, come, taken, spied, isRenumbered: isRenumbered(plan) };
}

export {
  goingUnder, historiesOf, historyOf, inShort, isRenumbered, nameAfter, planOf, planTold, shelvedAt, shelvedOf,
};
