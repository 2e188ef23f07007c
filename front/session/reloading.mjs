// A session goes on under its program as the file has it now: which of its steps stay, in words, and the session that
// takes its place. The history by which it does is made here; the console loads it, and judges.
import * as Replies from "../protocol/replies.mjs";
import { inOneLine } from "../text/clauses.mjs";
import { wordsOfQuery } from "../protocol/words.mjs";
import { plural } from "../run/reasons.mjs";
import * as ReloadPlan from "../run/reload_plan.mjs";
import { unlessEnded } from "./program.mjs";
import { Session } from "./session.mjs";

const MOST_TRIED = 20; // histories that are tried, with fewer and fewer steps of the shelf
const MOST_TOLD = 12; // steps that go, of which it is told which; of the others how many
const NO_MEMORY = "memory was refused for the history; the session stands";

/**
 * A session of the program as its file has it now, and of the query: begun, it tells whether both are accepted.
 * @param {Session} session
 */
const probeOf = ({ words, native, given: { query } }) => new Session(wordsOfQuery(words, query), native);

/** The line at which a history does not load by which a session is to go on; undefined where none is wrong. */
function lineRefused({ words, native }, handed) {
  const lineIn = ({ errors }) => /^history: F24 history line (\d+)$/.exec(errors.trim())?.[1];
  return unlessEnded(new Session(words, native, handed).tryOut(), lineIn);
}

/** The steps of a shelf that can stand there afterwards: of those that may, each goes that the console cannot take. */
async function shelvedBy(session, plan, shelf, handedWith) {
  let left = shelf, shelved = ReloadPlan.shelvedOf(plan, left);
  for (let tried = 0; shelved.length > 0 && tried < MOST_TRIED; tried += 1) {
    const line = await lineRefused(session, handedWith(shelved));
    if (line === undefined) return shelved;
    const wrong = ReloadPlan.shelvedAt(plan, shelved, Number(line));
    left = wrong === undefined ? [] : left.filter((step) => step !== wrong);
    shelved = ReloadPlan.shelvedOf(plan, left);
  }
  return [];
}

/**
 * What becomes of a session under another program, of which a session has begun: the plan, which steps of the shelf
 * stay and which go, what is spied no longer, and what the next session is handed. Undefined where memory is refused.
 */
async function reloadOf(session, { clauses, predicates, bytes }) {
  const records = await session.ask("records"), saved = await session.ask("save"), shelf = await session.ask("shelf");
  const plan = ReloadPlan.planTold({ before: session.clauses, after: clauses, records, saved, shelf });
  if (plan === undefined) return undefined;
  const isThere = (predicate) => predicates.includes(predicate), spied = plan.spied.filter(isThere);
  const historyWith = (shelved) => ReloadPlan.historyOf(plan, { next: plan.next, spied, shelved });
  const handedWith = (shelved) => ({ program: bytes, history: historyWith(shelved) });
  const shelved = await shelvedBy(session, plan, plan.shelf, handedWith), isShelved = new Set(shelved);
  const unshelved = plan.shelf.filter((step) => !isShelved.has(step));
  const unspied = plan.spied.filter((one) => !isThere(one));
  return { plan, shelved, unshelved, unspied, handed: handedWith(shelved) };
}

const clauseLine = (word) => ({ number, line, text }) => `${word}: clause ${number} (line ${line}) ${inOneLine(text)}`;
const stepLine = (word) => (step) => `${word}: step ${step.number}, ${Replies.wordsOf(step)}`;

/** The first of some lines, and how many more there are. */
function cut(lines, go) {
  const left = lines.length - MOST_TOLD;
  const more = `.. and ${left} steps more ${go}, which depend on what is gone`;
  return left < 2 ? lines : [...lines.slice(0, MOST_TOLD), more];
}

/** What has changed, and which steps go, in words. */
function changesOf({ plan: { gone, come, going }, unshelved }) {
  const clauses = [...gone.map(clauseLine("gone")), ...come.map(clauseLine("new"))];
  const goes = cut(going.map(stepLine("goes")), "go");
  return [...clauses, ...goes, ...cut(unshelved.map(stepLine("goes from the shelf")), "go from the shelf")];
}

/** How many of the steps stay, in words. */
const keptOf = ({ going, staying }) => `${staying.length} of ${plural(going.length + staying.length, "step")}`;

const ANEW = "one of them asked for goals, so they are numbered anew, from 1 on";

/** What is told when the session has been reloaded. */
function reloadedLines({ plan, shelved: { length } }) {
  const onShelf = length === 0 ? "nothing is" : length === 1 ? "1 is" : `${length} are`;
  const line = `reloaded: ${keptOf(plan)} stay, and ${onShelf} on the shelf`;
  return ReloadPlan.isRenumbered(plan) ? [line, ANEW] : [line];
}

export { NO_MEMORY, changesOf, keptOf, probeOf, reloadOf, reloadedLines };
