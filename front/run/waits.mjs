// What stays unbound, and why: who waits for whom, whether anybody can bind what is waited for, and which step let it
// go, as `whynot` tells it; and whether a head would have to build it, which no head does. In words, as lines.
import * as Builders from "../text/builders.mjs";
import * as CheckerCauses from "../text/checker_causes.mjs";
import { plural } from "../text/plural.mjs";
import * as Print from "../text/print.mjs";
import * as Printed from "../text/printed.mjs";
import * as Reader from "../text/reader.mjs";
import * as Replies from "../protocol/replies.mjs";
import * as WhyNotLines from "../protocol/why_not_lines.mjs";
import { callNow, termOf } from "./named.mjs";

const MOST_KEPT = 20_000; // steps: of a longer run it is asked by `whynot` alone which step let a variable go
const MOST_TOLD = 5; // variables of the query that are told
const MOST_ASKED = 12; // goals that wait about which is asked at the end of a run
const NAMED = 12; // goals or variables that a line names
const TOLD = 200; // goals of which it is told
const ASKED = 40; // goals about which it is asked: a reply tells of others, too
const BUILDING = 6; // lines on what heads would have to build

/** What `whynot` tells of a variable or a goal. Of the steps that let something go the values are told: a look has them. */
async function whyNot(session, subject) {
  const told = WhyNotLines.read(await session.ask(`whynot ${subject}`));
  return told.lost.length > 0 && session.run !== undefined ? session.look().then(() => told) : told;
}

/** Is a run so long that an answer may take a while? */
const isLong = ({ kept }) => kept.steps.size > MOST_KEPT;

/** The goal that a step took, the clause and its line. */
function takenWords({ run, clauses }, { act, text }) {
  const clause = clauses[Number(/^by (\d+)$/.exec(act)?.[1]) - 1];
  return `${callNow(run, text)}${clause === undefined ? "" : ` by clause ${clause.number} (line ${clause.line})`}`;
}

/** The first of the steps that let go of a variable; nothing where there is none. */
function lostWords(session, [first, ...more]) {
  if (first === undefined) return "";
  const others = more.length === 0 ? "" : `, and ${plural(more.length, "more step")}`;
  return `step ${first.number} let it go, ${takenWords(session, first)}${others}`;
}

/** Those of the steps told that let go of what is asked about, where it stays unbound. */
const lostIn = ({ staysUnbound, lost }) => (staysUnbound ? lost : []);

/** What is added to words on a variable that no goal has, by what `whynot` told: which step let it go. */
function letGoWords(session, subject, told) {
  if (told === undefined) return `: whynot ${subject} tells why`;
  const lost = lostWords(session, lostIn(told));
  return lost === "" ? "" : `: ${lost}; whynot ${subject} tells more`;
}

/** What `whynot` tells of a subject; of a long run it is not asked. */
const toldOf = async (session, subject) => (isLong(session) ? undefined : whyNot(session, subject));

/** What is added to words on a variable that no goal has: which step let it go; nothing where none did. */
const whoLetGo = async (session, subject) => letGoWords(session, subject, await toldOf(session, subject));

/** The query's variables with what each is bound to, but for those that need not be bound, as `_Rest`. */
async function* values(session) {
  for (const name of session.variables.filter((one) => !one.startsWith("_"))) {
    yield { name, ...Replies.readValue((await session.ask(`show ${name}`))[0]) };
  }
}

/** The names of the query's variables that stand unbound, one for each variable. */
async function* unbound(session) {
  const seen = new Set();
  for await (const { name, value } of values(session)) {
    if (Reader.isState(value) && !seen.has(value)) yield name;
    seen.add(value);
  }
}

/**
 * Where no goal is left: the variables of the query that nobody ever bound, since a step let them go, each with what
 * `whynot` told of it, if it was asked. There are none where all is done.
 */
async function neverBound(session, ask = toldOf) {
  const found = [];
  for await (const subject of unbound(session)) {
    const told = await ask(session, subject);
    if (told === undefined || lostIn(told).length > 0) found.push({ subject, told });
    if (found.length === MOST_TOLD) break;
  }
  return found;
}

/** Was a variable of the query let go that stays unbound? */
const isLetGo = async (session) => (await neverBound(session, whyNot)).length > 0;

/** Where no goal is left: that all is done, or what nobody ever bound. */
async function linesAtEnd(session) {
  const found = await neverBound(session);
  const lines = found.map(({ subject, told }) => `${subject} is never bound${letGoWords(session, subject, told)}`);
  if (found.length === MOST_TOLD) lines.push("show tells whether others are unbound");
  return lines.length > 0 ? lines : ["all is done"];
}

/** What can be asked where goals wait: about the query's variables that lack something, and the first of these goals. */
async function* subjectsOf(session, waiting) {
  for await (const { name, value } of values(session)) if (Printed.variablesIn(value).length > 0) yield name;
  for (const { name } of waiting.slice(0, MOST_ASKED)) yield name;
}

/** Where goals wait, and none is ready: the first of these that stays unbound, with what `whynot` tells of it. */
async function stuckAt(session, waiting) {
  for await (const subject of subjectsOf(session, waiting)) {
    const told = await whyNot(session, subject);
    if (told.staysUnbound && told.holders.length > 0) return [{ subject, told }];
  }
  return [];
}

/**
 * Where a run goes on no more by itself, and nothing has failed: what stays unbound, and why; nothing where all is done.
 * A long run is not asked; then the first goal that waits is told.
 */
async function whyAtEnd(session, goals) {
  if (goals.length === 0) return neverBound(session);
  const waiting = goals.filter(({ status }) => status === "waits");
  if (waiting.length === 0 || goals.some(({ status }) => status === "ready" || status === "failed")) return [];
  if (isLong(session)) return waiting.length < goals.length ? [] : [{ subject: waiting[0].name, told: undefined }];
  return stuckAt(session, waiting);
}

/** Where a variable comes from: which clause made it, also as a `_`; nothing of one that the query names. */
function originWords({ run }, variable) {
  const [step] = Printed.numbersOf(variable), clause = run.clauseOf(step), isUnnamed = run.isUnnamed(variable);
  if (clause === undefined) return isUnnamed ? "; it is a _ of the query" : "";
  const made = `clause ${clause.number} (line ${clause.line})`;
  return isUnnamed ? `; it is a _ of ${made}, made by step ${step}` : `; ${made} made it`;
}

/** Things by their variables. */
function byVariable(all) {
  const by = new Map();
  for (const one of all) {
    if (!by.has(one.variable)) by.set(one.variable, []);
    by.get(one.variable).push(one);
  }
  return by;
}

/** Which goals have a variable, by the variable: as `{ variable, goal }`. */
const holdersOf = (goals) =>
  byVariable(goals.flatMap((goal) => Printed.variablesIn(goal.text).map((variable) => ({ variable, goal }))));

/** What `whynot` told, by the variable. */
const gathered = ({ holders, lost, staysUnbound }) =>
  ({ holders: byVariable(holders), lost: byVariable(lost), staysUnbound });

/**
 * What gives what `whynot` tells of a goal that waits; undefined where it was asked about too many others, or nothing
 * was told. A reply tells of all for which goals wait behind the one asked about, so that where these stay unbound
 * nobody has to ask about those goals.
 */
function asking(session) {
  const known = new Map(); // by a variable that is waited for
  let asked = 0;
  return async ({ name, waitsFor: [first] }) => {
    if (known.get(first)?.staysUnbound || asked === ASKED) return known.get(first);
    asked += 1;
    const told = gathered(await whyNot(session, name));
    if (told.staysUnbound === undefined) return undefined;
    for (const variable of told.holders.keys()) known.set(variable, told);
    return told;
  };
}

/** The waits of goals: each a goal, a variable for which it waits, the others that have it, and what else is told. */
async function* eachWait(session, goals) {
  const toldOf = asking(session);
  for (const goal of goals.filter(({ status }) => status === "waits").slice(0, TOLD)) {
    const told = await toldOf(goal);
    for (const variable of goal.waitsFor) {
      const others = (told?.holders.get(variable) ?? []).filter((holder) => holder.goal !== goal.name);
      yield { goal, variable, others, told };
    }
  }
}

async function waitsOf(session, goals) {
  const waits = [];
  for await (const wait of eachWait(session, goals)) waits.push(wait);
  return waits;
}

/** Those of the goals that have what is waited for which wait for something else, or may go on. */
const helpersOf = ({ others }) => others.filter(WhyNotLines.mayBind);

/** Does a variable stay unbound, and nobody has it who waits for something else? */
const isHelpless = (wait) => wait.told?.staysUnbound === true && helpersOf(wait).length === 0;

const named = (all, nameOf) =>
  [...all.slice(0, NAMED).map(nameOf), ...(all.length > NAMED ? [`.. (${all.length})`] : [])].join(", ");

const inVain = ({ goal, status }) =>
  `${goal}, which ${status.startsWith("failed") ? "has failed" : "waits for it too"}`;
const STANDS = { ready: "is ready", stream: "is an input", waits: "waits", failed: "has failed" };
const standing = ({ goal, status }) => `${goal} (which ${STANDS[status.split(" ")[0]]})`;

/** Who let go of a variable that nobody binds; else where it comes from. */
function lostOf(session, { variable, told }) {
  const who = lostWords(session, told.lost.get(variable) ?? []);
  return who === "" ? originWords(session, variable) : `; ${who}`;
}

/** Who has what a wait is for, in words. */
function holdersIn(session, wait) {
  const { goal, others, told } = wait, helpers = helpersOf(wait);
  if (told === undefined) return `whynot ${goal.name} tells who has it`;
  if (isHelpless(wait)) {
    const why = others.length === 0 ? "no other goal has it" : `only ${named(others, inVain)}`;
    return `nobody can bind it (${why})${lostOf(session, wait)}`;
  }
  if (others.length === 0) return "no other goal has it";
  return `held by ${named(helpers.length > 0 ? helpers : others, standing)}`;
}

const lineOf = (session, wait) =>
  `${wait.goal.name} waits for ${session.run.labelOf(wait.variable)}: ${holdersIn(session, wait)}`;

/** Where goals have what others wait for, and it stays unbound all the same: which variables. */
function vainLines(session, waits) {
  const vain = waits.filter((wait) => wait.told?.staysUnbound && !isHelpless(wait));
  const variables = [...new Set(vain.flatMap(({ told }) => [...told.holders.keys()]))];
  const names = named(variables, (variable) => session.run.labelOf(variable));
  return vain.length === 0 ? [] : [`in vain: these stay unbound: ${names}`];
}

/** Why nothing goes on, as lines; none where no goal waits. */
function linesOf(session, goals, waits) {
  const left = goals.filter(({ status }) => status === "waits").length - TOLD;
  const more = left > 0 ? [`.. ${left} more goals wait; goals lists all goals`] : [];
  const goesOn = waits.length > 0 && goals.some(({ status }) => status === "ready");
  const ready = goesOn ? ["not stuck: some goal is ready"] : [];
  return [...ready, ...waits.map((wait) => lineOf(session, wait)), ...more, ...vainLines(session, waits)];
}

/**
 * The first step that let go of something for which goals wait and which stays unbound, as lines; none where none did,
 * or the run is so long that nobody who did not ask should wait for that.
 */
async function lostLines(session, goals) {
  if (isLong(session)) return [];
  for await (const { variable, told } of eachWait(session, goals)) {
    const lost = told?.staysUnbound ? told.lost.get(variable) : undefined;
    if (lost !== undefined) return [`${session.run.labelOf(variable)} is never bound: ${lostWords(session, lost)}`];
  }
  return [];
}

/** Was a variable handed, where it was made, to goals alone that never bind it? */
function isNobodys(session, variable, places) {
  const [maker] = Printed.numbersOf(variable), name = session.run.nameOf(variable);
  return name !== undefined && !session.run.madeBy(maker).goals.some((goal) => Builders.mayBind(goal, name, places));
}

/**
 * What of a goal's heads may be the cause that it waits for a variable: the first head that wants something there,
 * where no goal ever makes that, or where another clause of the predicate does. Is it sure that the body has to?
 */
function causeOf(session, { goal, variable }, places) {
  /** @type {any} */
  const call = goal.sort === "call" ? termOf(goal.text) : undefined;
  const place = call?.arguments?.findIndex((argument) => argument.variable === variable) ?? -1;
  if (place < 0) return undefined;
  const predicate = Print.predicateOf(call), [clause] = CheckerCauses.readersOf(session.clauses, predicate, place);
  if (clause === undefined) return undefined;
  const isBound = places.has(Builders.keyOf(predicate, place)), isLost = isNobodys(session, variable, places);
  const isSure = isBound || (isLost && Builders.isBuilt(clause, place));
  return isSure || isLost ? { variable, clause, place, isSure } : undefined;
}

/** A cause in words. */
function wordsOf(session, { variable, clause, place, isSure }) {
  const isOfQuery = Printed.numbersOf(variable)[0] === 0;
  return `a head reads and does not build: ${Builders.words(session.clauses, clause, place, { isSure, isOfQuery })}`;
}

/** Lines on waits for what heads want. Of a variable those that are sure go first. */
function buildingLines(session, waits) {
  const places = Builders.placesBound(session.clauses);
  const causes = waits.filter(isHelpless).map((wait) => causeOf(session, wait, places)).filter(Boolean);
  const sure = new Set(causes.filter(({ isSure }) => isSure).map(({ variable }) => variable));
  const told = causes.filter(({ variable, isSure }) => isSure || !sure.has(variable));
  return [...new Set(told.map((cause) => wordsOf(session, cause)))].slice(0, BUILDING);
}

export {
  buildingLines, gathered, holdersIn, holdersOf, isHelpless, isLetGo, lineOf, linesAtEnd, linesOf, lostLines,
  takenWords, waitsOf, whoLetGo, whyAtEnd,
};
