// The commands that the terminal answers itself: each gives lines, computed from what the session tells. Nothing here changes a session.
import { arcsAmong } from "./arcs.mjs";
import * as Graph from "./graph.mjs";
import { cut, namedCall } from "./named.mjs";
import { plural } from "./reasons.mjs";
import * as Waits from "./waits.mjs";
import * as Printed from "../text/printed.mjs";
import { inOneLine } from "../text/clauses.mjs";
import * as Reader from "../text/reader.mjs";

function list(session, [word]) {
  const shown = session.clauses.filter(({ predicate }) => word === undefined || Printed.isNamed(predicate, word));
  if (shown.length === 0) return [`no clause of ${word}; the program's predicates: ${session.predicates.join(", ")}`];
  const width = String(shown.at(-1).number).length;
  return shown.map(({ number, line, text }) => `${String(number).padStart(width)} (line ${line}) ${inOneLine(text)}`);
}

const WIDEST_GOAL = 80; // letters of a goal in a circle that are shown

/** The first goals that wait for each other, with their texts, as a line; none where none do. */
async function circleLines(session, goals) {
  const { circle } = await arcsAmong(session, goals, []), texts = new Map(goals.map(({ name, text }) => [name, text]));
  const words = circle.map(({ from }) => `${from} ${cut(namedCall(session.run, texts.get(from)), WIDEST_GOAL)}`);
  return circle.length === 0 ? [] : [`in a circle: ${[...words, circle[0].from].join(", which waits for ").replace(", which", "")}`];
}

async function stuck(session) {
  const goals = await session.goals(), waits = await Waits.waitsOf(session, goals);
  const lines = Waits.linesOf(session, goals, waits);
  const failed = goals.filter(({ status }) => status === "failed").map(({ name, refusal }) => `${name} has failed: ${refusal}; explain ${name} and blame ${name} tell more`);
  if (lines.length + failed.length > 0) {
    return [...failed, ...lines, ...await circleLines(session, goals), ...Waits.buildingLines(session, waits)];
  }
  return goals.length === 0 ? Waits.linesAtEnd(session) : ["no goal waits"];
}

/** The variables of the state that a word names: `_n_m`, or a name of the text. */
const variablesOf = (session, word) => (Reader.isState(word) ? [word] : session.run.variablesNamed(word));

/** The console knows a variable of a step as `_n_m` alone; here it may have the name that the text gives it. */
const signOf = (session, word) => (session.variables.includes(word) ? word : variablesOf(session, word)[0] ?? word);

async function holders(session, [word]) {
  const held = Waits.holdersOf(await session.goals()), found = variablesOf(session, word).flatMap((variable) => held.get(variable) ?? []);
  if (found.length === 0) return [`no goal has ${word}`];
  return found.map(({ variable, goal: { name, status, text } }) => `${session.run.labelOf(variable)}: ${name} ${status} ${text}`);
}

async function records(session, [word]) {
  const run = await session.look();
  const shown = [...session.kept.steps.values()].filter(({ goal }) => Printed.isNamed(run.predicateOf(goal), word));
  return shown.length === 0 ? [`no kept step of ${word}`] : shown.map(({ number, goal, act }) => `${number} ${run.textOf(goal)} ${act}`);
}

async function stat(session) {
  const { run } = session, steps = [...session.kept.steps.values()], counts = new Map();
  for (const { goal, act } of steps) {
    const kind = run.predicateOf(goal) ?? act.split(" ")[0];
    counts.set(kind, (counts.get(kind) ?? 0) + 1);
  }
  const sorted = [...counts].sort((one, other) => other[1] - one[1]);
  const chain = Graph.graphOf(await session.ask("records")).deepestChain;
  const lines = sorted.map(([kind, count]) => `${String(count).padStart(6)} ${kind}`);
  return [...lines, `${plural(steps.length, "step")}, longest chain of causes ${chain}: on average ${(steps.length / Math.max(1, chain)).toFixed(1)} at once`];
}

export { list, stuck, holders, records, signOf, stat };
