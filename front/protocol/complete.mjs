// What the Tab key offers: commands at a line's beginning, and after them ready goals, kept steps, variables, predicates. Pure but for
// what it asks of the session.
import { NAMES, commandOf, followsOf } from "./commands.mjs";

const MOST = 200; // words that are offered: of more the first and the last, so that what they have in common is right

const some = (words) => (words.length > MOST ? [...words.slice(0, MOST / 2), ...words.slice(-MOST / 2)] : words);

const numbersOf = (lines) => lines.map((line) => line.split(" ")[0]).filter((word) => /^\d+$/.test(word));

/** The variables of the query, and those that goals have. */
async function variables(session) {
  const texts = (await session.goals()).flatMap(({ text }) => text.match(/\b_\d+_\d+\b/g) ?? []);
  return [...new Set([...session.variables, ...texts])];
}

const goals = async (session, statuses) => (await session.goals()).filter(({ status }) => statuses.includes(status)).map(({ name }) => name);
const variablesAndGoals = async (session) => [...await variables(session), ...await goals(session, ["ready", "waits", "failed"])];
const streams = async (session) => (await session.goals()).filter(({ status }) => status === "stream").map(({ text }) => text.split(" ")[1]);
const steps = (session) => [...session.kept.steps.keys()].map(String);

// By what commands.table says of what follows a command.
const OFFERS = {
  ready: (session) => goals(session, ["ready"]),
  goal: (session) => goals(session, ["ready", "waits", "failed"]),
  kept: steps,
  shelf: async (session) => numbersOf(await session.ask("shelf")),
  variable: variables,
  value: variablesAndGoals,
  stream: streams,
  predicate: (session) => session.predicates,
  command: () => NAMES,
};

/** In goals: predicates and variables, whatever mark stands before them. */
async function completeGoals(session, line) {
  const [begun] = /(?<!\w)\w*$/.exec(line), calls = session.predicates.map((predicate) => predicate.replace(/\/0$/, "").replace(/\/\d+$/, "("));
  return { begun, words: some([...new Set([...calls, ...await variables(session)])].filter((word) => word.startsWith(begun))) };
}

/** The words that may stand at the end of a line, and the beginning of them that is there. */
async function completionsOf(session, line) {
  const words = line.split(" "), last = words.at(-1);
  if (words.length === 1) return { begun: last, words: NAMES.filter((name) => name.startsWith(last)).map((name) => `${name} `) };
  const follows = followsOf(commandOf(words[0])), offer = OFFERS[follows.replace(" ..", "")];
  if (follows === "goals") return completeGoals(session, line);
  const offered = offer === undefined || (words.length > 2 && !follows.endsWith("..")) ? [] : await offer(session);
  return { begun: last, words: some(offered.filter((word) => word.startsWith(last))) };
}

export { completionsOf };
