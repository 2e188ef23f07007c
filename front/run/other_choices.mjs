// The other choices that a run had, and what each of them leads to, in words. Pure.
import * as Printed from "../text/printed.mjs";
import * as Replies from "../protocol/replies.mjs";
import * as Short from "../protocol/short.mjs";
import * as WhyNotLines from "../protocol/why_not_lines.mjs";
import { plural, some } from "./reasons.mjs";

const MOST_STEPS = 20_000; // that are run on after a choice
const LONGEST = 400; // letters of a value that are shown
const MADE_LATER = /\b_[1-9]\d*_\d+\b/g; // variables that steps made: of two runs they may have other numbers

const ENDINGS = {
  limit: `still running after ${MOST_STEPS.toLocaleString("en-US")} steps`,
  full: "no step has room any more",
  memory: "memory was refused",
};

/** The choices that a reply to `explain` tells: a step, the goal that it took by its clause, and another clause. */
const choicesIn = (reply) => reply.map(Replies.readExplained).filter(Boolean)
  .flatMap(({ number, goal, clause, others }) => others.map((other) => ({ step: number, goal, clause, other })));

/** Each choice once, in the order of the steps. */
function eachOnce(choices) {
  const found = new Map(choices.map((choice) => [`${choice.step} by ${choice.other}`, choice]));
  return [...found.values()].sort((one, other) => one.step - other.step || one.other - other.other);
}

/** Does a reply to `explain X` tell a value that has unbound variables? */
const isOpen = ([line]) => Printed.variablesIn(Replies.readValue(line).value).length > 0;

/** The goals that could bind what `whynot` was asked about, and the steps that let go of it. */
function concernedIn(reply) {
  const { holders, lost } = WhyNotLines.read(reply), goals = holders.map(({ goal }) => goal);
  const losses = lost.map(({ number, goal, act }) => ({ step: number, goal, clause: Number(act.slice("by ".length)) }));
  return { goals: [...new Set(goals)], losses: [...new Map(losses.map((loss) => [loss.step, loss])).values()] };
}

/** How a run ended, by the last line of its reply and by what `goals` tells; empty where all is done. */
function endingOf(stop, told) {
  const [, reason, name] = stop.split(" "), goals = Replies.readGoals(told);
  const isLeft = (status) => goals.some((goal) => goal.status === status);
  if (reason === "clash") return `failed ${name} ${goals.find((goal) => goal.name === name)?.refusal ?? ""}`.trimEnd();
  if (reason !== "quiet") return ENDINGS[reason] ?? stop;
  if (Replies.isRefused(told)) return "goals are left";
  return !isLeft("waits") ? "" : isLeft("stream") ? "waits for input" : "stuck";
}

/** What `show X` tells, in words; of an X that is not there, or too long, that. */
function valueTold(name, line) {
  if (!Replies.isRefusal(line)) return line;
  if (line.startsWith("F23 ")) return `${name} is not made`;
  return `${name}: ${Replies.limitIn(line) ?? line}`;
}

/** What a run came to, in words: the value of X whole, and how it ended. */
const outcomeTold = (name, { shown, stop, goals }) =>
  ({ value: valueTold(name, shown), ending: endingOf(stop, goals) });

/** Words in which variables that steps made are numbered in the order in which they stand there. */
function withoutNumbers(words) {
  const places = new Map();
  return words.replace(MADE_LATER, (variable) => {
    if (!places.has(variable)) places.set(variable, places.size);
    return `_${places.get(variable)}`;
  });
}

/** Outcomes, each once with all the choices that lead there; that of the session as it is comes first. */
function gathered(outcomes) {
  const groups = new Map();
  for (const { value, ending, choice, isRunOn } of outcomes) {
    const words = (text) => (ending === "" ? text : `${text}, ${ending}`), alike = withoutNumbers(words(value));
    const group = groups.get(alike) ?? { words: words(Short.line(value, LONGEST)), choices: [] };
    groups.set(alike, group);
    if (choice === undefined) group.asItIs = isRunOn ? "as it is, run on" : "as it is";
    else group.choices.push(choice);
  }
  return [...groups.values()];
}

/** The lines by which another clause is taken: what is held back goes on first. */
const linesTo = ({ step, goal, other, held = [] }) => [`roll ${step}`, ...held, `step ${goal} ${other}`];

// It is no proof that there is none: each step is tried alone, after its roll and once all others have gone on.
const NONE_FOUND = "found no step on which it rests that could have gone by another clause";

const choiceTold = ({ step, other, clause }) => `step ${step} by ${other} instead of ${clause}`;

/** The line of an outcome: `T = 130 <- step 8 by 3 instead of 2`. */
function lineOf({ words, choices, asItIs }) {
  const named = some(choices.map(choiceTold)).join(", ");
  const counted = choices.length > 1 ? `${plural(choices.length, "choice")}: ${named}` : named;
  const from = choices.length === 0 ? "" : ` <- ${counted}`;
  if (asItIs === undefined) return words + from;
  return `${words} ${asItIs}${from === "" ? "" : `, also${from}`}`;
}

/** The choice that leads to the first outcome that is another; undefined where none does. */
const otherIn = (groups) => groups.find(({ asItIs }) => asItIs === undefined)?.choices[0];
const otherChoice = (outcomes) => otherIn(gathered(outcomes));

/** After a run: how many steps could have gone by another clause, and which variables rest on these; none where none could. */
function freeLines({ count, names }) {
  const [first, ...more] = names;
  const others = more.length === 0 ? "" : `; others than ${first} rest on them, too: ${some(more).join(", ")}`;
  return count === 0 ? [] : [`${plural(count, "step")} could have gone by another clause: choices ${first} tells${others}`];
}

/** The lines of all outcomes, and how to go to the first one that is another. */
function linesOf(outcomes) {
  const groups = gathered(outcomes), other = otherIn(groups);
  const way = other === undefined ? [] : [`to go there: ${[...linesTo(other), "leap"].join(", ")}`];
  return [...groups.map(lineOf), ...way];
}

export {
  MOST_STEPS, NONE_FOUND, choicesIn, concernedIn, eachOnce, freeLines, gathered, isOpen, linesOf, linesTo, otherChoice, outcomeTold,
};
