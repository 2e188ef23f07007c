// On what a value or a goal rests, as the console's `explain` tells it: it is lit, its goals are told as a tree, and it
// is kept alone by `keep` when one has seen what would go.
import * as Asking from "../front/protocol/asking.mjs";
import * as GoalTree from "../front/run/goal_tree.mjs";
import * as Terms from "../front/run/terms.mjs";
import Deeds from "./deeds.mjs";
import { find, make, lineButton, joined, link, goTo, linkedLine } from "./elements.mjs";
import { withGoalText } from "./goal_texts.mjs";
import * as Names from "./names.mjs";
import Shown from "./shown.mjs";
import State from "./state.mjs";
import * as StepWords from "./step_words.mjs";
import * as Talk from "./talk.mjs";
import * as Walking from "./walking.mjs";
import { plural } from "../front/text/plural.mjs";

const MOST_LINKS = 12;
const MOST_ROWS = 12, MOST_OPENED = 1000; // rows that are shown, and after a click
const MOST_READ = 3000; // steps of which each is put into a tree; of more the upper ones are
const INDENT = 14, MOST_INDENTS = 20; // points
const counted = (number) => number.toLocaleString("en");

/** The places of the steps that the query, or an ask, led to at once. */
function rootsIn(graph, isIn) {
  const roots = [];
  for (let at = 0; at < isIn.length; at++) if (isIn[at] === 1 && graph.makers.at(at) <= 0) roots.push(at);
  return roots;
}

/** The upper steps of a long explanation, in recorded order. */
function upperOf(graph, isIn, most) {
  const row = rootsIn(graph, isIn);
  for (let at = 0; at < row.length && row.length < most; at++) {
    const takers = [];
    graph.addTakers(row[at], takers);
    row.push(...takers.filter((taker) => isIn[taker] === 1));
  }
  return row.slice(0, most).sort((one, other) => one - other).map((index) => graph.stepAt(index));
}

/** The rows of the tree, with the values that stood when each step was taken, as far as all steps are read. */
function rowsOf(graph, { numbers, isIn }, most) {
  const isLong = numbers.length > MOST_READ, steps = isLong ? upperOf(graph, isIn, most) : [...numbers].map((number) => graph.byNumber.get(number));
  const values = new GoalTree.Values(isLong ? [] : steps), places = new Map(steps.map((step, at) => [step.number, at]));
  return GoalTree.treeOf(steps, most).rows.map((row) => ({ ...row, store: values.before(places.get(row.step.number)) }));
}

/** A row, whose goal stands there when the console has told it. */
function rowOf({ step, depth, below, store }) {
  const goal = make("span"), how = StepWords.howOf(step), indent = Math.min(depth, MOST_INDENTS) * INDENT;
  const more = below > 0 ? make("span", { class: "dim" }, ` and ${counted(below)} below`) : null;
  withGoalText(step, (text) => { goal.textContent = GoalTree.goalText(text, store); Names.dress(goal); });
  const words = [goTo(step.number, `step ${step.number}`), ": ", goal, how === "" ? how : ` ${how}`, more];
  return make("li", { style: `padding-left: ${indent}px` }, ...words);
}

/**
 * The goals of the steps of a slice as a tree, each below the step that made it: a screen of them, and the others on a
 * click. The slice has its steps by number, and flags by their places.
 */
function treeOf(slice) {
  const { graph } = State.run, area = make("div", { class: "goal-tree" }), count = slice.numbers.length;
  const fill = (most) => {
    const rows = rowsOf(graph, slice, most), list = make("ul", { "aria-label": "Its goals, each below the one that made it" }, ...rows.map(rowOf));
    area.replaceChildren(list, ...(rows.length < count ? [moreOf(rows.length, count, most, fill)] : []));
  };
  fill(MOST_ROWS);
  return area;
}

/** What is said of the steps that are left out, and what shows more of them. */
function moreOf(shown, count, most, fill) {
  const words = make("span", { class: "dim" }, `${counted(shown)} of ${counted(count)} steps. `);
  if (most >= MOST_OPENED) return make("div", null, words);
  const button = make("button", { class: "small", id: "explain-all" }, count > MOST_OPENED ? `Show ${counted(MOST_OPENED)}` : "Show all");
  button.addEventListener("click", () => fill(MOST_OPENED));
  return make("div", null, words, button);
}

/** By which clause a step went, and by which others it could go: each with this run beside. */
function choiceParts(others, number) {
  const [, clauses] = others.find(([step]) => step === number), { clause } = State.run.graph.byNumber.get(number);
  const titleOf = (other) => `keeps this run beside; roll ${number}, then the goal by clause ${other}`;
  const how = (other) => ({ "data-try": `${number} ${other}`, title: titleOf(other) });
  const tries = clauses.map((other) => link(how(other), `try clause ${other}`));
  return [` went by clause ${clause}; `, ...joined(tries, ", "), "."];
}

/** Lights the steps of a reply to `explain`, and tells what stands in front of them, on which clauses it rests, where another one could be chosen, and their goals as a tree. */
function tell(name, slice) {
  const { head, numbers, others, last } = slice, rests = Asking.clausesTold(slice, State.run.clauses.length);
  Deeds.showSlice(numbers, others.map(([step]) => step));
  const words = `${plural(others.length, "step")} decided, for another clause was open (ringed): `;
  const walk = () => Walking.along(others.length, (at) => others[at][0], (number) => choiceParts(others, number));
  const decided = others.length === 0 ? [] : [words, walk(), " "];
  const lines = head.slice(0, MOST_LINKS).map((line) => linkedLine(Terms.cut(line, 160)));
  Deeds.tell(false, make("code", null, `explain ${name}`), " ", ...joined(lines, ", "), `, ${last}. `, rests === undefined ? "" : `It ${rests}. `,
    ...decided, ...(numbers.length > 0 ? [lineButton("Find the wrong clause", `blame ${name}`, { class: "small" }), treeOf({ numbers, isIn: Shown.slice.isIn })] : []));
}

/** Rings all that would go if a value or a goal were to stand alone, and asks once more. */
async function askKeep(name) {
  const { run } = State, { graph } = run, told = await Talk.askSlice(name);
  if (told === null || run !== State.run) return;
  const { numbers, last } = told;
  if (!/^steps \d/.test(last)) {
    Deeds.tell(true, make("code", null, `explain ${name}`), " was refused: ", ...linkedLine(last));
    return;
  }
  const isIn = new Uint8Array(graph.count), gone = { size: graph.count - numbers.length, has: (number) => isIn[graph.indexOf(number)] === 0 };
  for (const number of numbers) isIn[graph.indexOf(number)] = 1;
  Deeds.choose(null);
  const words = `It rests on ${plural(numbers.length, "step")} of ${graph.count}. The ringed ${plural(gone.size, "step")} would be taken back; redo brings them again.`;
  Deeds.askFirst(`Keep what ${name} rests on`, words, `keep ${name}`, gone, find("store"));
}

export { tell, askKeep };
