// The result of a run, above its picture: in one line what came of it, with the values of the query's variables.
import * as Asking from "../front/protocol/asking.mjs";
import * as Terms from "../front/run/terms.mjs";
import { find, make, goToGoal } from "./elements.mjs";
import * as Names from "./names.mjs";
import * as Outcome from "./outcome.mjs";
import OnScreen from "./on_screen.mjs";
import State from "./state.mjs";
import { resultOf } from "./value_parts.mjs";
import { plural } from "../front/text/plural.mjs";

const MOST_VALUES = 6, MOST_GOALS = 2, LONGEST_GOAL = 60;

/** What can be said beside the word: how many goals are ready, which one has failed, which wait. */
function goalsTold({ goals }, word, isNow) {
  const wanted = { failed: "failed", stuck: "waits", "waits for an input": "stream" }[word];
  const told = goals.filter((goal) => goal.status === wanted);
  const ready = goals.filter((goal) => goal.status === "ready").length;
  if (wanted === undefined) return ready > 0 ? [` ${plural(ready, "goal")} ready`] : [];
  if (word === "stuck" && told.length > MOST_GOALS) return [` ${told.length} goals wait`];
  const link = ({ name }) => (isNow ? goToGoal(name) : name);
  const one = (goal) => make("code", null, link(goal), ` ${Terms.cut(goal.text, LONGEST_GOAL)}`);
  const more = told.length > MOST_GOALS ? ` and ${told.length - MOST_GOALS} more` : "";
  const does = told.length === 1 ? " waits" : " wait";
  const named = told.slice(0, MOST_GOALS).flatMap((goal, at) => [at > 0 ? ", " : "", one(goal)]);
  return [" ", ...named, more, word === "stuck" ? does : ""];
}

/** The variables of the query that nobody ever bound, where a run has ended without them. */
const lackTold = ({ why }) => `${why.map(({ subject }) => subject).join(" and ")} ${why.length === 1 ? "is" : "are"} never bound`;

/** The values of the query's variables that are bound, each with what `valueOf` makes of it. */
function valuesTold(graph, query, valueOf) {
  const bound = [...Asking.queryVariables(query)].filter(([, variable]) => graph.binderOf(variable) !== undefined);
  const one = ([name, variable], at) => [at > 0 ? ", " : "", ...valueOf(name, variable, graph)];
  const shown = bound.slice(0, MOST_VALUES).flatMap(one);
  return [...shown, bound.length > MOST_VALUES ? `, and ${bound.length - MOST_VALUES} more` : ""];
}

/** The line of a run; `valueOf` gives what stands for a value, and `isNow` tells whether its goals can be gone to. */
function lineOf(run, query, valueOf, isNow) {
  const word = Outcome.wordOf(run), values = valuesTold(run.graph, query, valueOf), hasValues = values.length > 1;
  const goals = word === "ended" ? [` ${lackTold(run)}`] : goalsTold(run, word, isNow);
  const outcome = make("b", { class: `outcome ${word.split(" ")[0]}` }, word), hasGoals = goals.length > 0;
  const after = hasValues ? ": " : hasGoals ? ":" : "";
  return [outcome, after, ...values, hasValues && hasGoals ? ";" : "", ...goals];
}

/** Shows the result of the run at the time that is on the screen. */
function show() {
  const area = find("result"), isOff = !State.session || Boolean(State.refusal);
  area.hidden = isOff;
  if (isOff) return;
  area.replaceChildren(...lineOf(OnScreen.run(), State.given.query, resultOf, OnScreen.until === null));
  Names.dress(area);
}

/** The same of a run that is kept beside, which is looked at alone. */
function ofKept(kept) {
  const text = (...of) => resultOf(...of).map((value) => make("code", null, value.textContent));
  const above = make("span", { class: "dim" }, "above: ");
  return make("div", { class: "result-line" }, above, ...lineOf(kept, kept.given.query, text, false));
}

export { show, ofKept };
