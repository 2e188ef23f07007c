// The panel of the store: each value in parts that one can click, which lights the steps that gave them.
import * as Asking from "../front/protocol/asking.mjs";
import * as Explain from "../front/run/explain.mjs";
import * as Terms from "../front/run/terms.mjs";
import Deeds from "./deeds.mjs";
import { find, make, lineButton, goTo, fillRows, keepFocus } from "./elements.mjs";
import * as Names from "./names.mjs";
import OnScreen from "./on_screen.mjs";
import State from "./state.mjs";
import { MOST_PARTS, part, endOf, termParts, nameButton } from "./value_parts.mjs";

const MOST_ROWS = 100, MOST_LOOKED_AT = 2000;
const LONGEST_BINDING = 160;
const { isVariable, argumentsOf } = Explain;

/** A row of the panel, with names in the place of variables. */
const valueRow = (...parts) => Names.dress(make("div", { class: "row value" }, ...parts), { isInList: true });

/** What a variable of the query is bound to, as far as it is known. */
function row(name, variable, room) {
  const isBound = endOf(variable) !== variable;
  if (!isBound) return valueRow(nameButton(name), make("span", { class: "dim" }, " is not bound"));
  return valueRow(nameButton(name), " = ", ...termParts(variable, [], variable, room));
}

/** The values of the query's variables, which are made anew each time; then all bindings, the newest first, each of which stays what it is. */
function rows() {
  const { graph } = OnScreen.run(), { query } = State.given, values = [], bindings = [];
  const variables = State.refusal ? [] : Asking.queryVariables(query); // of a text that was refused there is no run
  for (const [name, variable] of variables) values.push({ key: null, does: () => row(name, variable, { graph, parts: MOST_PARTS * 3 }) });
  for (let at = graph.count - 1; at >= 0 && at > graph.count - MOST_LOOKED_AT && bindings.length < MOST_ROWS; at--) {
    const step = graph.stepAt(at);
    for (const { variable, term } of [...step.binds].reverse()) bindings.push({ key: Names.shown(`${variable} ${step.number} ${Terms.cut(term, LONGEST_BINDING)}`), does: () => bindingRow(variable, step.number) });
  }
  return { values, bindings };
}

/** A binding as it was made, with no binding followed. */
function bindingRow(variable, by) {
  const term = OnScreen.run().graph.termOf(variable);
  const value = part(variable, [], Terms.cut(term, LONGEST_BINDING));
  return valueRow(nameButton(variable), " = ", value, make("span", { class: "dim" }, "  by ", goTo(by)));
}

/** Where a part of a value stands, for a question about it: the variable nearest above it, where that is not the value's own. */
function placeOf(root, path) {
  let place = "", part = endOf(root);
  for (const at of path) {
    const term = argumentsOf(part)[at];
    if (isVariable(term)) place = ` ${term}`;
    part = endOf(term);
  }
  return place;
}

const nameOf = (root) => ([...Asking.queryVariables(State.given.query)].find(([, variable]) => variable === root) ?? [root])[0];

/** Begins the questions that lead to the clause by which a part of a value is wrong. */
const blameButton = (root, path) => lineButton("Find the wrong clause", `blame ${nameOf(root)}${placeOf(root, path)}`, { class: "small" });

const unmark = () => { for (const one of find("store").querySelectorAll(".part.told")) one.classList.remove("told"); };

const show = () => keepFocus("store", () => {
  const { values, bindings } = rows(), all = [...values, ...bindings].slice(0, MOST_ROWS), before = Deeds.timeRows();
  const left = values.length + OnScreen.run().graph.binders.size - all.length;
  const words = all.length === 0 ? "nothing is bound" : left > 0 ? `and ${left} more` : "";
  const more = { key: null, does: () => make(all.length === 0 ? "span" : "div", { class: "dim" }, words) };
  fillRows("store", [...before, ...all, ...(words ? [more] : [])]);
  unmark();
  const last = before.length + Math.min(values.length, MOST_ROWS) - 1;
  if (values.length > 0) find("store").children[last].classList.add("last-value");
});

/** Lights the steps that gave a part of a value, and tells them. */
function explain(root, path) {
  const { steps, by, part: term } = Explain.explain(OnScreen.run().graph, root, path);
  const way = [...new Set(steps)].filter((step) => step !== by);
  unmark();
  const words = make("code", null, Terms.cut(term === undefined ? root : term, 60));
  if (by === undefined) {
    const isOpen = isVariable(term || ""), why = isOpen ? [lineButton("Why?", `whynot ${term}`, { class: "small" })] : [];
    Deeds.tell(false, words, isOpen ? " is not bound. " : " stands in the query.", ...why);
    return;
  }
  Deeds.goTo({ step: by });
  Deeds.markWay(way);
  const shown = way.slice(-8), before = way.length > shown.length ? `${way.length - shown.length} steps, and ` : "";
  Deeds.tell(false, words, isVariable(term) ? " is where step " : " was given by step ", goTo(by), isVariable(term) ? " left it open" : "",
    ...(shown.length > 0 ? [`. On the way to it: ${before}step `, ...shown.flatMap((step, index) => [index > 0 ? ", " : "", goTo(step)])] : []), ". Its causes are lit. ", blameButton(root, path));
}

export { show, explain };
