// A value in parts that one can click, as far as it is known and has room: for the panel of the store, and the result
// of a run.
import * as Explain from "../front/run/explain.mjs";
import * as Terms from "../front/run/terms.mjs";
import * as Printed from "../front/text/printed.mjs";
import { make } from "./elements.mjs";
import OnScreen from "./on_screen.mjs";

const MOST_PARTS = 40, MOST_DEEP = 6, LONGEST_ATOM = 60;
const { isVariable, argumentsOf } = Explain;

/** A part of a value as a button; `path` leads to it from the row's variable. */
const part = (root, path, ...words) => make("button", { class: "part", type: "button", "data-root": root, "data-path": path.join("."), title: "lights the step that gave this" }, ...words);

/** The end of a chain of bindings, in the run that is on the screen or in another one. */
const endOf = (term, { store } = OnScreen.run().graph) => Printed.endOfChain(term, (end) => (isVariable(end) ? store.get(end) : undefined));

function listParts(root, path, term, room) {
  const parts = [part(root, path, "[")];
  let rest = term, at = path, count = 0;
  while (rest.startsWith("[") && rest !== "[]") {
    if (room.parts <= 0 || count > MOST_PARTS) return [...parts, ",…", part(root, path, "]")];
    const [head, tail] = argumentsOf(rest);
    parts.push(...(count > 0 ? [","] : []), ...termParts(root, [...at, 0], head, room));
    at = [...at, 1];
    rest = endOf(tail, room.graph);
    count += 1;
  }
  return [...parts, ...(rest === "[]" ? [] : ["|", ...termParts(root, at, rest, room)]), part(root, at, "]")];
}

/**
 * A term as far as it is known, each part of it a button. `room` has the graph in which it is known, and how many parts
 * more there may be.
 */
function termParts(root, path, term, room) {
  const end = endOf(term, room.graph);
  room.parts -= 1;
  if (room.parts <= 0 || path.filter((place) => place === 0).length > MOST_DEEP) return ["…"];
  if (end.startsWith("[") && end !== "[]") return listParts(root, path, end, room);
  const parts = argumentsOf(end);
  if (parts.length === 0) return [part(root, path, Terms.cut(end, LONGEST_ATOM))];
  const inner = parts.flatMap((one, place) => [...(place > 0 ? [","] : []), ...termParts(root, [...path, place], one, room)]);
  return [part(root, path, `${end.slice(0, end.indexOf("("))}(`), ...inner, ")"];
}

function nameButton(variable) {
  const how = { class: "name", "data-variable": variable, title: "show, who, what it rests on" };
  return make("button", how, make("b", null, variable));
}

/** A variable of the query and its value in a graph, for the result of a run. */
function resultOf(name, variable, graph) {
  const parts = termParts(variable, [], variable, { graph, parts: MOST_PARTS });
  return [make("code", { class: "value" }, nameButton(name), " = ", ...parts)];
}

export { part, endOf, termParts, nameButton, resultOf, MOST_PARTS };
