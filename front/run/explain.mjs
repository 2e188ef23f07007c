// Says where a value comes from: which step gave each part of a term. Pure functions.
import * as Reader from "../text/reader.mjs";
import * as Printed from "../text/printed.mjs";

const isVariable = Reader.isState;

/** The arguments of a term as it is written, a list being a cell with a head and a rest; none of what has no arguments. */
function argumentsOf(term) {
  if (term.startsWith("[") && term !== "[]") {
    const [heads, rest] = Printed.splitOutside(term.slice(1, -1), "|"), [head, ...others] = Printed.splitOutside(heads, ",");
    const end = rest === undefined ? "[]" : rest;
    return [head, others.length > 0 ? `[${others.join(",")}${rest === undefined ? "" : `|${rest}`}]` : end];
  }
  const open = term.indexOf("(");
  return open < 0 ? [] : Printed.splitOutside(term.slice(open + 1, -1), ",");
}

/** Follows a chain of bindings, and notes each step on it. */
function follow(graph, term, steps) {
  const boundTo = (end) => (isVariable(end) ? graph.termOf(end) : undefined);
  return Printed.endOfChain(term, boundTo, (end) => steps.push(graph.binderOf(end)));
}

/**
 * Where a part of a term comes from. `path` leads to the part by the places of arguments, from 0; of a list's cell 0 is the head and
 * 1 the rest. Gives the steps on the way, the last one being that which gave the part; and the part itself, undefined where there is none.
 */
function explain(graph, term, path) {
  const steps = [];
  let part = follow(graph, term, steps);
  for (const place of path) {
    const parts = argumentsOf(part);
    if (place >= parts.length) return { steps, by: undefined, part: undefined };
    part = follow(graph, parts[place], steps);
  }
  return { steps, by: steps[steps.length - 1], part };
}

export { argumentsOf, explain, isVariable };
