// Terms in few letters, for labels: what a goal's arguments are bound to, as far as it is known. Pure functions.
import * as Printed from "../text/printed.mjs";
import * as Reader from "../text/reader.mjs";

const UNKNOWN = "·";
const LONGEST_LIST = 13;

/** Where the chain of a term ends. */
const endOf = (term, store) => Printed.endOfChain(term, (end) => store.get(end));

/** The elements of a list as far as they are known, and what comes after them: nothing, or something unknown. */
function elementsOf(term, store) {
  const elements = [];
  let rest = endOf(term, store);
  while (rest.startsWith("[") && rest !== "[]" && elements.length < 40) {
    const [heads, tail] = Printed.splitOutside(rest.slice(1, -1), "|");
    elements.push(...Printed.splitOutside(heads, ","));
    rest = tail === undefined ? "[]" : endOf(tail, store);
  }
  return { elements, isClosed: rest === "[]" };
}

function briefList(term, store, depth) {
  const { elements, isClosed } = elementsOf(term, store);
  const shown = elements.slice(0, LONGEST_LIST).map((element) => (depth > 1 ? "…" : brief(element, store, depth + 1)));
  let text = shown.join(",");
  if (text.length > LONGEST_LIST) {
    while (shown.length > 1 && shown.join(",").length > LONGEST_LIST - 2) shown.pop();
    text = `${shown.join(",")},…`;
  }
  return isClosed ? `[${text}]` : `[${text}|${UNKNOWN}]`;
}

/** A term in few letters: a list's elements, a structure's name, a point for what is not known. */
function brief(term, store, depth = 0) {
  const end = endOf(term, store);
  if (Reader.isState(end)) return UNKNOWN;
  if (end.startsWith("[") && end !== "[]") return briefList(end, store, depth);
  const open = end.indexOf("(");
  return open < 0 ? end : `${end.slice(0, open)}(…)`;
}

/** A call in few letters, as `filter([5,7],3,·)`. */
function briefCall(call, store) {
  const open = call.indexOf("(");
  if (open < 0) return call;
  const shown = Printed.splitOutside(call.slice(open + 1, -1), ",").map((term) => brief(term, store));
  return `${call.slice(0, open)}(${shown.join(",")})`;
}

const cut = (text, length) => (text.length > length ? `${text.slice(0, length - 1).replace(/…+$/, "")}…` : text);

export { brief, briefCall, cut };
