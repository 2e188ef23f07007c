// Goals, terms and bindings as the console prints them, taken apart as texts: no term is read. Pure.
/** The parts of a text between the marks that stand outside all brackets. */
function splitOutside(text, mark) {
  const parts = [];
  let depth = 0, start = 0;
  for (let at = 0; at < text.length; at++) {
    const letter = text[at];
    if (letter === "(" || letter === "[") depth++;
    if (letter === ")" || letter === "]") depth--;
    if (letter !== mark || depth !== 0) continue;
    parts.push(text.slice(start, at));
    start = at + 1;
  }
  parts.push(text.slice(start));
  return parts;
}

const VARIABLE = /\b_(\d+)_(\d+)\b/g;

/** The variables that stand in a text, each once, by first occurrence. */
const variablesIn = (text) => [...new Set(text.match(VARIABLE) || [])];

/** The numbers in a variable's name: of the step that made it, and of its place there. */
const numbersOf = (variable) => variable.slice(1).split("_").map(Number);

/** The numbers in a goal's name: of the step that made it, and of its place there. */
function nameParts(name) {
  const point = name.indexOf(".");
  return [Number(name.slice(0, point)), Number(name.slice(point + 1))];
}

/** What a goal's text is: `stream`, `assignment`, `unification` or `call`. */
function sortOfText(text) {
  if (/^instream \d+ /.test(text)) return "stream";
  if (text.includes(" := ")) return "assignment";
  return text.includes(" = ") ? "unification" : "call";
}

/** The predicate of a call, as `append/3`. */
function predicateOf(call) {
  const open = call.indexOf("(");
  if (open < 0) return `${call}/0`;
  return `${call.slice(0, open)}/${splitOutside(call.slice(open + 1, -1), ",").length}`;
}

/** Is a predicate, as `price/2`, the one that a word names, with or without the number of its arguments? */
const isNamed = (predicate, word) => predicate === word || predicate?.split("/")[0] === word;

/**
 * Where the chain of a term's bindings ends, in any form of terms: `boundTo` gives what a variable is bound to, and undefined for all
 * other terms. `pass` is told each variable on the way.
 * @template T
 * @param {T} term
 * @param {(term: T) => T | undefined} boundTo
 * @param {(variable: T) => void} pass
 */
function endOfChain(term, boundTo, pass = () => {}) {
  let end = term;
  for (let next = boundTo(end); next !== undefined; next = boundTo(end)) {
    pass(end);
    end = next;
  }
  return end;
}

export { splitOutside, variablesIn, numbersOf, nameParts, sortOfText, predicateOf, isNamed, endOfChain };
