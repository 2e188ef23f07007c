// Values that somebody expects of a run, as `X = TERM`, beside those that the console tells. Pure.
import * as Print from "../text/print.mjs";
import * as Reader from "../text/reader.mjs";
import * as Short from "./short.mjs";

const LONGEST = 400; // letters of a value that are shown

/**
 * A variable's name and its value, of a text as `X = TERM`, the value as the console prints it; undefined where it is
 * none.
 */
function readExpected(text) {
  const [, name, term] = /^\s*([A-Z_]\w*)\s*=(.*)$/s.exec(text ?? "") ?? [], read = name && Reader.termIn(term);
  return read === undefined ? undefined : { name, value: Print.term(read) };
}

/**
 * What is otherwise than expected, in words; undefined where nothing is. `told` is the line of the value; undefined
 * where the query has no such variable.
 */
function whyOther({ name, value }, told) {
  const expected = `${name} = ${value}`;
  if (told === expected) return undefined;
  const other = told === undefined ? `and the query has no variable ${name}` : `got ${Short.line(told, LONGEST)}`;
  return `expected ${Short.line(expected, LONGEST)}, ${other}`;
}

export { readExpected, whyOther };
