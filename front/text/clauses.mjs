// The clauses of a program that may be half written, told apart by their full stops: what is shown of each. Pure.
import * as Tokens from "./tokens.mjs";

/** The clauses of a text: number, predicate, first and last line, text in one line without comments. */
function clausesOf(text) {
  const all = Tokens.clausesIn(text).filter(([first]) => first.text !== ".");
  return all.map((tokens, at) => {
    const [first] = tokens, last = tokens.at(tokens.at(-1).text === "." ? -2 : -1);
    const shown = text.slice(first.at, last.end).replace(/%[^\n]*/g, " ").replace(/\s+/g, " ");
    const predicate = Tokens.predicateAt(tokens, 0);
    return { number: at + 1, predicate, from: first.line, to: last.line, text: `${shown}.` };
  });
}

/** A clause's text in one line: each line feed with the blanks about it is a blank. */
const inOneLine = (text) => text.split("\n").map((line) => line.trim()).filter((line) => line !== "").join(" ");

export { clausesOf, inOneLine };
