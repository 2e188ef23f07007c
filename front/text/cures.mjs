// What to write instead of a refused text, in the reader's own names. Pure.
import * as Tokens from "./tokens.mjs";

const LONGEST = 70; // letters of a goal or a head that a cure repeats
const OPPOSITES = new Map([["<", ">="], [">", "=<"], ["=<", ">"], [">=", "<"], ["=:=", "=\\="], ["=\\=", "=:="]]);
const SPACED = [...Tokens.OPERATORS, ...Tokens.COMPARISONS, "=", ":="];

/** Tokens of a term or a goal as a text; undefined where it is too long for a cure. */
function textOf(tokens) {
  const text = tokens.map((token) => (SPACED.includes(token.text) ? ` ${token.text} ` : token.text)).join("");
  return text.length > LONGEST ? undefined : text;
}

/** A name for a new variable of a clause: the one that is given, where it is free, else one after it. */
function newName(name, clause) {
  const used = new Set(clause.map(({ text }) => text));
  if (!used.has(name)) return name;
  const letters = /^[A-Z]/.test(name) ? name.replace(/(?<!\d)\d+$/, "") : "N";
  let number = 1;
  while (used.has(letters + number)) number += 1;
  return letters + number;
}

const PARTS = new Set([...Tokens.OPERATORS, "(", ")"]);
const isOfExpression = ({ kind, text }) => ["variable", "integer"].includes(kind) || PARTS.has(text);

/** How an argument of a clause's goal is computed first; the place is one of the argument. */
function computeFirst(clause, place) {
  const at = { from: place, to: place + 1 }, level = Tokens.depthOf(clause.slice(0, place));
  const inner = Tokens.rangeAt(clause, at, level, [",", "|"]), expression = clause.slice(inner.from, inner.to);
  const goal = Tokens.rangeAt(clause, at, 0, [",", "|", ":-"]), isWhole = Tokens.depthOf(clause) === 0;
  const name = newName(expression.find(({ kind }) => kind === "variable")?.text ?? "N", clause);
  const changed = [...clause.slice(goal.from, inner.from), { text: name }, ...clause.slice(inner.to, goal.to)];
  const value = isWhole && expression.every(isOfExpression) ? textOf(expression) : undefined, text = textOf(changed);
  if (value === undefined || text === undefined) return "compute it first, by :=, and hand on the variable";
  return `compute it first: ${name} := ${value}, ${text}`;
}

/** A goal of a program's first predicate, to show how one is written. */
function exampleOf(program) {
  const arity = Tokens.arityAt(program, 0), names = [..."ABCDEFGH"].slice(0, arity);
  if (program[0].kind !== "name" || arity > names.length) return "p(A)";
  return arity === 0 ? program[0].text : `${program[0].text}(${names.join(",")})`;
}

/** A comparison that says yes where another one says no; undefined of other tokens. */
function oppositeOf(test) {
  const opposite = textOf(test.map(({ text }) => ({ text: OPPOSITES.get(text) ?? text })));
  return test.filter(({ text }) => OPPOSITES.has(text)).length === 1 ? opposite : undefined;
}

export { textOf, newName, computeFirst, exampleOf, oppositeOf };
