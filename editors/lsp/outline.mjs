// What stands in a program that may be half typed: its clauses, as far as they can be told apart, and what a place is about. Pure.
//
// Places are those of the Language Server Protocol: lines from 0, and letters from 0 as JavaScript counts them.
import * as Tokens from "../../front/text/tokens.mjs";

const placeOf = ({ line, letter }, more = 0) => ({ line: line - 1, character: letter - 1 + more });

/** From the beginning of a token to the end of another one. */
const rangeOf = (first, last = first) => ({ start: placeOf(first), end: placeOf(last, last.text.length) });

/** The clauses that begin with a name: their tokens, predicate and text, numbered as ghcdb does. */
function clausesIn(text) {
  return Tokens.clausesIn(text).map((tokens, place) => {
    const [first] = tokens, last = tokens.at(-1), end = Tokens.headOf(tokens).at(-1);
    return {
      tokens, number: place + 1, predicate: first.kind === "name" ? Tokens.predicateAt(tokens, 0) : undefined,
      range: rangeOf(first, last), nameRange: rangeOf(first), head: text.slice(first.at, end.end), text: text.slice(first.at, last.end),
    };
  }).filter(({ predicate }) => predicate !== undefined);
}

/** Clauses in groups: those of one predicate that stand side by side. */
function groupsOf(clauses) {
  const groups = [];
  for (const clause of clauses) {
    if (groups.at(-1)?.[0].predicate === clause.predicate) groups.at(-1).push(clause);
    else groups.push([clause]);
  }
  return groups;
}

/** Is the place at a token, or where it ends? */
const isAt = ({ line, letter, text }, place) => line - 1 === place.line && letter - 1 <= place.character && place.character <= letter - 1 + text.length;

/**
 * What a place is about: of a goal or a head its `predicate`, of a variable the `first` token of its clause that has the
 * name; `token` is what stands there. Undefined where it is about nothing, as within the arguments of a goal.
 */
function aboutOf(clauses, place) {
  for (const { tokens } of clauses) {
    const at = tokens.findIndex((token) => ["name", "variable"].includes(token.kind) && isAt(token, place));
    if (at < 0) continue;
    const token = tokens[at];
    if (token.kind === "variable") return token.text === "_" ? undefined : { token, first: tokens.find(({ text }) => text === token.text) };
    return Tokens.depthOf(tokens.slice(0, at)) === 0 ? { token, predicate: Tokens.predicateAt(tokens, at) } : undefined;
  }
  return undefined;
}

/** The tokens of a clause at which a predicate is called or is the head, and no guard test or argument is. */
function callsIn({ tokens }, predicate) {
  const found = [];
  for (let at = 0, depth = 0; at < tokens.length; at += 1) {
    const token = tokens[at];
    if (depth === 0 && token.kind === "name" && Tokens.predicateAt(tokens, at) === predicate) found.push(token);
    depth += Tokens.depthOf([token]);
  }
  return found;
}

/** All tokens that mean what a place is about: calls and heads of its predicate, or its variable in its clause. */
function sameAs(clauses, place) {
  const about = aboutOf(clauses, place);
  if (about === undefined) return [];
  if (about.first === undefined) return clauses.flatMap((clause) => callsIn(clause, about.predicate));
  const own = clauses.find(({ tokens }) => tokens.includes(about.token));
  return own.tokens.filter(({ text }) => text === about.token.text);
}

/** The clause in which a place stands, or behind whose beginning it is the last. */
function clauseAt(clauses, { line, character }) {
  const isBefore = ({ start }) => start.line < line || (start.line === line && start.character <= character);
  return clauses.findLast(({ range }) => isBefore(range));
}

/** The names of the variables of a clause, but `_`, each once. */
const variablesOf = ({ tokens }) =>
  [...new Set(tokens.filter(({ kind, text }) => kind === "variable" && text !== "_").map(({ text }) => text))];

export { aboutOf, clauseAt, clausesIn, groupsOf, rangeOf, sameAs, variablesOf };
