// Prints terms and goals as ghcdb does, with bindings followed or not, up to a length. Pure.
import * as Reader from "./reader.mjs";
import * as Tokens from "./tokens.mjs";

const NO_STORE = { endOf: (term) => term };
const CUT = "…";

const isOperation = (term) => term.arguments?.length === 2 && Tokens.OPERATORS.has(term.name);

/** The pieces that stand for a term, to be written one after the other: texts, and terms yet to be taken apart. */
function piecesOf(term, isOperand) {
  if (term.integer !== undefined) return [String(term.integer)];
  if (term.variable !== undefined) return [Reader.isWritten(term.variable) ? term.variable : "_"];
  if (term.name === ".") return ["[", { element: term.arguments[0] }, { rest: term.arguments[1] }];
  if (isOperation(term)) {
    const [left, right] = term.arguments;
    const pieces = [{ operand: left }, ` ${term.name} `, { operand: right }];
    return isOperand ? ["(", ...pieces, ")"] : pieces;
  }
  if (term.arguments.length === 0) return [term.name];
  const terms = term.arguments.flatMap((argument, place) => (place === 0 ? [{ element: argument }] : [",", { element: argument }]));
  return [`${term.name}(`, ...terms, ")"];
}

/** The pieces that stand for what comes after a list's element. */
function restOf(term) {
  if (term.name === ".") return [",", { element: term.arguments[0] }, { rest: term.arguments[1] }];
  return term.name === "[]" ? ["]"] : ["|", { element: term }, "]"];
}

/** The text of a term; `store.endOf` follows bindings. What is longer than `most` letters is cut. */
function term(given, { store = NO_STORE, most = Infinity } = {}) {
  const left = [{ element: given }];
  let text = "";
  while (left.length > 0) {
    if (text.length > most) return `${text.slice(0, most)}${CUT}`;
    const piece = left.pop();
    if (typeof piece === "string") {
      text += piece;
      continue;
    }
    const end = store.endOf(piece.element ?? piece.rest ?? piece.operand);
    left.push(...(piece.rest === undefined ? piecesOf(end, piece.operand !== undefined) : restOf(end)).reverse());
  }
  return text;
}

/** The predicate of a term, as `price/2`; undefined where it is no goal. */
const predicateOf = (given) => (given?.arguments === undefined ? undefined : `${given.name}/${given.arguments.length}`);

/** The text of a goal. */
function goal(given, ways) {
  if (given.sort === "call") return term(given.call, ways);
  if (given.sort === "stream") return `instream ${given.stream} ${term(given.tail, ways)}`;
  if (given.sort === "true") return "true";
  return `${term(given.left, ways)} ${given.sort === "unification" ? "=" : ":="} ${term(given.right, ways)}`;
}

export { term, goal, predicateOf, isOperation, CUT };
