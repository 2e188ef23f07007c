// Patterns of goals, as `price(3,_)`: how one is read, and which goals fit it. Pure.
import * as Print from "../text/print.mjs";
import * as Reader from "../text/reader.mjs";

/** How a goal of a predicate, as `price/2`, is written: `price(_,_)`. */
function formOf(predicate) {
  const [name, arity] = predicate.split("/"), places = Array(Number(arity)).fill("_").join(",");
  return places === "" ? name : `${name}(${places})`;
}

/** The names of a term's variables that stand in it twice. */
function repeatedIn(term) {
  const seen = new Set(), repeated = new Set();
  const note = ({ variable }) => variable !== undefined && (seen.has(variable) ? repeated : seen).add(variable);
  Reader.fold(term, note, () => undefined);
  return [...repeated];
}

/** Why a variable that stands twice in a pattern is refused. */
const whyRepeated = (variable) => `a variable of a pattern fits everything, so that ${variable} twice compares nothing`;

/** Does a goal fit a pattern? A variable of the pattern fits everything. */
function fits(pattern, term, run) {
  if (pattern.variable !== undefined) return true;
  const end = run.endOf(term), { integer, name, arguments: terms = [] } = pattern;
  if (integer !== end.integer || name !== end.name || terms.length !== (end.arguments ?? []).length) return false;
  return terms.every((argument, place) => fits(argument, end.arguments[place], run));
}

// The patterns to which the goals of a predicate are narrowed, at which a run stops.
class Patterns {
  constructor() {
    this.known = new Map(); // patterns by their texts
  }

  /** Narrows the goals of the predicate to those that fit this pattern, beside those that fit the others. */
  add(pattern) {
    this.known.set(Print.term(pattern), pattern);
  }

  /** Takes a pattern away; false where it is not there. */
  remove(pattern) {
    return this.known.delete(Print.term(pattern));
  }

  /** From now on no goal of the predicate is looked at. */
  forget(predicate) {
    this.textsOf(predicate).forEach((text) => this.known.delete(text));
  }

  get isEmpty() {
    return this.known.size === 0;
  }

  /** The texts of a predicate's patterns. */
  textsOf(predicate) {
    return [...this.known.keys()].filter((text) => Print.predicateOf(this.known.get(text)) === predicate);
  }

  /** Is a goal of the predicate one of those at which a run stops? `call` is the goal as written. */
  meets(predicate, call, run) {
    const texts = this.textsOf(predicate);
    return texts.length === 0 || texts.some((text) => fits(this.known.get(text), call, run));
  }
}

export { Patterns, fits, formOf, repeatedIn, whyRepeated };
