// Reads texts that ghcdb has accepted: programs, queries, what is asked for, printed terms. Pure.
//
// A term is `{ integer }` (a BigInt), `{ variable }` (its name) or `{ name, arguments }`; a list's cell has the name `.`, and the
// empty list the name `[]`. A lone `_` is a variable with a name of its own, which no text can write. The depth of what is read by
// calls of itself is that of the brackets, 64 in any text that was accepted.
import * as Tokens from "./tokens.mjs";

const NIL = { name: "[]", arguments: [] };
const UNWRITTEN = "#"; // stands in the name of each lone `_`
const isWritten = (name) => !name.includes(UNWRITTEN);

/** Is the name that of a variable of the running state, as `_1_2`? */
const isState = (name) => /^_\d+_\d+$/.test(name);

class Reading {
  constructor(text) {
    this.text = text;
    this.tokens = Tokens.tokensOf(text);
    this.at = 0;
    this.lone = 0;
  }

  get next() {
    return this.tokens[this.at];
  }

  take(wanted) {
    const token = this.next;
    if (wanted !== undefined && token.text !== wanted) throw new SyntaxError(`${wanted} expected at ${token.line}:${token.column}`);
    this.at += 1;
    return token;
  }

  takes(text) {
    if (this.next.text !== text || this.next.kind === "end") return false;
    this.at += 1;
    return true;
  }

  variable(name) {
    if (name !== "_") return { variable: name };
    this.lone += 1;
    return { variable: `_${UNWRITTEN}${this.lone}` };
  }

  /** What one of the ways below reads, again and again with commas between. */
  row(read) {
    const all = [read.call(this)];
    while (this.takes(",")) all.push(read.call(this));
    return all;
  }

  list() {
    if (this.takes("]")) return NIL;
    const items = this.row(this.term);
    let list = this.takes("|") ? this.term() : NIL;
    this.take("]");
    for (const item of items.reverse()) list = { name: ".", arguments: [item, list] };
    return list;
  }

  term() {
    const token = this.take();
    if (token.kind === "variable") return this.variable(token.text);
    if (token.kind === "integer") return { integer: BigInt(token.text) };
    if (token.text === "[") return this.list();
    if (token.kind !== "name") throw new SyntaxError(`no term at ${token.line}:${token.column}`);
    if (!this.takes("(")) return { name: token.text, arguments: [] };
    const terms = this.row(this.term);
    this.take(")");
    return { name: token.text, arguments: terms };
  }

  operation(operators, operand) {
    let left = operand();
    while (operators.includes(this.next.text)) {
      const name = this.take().text;
      left = { name, arguments: [left, operand()] };
    }
    return left;
  }

  expression() {
    return this.operation(["+", "-"], () => this.operation(["*", "/", "mod"], () => this.unit()));
  }

  unit() {
    if (!this.takes("(")) return this.term();
    const inner = this.expression();
    this.take(")");
    return inner;
  }

  goalParts() {
    const left = this.term();
    if (this.takes("=")) return { sort: "unification", left, right: this.term() };
    if (this.takes(":=")) return { sort: "assignment", left, right: this.expression() };
    const isTrue = left.name === "true" && left.arguments.length === 0;
    return isTrue ? { sort: "true" } : { sort: "call", call: left };
  }

  /** A goal of a body, with the place where it stands. */
  goal() {
    const first = this.next, parts = this.goalParts(), last = this.tokens[this.at - 1];
    return { ...parts, place: { line: first.line, letter: first.letter, endLine: last.line, endLetter: last.letter + last.text.length } };
  }

  /** A test of a guard, with its text. */
  test() {
    const start = this.at;
    const test = this.next.kind === "name" ? { sort: "type", call: this.term() } : this.comparison();
    return { ...test, text: this.text.slice(this.tokens[start].at, this.tokens[this.at - 1].end) };
  }

  comparison() {
    const left = this.expression(), operator = this.take().text;
    return { sort: "comparison", operator, left, right: this.expression() };
  }

  clause(number) {
    const first = this.next, head = this.term();
    let tests = [], body = [];
    if (this.takes(":-")) {
      if (Tokens.barOutside(this.tokens, this.at) >= 0) {
        tests = this.row(this.test);
        this.take("|");
      }
      body = this.row(this.goal);
    }
    const stop = this.take(".");
    const place = { line: first.line, letter: first.letter, endLine: stop.line };
    return finished({ number, ...place, text: this.text.slice(first.at, stop.end), head, tests, body });
  }
}

/** The names of the variables of a term, added to those that are there, by first occurrence. */
function addVariables(names, ...terms) {
  const left = terms.reverse();
  while (left.length > 0) {
    const term = left.pop();
    if (term.variable !== undefined) names.add(term.variable);
    else if (term.arguments !== undefined) left.push(...[...term.arguments].reverse());
  }
  return names;
}

/** What comes of a term from its leaves up: `leaf` of variables, integers and atoms, `node` of a name and what came of its arguments. */
function fold(given, leaf, node) {
  const open = [];
  let next = given, result;
  for (;;) {
    if (next?.arguments?.length > 0) {
      open.push({ name: next.name, terms: next.arguments, results: [] });
      next = next.arguments[0];
      continue;
    }
    if (next !== undefined) result = leaf(next);
    if (open.length === 0) return result;
    const { name, terms, results } = open.at(-1);
    results.push(result);
    next = terms[results.length];
    if (next !== undefined) continue;
    open.pop();
    result = node(name, results);
  }
}

/** The terms of a goal. */
const termsOf = (goal) => (goal.sort === "call" ? [goal.call] : goal.sort === "true" ? [] : goal.sort === "stream" ? [goal.tail] : [goal.left, goal.right]);

/** The names of the variables of goals, by first occurrence. */
const variablesOfGoals = (goals) => [...addVariables(new Set(), ...goals.flatMap(termsOf))];

/** A clause with what is asked of it often: its predicate, the goals that a step by it makes, the variables that it makes. */
function finished(clause) {
  const { name, arguments: terms } = clause.head;
  const inHead = addVariables(new Set(), clause.head);
  const news = variablesOfGoals(clause.body).filter((variable) => !inHead.has(variable));
  const goals = clause.body.filter(({ sort }) => sort !== "true");
  const tests = clause.tests.filter(({ call }) => call?.name !== "true"); // as the console counts them
  return { ...clause, name, arity: terms.length, predicate: `${name}/${terms.length}`, tests, goals, news };
}

/**
 * The clauses of a program, numbered from 1.
 * @param {string} text
 * @returns {import("../types").Clause[]}
 */
function readProgram(text) {
  const reading = new Reading(text), clauses = [];
  while (reading.next.kind !== "end") clauses.push(reading.clause(clauses.length + 1));
  return clauses;
}

/** The goals of a query or of what is asked for, `true` left out, and the names of its variables. */
function readQuery(text) {
  const reading = new Reading(text), body = reading.row(reading.goal);
  return { goals: body.filter(({ sort }) => sort !== "true"), variables: variablesOfGoals(body) };
}

/**
 * The term that a text is. Throws a SyntaxError where it is none, or something stands after the term.
 * @param {string} text
 * @returns {import("../types").Term}
 */
function readTerm(text) {
  const reading = new Reading(text), term = reading.term(), { kind, line, column } = reading.next;
  if (kind !== "end") throw new SyntaxError(`the term ends before ${line}:${column}`);
  return term;
}

/** What comes of reading a text; undefined where it is not of that form, or is nested too deeply to be read. */
function readable(read, text) {
  try {
    return read(text);
  } catch (error) {
    if (error instanceof SyntaxError || error instanceof RangeError) return undefined;
    throw error;
  }
}

const termIn = (text) => readable(readTerm, text);
const goalIn = (text) => readable(readQuery, text)?.goals[0];

export { isWritten, isState, addVariables, termsOf, fold, readProgram, readQuery, readTerm, readable, termIn, goalIn };
