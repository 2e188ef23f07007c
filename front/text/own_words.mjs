// What a hint leaves open, and what it says to write instead, in the words of the text that it is about. Pure.
//
// A hint may hold {X} and {Y}, the two sides of the mark at the place; {N} and {N1}, the variable before it and a new
// name; {B}, what stands before it, {R}, the variable to which it is assigned, {POWER} and {TWOS}, that power of it and
// of two; {V} and {W}, the arguments of the test there; {HEAD}, its clause's head, {NAME} the name that begins it, and
// {VALUE}, the head with {Y} in the place of {X}; {OPPOSITE}, a test that no other clause has.
import * as Tokens from "./tokens.mjs";
import * as Cures from "./cures.mjs";

const ENDS = [",", "|", ":-", "."], SYMBOLS = /^[^\w\s()[\],|.%"']+$/;
const ANY = { // where the text shows none
  X: "X", Y: "Y", N: "N", N1: "N1", B: "X", R: "Y", POWER: "X * X", TWOS: "2", V: "X", W: "Y", HEAD: "p(X,Y)",
  NAME: "p", VALUE: "p(a)", OPPOSITE: "; of terms that are no numbers write a clause for each other value",
};

const isSymbol = (token) => ["mark", "wrong"].includes(token?.kind) && SYMBOLS.test(token.text);

/** The mark at a place of a clause: from where to where its tokens stand, which touch each other. */
function markAt(clause, place) {
  const areSymbols = (left, right) => isSymbol(clause[left]) && isSymbol(clause[right]);
  const joins = (left, right) => areSymbols(left, right) && Tokens.touches(clause[left], clause[right]);
  let from = place, to = place + 1;
  while (from > 0 && joins(from - 1, from)) from -= 1;
  while (to < clause.length && joins(to - 1, to)) to += 1;
  return { from, to };
}

/** Where the goal around a place begins and ends; a bracket that is opened before the place ends it too. */
const goalAt = (clause, around) =>
  Tokens.rangeAt(clause, around, Tokens.depthOf(clause.slice(0, around.from)), ENDS);

const isTerm = (tokens) => tokens.length > 0 && tokens.every(({ kind }) => kind !== "wrong" && kind !== "end");

/** The texts of the two sides of a mark; undefined where a side is none, or too long. */
function sidesOf(clause, mark) {
  const goal = goalAt(clause, mark);
  const isWritten = ({ kind }) => kind !== "end"; // a query ends with no mark of its own
  const sides = [clause.slice(goal.from, mark.from), clause.slice(mark.to, goal.to).filter(isWritten)];
  return sides.map((tokens) => (isTerm(tokens) ? Cures.textOf(tokens) : undefined));
}

/** The head of a clause; undefined where it begins with none, or is too long. */
function headOf(clause) {
  const head = Tokens.headOf(clause);
  return clause[0]?.kind === "name" && Tokens.depthOf(head) === 0 && isTerm(head) ? head : undefined;
}

/** The head with a value in the place of a variable that it has, where that is a term; of two variables `a`. */
function headWith(head, name, value) {
  const isThere = head?.some(({ kind, text }) => kind === "variable" && text === name);
  if (!isThere || value === undefined || value.includes(" ")) return undefined;
  const isVariable = /^[A-Z_]/.test(value), shown = { text: isVariable ? "a" : value };
  const replaced = isVariable ? [name, value] : [name];
  return Cures.textOf(head.map((token) => (replaced.includes(token.text) ? shown : token)));
}

/** The first two arguments of the call at a place, where they are variables. */
function argumentsAt(clause, place) {
  const variableAt = (at) => (clause[at]?.kind === "variable" ? clause[at].text : undefined);
  if (clause[place + 1]?.text !== "(") return [];
  return [variableAt(place + 2), clause[place + 3]?.text === "," ? variableAt(place + 4) : undefined];
}

const MOST_FACTORS = 6;

/** What stands for a power, and for a shift, where a number tells how far. */
function powersOf(base, { text } = { text: "" }) {
  const many = /^\d$/.test(text) ? Number(text) : 0, isShort = many > 1 && many <= MOST_FACTORS;
  const power = isShort ? Array(many).fill(base).join(" * ") : `${base} * ${base} * ..`;
  return { POWER: base && power, TWOS: many > 0 ? String(2 ** many) : undefined };
}

/** What stands for the openings of a hint, at a place of a clause. */
function openingsAt(clause, place) {
  const mark = markAt(clause, place), [X, Y] = sidesOf(clause, mark), [V, W] = argumentsAt(clause, place);
  const head = headOf(clause), before = clause[mark.from - 1], N = before?.kind === "variable" ? before.text : undefined;
  const [R] = /^[A-Z_]\w*(?= := )/.exec(X ?? "") ?? [], B = before?.kind === "integer" ? before.text : N;
  return {
    X, Y, N, N1: N && Cures.newName(N, clause), B, R, ...powersOf(B, clause[mark.to]), V, W,
    HEAD: head && Cures.textOf(head), NAME: head?.[0].text, VALUE: headWith(head, X, Y),
  };
}

/** A hint with its openings filled in; `more` are known elsewhere. Where {X} or {Y} is not known both are any. */
function fill(hint, clause, place, more = {}) {
  if (!hint.includes("{")) return hint;
  const own = { ...openingsAt(clause, place), ...more }, isHalf = own.X === undefined || own.Y === undefined;
  const known = isHalf ? { ...own, X: undefined, Y: undefined } : own;
  return hint.replace(/\{([A-Z]+1?)\}/g, (all, name) => known[name] ?? ANY[name]);
}

// What follows tells what to write instead of a goal, a test or a head that is refused. What is given is a place of a
// `clause`: the tokens `here` stand before it.
const isVariable = (text) => /^[A-Z_]\w*$/.test(text ?? "");
const headIn = (clause, otherwise) => Cures.textOf(headOf(clause) ?? []) || otherwise;

/** The two sides of a mark in the goal around the place, as texts; none where the mark is not there. */
function sidesAt({ clause, here }, mark) {
  const at = Math.min(here.length, clause.length - 1);
  const { from, to } = goalAt(clause, { from: at, to: at });
  const place = clause.findIndex(({ text }, number) => number >= from && number < to && text === mark);
  return place < 0 ? [] : sidesOf(clause, { from: place, to: place + 1 });
}

/** An if-then-else as two clauses, with the clause's head and the condition. */
function twoClauses({ clause }) {
  const named = headIn(clause, "p(X,Y)"), arrow = clause.findIndex(Tokens.isArrow);
  const { from } = goalAt(clause, { from: arrow, to: arrow + 2 }), condition = clause.slice(from, arrow);
  const other = Cures.oppositeOf(condition), start = "write two clauses, each with its guard: ";
  if (other === undefined) return `${start}${named} :- .. | ..`;
  return `${start}${named} :- ${Cures.textOf(condition)} | ..   ${named} :- ${other} | ..`;
}

/** An expression beside `=`: what computes it. */
function computed(where) {
  const sides = sidesAt(where, "="), [left, right] = isVariable(sides[0]) ? sides : [...sides].reverse();
  return `to compute write :=, as ${isVariable(left) && right !== undefined ? `${left} := ${right}` : "Y := X + 1"}`;
}

/** A number before `:=`: turned round where that makes sense. */
function turnedRound(where) {
  const [left, right] = sidesAt(where, ":="), isWhole = left !== undefined && isVariable(right);
  return `turn it round, as ${isWhole ? `${right} := ${left}` : "X := 3"}, or compare numbers by =:= in the guard`;
}

/** `=` between numbers in a guard. */
function comparedSides(where) {
  const [left = "X mod 2", right = "0"] = sidesAt(where, "=");
  return `to compare numbers write =:=, as ${left} =:= ${right}`;
}

/** A term other than a number in a comparison: the head tests for it. */
function comparedTerm({ clause, here }) {
  const unequal = "for \"not equal\" write a clause for each case";
  const mark = here.findLastIndex(({ text }) => Tokens.COMPARISONS.has(text));
  const isBefore = mark < here.findLastIndex(({ text }) => [",", "|", ":-"].includes(text));
  const at = isBefore || mark < 0 ? here.length : mark;
  if (clause[at].text === "=\\=") return unequal;
  return `the head tests for a term, as ${fill("{VALUE}", clause, at)} :- ..; ${unequal}`;
}

/** The expression that ends before the place, compared. */
function comparedGoal({ clause, here: { length: place } }) {
  const { from } = goalAt(clause, { from: place, to: place }), goal = clause.slice(from, place);
  const variable = clause.find(({ kind }) => kind === "variable")?.text ?? "X";
  if (goal.length === 1) return `compare it, as ${variable} =:= ${goal[0].text}`;
  return `compare it, as ${Cures.textOf(goal) ?? `${variable} mod 2`} =:= 0`;
}

/** A comparison of three sides, of which the place is the second mark, as two of them. */
function twoComparisons({ clause, here: { length: place } }) {
  const first = place - 2, { from, to } = goalAt(clause, { from: first, to: place + 1 });
  const [one, two] = [clause.slice(from, place), clause.slice(first + 1, to)].map(Cures.textOf);
  return `write two: ${one ?? "X < Y"}, ${two ?? "Y < Z"}`;
}

/** A comparison in a clause's body, by its mark, moved before the bar. */
function beforeBar({ clause }, mark) {
  const place = clause.indexOf(mark), named = headIn(clause, "head");
  const { from, to } = goalAt(clause, { from: place, to: place + 1 });
  return `tests stand before the bar: ${named} :- ${Cures.textOf(clause.slice(from, to)) ?? "X > Y"} | ..`;
}

/** A sum or difference in a head: a new variable stands there, of which the body computes the old one. */
function computedInBody({ clause, here }) {
  const [name, sign, number] = clause.slice(here.length - 1);
  const isSigned = sign.kind === "integer", isSum = ["+", "-"].includes(sign.text) && number?.kind === "integer";
  if (name.kind !== "variable" || !(isSigned || isSum)) return "take a variable there, and compute in the body";
  const other = Cures.newName(name.text, clause), amount = isSigned ? sign.text.slice(1) : number.text;
  const back = `${name.text} := ${other} ${sign.text === "+" ? "-" : "+"} ${amount}`;
  return `take a variable ${other} there, and compute in the body: ${back}`;
}

export {
  fill, sidesOf, twoClauses, computed, turnedRound, comparedSides, comparedTerm, comparedGoal, twoComparisons,
  beforeBar, computedInBody,
};
