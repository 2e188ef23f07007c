// Takes what was refused out of a text, so that the rest can be judged: a goal or a test where that is enough, else its
// clause. `true`, or a clause that says the same of its head, `p(_,_).`, and blanks stand in its place, so each other
// line, column and clause's number is as it was. Pure.
import * as Tokens from "./tokens.mjs";

const INVISIBLE = /^[\ufeff\u00a0\x00-\x1f\x7f]$/u;
const TRUE = "true";
const GO_ON = new Set([",", "|", ":-", "(", "[", "=", ":=", ";"]); // after these no clause begins

const isNeck = ({ text }) => text === ":-";
const isWord = ({ kind }) => kind === "name" || kind === "variable";
const nameOf = ({ text }) => text[0].toLowerCase() + text.slice(1); // of a predicate, written with a large letter or not
const bytesOf = (text) => new TextEncoder().encode(text).length;

/** As many blanks as a text has bytes, and its line feeds. */
const blanked = (text) => text.replace(/[^\n]/gu, (letter) => " ".repeat(bytesOf(letter)));

/** A clause that any call of its predicate can take. */
const clauseFor = (name, arity) => (arity === 0 ? `${name}.` : `${name}(${Array(arity).fill("_").join(",")}).`);

/** May a clause begin at a token? It begins a line, and a head stands there. */
function beginsClause(tokens, place, column) {
  const token = tokens[place], before = tokens[place - 1], after = tokens[Tokens.endOfCall(tokens, place) + 1];
  if (token.kind !== "name" || token.column > column || before.line === token.line) return false;
  return !GO_ON.has(before.text) && (after?.text === ":-" || after?.text === ".");
}

/** Does a full stop at a place end its line? */
function endsLine(tokens, place) {
  const next = tokens[place + 1];
  return tokens[place].text === "." && (next.kind === "end" || next.line > tokens[place].line);
}

/** The tokens of the clause in which one was refused, from where to where: another one may begin at it, or after it. */
function clauseAround(tokens, place) {
  let from = place, to = place;
  while (from > 0 && tokens[from - 1].text !== ".") from -= 1;
  const { column } = tokens[from];
  if (from < place && beginsClause(tokens, place, column)) return { from, to: place };
  const isNext = (at) => at > place && beginsClause(tokens, at, column);
  while (tokens[to].kind !== "end" && !endsLine(tokens, to) && !isNext(to)) to += 1;
  return { from, to: endsLine(tokens, to) ? to + 1 : to };
}

/** What stands in the place of some letters of a text: a clause, and blanks. */
function replaced(text, { from, to }, clause = "") {
  const rest = blanked(text.slice(from, to)), [line] = rest.split("\n");
  const isLast = line.length < rest.length || /^[ \t]*(\n|$)/.test(text.slice(to)); // nothing follows in that line
  const start = clause.length <= line.length || isLast ? clause.padEnd(line.length) : line;
  return text.slice(0, from) + start + rest.slice(line.length) + text.slice(to);
}

// Where one of these stands, what is wrong may be more than a goal: a text in quotes, or goals of which one is chosen.
const BEYOND = new Set([..."\"'`“”„‘’{};", "if", "then", "else", "when"]);

/**
 * The goal or test around a token, from where to where: of a query's tokens, or of those of a clause after its head.
 * Undefined where brackets are not closed, or more may be wrong.
 */
function goalAround(tokens, place, { from, to }) {
  const part = tokens.slice(from, to), start = from + tokens.slice(from, place).findLastIndex(isNeck) + 1;
  if (part.some(({ text }) => BEYOND.has(text)) || part.some(Tokens.isArrow)) return undefined;
  const row = tokens.slice(start, to), at = place - start;
  const goal = Tokens.rangeAt(row, { from: at, to: at }, 0, [",", "|"]);
  return Tokens.isBalanced(row) ? { from: start + goal.from, to: start + goal.to } : undefined;
}

/** The letters of a goal that are taken out, and what stands there: with a short one its comma goes. */
function takenFor(tokens, { from, to }) {
  const first = tokens[from], last = tokens[to - 1], letters = { from: first.at, to: last.end };
  if (last.end - first.at >= TRUE.length || last.line > first.line) return { letters, text: TRUE };
  if (tokens[to].text === ",") return { letters: { ...letters, to: tokens[to].end }, text: "" };
  return tokens[from - 1]?.text === "," ? { letters: { ...letters, from: tokens[from - 1].at }, text: "" } : undefined;
}

/**
 * A text without the goal or test that was refused at a place, and where that begins and ends; undefined where the
 * place is in a head, or more has to go.
 */
function withoutGoal(text, at, isQuery = false) {
  const tokens = Tokens.tokensOf(text), place = Tokens.placeOf(tokens, at);
  if (place < 0) return undefined;
  const around = isQuery ? { from: 0, to: tokens.length - 1 } : clauseAround(tokens, place), { from, to } = around;
  const end = !isQuery && to > from && endsLine(tokens, to - 1) ? to - 1 : to;
  const isInHead = !isQuery && !tokens.slice(from, place).some(isNeck);
  const goal = isInHead ? undefined : goalAround(tokens, place, { from, to: end });
  const taken = goal && goal.to > goal.from ? takenFor(tokens, goal) : undefined;
  return taken && { text: replaced(text, taken.letters, taken.text), start: tokens[goal.from], end: tokens[goal.to] };
}

/** The names that a part may have defined: of words that begin it, a line of it, or stand after a full stop. */
function mayDefine(tokens) {
  const begins = ({ line }, before) => before === undefined || before.line < line || before.text === ".";
  const words = tokens.filter((token, place) => isWord(token) && begins(token, tokens[place - 1]));
  return words.map(nameOf);
}

/** A comment of another language, or what nobody sees, at a place: its letters; undefined where neither is. */
function strangeAt(text, tokens, place) {
  const comment = Tokens.commentAround(text, tokens, place), token = tokens[place];
  if (comment === undefined) return INVISIBLE.test(token.text) ? { from: token.at, to: token.end } : undefined;
  const close = text.indexOf("*/", comment.end + 1);
  return { from: comment.at, to: close < 0 ? text.length : close + 2 };
}

/**
 * A text without what was refused at a place of it: the text, and where the goal began and ended that was taken out, or
 * what the clause may have defined, which is anybody's where its head cannot be read; undefined where nothing is.
 * `isWhole`: the clause goes, not a goal of it alone.
 * @returns {import("../types").Without | undefined}
 */
function withoutPlace(text, at, isWhole = false) {
  const tokens = Tokens.tokensOf(text), place = Tokens.placeOf(tokens, at);
  if (place < 0) return undefined;
  const strange = strangeAt(text, tokens, place);
  if (strange !== undefined) return { text: replaced(text, strange), names: [] };
  const goal = isWhole ? undefined : withoutGoal(text, at);
  if (goal !== undefined && goal.text !== text) return { ...goal, names: [] };
  const { from, to } = clauseAround(tokens, place), part = tokens.slice(from, to), [first] = part;
  if (first === undefined) return undefined;
  const isHead = isWord(first) && !first.text.startsWith("_");
  const clause = isHead ? clauseFor(nameOf(first), Tokens.arityAt(part, 0)) : "";
  const out = replaced(text, { from: first.at, to: part.at(-1).end }, clause);
  return { text: out, names: mayDefine(part), isAnybodys: !isHead && part.slice(1).some(isNeck) };
}

/** A text in which a variable stands once in the head of a clause, by its number. */
function withoutRepeated(text, number, name) {
  const head = Tokens.headOf(Tokens.clausesIn(text)[number - 1]);
  const repeated = head.filter((token) => token.text === name).slice(1);
  return repeated.reduceRight((before, { at, end }) => replaced(before, { from: at, to: end }, "_"), text);
}

/** A text in which a clause, by its number, is its head alone. */
function withoutClause(text, number) {
  const tokens = Tokens.clausesIn(text)[number - 1];
  const clause = clauseFor(tokens[0].text, Tokens.arityAt(tokens, 0));
  return replaced(text, { from: tokens[0].at, to: tokens.at(-1).end }, clause);
}

export { withoutPlace, withoutGoal, withoutRepeated, withoutClause, clauseFor };
