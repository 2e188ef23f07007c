// Why a text is refused at a place (F2): the cause in a reader's words, and what to write instead. It refuses nothing by itself; ghcdb
// has told the place, and the first rule that knows a cause there is the answer. Pure.
import * as Tokens from "./tokens.mjs";
import * as Habits from "./habits.mjs";
import * as Cures from "./cures.mjs";
import * as OwnWords from "./own_words.mjs";
import * as Reader from "./reader.mjs";

const { COMPARISONS, OPERATORS: OPERATIONS, touches } = Tokens;
const GROUPS = "brackets group expressions alone";
const NO_IF = "there is no if-then-else", NO_SUM = "= does not compute";
const CLAUSE = "a clause is: head :- guard | body.";
const goalsAs = (example) => `a query is goals with commas between them, as ${example}`;
const ARGUMENT = "an argument is a term, and is not computed", PAIR = "a pair is a structure, as pair(A,B), or two arguments";
const BEHIND_NUMBER = "numbers are integers, written in digits alone";

const quoted = (token) => `'${token.text}'`;
const cause = (title, ...hints) => ({ title, hints });
const endsTerm = (token) => token !== undefined && (["name", "variable", "integer"].includes(token.kind) || [")", "]"].includes(token.text));
const isOneOf = (token, ...texts) => texts.includes(token?.text);
const has = (tokens, ...texts) => tokens.some(({ text }) => texts.includes(text));
const hasComparison = (tokens) => has(tokens, ...COMPARISONS);
const computes = (tokens) => has(tokens, ":=", ...COMPARISONS);
const goalAfter = (marks, tokens) => tokens.slice(tokens.findLastIndex(({ text }) => marks.includes(text)) + 1);

/**
 * What the rules look at: the token at the place, its neighbours, its clause's tokens `here` before it and `later` from
 * it on, the innermost bracket that is open there; of a query a goal to show.
 */
function surroundings(text, at, isQuery, program) {
  const tokens = Tokens.tokensOf(text), example = isQuery ? Cures.exampleOf(Tokens.tokensOf(program)) : undefined;
  const found = Tokens.placeOf(tokens, at), place = found < 0 ? tokens.length - 1 : found, token = tokens[place];
  const here = goalAfter(["."], tokens.slice(0, place)), open = Tokens.openBrackets(here).at(-1);
  const following = tokens.slice(place), stop = following.findIndex((other) => other.text === ".");
  const later = stop < 0 ? following : following.slice(0, stop);
  return {
    text, isQuery, example, tokens, place, token, here, later, clause: [...here, ...later],
    before: tokens[place - 1], next: tokens[place + 1] ?? token, rest: text.slice(token.at),
    depth: Tokens.depthOf(here), open, opened: open && `${quoted(open)} of line ${open.line}, column ${open.column}`,
    hasNeck: has(here, ":-"), hasBar: Tokens.barOutside(here) >= 0, isComparison: COMPARISONS.has(token.text),
  };
}

/** Lines that declare something elsewhere: directives, modules, modes. */
function declaration({ token, next, here, isQuery }) {
  const [first, second] = [...here, token, next];
  if (isQuery || second === first) return undefined;
  if (first.text === "mode" && second.kind === "name") return { ...cause("there are no mode declarations", "drop this line: heads and guards tell what is read"), at: first };
  const isDirective = (first.text === ":-" && here.length > 0) || (first.text === "-" && second.kind === "name");
  return isDirective ? { ...cause("there are no directives and modules", "drop this line"), at: first } : undefined;
}

const hasArrow = (tokens) => tokens.some((token, place) => Tokens.isArrow(token, place, tokens) && touches(token, tokens[place + 1]));

/** A semicolon, which is "or" in a body, the end of a clause elsewhere, or what stands before an else. */
function semicolon(where) {
  const { token, next, here, isQuery, hasNeck } = where;
  if (token.text !== ";") return undefined;
  const ends = next.kind === "end" || next.line > token.line;
  if (isQuery) return cause("there is no \"or\"", "a query is one row of goals: separate them by commas");
  if (hasArrow(here)) return hasNeck ? cause(NO_IF, OwnWords.twoClauses(where)) : cause("-> is written :-, and a clause ends with a full stop", CLAUSE);
  return ends && hasNeck ? cause("there is no \"or\"", "write two clauses", "a clause ends with a full stop") : undefined;
}

/** Marks of other languages that have two meanings. */
function markInPlace({ token, before, next, here, depth, isQuery, hasBar }) {
  if (token.text === "?" && endsTerm(before) && touches(before, token)) return cause("there are no read-only marks", "drop the ?: heads and guards wait for what they look at");
  const isCommit = token.text === ":" && !touches(before, token) && !touches(token, next) && depth === 0 && !hasBar;
  return isCommit && !isQuery && here.length > 0 ? cause("the bar of a clause is written |", CLAUSE) : undefined;
}

function foreignMark({ rest, text, token, before }) {
  if (text.startsWith("\ufeff") && token.at <= 1) return cause(
    Habits.MARKS.find(([pattern]) => pattern.test("\ufeff"))[1], "save it as UTF-8 without BOM");
  if (token.text === "\\" && before?.text === "/" && touches(before, token)) return cause(...Habits.PAIRS["/\\"]);
  const found = Habits.MARKS.find(([pattern]) => pattern.test(rest)), isMark = token.kind === "wrong" || rest.startsWith("//");
  return found && isMark && cause(found[1], found[2]);
}

/** A comment of another language, in which the place is. */
function blockComment({ text, tokens, place }) {
  const first = Tokens.commentAround(text, tokens, place);
  return first && { ...cause(...Habits.COMMENT), at: { ...first, text: "/*" } };
}

function badToken({ token }) {
  if (token.kind === "variable" && Reader.isState(token.text)) return cause(
    `${token.text} is a name of the running state`, "name the variable otherwise; such names may stand in `ask` and `show` alone");
  if (token.kind !== "integer") return undefined;
  const value = BigInt(token.text);
  return BigInt.asIntN(64, value) !== value && cause(
    "the integer does not fit into 64 bits", "integers go from -9223372036854775808 to 9223372036854775807");
}

/** The first pair of tokens around the place that touch each other and are one of some marks; undefined where none is. */
function pairAt({ token, before, next }, isMark, isPair = touches) {
  const pairs = [[before, token], [token, next]].filter(([left, right]) => isPair(left, right));
  return pairs.map(([left, right]) => left.text + right.text).find(isMark);
}

/** Arrows, which mean one thing after a head and another in a body. */
function arrow(where) {
  const mark = pairAt(where, (pair) => ["=>", "<-", "--", "->"].includes(pair));
  if (mark === undefined || where.depth > 0 || where.isQuery) return undefined;
  const isHead = where.here.length > 0 && !where.hasNeck;
  if (isHead) return mark === "--" ? cause("there are no grammars with -->", CLAUSE) : cause(`${mark} is written :-`, CLAUSE);
  return mark === "<-" ? cause("there is no <-", "to bind a variable write =, as {X} = {Y}; to compute :=, as {X} := {Y}") : undefined;
}

const MARKS = new Set([":-", ":=", "=<", ">="]);

/** A mark that a blank stands in. */
function splitMark(where) {
  const isApart = (left, right) => left?.line === right.line && !touches(left, right);
  const mark = pairAt(where, (pair) => MARKS.has(pair), isApart);
  return mark && cause(`a blank stands within ${mark}`, `write ${mark} in one piece`);
}

function foreignPair(where) {
  const found = pairAt(where, (pair) => Object.hasOwn(Habits.PAIRS, pair));
  return found && cause(...Habits.PAIRS[found]);
}

/** Where a comment took the rest of an expression's line: % is no operator. */
function commentInExpression({ text, token, before, here }) {
  if (!computes(here) || !endsTerm(before) || before.line === token.line) return undefined;
  const [comment, right = "2"] = /^[ \t]*%[ \t]*(\w+)?/.exec(text.slice(before.end).split("\n")[0]) ?? [];
  const left = before.kind === "variable" ? before.text : "X";
  const told = cause("% begins a comment, and is no operator", `the remainder is mod, as ${left} mod ${right}`);
  return comment !== undefined && { ...told, after: before };
}

function endOfText({ token, here, isQuery, before, example, opened }) {
  if (token.kind !== "end") return undefined;
  const where = opened && `${opened} is not closed`;
  if (isQuery && opened !== undefined) return cause("the query ends within brackets", where);
  if (isQuery) return cause(
    here.length > 0 ? "the query ends too early" : "the query is empty",
    isOneOf(before, ...OPERATIONS, "=", ":=") ? `something is missing after ${quoted(before)}`
      : `write goals, as ${example}; for none: true`);
  return { ...cause("the text ends within a clause", where ?? `write a full stop after ${quoted(before)}`), after: before };
}

function beginning({ token, here, next, isQuery, before, example }) {
  if (here.length > 0) return undefined;
  if (isQuery && before?.text === ".") return cause("a query is one row of goals", "separate goals by commas");
  if (token.text === ":-") return isQuery ? cause("a query is given without :-", "drop the :-") : cause("a clause begins with a name", "there are no directives and modules: drop this line");
  if (next.text === "." && ["otherwise", "alternatively"].includes(token.text)) return cause(...Habits.TESTS[token.text]);
  if (["true", "otherwise", "alternatively", "instream"].includes(token.text)) return cause(
    `no clause is for ${token.text}`, "it has a meaning of its own: give the predicate another name");
  if (token.text === "." && before?.text === ".") return cause("there is a full stop too many", "drop it");
  if (token.kind === "variable" && !isQuery && (next.text === "=" || next.text === ":=")) return cause(
    `a clause begins with a name, and not with ${quoted(token)}`, "goals stand in a clause's body, or in the query");
  if (token.kind === "variable") return cause(
    `${token.text} is a variable, and no ${isQuery ? "goal" : "clause"} begins with one`, `names of predicates begin with a small letter: ${token.text[0].toLowerCase()}${token.text.slice(1)}`);
  if (isQuery) return cause(`no goal begins with ${quoted(token)}`, `write goals, as ${example}`);
  return cause(`no clause begins with ${quoted(token)}`, token.kind === "integer" ? "names of predicates begin with a small letter" : CLAUSE);
}

function foreignWord({ token, before, next, later }) {
  const [X, Y] = token.text === "mod" ? Tokens.argumentsOf(later).map(Cures.textOf) : [];
  if (token.text === "mod" && next.text === "(") return cause("mod is an operator", `${X || "X"} mod ${Y || "2"}, and not mod(${X || "X"},${Y || "2"})`);
  if (token.text === "is" && before?.kind === "variable") return cause("`is` is written :=", endsTerm(next) || next.text === "(" ? "{X} := {Y}" : `${before.text} := ..`, ...(next.text === "[" ? [`a term is given by =, as ${before.text} = [A|X]`] : []));
  if (token.kind === "name" && Object.hasOwn(Habits.WORDS, token.text) && endsTerm(before)) return cause(...Habits.WORDS[token.text]);
  const isAfterWord = before?.kind === "name" && Object.hasOwn(Habits.WORDS, before.text) && before.text !== "is";
  return isAfterWord && cause(...Habits.WORDS[before.text]);
}

const isFraction = (left, point, right) => left?.kind === "integer" && point?.text === "." && right?.kind === "integer" && touches(left, point) && touches(point, right);

function numbers({ token, before, next, tokens, place }) {
  const first = tokens[place - 2];
  if (isFraction(first, before, token) || isFraction(before, token, next)) return cause("there are no fractions", "numbers are integers of 64 bits");
  if (before?.kind === "integer" && touches(before, token) && (token.kind === "name" || token.kind === "variable")) return cause(
    `${quoted(token)} cannot follow ${quoted(before)}`, BEHIND_NUMBER);
  if (token.text === "+" && next.kind === "integer" && !endsTerm(before)) return cause("there is no + before a number", `write ${next.text}`);
  return token.text === "-" && next.kind === "integer" && !touches(token, next) && !endsTerm(before) && cause(
    "a space stands between the sign and the number", `write -${next.text}`);
}

/** An expression in the place of a term: in a head, or in an argument of a body. */
function expressionWithin(where) {
  const { token, before, next, here, clause, isQuery, hasNeck } = where;
  const isNumber = [token, before, next].some(({ kind }) => kind === "integer") && before.kind !== "name";
  if (!isQuery && !hasNeck) return cause("a head has terms, and computes nothing", isNumber ? OwnWords.computedInBody(where) : PAIR);
  if (before.kind === "name" || next.kind === "name" || next.text === "[") return cause(ARGUMENT, PAIR);
  const mayBePair = !isNumber && endsTerm(before) && ["-", "/"].includes(token.text);
  return cause(ARGUMENT, Cures.computeFirst(clause, here.length), ...(mayBePair ? [PAIR] : []));
}

const BEFORE_OPERAND = new Set([":=", ...COMPARISONS, ...OPERATIONS, "(", "|"]);

/** Is what stands at the end of a clause's beginning a side of a comparison? */
function isCompared(here) {
  const goal = goalAfter([",", "|", ":-"], here);
  return hasComparison(goal) && (COMPARISONS.has(goal.at(-1).text) || BEFORE_OPERAND.has(goal.at(-1).text));
}

function arithmetic(where) {
  const { token, before, next, depth, here, clause } = where;
  const isOperator = OPERATIONS.has(token.text), isOperand = BEFORE_OPERAND.has(before?.text);
  if (token.text === "-" && before?.text !== "(" && isOperand) return cause(
    "there is no minus before a variable or a bracket", next.kind === "variable" ? `write 0 - ${next.text}` : "write 0 - (..)");
  const isSigned = token.text.startsWith("-") && token.kind === "integer";
  if (depth > 0 && (isOperator || isSigned)) return expressionWithin(where);
  if (isOperator && has(clause, "=")) return cause(NO_SUM, OwnWords.computed(where));
  if (token.text === ":=") return cause("only a variable stands before :=", OwnWords.turnedRound(where));
  if (token.kind === "name" && isCompared(here)) return cause(
    `${quoted(token)} is no number, and only numbers are compared`, OwnWords.comparedTerm(where));
  if (token.kind !== "name" || !isOperand || !computes(here)) return undefined;
  if (next.text === "(" && before.text !== "|") return cause(
    `${token.text} is no operator, and nothing computes it`, `let a process give the value: ${token.text}(..,V), and then X := V`, "to name a term write =");
  return cause(
    `${quoted(token)} is no number`, "an expression has variables, integers, + - * / mod and brackets; to name a term write =");
}

/** May the last goal before a guard's bar be a test? An expression without a comparison is none. */
function isTest({ here, depth }) {
  const end = here.length, { from } = Tokens.rangeAt(here, { from: end, to: end }, 0, [",", ":-"]);
  const goal = here.slice(from);
  const isExpression = goal[0]?.kind === "integer" || (goal.length > 1 && has(goal, ...OPERATIONS));
  return from === 0 || !isExpression || hasComparison(goal) || depth > 0;
}

function bars(where) {
  const { token, before, here, open, hasBar } = where;
  const isList = open?.text === "[", hasTail = isList && Tokens.barOutside(here, here.indexOf(open) + 1) >= 0;
  const isBar = token.text === "|";
  if (isBar && before?.text === ":-") return cause("the guard is empty", "write true |, or leave out the bar too");
  if (hasTail && isOneOf(token, "|", ",") && endsTerm(before)) return cause("one tail stands after the bar of a list", "[A,B|C], and not [A|B|C]");
  if (isList && token.text === "]" && before.text === "|") return cause("no tail stands after the bar of the list", "write it, as [A|X], or drop the bar");
  if (isBar && before?.text === "[") return cause("a term is expected after '['", "write it, or drop the mark");
  if (isBar && !isTest(where)) return cause("an expression is no test", OwnWords.comparedGoal(where));
  if (isBar && before?.kind === "variable") return cause(`${quoted(before)} is no test`, `to wait until it is bound write wait(${before.text})`);
  return isBar && hasBar && cause(
    "a second bar in one clause", "a clause is head :- guard | body. with one bar: all tests stand before it");
}

/** An expression and `=` before the bar: a comparison is meant. */
function equationInGuard(where) {
  const { token, here, later, depth, hasBar } = where;
  if (depth > 0 || hasBar || Tokens.barOutside(later) < 0) return undefined;
  const isLater = OPERATIONS.has(token.text) && has(goalAfter([",", ":-"], here), "=");
  return (token.text === "=" ? !isTest(where) : isLater) && cause("= does not compare", OwnWords.comparedSides(where));
}

const comparisonAfterBar = ({ isComparison, hasBar, later }) => isComparison && hasBar && has(later, "|") && cause(
  "a comparison stands after the first bar",
  "a clause has one bar: all tests stand before it, with commas, as true, X > 0 |");

function comparison(where) {
  const { token, before, here, isQuery, tokens, place, open, isComparison } = where;
  const isChained = isComparison && COMPARISONS.has(tokens[place - 2]?.text);
  if (isChained) return cause("a comparison has two sides", OwnWords.twoComparisons(where));
  const ends = token.kind === "end" || isOneOf(token, ".", ",");
  if (before === undefined || !(isComparison || (ends && hasComparison(here)))) return undefined;
  const isGrouped = open?.text === "(" && here[here.indexOf(open) - 1]?.kind !== "name";
  if (isGrouped && isComparison) return cause(GROUPS, "write the tests without them, with commas between them");
  if (isQuery) return cause(
    "a comparison stands in the query", "comparisons are tests of clauses; to compute write Y := X + 1, and look at it by `show`");
  const at = isComparison ? token : here.find(({ text }) => COMPARISONS.has(text));
  return { at, ...cause(
    "a comparison stands in the body", OwnWords.beforeBar(where, at), "a clause without a bar has the guard true, and all of it is body") };
}

function brackets({ token, before, depth, open, opened: where }) {
  const missing = open?.text === "(" ? ")" : "]", isClosing = isOneOf(token, ")", "]");
  const ends = isOneOf(token, ".", ":-") || (token.text === "|" && open?.text === "(");
  if (ends && depth > 0) return cause(`${where} is not closed`, `missing: ${missing}`);
  if (isClosing && open === undefined) return cause(
    `${quoted(token)} closes nothing`, "there is one bracket too many, or one before it is missing");
  if (isClosing && missing !== token.text) return cause(`${quoted(token)} does not close ${where}`, `missing: ${missing}`);
  if (isClosing && before?.text === "(") return cause(
    "no arguments stand between the brackets", "an atom, or a goal without arguments, has no brackets");
  return token.text === "(" && before?.text === "(" && cause(GROUPS, "write the term without them");
}

/** What belongs to clauses stands in a query. */
function clauseInQuery({ token, isQuery, depth, example }) {
  const title = token.text === ":-" ? "a clause stands in the place of a query" : "a query has no guard";
  return isQuery && depth <= 0 && isOneOf(token, ":-", "|") && cause(title, goalsAs(example));
}

/** A second `:-` where a clause has not ended: most often a comma in the place of a full stop. */
function secondNeck({ token, hasNeck, tokens, place }) {
  if (token.text !== ":-" || !hasNeck) return undefined;
  const at = Tokens.callBefore(tokens, place), head = tokens[at], mark = tokens[at - 1];
  const cure = mark?.text === "," ? `is a full stop meant in place of the comma before ${quoted(head)} in line ${head.line}?` : "a clause ends with a full stop: is one missing?";
  return cause("a second :- in one clause", cure);
}

/** A head is one call, and then comes `:-` or the full stop. */
function afterHead({ token, isQuery, depth, before, hasNeck, isComparison }) {
  const isHead = !isQuery && depth <= 0 && !hasNeck && endsTerm(before);
  if (!isHead || !(isComparison || isOneOf(token, ",", "|", "=", ":="))) return undefined;
  return cause(`${quoted(token)} cannot follow the head of a clause`, `is :- missing? ${CLAUSE}`);
}

/** What stands within brackets is terms with commas between them. */
function withinBrackets({ token, before, here, depth, open, isComparison }) {
  if (depth === 0) return undefined;
  const binds = isOneOf(token, "=", ":=");
  if (binds && here[here.indexOf(open) - 1]?.text === "not") return cause(...Habits.WORDS.not);
  if (binds || isComparison) return cause("an argument is a term, and no goal or test", "write the goal before or after this one, with a comma between them");
  if (isOneOf(before, "(", "[") && isOneOf(token, ",", "|")) return cause(`a term is expected after ${quoted(before)}`, "write it, or drop the mark");
  return before?.text === "(" && token.kind === "name" && cause(GROUPS, "write goals and terms without them");
}

function streams({ token, isQuery }) {
  if (token.text !== "instream") return undefined;
  if (isQuery) return cause("instream takes a variable", "write instream(S), and feed it by `in 1 TERM`");
  return cause("instream stands in queries alone", "give the process a variable, and write instream(S) in the query");
}

/** A name that is written with a hyphen, as my-pred. */
function hyphen({ token, before, next }) {
  const isBetween = before?.kind === "name" && next.kind === "name" && touches(before, token) && touches(token, next);
  return token.text === "-" && isBetween && cause("a name has no hyphen", `write ${before.text}_${next.text}`);
}

function neighbours(where) {
  const { token, before } = where;
  if (token.kind === "variable" && before?.kind === "name" && before.line === token.line) return cause(
    `${quoted(token)} cannot follow ${quoted(before)}`, `arguments stand in brackets: ${before.text}(${token.text})`);
  if (token.text === "(" && before?.kind === "variable") return cause(`${before.text} is a variable, and names nothing that has arguments`, `names begin with a small letter: ${before.text[0].toLowerCase()}${before.text.slice(1)}(..)`);
  const begins = ["name", "variable", "integer"].includes(token.kind) || isOneOf(token, "(", "[");
  return endsTerm(before) && begins && cause(`${quoted(token)} cannot follow ${quoted(before)}`, missingBetween(where));
}

/** What is missing between two tokens: the bar after a comparison; in a new line a comma where it is indented and begins no clause, else a full stop. */
function missingBetween({ token, before, isQuery, here, later, tokens, place, depth, hasBar }) {
  const isBare = !hasBar && Tokens.barOutside(later) < 0, last = goalAfter([",", ":-"], here);
  if (!isQuery && isBare && depth === 0 && hasComparison(last)) return `is the bar missing after ${quoted(before)}? ${CLAUSE}`;
  if (before.line === token.line || isQuery) return "a comma or an operator is missing";
  const isGoal = token.column > here[0].column && tokens[Tokens.endOfCall(tokens, place) + 1]?.text !== ":-";
  return `is there a ${isGoal ? "comma" : "full stop"} missing after ${quoted(before)} in line ${before.line}?`;
}

function variableAsGoal({ token, before, tokens, place, depth }) {
  const isEnd = isOneOf(token, ".", ",") || token.kind === "end";
  const isGoal = [",", "|", ":-", undefined].includes(tokens[place - 2]?.text);
  return depth <= 0 && before?.kind === "variable" && isEnd && isGoal && cause(
    `the variable ${before.text} is no goal`,
    "goals are calls, as p(X), and X = Y, X := E; there is no call of a term");
}

function afterMark(where) {
  const { token, before, isQuery, later, example } = where;
  if (before?.text === ",") return cause(
    `a goal or a term is expected after the comma, and ${quoted(token)} is none`, "drop the comma, or write what is missing");
  const opens = token.text === "(", isEquation = opens && before?.text === "=";
  if (opens && hasArrow(later)) return cause(NO_IF, OwnWords.twoClauses(where));
  if (isEquation && has(Tokens.partsOf(later)[0], ...OPERATIONS)) return cause(NO_SUM, OwnWords.computed(where));
  if (opens && isOneOf(before, ":-", "|")) return cause(GROUPS, "write the goals without them, with commas between them");
  if (isEquation) return cause(GROUPS, "a pair is a structure, as pair(1,2)");
  if (isOneOf(before, "=", ":=")) return cause(
    `${quoted(token)} cannot stand after ${quoted(before)}`, before.text === "=" ? "a term stands there, as [A|X]" : "an expression stands there, as X + 1; to name a term write =");
  const goesOn = isQuery ? goalsAs(example) : CLAUSE;
  return isOneOf(before, ":-", "|") && cause(`no goal begins with ${quoted(token)}`, goesOn);
}

function anything({ token, before, isQuery, example }) {
  return cause(`${quoted(token)} cannot stand here${before === undefined ? "" : `, after ${quoted(before)}`}`, isQuery ? goalsAs(example) : CLAUSE);
}

// What each rule tells of the surroundings is a cause, or nothing: undefined or false.
const RULES = [
  declaration, blockComment, badToken, splitMark, semicolon, markInPlace, foreignMark, arrow, foreignPair, hyphen,
  commentInExpression, numbers, equationInGuard, comparisonAfterBar, comparison, variableAsGoal, endOfText, streams,
  beginning, foreignWord,
  clauseInQuery, secondNeck, bars, arithmetic, brackets, afterHead, withinBrackets, neighbours, afterMark, anything,
];

/** The cause of a refusal at a place of a text: its title, its hints, and the token at which it stands. */
function causeOf(text, place, isQuery, program = text) {
  const where = surroundings(text, place, isQuery, program);
  for (const rule of RULES) {
    const found = rule(where);
    if (!found) continue;
    const { after, at = where.token, title, hints } = found;
    const token = after === undefined ? at : { line: after.line, column: after.column + after.text.length, text: " " };
    return { title, hints: hints.map((hint) => OwnWords.fill(hint, where.clause, where.here.length)), token };
  }
  return undefined;
}

export { causeOf };
