// Texts that say why: after a refusal of a program, a query or a line the place, the cause in a reader's words, and what to write
// instead; and notes on texts that are accepted but seldom meant. Nothing is refused or accepted here. Pure.
//
// A cause is `{ which, line, column, length, title, hints }`: `which` is the text's name, the column counts bytes from 1.
import * as Tokens from "./tokens.mjs";
import * as Reader from "./reader.mjs";
import * as SyntaxCauses from "./syntax_causes.mjs";
import * as CheckerCauses from "./checker_causes.mjs";
import * as Nearest from "./nearest.mjs";
import * as Cures from "./cures.mjs";

const caused = (which, { token, title, hints }) => ({ which, line: token.line, column: token.column, length: Math.max(1, token.text.length), title, hints });

/** The cause of a refusal such as `F2 syntax at 1:8`, of a text; undefined where there is nothing to say. */
function causeOf(refusal, { text, which, isQuery = false, program = text }) {
  const [, rest] = /^F\d+ (.*)$/.exec(refusal) ?? [];
  const syntax = /^syntax at (\d+):(\d+)$/.exec(rest), clause = /^not flat in clause (\d+)$/.exec(rest);
  const twice = /^variable (\w+) repeated in the head of clause (\d+)$/.exec(rest), call = /^undefined (\w+)\/(\d+)$/.exec(rest);
  if (syntax) {
    const found = SyntaxCauses.causeOf(text, { line: Number(syntax[1]), column: Number(syntax[2]) }, isQuery, program);
    return caused(which, { ...found, title: `syntax: ${found.title}` });
  }
  const tokens = Tokens.tokensOf(text);
  if (clause) return caused(which, CheckerCauses.notFlat(tokens, Number(clause[1])));
  if (twice) return caused(which, CheckerCauses.notLinear(tokens, twice[1], Number(twice[2]), text));
  return call ? caused(which, CheckerCauses.undefinedCall(Tokens.tokensOf(program), tokens, call[1], Number(call[2]), isQuery)) : undefined;
}

const said = (title, ...hints) => ({ title: `syntax: ${title}`, hints });

/** What is said of what stands after a whole term. */
function afterTerm({ text }) {
  if (text === ".") return said("no full stop stands after a term", "drop it");
  if (Tokens.OPERATORS.has(text) || text.startsWith("-")) return said("a term is not computed", "feed the value");
  return said("one term is fed at a time", "feed the next one by another `in`");
}

/** What is said of the place at which an input term ends too early. */
function atTermsEnd(open) {
  if (open === undefined) return said("the term ends too early", "write a term, as f(a,[1,2])");
  return said("the term ends within brackets", `'${open.text}' of column ${open.column} is not closed`);
}

const NO_VARIABLES = said("an input term has no variables", "`ask` adds goals, in which variables may stand");

/** The cause at a place of an input term, where a query's words would mislead; undefined where they fit. */
function causeInTerm(text, column) {
  const tokens = Tokens.tokensOf(text), place = Tokens.placeOf(tokens, { line: 1, column }), token = tokens[place];
  if (token === undefined || token.kind === "wrong") return undefined;
  const open = Tokens.openBrackets(tokens.slice(0, place)).at(-1), tell = (what) => caused("in", { token, ...what });
  if (token.kind === "variable") return tell(NO_VARIABLES);
  if (token.kind === "end") return tell(atTermsEnd(open));
  return place > 0 && open === undefined ? tell(afterTerm(token)) : undefined;
}

const bytesOf = (text) => new TextEncoder().encode(text);
const lineOf = (text, line) => (text.split("\n")[line - 1] ?? "").replace(/\r$/, "");

/** Where a cause stands in its line, in letters as JavaScript counts them, from 1. */
const letterOf = ({ line, column }, text) => new TextDecoder().decode(bytesOf(lineOf(text, line)).slice(0, column - 1)).length + 1;

const WIDEST = 160, AROUND = 60; // letters: of a line that is shown whole, and that are shown before and after the place in a longer one

/** What is shown of a line, and how much of that stands before the place. */
function shownOf(source, before, length) {
  if (source.length <= WIDEST) return { source, before: source.slice(0, before) };
  const from = Math.max(0, before - AROUND), to = before + length + AROUND, start = from > 0 ? ".. " : "";
  return { source: `${start}${source.slice(from, to)}${to < source.length ? " .." : ""}`, before: start + source.slice(from, before) };
}

const visible = (source) => source.replace(/[\x00-\x08\x0b-\x1f\x7f]/g, "\ufffd"); // so that a text cannot give a terminal orders

/** The lines that show a cause: title, place, the text's line with a caret, hints. */
function linesOf(cause, text) {
  const { which, line, column, length, title, hints } = cause, shown = shownOf(lineOf(text, line), letterOf(cause, text) - 1, length);
  const number = String(line), margin = " ".repeat(number.length);
  return [
    title, `${margin}--> ${which}:${line}:${column}`, `${margin} |`, `${number} | ${visible(shown.source)}`, `${margin} | ${shown.before.replace(/[^\t]/g, " ")}${"^".repeat(length)}`,
    ...hints.map((hint) => `${margin} = ${hint}`),
  ];
}

const UNUSED = "what nobody else names is read or bound by nobody";

const lettersOf = (name) => name.replace(/(?<!\d)\d+$/, "");
const mayBeMeant = (name, other) => name.length > 2 && other.length > 2 && lettersOf(name) !== lettersOf(other);

/** The assignments of a clause that wait for what they are to bind: the place of the variable, and the right side. */
function ownSums(clause) {
  return clause.flatMap(({ text }, place) => {
    if (text !== ":=") return [];
    const right = clause.slice(place + 1), end = right.findIndex((token) => token.text === "," || token.text === ".");
    const isOwn = right.slice(0, end).some((token) => token.kind === "variable" && token.text === clause[place - 1].text);
    return isOwn ? [{ place: place - 1, right: right.slice(0, end) }] : [];
  });
}

/** The tokens whose text no other one has. */
function standingOnce(tokens) {
  const counts = new Map();
  for (const { text } of tokens) counts.set(text, (counts.get(text) ?? 0) + 1);
  return tokens.filter(({ text }) => counts.get(text) === 1);
}

/** The lone variables that are meant in assignments of a like name, as F1 in F := N * F. */
function meantInSums(clause, lone) {
  return ownSums(clause).flatMap(({ place }) => lone.filter(({ text }) => lettersOf(text) === lettersOf(clause[place].text)).slice(0, 1));
}

/** What is written instead of an assignment that waits for what it is to bind. */
function cureOfSum(clause, { place, right }) {
  const { text } = clause[place], isLike = (other) => lettersOf(other.text) === lettersOf(text);
  const meant = standingOnce(clause).find((token) => token.kind === "variable" && isLike(token));
  const told = (name, tokens) => `${name} := ${Cures.textOf(tokens) ?? ".."}`;
  if (meant === undefined) return `a variable gets one value; name a new one: ${told(Cures.newName(text, clause), right)}`;
  return `a variable gets one value; is ${meant.text} meant? ${told(text, right.map((token) => (token.text === text ? meant : token)))}`;
}

const MOST_COMPARED = 100_000; // pairs of names of a clause among which one that was mistyped is looked for

/** Notes on the variables of a clause that stand once in it. */
function loneVariables(clause, number) {
  const all = clause.filter(({ kind, text }) => kind === "variable" && !text.startsWith("_"));
  const lone = standingOnce(all), isMeant = new Set(meantInSums(clause, lone));
  const textsOf = (tokens) => tokens.map(({ text }) => text);
  const names = [...textsOf(lone), ...new Set(textsOf(all))]; // two that stand once may be meant to be one
  const areFew = lone.length * names.length <= MOST_COMPARED;
  return lone.map((token) => {
    const near = areFew ? Nearest.nearest(token.text, names.filter((name) => mayBeMeant(token.text, name))) : undefined;
    const other = isMeant.has(token) ? UNUSED : `${UNUSED}; write _ where that is meant`;
    const hint = near === undefined ? other : `is it ${near}? ${UNUSED}`;
    return { token, title: `${token.text} stands once in clause ${number}`, hint };
  });
}

const NOBODYS = "each _ is a variable of its own: give the value a name, and use that";

/** Notes on assignments whose value nobody gets. */
function lostValues(clause, number) {
  const lost = clause.filter(({ text }, place) => text === "_" && clause[place + 1]?.text === ":=");
  return lost.map((token) => ({ token, title: `nobody gets what _ := computes in clause ${number}`, hint: NOBODYS }));
}

/** Notes on assignments that wait for what they are to bind. */
function waitingSums(clause, number) {
  return ownSums(clause).map((sum) => {
    const token = clause[sum.place], title = `${token.text} stands on both sides of := in clause ${number}`;
    return { token, title, hint: cureOfSum(clause, sum) };
  });
}

const APART = "clauses of one predicate are read more easily side by side";

/** Notes on predicates whose clauses stand apart. */
function scattered(clauses) {
  const seen = new Map();
  return clauses.flatMap((clause, place) => {
    const predicate = Tokens.predicateAt(clause, 0), last = seen.get(predicate) ?? place;
    const title = `clause ${place + 1} of ${predicate} stands apart from clause ${last}`;
    seen.set(predicate, place + 1);
    return last === place ? [] : [{ token: clause[0], title, hint: APART }];
  });
}

/**
 * Notes on results that stand in a head, which binds nothing, where another clause of the predicate binds that
 * argument in its body; `all` are the clauses' tokens.
 */
function resultsInHeads(program, all) {
  const clauses = Reader.readProgram(program), binders = CheckerCauses.bindersOf(clauses);
  return clauses.flatMap(({ head, predicate, number }) => head.arguments.flatMap(({ variable }, place) => {
    const binder = variable === undefined ? binders.get(`${predicate} ${place}`) : undefined, tokens = all[number - 1];
    if (binder === undefined) return [];
    const cure = CheckerCauses.bindInBody(tokens, place);
    const hint = `a head binds nothing; clause ${binder} binds that argument in its body: ${cure}`;
    return [{ token: tokens[0], title: `clause ${number} waits until argument ${place + 1} is bound`, hint }];
  }));
}

/** The notes on a program that was accepted, in the order of its text. */
function notesOn(program, which) {
  const clauses = Tokens.clausesIn(program);
  const eachOf = (notesIn) => clauses.flatMap((clause, place) => notesIn(clause, place + 1));
  const within = [loneVariables, lostValues, waitingSums].flatMap(eachOf);
  return [...within, ...resultsInHeads(program, clauses), ...scattered(clauses)]
    .map(({ token, title, hint }) => caused(which, { token, title: `note: ${title}`, hints: [hint] }))
    .sort((one, other) => one.line - other.line || one.column - other.column);
}

export { causeOf, causeInTerm, notesOn, linesOf, letterOf };
