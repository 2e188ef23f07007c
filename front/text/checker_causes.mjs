// Why a text that reads well is refused: a guard that is no test (F3), a variable twice in a head (F4), a predicate without clauses
// (F5). Pure.
import * as Tokens from "./tokens.mjs";
import * as Reader from "./reader.mjs";
import * as Habits from "./habits.mjs";
import * as Nearest from "./nearest.mjs";
import * as Cures from "./cures.mjs";
import * as OwnWords from "./own_words.mjs";
import { plural } from "./plural.mjs";

const TESTS = ["true", "wait", "integer", "atom", "list"];
const ALL_TESTS = "the tests are true, wait(X), integer(X), atom(X), list(X), and < =< > >= =:= =\\= between expressions";

const causeAt = (token, title, ...hints) => ({ token, title, hints });

/** Where a clause's guard begins and ends. */
function guardOf(clause) {
  const start = clause.findIndex(({ text }) => text === ":-") + 1, bar = Tokens.barOutside(clause, start);
  return { start, end: bar < 0 ? clause.length : bar };
}

const NO_BINDING = "a guard binds nothing: = and := stand in the body";
const VALUE = "to test for a value write it in the head, as {VALUE} :- ..";
const NUMBER = `${VALUE}, or compare numbers by =:=, as {X} =:= {Y}`;
const ALIKE = "to compare numbers write {X} =:= {Y}; other terms have no test of equality: write a clause for each value, as {VALUE} :- ..";
const NOT_THERE_YET = "a guard tests what the goal brings; what the body makes is not there yet";

/** How a predicate that stands in a clause's guard as a test is asked instead. */
function askInstead(clause, place) {
  const answer = Cures.newName("A", clause), head = Cures.textOf(Tokens.headOf(clause));
  const call = Cures.textOf(clause.slice(place, Tokens.endOfCall(clause, place) + 1));
  const start = "let a process answer, and wait for its answer";
  if (head === undefined || call === undefined) return start;
  const asked = call.endsWith(")") ? `${call.slice(0, -1)},${answer})` : `${call}(${answer})`;
  return `${start}: ${head} :- true | ${asked}, ${clause[0].text}1(${answer}).`;
}

/** The cause of an equation in a guard: to compare with a value, or two variables with each other. */
function bindingInGuard(clause, place) {
  const [, right = ""] = OwnWords.sidesOf(clause, { from: place, to: place + 1 });
  const hint = /^[A-Z_]/.test(right) ? ALIKE : /^-?\d/.test(right) ? NUMBER : VALUE;
  return causeAt(clause[place], NO_BINDING, OwnWords.fill(hint, clause, place));
}

/** The arguments of two clauses' heads side by side, each as its tokens. */
function besideEachOther(clause, other) {
  const others = Tokens.argumentsOf(other);
  return Tokens.argumentsOf(clause).map((argument, place) => ({ argument, beside: others[place] }));
}

const isLone = (argument, kind) => argument.length === 1 && argument[0].kind === kind && argument[0].text !== "_";

/** A test of a clause that says yes where another clause with a number in its head, or one comparison, says no. */
function oppositeTo(clause, other) {
  const pairs = besideEachOther(clause, other), { start, end } = guardOf(other), guard = other.slice(start, end);
  const numbers = pairs.filter(({ argument, beside }) => isLone(argument, "variable") && isLone(beside, "integer"));
  const areOnly = pairs.every(({ beside }) => beside.length === 1 && (beside[0].kind === "variable" || beside[0].kind === "integer"));
  if (!areOnly || numbers.length > 1) return undefined;
  if (numbers.length === 1) return guard.length === 1 ? `${numbers[0].argument[0].text} =\\= ${numbers[0].beside[0].text}` : undefined;
  const named = pairs.filter(({ argument, beside }) => isLone(argument, "variable") && isLone(beside, "variable"));
  const names = new Map(named.map(({ argument, beside }) => [beside[0].text, argument[0]]));
  if (guard.some(({ kind, text }) => kind === "variable" && !names.has(text))) return undefined;
  return Cures.oppositeOf(guard.map((token) => names.get(token.text) ?? token));
}

/** What says yes where no other clause of the predicate does: in words, where it can be told of all of them. */
function oppositeOf(clauses, clause) {
  const predicate = Tokens.predicateAt(clause, 0), isBeside = (other) => Tokens.predicateAt(other, 0) === predicate;
  const others = clauses.filter((other) => other !== clause && isBeside(other));
  const tests = others.map((other) => oppositeTo(clause, other));
  return tests.length > 0 && !tests.includes(undefined) ? `: ${[...new Set(tests)].join(", ")}` : undefined;
}

/** What is wrong with the test that begins at a place of a clause, outside of all brackets; undefined where nothing is. */
function badTest(clauses, clause, place) {
  const token = clause[place], { text } = token, arity = Tokens.arityAt(clause, place);
  if (text === "=") return bindingInGuard(clause, place);
  if (text === ":=") return causeAt(token, NO_BINDING, "compute in the body; to compare numbers write =:=");
  if (token.kind !== "name" || text === "mod") return undefined;
  if (Object.hasOwn(Habits.TESTS, text)) {
    const more = { OPPOSITE: oppositeOf(clauses, clause) };
    return causeAt(token, ...Habits.TESTS[text].map((told) => OwnWords.fill(told, clause, place, more)));
  }
  const near = TESTS.includes(text) ? text : Nearest.nearest(text, TESTS);
  if (near === undefined) return causeAt(token, `${text}/${arity} is no test`, ALL_TESTS, askInstead(clause, place));
  if (near !== text) return causeAt(token, `${text}/${arity} is no test`, `is it ${near}?`, ALL_TESTS);
  if (text === "true") return arity === 0 ? undefined : causeAt(token, "true takes no argument", "as true");
  const isRight = arity === 1 && clause[place + 2].kind === "variable";
  return isRight ? undefined : causeAt(token, `${text} takes one variable of the head`, `as ${text}(X)`);
}

function badVariable(token, head) {
  if (token.kind !== "variable" || head.has(token.text)) return undefined;
  return causeAt(token, token.text === "_" ? "a lone _ stands for a new variable" : `${token.text} does not stand in the head`, NOT_THERE_YET);
}

/** F3: the first test of a clause that is none, or the first variable of its guard that the head does not have. */
function notFlat(tokens, number) {
  const clauses = Tokens.clausesOf(tokens), clause = clauses[number - 1], { start, end } = guardOf(clause);
  const head = new Set(clause.slice(0, start).filter(({ kind, text }) => kind === "variable" && text !== "_").map(({ text }) => text));
  const levels = Tokens.levelsOf(clause.slice(start, end));
  let found;
  for (let place = start; place < end && found === undefined; place += 1) {
    const isOutside = levels[place - start] === 0;
    found = (isOutside ? badTest(clauses, clause, place) : undefined) ?? badVariable(clause[place], head);
  }
  found ??= causeAt(clause[start] ?? clause[0], "this guard is no test", ALL_TESTS);
  return { ...found, title: `not flat, clause ${number}: ${found.title}` };
}

/** For each predicate and place of an argument the clause whose body binds that argument, a variable of its head. */
function bindersOf(clauses) {
  const binders = new Map();
  for (const { head, body, predicate, number } of clauses) {
    const places = new Map(head.arguments.map(({ variable }, place) => [variable, place]));
    for (const { left } of body) {
      if (left?.variable === undefined || !places.has(left.variable)) continue;
      binders.set(`${predicate} ${places.get(left.variable)}`, number);
    }
  }
  return binders;
}

/** The places of a predicate's arguments that a body may bind, since the head's variable stands on the right of an `=`. */
function boundFromRight(clauses, predicate) {
  const places = new Set();
  for (const { head, body } of clauses.filter((clause) => clause.predicate === predicate)) {
    const rights = body.filter(({ sort }) => sort === "unification").map(({ right }) => right.variable);
    head.arguments.forEach(({ variable }, place) => variable !== undefined && rights.includes(variable) && places.add(place));
  }
  return places;
}

/**
 * What a variable is that stands twice in a head, in the arguments at these places: a result where a body binds one that
 * it is, a part of one where it stands within, a test where bodies bind others alone; undefined where nothing tells.
 * @returns {{ role?: string, place?: number }}
 */
function roleOf(clauses, { head, predicate }, name, places) {
  const binders = bindersOf(clauses), right = boundFromRight(clauses, predicate);
  const bound = places.filter((place) => binders.has(`${predicate} ${place}`));
  if (bound.some((place) => head.arguments[place].variable === name)) return { role: "result" };
  if (bound.length > 0) return { role: "part", place: bound.at(-1) };
  const hasResult = [...binders.keys()].some((key) => key.startsWith(`${predicate} `));
  return { role: hasResult && !places.some((place) => right.has(place)) ? "test" : undefined };
}

const BUILDS_NOTHING = "a head builds nothing";
const NO_EQUALITY = "other terms have no test of equality: write a clause for each value";

/** How a body makes what a head cannot: an argument of the head, at its place. */
function bindInBody(tokens, place) {
  const built = Cures.newName("A", tokens), text = Cures.textOf(Tokens.argumentsOf(tokens)[place]) ?? "..";
  return `write ${built} for argument ${place + 1}, and ${built} = ${text} in the body`;
}

/** The clauses of a predicate whose heads have something else than a variable at a place. */
function readersOf(clauses, predicate, place) {
  return clauses.filter((clause) => clause.predicate === predicate && clause.head.arguments[place].variable === undefined);
}

/** Where a head would have to build an argument: that its body does, and the other clauses with such a head. */
function buildInBody(clauses, number, tokens, place) {
  const readers = readersOf(clauses, clauses[number - 1].predicate, place).map((other) => other.number);
  const others = readers.filter((one) => one !== number);
  return `${bindInBody(tokens, place)}${others.length === 0 ? "" : `; so also in clause ${others.join(", ")}`}`;
}

/**
 * The cures of a variable that stands twice in a clause's head, by what it is.
 * @param {object[]} clauses
 * @param {number} number
 * @param {object[]} tokens of the clause
 * @param {string} name
 * @param {{ role?: string, place?: number, within?: number }} what
 */
function curesOf(clauses, number, tokens, name, { role, place, within }) {
  const other = Cures.newName(name, tokens), head = Tokens.headOf(tokens);
  const value = Cures.textOf(head.map((token) => (token.text === name ? { text: "a" } : token)));
  const bind = `name the second one ${other}, and write ${other} = ${name} in the body`;
  const compare = `name the second one ${other}, and write ${name} =:= ${other} in the guard`;
  const values = `${NO_EQUALITY}${value === undefined ? "" : `, as ${value} :- ..`}`;
  if (role === "part") return [`${BUILDS_NOTHING}: ${buildInBody(clauses, number, tokens, place)}`];
  if (role === "result") return [`a head binds nothing: ${bind}`];
  if (role === "test") return [`to compare numbers ${compare}`, values];
  const result = within === undefined ? bind : `${BUILDS_NOTHING}: ${buildInBody(clauses, number, tokens, within)}`;
  return [`is it a result? ${result}`, `is it a test of numbers? ${compare}`, values];
}

/** F4: the second place of the variable in the head. */
function notLinear(tokens, name, number, program) {
  const clause = Tokens.clausesOf(tokens)[number - 1], token = clause.filter(({ text }) => text === name)[1];
  const clauses = Reader.readProgram(program), given = Tokens.argumentsOf(clause);
  const places = given.flatMap((argument, place) => (argument.some(({ text }) => text === name) ? [place] : []));
  const second = places.find((place) => given[place].includes(token)), within = given[second].length > 1 ? second : undefined;
  const what = { ...roleOf(clauses, clauses[number - 1], name, places), within }, cures = curesOf(clauses, number, clause, name, what);
  return causeAt(token, `not linear, clause ${number}: ${name} stands twice in the head`, ...cures);
}

/** The first call of a predicate in a text; its first token where there is none. */
function callIn(tokens, name, arity, isQuery) {
  const isGoal = (place) => (isQuery && place === 0) || [",", "|", ":-"].includes(tokens[place - 1]?.text);
  const levels = Tokens.levelsOf(tokens), isOutside = (place) => levels[place] === 0;
  const isMeant = (token, place) => token.text === name && Tokens.arityAt(tokens, place) === arity;
  return tokens.find((token, place) => isMeant(token, place) && isGoal(place) && isOutside(place)) ?? tokens[0];
}

/** F5: the call, and which predicate may have been meant. */
function undefinedCall(program, tokens, name, arity, isQuery) {
  const defined = [...new Set(Tokens.clausesOf(program).map((clause) => Tokens.predicateAt(clause, 0)))];
  const near = Nearest.predicatesNamed(name, defined), isSame = near[0]?.startsWith(`${name}/`);
  const hints = [];
  if (near.length > 0) hints.push(`there is ${near.join(", ")}: is ${isSame ? "an argument missing, or one too many" : "it that"}?`);
  if (Object.hasOwn(Habits.PREDICATES, name)) hints.push(Habits.PREDICATES[name]);
  if (hints.length === 0) hints.push(defined.length === 0 ? "the program has no clause" : `defined are: ${defined.slice(0, 12).join(", ")}${defined.length > 12 ? ", .." : ""}`);
  return causeAt(
    callIn(tokens, name, arity, isQuery), `undefined: no clause has the head ${name} with ${plural(arity, "argument")}`, ...hints);
}

export { notFlat, notLinear, undefinedCall, bindersOf, bindInBody, buildInBody, readersOf };
