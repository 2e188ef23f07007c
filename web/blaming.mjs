// The place "Why?": what a call was given and gave, side by side, with two buttons that answer `blame`'s question; and its verdict, the wrong clause.
import * as BlameLines from "../front/protocol/blame_lines.mjs";
import { questionsLeft } from "../front/run/blame_words.mjs";
import { OpenQuestion } from "../front/run/open_question.mjs";
import * as Terms from "../front/run/terms.mjs";
import * as Printed from "../front/text/printed.mjs";
import Deeds from "./deeds.mjs";
import { find, make, closeButton, joined, ringing, link, goTo, goToGoal } from "./elements.mjs";
import * as Names from "./names.mjs";
import OnScreen from "./on_screen.mjs";
import * as Parts from "./parts.mjs";
import { pauses } from "./pausing.mjs";
import Shown from "./shown.mjs";
import State from "./state.mjs";
import * as Talk from "./talk.mjs";
import { plural } from "../front/text/plural.mjs";

const MOST_LETTERS = 2000, MOST_IN_LINE = 400; // of an argument that is shown on a side; of what stands within a line
const MOST_ASKS = 12; // that are named
const SLICE = 8; // milliseconds that the part of a call is looked for without a pause
let question = new OpenQuestion();
let asked = null; // the last question or verdict: its line, what its reply tells, and whether the verdict's step was rolled back
let leaving = null, left = null; // the session that is left to try a call alone; the one that was
let sought = 0; // how often a part was looked for

/** What is asked after a line: another question, the same one, or none where the run has changed. */
function askedAfter(entry) {
  if (!entry.note && BlameLines.isBlame(entry.line)) {
    const { line, reply } = entry;
    if (!BlameLines.isQuestion(reply) && !BlameLines.isVerdict(reply)) return asked;
    question.take(line, reply);
    return { line, told: question.told, isRolled: false };
  }
  if (!State.mayChange(entry) || State.isRefused(entry)) return asked;
  const isRoll = asked !== null && asked.told.fault !== null && entry.line.trim() === `roll ${asked.told.fault.step}`;
  return isRoll ? { ...asked, isRolled: true } : null;
}

/** After lines: shows the last question or verdict; a line that changes the run closes it, but for the one that rolls back the wrong step. */
function show(what, fresh) {
  const before = asked;
  if (what !== "lines") asked = null;
  if (what === "start") {
    question = new OpenQuestion();
    left = leaving;
    leaving = null;
  }
  for (const entry of fresh) asked = askedAfter(entry);
  if (asked !== before || what !== "lines") fill();
  if (asked !== null && asked !== before && question.isTrusted) Talk.send(question.lineByTrust());
  else if (asked !== null && asked !== before) point();
  else if (asked !== null && Shown.chosen === null) light();
}

const fill = () => Names.fill("blame", asked !== null ? askedParts() : left !== null ? aloneParts() : []);

const titleRow = (...words) => make("div", { class: "blame-title" }, make("span", { role: "status" }, ...words), closeButton("blame-close", "Close the question"));
const answerRow = (...all) => make("div", { class: "buttons", role: "group", "aria-label": "Your answer" }, ...all);
const inCode = (text) => make("code", null, Terms.cut(text, MOST_IN_LINE));

function askedParts() {
  const { told, isRolled } = asked;
  if (isRolled) return rolledParts(told.fault);
  return told.ask !== null ? questionParts(told) : verdictParts(told);
}

/** The name of a call and its arguments. */
function apart(call) {
  const open = call.indexOf("(");
  return open < 0 ? { name: call, terms: [] } : { name: call.slice(0, open), terms: Printed.splitOutside(call.slice(open + 1, -1), ",") };
}

/** A call as one of two sides: an argument in which the other side differs stands out. */
function side(words, text, other) {
  const { name, terms } = apart(text), others = apart(other).terms, mark = (term, at) => make(term === others[at] ? "span" : "mark", null, Terms.cut(term, MOST_LETTERS));
  const inner = terms.flatMap((term, at) => [at > 0 ? "," : "(", mark(term, at)]);
  return make("div", { class: "side" }, make("b", null, words), make("div", { class: "call" }, name, ...inner, terms.length > 0 ? ")" : ""));
}

/** What a call was given and gave, side by side; of one that no step took how it stands. */
function sides({ given, gave, left: goal }) {
  if (given === null) return null;
  const right = gave !== null ? side("It gave", gave, given) : make("div", { class: "side" }, make("b", null, "It stands so"), make("div", { class: "call" }, goal === null ? "no step took it" : standing(goal)));
  return make("div", { class: "sides" }, side("The call was given", given, gave === null ? given : gave), right);
}

const standing = ({ status, waitsFor, refusal }) => (status === "failed" ? `it has failed (${refusal})` : status === "waits" ? `it waits for ${waitsFor.join(", ")}` : status);

/** What makes a question harder than its two sides tell: an order, goals that were asked for, a goal that is left. */
function warnings({ asked: asks, inTurns, left: goal, ask, fault }) {
  const own = ask !== null ? ask.goal : fault.goal;
  const named = joined(asks.slice(0, MOST_ASKS).map((step) => goTo(step)), ", ");
  return [
    goal !== null && goal.goal !== own ? make("p", null, "Goal ", goToGoal(goal.goal), ` came of it, and ${standing(goal)}.`) : null,
    inTurns ? make("p", null, "Some of what it was given came of what it gave before: judge by the order, too.") : null,
    asks.length > 0 ? make("p", null, "A goal that was asked for names a variable made within: step ", ...named, asks.length > MOST_ASKS ? ", …" : "", ".") : null,
  ].filter(Boolean);
}

/** What the two answers mean for this call. */
function hintFor({ ask, gave, left: goal }) {
  if (gave === null) return goal !== null && goal.status === "failed" ? "Right: no clause should answer this call. Wrong: one should." : "Right: it should wait. Wrong: a clause should have answered.";
  if (goal !== null && goal.goal !== ask.goal) return `Right: for what it was given, goal ${goal.goal} should stand so. Wrong: it should not.`;
  return "Right: it gave what it should, for what it was given. Wrong: it gave something else.";
}

function questionParts(told) {
  const { line } = asked, { goal, of } = told.ask, taker = OnScreen.takerOf(goal);
  const count = BlameLines.answersOn(line).length, about = count + questionsLeft(of);
  const answer = (isRight, id, key, words) => {
    const answered = BlameLines.answered(line, goal, isRight);
    return make("button", { id, "data-line": answered, title: `${answered} (key ${key})` }, words);
  };
  const by = taker === undefined ? "" : [", which step ", goTo(taker.number), ` took${taker.clause ? ` by clause ${taker.clause}` : ""}`];
  return [
    titleRow(make("b", null, "Is this right?"), ` Question ${count + 1} of about ${about}: call `, link({ id: "blame-light", title: "lights the part of this call" }, goal), ...by, ". ",
      make("span", { class: "dim" }, `Of ${plural(of, "call")} it is not known yet.`)),
    sides(told), ...warnings(told),
    answerRow(answer(true, "blame-right", "y", "Right"), answer(false, "blame-wrong", "n", "Wrong"), trustButton(),
      backButton(), make("span", { class: "dim" }, hintFor(told))),
  ].filter(Boolean);
}

/** Takes all calls of the predicate for right, this one and those that are asked about later. */
function trustButton() {
  const { predicate } = question;
  if (predicate === undefined) return null;
  const title = `this call and all others of ${predicate}`;
  return make("button", { id: "blame-trust", title }, `Always right: ${predicate}`);
}

function trust() {
  if (asked === null || question.goal === undefined) return;
  question.trusted.add(question.predicate);
  Talk.send(question.lineByTrust());
}

/** Takes back the last answer by hand, and those that trust gave after it. */
function backButton() {
  const line = question.lineBefore(), title = line === undefined ? "no answer was given by hand" : `${line} (key b)`;
  const given = { "data-line": line ?? asked.line, disabled: line === undefined, title };
  return make("button", { id: "blame-back", ...given }, "Take back");
}

/** The clauses of a call's predicate, as a part of the program, where they stand one after the other; else null. */
function clausesOf(call) {
  const all = State.run.clauses, name = Printed.predicateOf(call);
  const own = all.filter(({ predicate }) => predicate === name);
  const isOne = own.length > 0 && all.indexOf(own.at(-1)) - all.indexOf(own[0]) === own.length - 1;
  return isOne ? { from: own[0].from, to: own.at(-1).to } : null;
}

/** What is said of the verdict: what is wrong, and how one sees it. */
function verdictWords({ fault, left: goal, made }) {
  if (fault.step !== null) {
    const clause = State.run.clauses[fault.clause - 1], all = made.some(({ how }) => how === "gave") ? "all that its own calls gave is right" : "none of its own calls gave that";
    return [make("b", null, `Clause ${fault.clause} is wrong.`), " Step ", goTo(fault.step), ` took call ${fault.goal} by it. What the call gave is wrong, and ${all}.`,
      clause === undefined ? "" : make("div", null, make("code", null, Terms.cut(clause.text, MOST_IN_LINE)))];
  }
  if (fault.goal === null) return [make("b", null, "No clause is wrong by these answers."), " All that the query's calls gave is right: look at the query, and at the order in which they went."];
  const should = goal !== null && goal.status === "waits" ? "waits, and a clause should have answered it" : "is answered by no clause, and one should";
  return [make("b", null, "A clause is missing or says no wrongly."), " Call ", goToGoal(fault.goal), ` ${should}.`];
}

const MADE = { gave: " gave ", left: " is left: ", stands: " stands: ", written: " " };

/** What the goals gave that the step at fault made, or the query has. */
function madeList({ made }) {
  if (made.length === 0) return null;
  return make("ul", { class: "made", "aria-label": "What its goals gave" }, ...made.map(({ goal, how, text }) => make("li", null, goToGoal(goal), make("span", { class: "dim" }, MADE[how]), inCode(text))));
}

/** Takes back the wrong step; where one points at it, all that goes is ringed. */
function rollButton({ step }) {
  if (step === null) return null;
  const gone = OnScreen.goneWith(step), title = `roll ${step}: all other steps stay`;
  const words = `Roll back step ${step}${gone.size > 1 ? `, with ${plural(gone.size - 1, "consequence")}` : ""}`;
  return ringing(make("button", { class: "danger", id: "blame-roll", "data-line": `roll ${step}`, title }, words), gone);
}

/** Tries the call alone, where what it gave rests on what it was given and on no order. */
function aloneButton({ given, asked: asks, inTurns }) {
  if (given === null || asks.length > 0 || inTurns) return null;
  return make("button", { id: "blame-alone", title: "A new session with this call as its query; one click leads back" }, "Try alone");
}

function verdictParts(told) {
  return [
    titleRow(...verdictWords(told)), sides(told), ...warnings(told), madeList(told),
    answerRow(rollButton(told.fault), aloneButton(told), backButton()),
  ].filter(Boolean);
}

/** After the wrong step was rolled back: what to do now. */
const rolledParts = ({ step, goal, clause }) => [titleRow(`Step ${step} is taken back, with all that depended on it; all other steps stay. Call `, goToGoal(goal),
  ` is there again: choose another clause for it, or mend clause ${clause} in the program and press Start.`)];

/** In the session of a call alone: what it is, and the way back. */
const aloneParts = () => [titleRow("This is that call alone, with what it was given: ", make("code", null, Terms.cut(State.given.query, MOST_IN_LINE)), ". Run it, and see what it gives."),
  make("div", { class: "buttons" }, make("button", { id: "blame-return", class: "main-button" }, "Back to the whole run"))];

/** Chooses what a new question or verdict is about, and marks its clause. */
function point() {
  const { told: { ask, fault, given }, isRolled } = asked, step = fault?.step ?? null;
  if (isRolled) return;
  if (step !== null) Deeds.goTo({ step });
  else Deeds.choose(null);
  if (ask !== null) askAbout(ask.goal);
  else if (step === null && fault.goal !== null) Deeds.markClause(clausesOf(given));
}

/** Brings the call asked about into sight, marks the clause by which it went, and lights its part. */
function askAbout(goal) {
  const taker = OnScreen.takerOf(goal);
  Deeds.scrollTo(taker === undefined ? { goal } : { step: taker.number });
  Deeds.markClause((taker && taker.clause && State.run.clauses[taker.clause - 1]) || null);
  light();
}

/** Flags the part of the call asked about, and the parts that were told right. */
function* marking(graph, goal, answers, flags) {
  flags.count = yield* Parts.mark(graph, goal, flags.isIn);
  for (const answer of answers) if (answer.isRight) yield* Parts.mark(graph, answer.goal, flags.isRight);
}

/** Lights the part of a call, and dims what was told right; of several answers about one call the last counts. */
async function lightPart(goal, answers) {
  const { run } = State, { version, graph } = run;
  sought += 1;
  const own = sought, last = new Map(answers.map((answer) => [answer.goal, answer]));
  const flags = { goal, isIn: new Uint8Array(graph.count), isRight: new Uint8Array(graph.count), count: 0 };
  const isOver = () => own !== sought || run !== State.run || version !== run.version;
  const pause = pauses(SLICE), work = marking(graph, goal, last.values(), flags);
  for (let next = work.next(); !next.done; next = work.next()) {
    if (await pause() && isOver()) return;
  }
  if (!isOver()) Deeds.showAsked(flags);
}

/** Lights the part of the call that is asked about. */
function light() {
  const { line, told: { ask } } = asked;
  if (ask !== null) lightPart(ask.goal, BlameLines.answersOn(line));
}

/** Lights the part once more, where something else was chosen meanwhile. */
function lightAgain() {
  Deeds.choose(null);
  askAbout(asked.told.ask.goal);
}

/** Closes the place; the way back from a call alone stays where there is one. */
function close() {
  if (asked === null) left = null;
  asked = null;
  sought += 1;
  fill();
  Deeds.choose(null);
}

/** Begins a session with the call as its query, and keeps the way back. */
function tryAlone() {
  const query = Names.now().asQuery(asked.told.given), { program } = State.given, from = { given: State.given, lines: Talk.typedLines() };
  Deeds.endTour();
  leaving = from;
  Deeds.begin({ program, query });
}

/** Begins the whole run again, and plays its lines. */
function goBack() {
  Deeds.begin(left.given, left.lines);
}

/** What a key does: a click on the button of this name, where it is there. */
const press = (name) => find(`blame-${name}`)?.click();

export { show, lightPart, lightAgain, close, tryAlone, goBack, press, trust };
