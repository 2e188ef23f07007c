// The small windows that open at a step, a goal, a variable, a step that was taken back, or to ask for goals: what can be done there.
import * as Asking from "../front/protocol/asking.mjs";
import * as Replies from "../front/protocol/replies.mjs";
import * as Terms from "../front/run/terms.mjs";
import * as Printed from "../front/text/printed.mjs";
import Deeds from "./deeds.mjs";
import { find, make, lineButton, buttons, ringing } from "./elements.mjs";
import { withGoalText } from "./goal_texts.mjs";
import * as Names from "./names.mjs";
import OnScreen from "./on_screen.mjs";
import * as StepWords from "./step_words.mjs";
import State from "./state.mjs";
import * as Talk from "./talk.mjs";
import { plural } from "../front/text/plural.mjs";

const MOST_NAMED = 100; // steps that are named before a roll
const OFFSET = 14, MOST_LOOKED_AT = 400;
const FIRST = "input, button:not([disabled]):not(.variable)"; // what has the focus in a menu that opens

const title = (words, dim) => make("div", { class: "menu-title" }, make("b", null, words), " ", make("span", { class: "dim" }, dim));
const code = (first, ...lines) => make("div", { class: "code" }, first, lines.filter(Boolean).join("\n"));

/** The numbers of the first of some steps in recorded order. */
function firstOf({ isIn }, most) {
  const numbers = [];
  for (let index = isIn.indexOf(1); index >= 0 && numbers.length < most; index = isIn.indexOf(1, index + 1)) numbers.push(State.run.graph.numbers.at(index));
  return numbers;
}

/** Rings what a roll takes back, and asks once more before it is done. */
function askRoll(number, gone) {
  const names = firstOf(gone, MOST_NAMED).sort((one, other) => one - other).join(", ");
  const words = `The ringed ${plural(gone.size, "step")} will be taken back: ${Terms.cut(names, 200)}. All others stay.`;
  find("menu").replaceChildren(...partsOfAsked(`Roll back step ${number}`, words, `roll ${number}`, gone));
  find("menu").querySelector("button").focus();
  Deeds.ring(gone);
  Deeds.pointAgain();
}

/** The question before a line takes back more than one step. */
const partsOfAsked = (name, words, line, { size }) => [title(name, ""), make("p", null, words),
  buttons(lineButton(size === 0 ? "Nothing would go" : `Take back ${size}`, line, { class: "danger", disabled: size === 0 }), make("button", { "data-close": true }, "Leave it"))];

/** Asks it in a menu of its own. */
function askFirst(name, words, line, gone, anchor) {
  openWith(partsOfAsked(name, words, line, gone), anchor);
  Deeds.ring(gone);
}

function rollButton(number, gone) {
  const button = make("button", { "data-roll": number }, gone.size > 1 ? `Roll back, with ${plural(gone.size - 1, "consequence")} …` : "Roll back");
  if (gone.size === 1) button.dataset.line = `roll ${number}`;
  else button.addEventListener("click", () => askRoll(number, gone));
  return ringing(button, gone);
}

/** What a clause says, in words: nothing where it says yes, or the console has not told it yet. */
function wordsOfClause(told) {
  if (told === undefined || told.says === "yes") return null;
  return make("span", { class: "dim" }, told.says === "no" ? " says no" : ` waits for ${told.waitsFor.join(", ")}`);
}

/** A button for a clause. One that says yes can be clicked: `does` gives what it does then, as attributes. */
function clauseButton({ clause, number }, told, does) {
  const how = told?.says === "yes" ? does(number) : { disabled: true };
  return make("button", { class: "clause", ...how }, `clause ${number}:  ${clause.text}`, wordsOfClause(told));
}

const RANKS = ["yes", "waits", "no"];

/**
 * Buttons for clauses of a goal, in an element that fills itself when the console has replied to `clauses`. Those
 * that say yes come first and can be clicked; the others tell what they wait for, or that they say no.
 */
function clauseButtons(clauses, asked, does) {
  const area = make("div", { class: "clauses" });
  const fill = (told) => area.replaceChildren(...told.map(([one, says]) => Names.dress(clauseButton(one, says, does))));
  fill(clauses.map((one) => [one, undefined]));
  asked.then((reply) => {
    if (reply === null || !area.isConnected) return;
    const choices = new Map(reply.map(Replies.readChoice).filter(Boolean).map((choice) => [choice.number, choice]));
    const rank = ([, told]) => RANKS.indexOf(told?.says ?? "no");
    fill(clauses.map((one) => [one, choices.get(one.number)]).sort((one, other) => rank(one) - rank(other)));
    Deeds.pointAgain();
  });
  return area;
}

/** The clauses of a predicate, with their numbers. */
function clausesOf(predicate) {
  const all = State.run.clauses.map((clause, index) => ({ clause, number: index + 1 }));
  return all.filter(({ clause }) => clause.predicate === predicate);
}

/** For a reduction: the other clauses of its predicate, each with this run beside. */
function otherClauses(step) {
  const { number, goal, clause } = step, own = clause ? State.run.clauses[clause - 1] : undefined;
  const others = own ? clausesOf(own.predicate).filter((other) => other.number !== clause) : [];
  if (others.length === 0 || !Deeds.canKeepRun()) return [];
  const does = (other) => ({ "data-try": `${number} ${other}`, title: `roll ${number}, step ${goal} ${other}` });
  const words = make("p", { class: "dim" }, "Keep this run beside, and try here:");
  return [words, clauseButtons(others, Talk.askWithout(number, `clauses ${goal}`), does)];
}

/** Folds a lane and all that came of it into a bar. */
function foldButton(chosen) {
  const lane = OnScreen.laneOf(chosen), steps = lane ? OnScreen.stepsUnder(lane) : 0;
  return steps < 2 ? null : make("button", { "data-fold": lane.name, title: `${lane.name} and all that came of it as one bar; nothing is taken back` }, `Fold ${plural(steps, "step")}`);
}

/** Lights all steps that went by the clause of one. */
function clauseButtonOf({ clause }) {
  const title = "As a click on the clause in the program does";
  return clause ? make("button", { "data-clause": clause, title }, `All steps by clause ${clause}`) : null;
}

/** The menu of a kept step. */
function ofStep(number) {
  const { graph, clauses } = State.run, step = graph.byNumber.get(number);
  const gone = OnScreen.goneWith(number), [first] = graph.effects.get(number);
  const undo = first ? make("button", { disabled: true }, "Undo") : lineButton("Undo", `undo ${number}`);
  const why = first ? make("p", { class: "dim" }, `Undo alone is not lawful: step ${first.to} depends on it.`) : null;
  const clause = step.clause && clauses[step.clause - 1] ? clauses[step.clause - 1].text : "", goal = make("span");
  withGoalText(step, (text) => { goal.textContent = `${text}\n`; Names.dress(goal); });
  return [title(`Step ${number}`, StepWords.of(step)),
    code(goal, step.goal === null ? step.act : "", clause, ...step.binds.map((binding) => `${binding.variable} = ${Terms.cut(binding.term, 300)}`)),
    buttons(lineButton("Why?", `why ${number}`), undo, rollButton(number, gone), foldButton({ step: number }), clauseButtonOf(step)), why, ...otherClauses(step)];
}

function spyButton(goal) {
  const predicate = Printed.predicateOf(goal.text);
  return State.spied.has(predicate) ? lineButton(`Do not spy ${predicate}`, `nospy ${predicate}`) : lineButton(`Spy ${predicate}`, `spy ${predicate}`);
}

/** A field whose text, after some words, is a line of the console; `button` is what types it, and others may stand beside it. */
function lineForm(words, label, placeholder, button, ...others) {
  const field = make("input", { "data-words": words, "aria-label": label, placeholder, spellcheck: "false", autocomplete: "off", autocapitalize: "off" });
  const form = make("form", { class: "buttons" }, field, make("button", null, button), ...others);
  form.addEventListener("submit", (event) => {
    event.preventDefault();
    if (field.value.trim() === "") return;
    close();
    Talk.send(`${words} ${field.value.trim()}`);
  });
  return form;
}

/** A line on which one gives a stream its next element. */
function streamForm(goal) {
  const number = goal.text.split(" ")[1];
  return lineForm(`in ${number}`, "A term to give", "a term, as 5 or f(a)", "Give", lineButton("End it", `end ${number}`, { type: "button" }));
}

/** The menu in which one asks for more goals. */
const ofAsk = () => [title("Add goals", "as a query has them"), lineForm("ask", "Goals to add", "p(R,X), X = 1", "Add"),
  make("p", { class: "dim" }, "The query's variables go by their names, others of the run as _1_1; all else is new. It is a step, which can be taken back.")];

/** The clauses of a call: those that it can be reduced by, and for what the others wait. */
function clausesToChoose(goal) {
  const does = (number) => ({ "data-line": `step ${goal.name} ${number}`, title: `step ${goal.name} ${number}` });
  return clauseButtons(clausesOf(Printed.predicateOf(goal.text)), Talk.ask(`clauses ${goal.name}`), does);
}

/** The menu of a goal at an earlier time, where nothing can be done with it. */
function ofEarlierGoal(name, goal) {
  const { text, status = "there" } = goal || { text: State.run.texts.get(name) };
  const words = make("p", { class: "dim" }, "The record is shown up to an earlier step.");
  return [title(`Goal ${name}`, `was ${status} then`), code(text), words];
}

/** Begins the questions that lead to the clause by which a value, or how a goal stands, is wrong. */
const blameButton = (name) => lineButton("Find the wrong clause", `blame ${name}`);

/** A variable as the console prints it. */
const numberOf = (name) => Asking.queryVariables(State.given.query).get(name) ?? name;

const isBound = (name) => State.run.graph.store.has(numberOf(name));

/** The menu of a goal that is there. */
function ofGoal(name) {
  const goal = OnScreen.run().goals.find((other) => other.name === name), { until, earlier } = OnScreen;
  if (until !== null || goal === undefined) return ofEarlierGoal(name, earlier === null ? undefined : goal);
  const isCall = goal.sort === "call";
  const told = { waits: `It waits for ${goal.waitsFor.join(", ")}.`, failed: `It has failed: ${goal.refusal}.`, ready: "", stream: "" }[goal.status];
  const parts = [title(`Goal ${name}`, goal.status), code(goal.text), told ? make("p", null, told) : null];
  if (goal.status === "stream") return [...parts, streamForm(goal)];
  if (goal.status === "ready") parts.push(buttons(lineButton("Step", `step ${name}`, { class: "main-button" }), lineButton("Run it and what comes of it", `skip ${name}`)));
  const words = goal.status === "ready" ? "or by a clause that you choose:" : "Its clauses:";
  if (isCall && goal.status !== "failed") parts.push(make("p", { class: "dim" }, words), clausesToChoose(goal));
  const isExplained = goal.status !== "ready";
  const rests = isExplained ? [goal.status === "waits" ? lineButton("Why?", `whynot ${name}`) : null, lineButton("Explain", `explain ${name}`), blameButton(name), make("button", { "data-keep": name, title: "Takes back all steps on which this goal does not rest; asks first" }, "Keep that alone …")] : [];
  if (isCall || isExplained) parts.push(buttons(...rests, isCall ? spyButton(goal) : null));
  return parts;
}

/** The menu of a variable in the store. */
const ofVariable = (name) => [title(Names.shown(name), make("span", null, "a variable, ", make("span", { class: "typed" }, numberOf(name)), " at the console")), buttons(lineButton("Show", `show ${name}`), lineButton("Who bound it?", `who ${name}`), isBound(name) ? blameButton(name) : null),
  buttons(lineButton("Why not bound?", `whynot ${name}`), make("button", { "data-choices": name, title: "What it would be, had a step gone by another clause" }, "Other choices")),
  buttons(lineButton("What it rests on", `explain ${name}`),
    make("button", { "data-keep": name, title: "Takes back all steps on which this value does not rest; asks first" }, "Keep that alone …"), make("button", { "data-types": numberOf(name) }, "Type its number"))];

const ofTaken = (number) => {
  const step = State.run.shelf.find((other) => other.number === number);
  return [title(`Step ${number}`, "is undone"), code(StepWords.of(step)), buttons(lineButton("Redo", `redo ${number}`, { class: "main-button" }))];
};

/** How many of some boxes a menu would cover that has its upper left corner at a place. */
function covered(boxes, place, width, height) {
  return boxes.filter((box) => box.right > place.x && box.left < place.x + width && box.bottom > place.y && box.top < place.y + height).length;
}

/** Places for a menu beside what it belongs to, the nearest first, and below the picture, all of them within the run's part of the page. */
function placesFor(box, width, height) {
  const svg = find("canvas").querySelector("svg"), bottom = svg ? svg.getBoundingClientRect().top + OnScreen.drawn.bottom : box.bottom;
  const right = box.right + OFFSET, left = box.left - width - OFFSET, below = box.bottom + OFFSET, above = box.top - height - OFFSET;
  const all = [{ x: right, y: below }, { x: right, y: above }, { x: left, y: below }, { x: left, y: above }, { x: box.left, y: bottom + 6 }, { x: right, y: bottom + 6 }];
  const area = find("view").getBoundingClientRect();
  const inside = (least, value, most) => Math.max(least, Math.min(value, most));
  return all.map((place) => ({ x: inside(area.left + 8, place.x, area.right - width - 8), y: inside(area.top + 8, place.y, area.bottom - height - 8) }));
}

/** Puts the menu where it covers as little as possible of what is lit; on a narrow window the style puts it at the bottom. */
function place(anchor) {
  const menu = find("menu"), width = menu.offsetWidth, height = menu.offsetHeight, box = anchor.getBoundingClientRect();
  const steps = document.querySelector("#canvas .looking") ? ".chosen, .cause[data-step], .effect" : ".mark";
  const lit = [...find("canvas").querySelectorAll(`${steps}, .goal, .wait`)].slice(0, MOST_LOOKED_AT);
  const boxes = [box, ...lit.map((mark) => mark.getBoundingClientRect())];
  const places = placesFor(box, width, height).map((at) => ({ ...at, covers: covered(boxes, at, width, height) }));
  const best = places.reduce((one, other) => (other.covers < one.covers ? other : one));
  menu.style.left = `${best.x}px`;
  menu.style.top = `${best.y}px`;
}

const FORMS = ["SVG", "SVG, dark", "PNG", "PNG, dark"];

/** The menu in which one saves a picture: of what is shown, or from one step to another. */
function ofPicture() {
  const how = { inputmode: "numeric", size: "6" };
  const field = (id, words) => make("input", { ...how, id, "aria-label": words, placeholder: words });
  const first = field("picture-from", "from step"), last = field("picture-to", "to step");
  const number = ({ value }) => (/^\d+$/.test(value.trim()) ? Number(value) : undefined);
  const saves = FORMS.map((words) => {
    const [form, theme = "light"] = words.toLowerCase().split(", ");
    const button = make("button", { "data-close": true }, words);
    button.addEventListener("click", () => Deeds.savePicture({ form, theme, from: number(first), to: number(last) }));
    return button;
  });
  const part = make("p", { class: "dim" }, "Or of a part alone:");
  return [title("Save the picture", "as it is shown"), buttons(...saves), part, buttons(first, last)];
}

const MENUS = { picture: ofPicture, step: ofStep, goal: ofGoal, variable: ofVariable, taken: ofTaken, ask: ofAsk };

/** Opens the menu of `{ step }`, `{ goal }`, `{ variable }` or `{ taken }`, or of `{ ask: true }`, beside an element. */
function open(chosen, anchor) {
  const [[kind, name]] = Object.entries(chosen);
  openWith(MENUS[kind](name).filter(Boolean), anchor, chosen.picture ? "button" : FIRST);
}

/** Opens a menu of these parts beside an element; what a selector finds first has the focus. */
function openWith(parts, anchor, focus = FIRST) {
  const menu = find("menu");
  menu.replaceChildren(...parts);
  Names.dress(menu);
  menu.setAttribute("aria-label", menu.querySelector(".menu-title").textContent);
  menu.hidden = false;
  place(anchor);
  const first = menu.querySelector(focus);
  if (first) first.focus({ preventScroll: true });
  Deeds.pointAgain();
}

function close() {
  if (find("menu").hidden) return;
  find("menu").hidden = true;
  Deeds.ring(new Set());
  Deeds.pointAgain();
}

/** Within the menu the key Tab goes round. */
function onTab(event) {
  const all = [...find("menu").querySelectorAll("input, button:not([disabled])")], at = all.indexOf(document.activeElement);
  if (at < 0 || all.length === 0) return;
  event.preventDefault();
  all[(at + (event.shiftKey ? all.length - 1 : 1)) % all.length].focus();
}

export { open, askFirst, close, onTab };
