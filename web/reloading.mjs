// A program that is edited while it runs: a button tells how many of the kept steps stay under the new text, and goes
// on with them. The console judges whether they do.
import * as ReloadPlan from "../front/run/reload_plan.mjs";
import Deeds from "./deeds.mjs";
import { find, make } from "./elements.mjs";
import * as StepWords from "./step_words.mjs";
import State from "./state.mjs";
import * as Talk from "./talk.mjs";

const PAUSE = 150; // milliseconds after a letter was typed
const NO_STEP = { isIn: new Uint8Array(0), count: 0 };
let going = NO_STEP, timer = null; // the steps that go under the text in the field, flagged by their indexes

/** Can the run go on under the text in the field? A new query begins a new run. */
function isOffered() {
  const { session, refusal, run, given } = State;
  if (!session || session.hasEnded || refusal || run.graph.count === 0) return false;
  return find("program").value !== given.program && find("query").value === given.query.replace(/[\r\n]/g, "");
}

/** Shows the button, with how many steps stay. */
function follow() {
  const button = find("reload"), { count } = State.run.graph;
  clearTimeout(timer);
  button.hidden = !isOffered();
  going = button.hidden ? NO_STEP : ReloadPlan.goingUnder(State.run, find("program").value);
  button.textContent = `Reload, keep ${StepWords.keptOf(count - going.count, count)}`;
}

function followSoon() {
  clearTimeout(timer);
  timer = setTimeout(follow, PAUSE);
}

/** Rings the steps that would go, while one is about to click. */
function ring(isOn) {
  const { graph } = State.run;
  Deeds.ring({ has: (number) => isOn && going.isIn[graph.indexOf(number)] === 1 });
}

/** Goes on under the text in the field, with the steps that stay. */
async function reload() {
  const program = find("program").value, before = { looked: Deeds.looked(), undone: State.run.shelf.length };
  let told = /** @type {any} */ (null), key = null;
  Deeds.endTour();
  await Talk.reload(program, (answer) => {
    told = answer;
    if (answer.given) key = Deeds.leaveDone();
  });
  if (told === null) return;
  if (told.given) await tell(told, before, key);
  else tellRefusal(program, told.refusal);
}

/** Says why the text or the steps were refused, at the place in the text. */
function tellRefusal(program, refusal) {
  const stands = make("div", null, "The run stands as it was."), { query } = State.given;
  if (!Deeds.showRefusal({ program, query }, refusal, stands)) Deeds.tell(true, `Not reloaded: ${refusal}.`, stands);
}

/** Tells which steps stay and which have gone, and how to go back. */
async function tell(told, { looked, undone }, key) {
  const isThere = (spied) => State.run.clauses.some(({ predicate }) => predicate === spied);
  const lines = told.spied.filter(isThere).map((predicate) => `spy ${predicate}`);
  Deeds.takeUpLooked(told.isRenumbered ? null : looked);
  if (lines.length > 0) await Talk.sendAll(lines);
  const forgotten = State.run.shelf.length < undone ? " What was undone is forgotten." : "";
  const back = Deeds.wayBack(key, "Go back to the run before"), notes = Deeds.notesOn(State.given.program);
  Deeds.tell(false, `Reloaded: ${StepWords.reloaded(told)}${forgotten} `, ...back, make("div", null, ...notes));
  Deeds.keepSoon();
}

function listenToAll() {
  for (const event of ["mouseenter", "focus"]) find("reload").addEventListener(event, () => ring(true));
  for (const event of ["mouseleave", "blur"]) find("reload").addEventListener(event, () => ring(false));
}

export { follow, followSoon, reload, listenToAll };
