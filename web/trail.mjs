// What was looked at: a trail of steps and goals on which one goes back, and notes on steps. Both are kept with the
// session, and stand in its link.
import Deeds from "./deeds.mjs";
import { find, make, joined, goTo, goToGoal } from "./elements.mjs";
import Shown from "./shown.mjs";
import State from "./state.mjs";

const MOST = 30, MOST_SHOWN = 8; // things that are remembered; that are shown
const MOST_NOTES = 200, LONGEST = 500; // notes; letters of one
let trail = [], notes = new Map(), isGoingBack = false;

const isSame = (one, other) => one !== undefined && one.step === other.step && one.goal === other.goal;
const isGoal = (goal) => State.run.goals.some(({ name }) => name === goal);
/**
 * Whether a step or a goal is there.
 * @param {import("./types").Choice} place
 */
const isThere = ({ step, goal }) => (step !== undefined ? State.run.graph.byNumber.has(step) : isGoal(goal));
const isNote = (one) => Array.isArray(one) && Number.isInteger(one[0]) && typeof one[1] === "string";
const isObject = (one) => one !== null && typeof one === "object";
const isPlace = (one) => isObject(one) && (Number.isInteger(one.step) || typeof one.goal === "string");

/** What is chosen now: a step or a goal, or the step to which one has come among those that are lit. */
const now = () => Shown.chosen ?? (Shown.visited === null ? null : { step: Shown.visited });

/** Notes that something is looked at. */
function look(place) {
  const isNew = place !== null && !isGoingBack && !isSame(trail[trail.length - 1], place);
  if (isNew) trail = [...trail, place].slice(-MOST);
  show();
}

/** Goes back to what was looked at before. */
function back() {
  const left = trail.slice(0, now() === null ? undefined : -1).filter(isThere), last = left[left.length - 1];
  trail = left;
  if (last === undefined) return;
  isGoingBack = true;
  Deeds.goTo(last);
  isGoingBack = false;
  show();
}

const linkTo = ({ step, goal }) => (step !== undefined ? goTo(step, `step ${step}`) : goToGoal(goal));

/** The note of a step, with what takes it away. */
function noteRow([step, words]) {
  const how = { class: "small", "data-note-away": step, title: "Takes the note away" };
  const away = make("button", { ...how, "aria-label": `Take away the note on step ${step}` }, "×");
  return make("li", null, goTo(step, `step ${step}`), `: ${words} `, away);
}

function show() {
  const before = trail.filter(isThere).slice(-MOST_SHOWN), place = now();
  const shown = [...notes].filter(([step]) => isThere({ step }));
  find("trail").hidden = before.length < 2;
  find("trail").replaceChildren("Looked at: ", ...joined(before.map(linkTo), " → "));
  find("trail-back").disabled = before.length < (place === null ? 1 : 2);
  find("note-form").hidden = place === null || place.step === undefined;
  find("notes").hidden = shown.length === 0;
  find("notes").replaceChildren(...shown.sort(([one], [other]) => one - other).map(noteRow));
}

/** Keeps a note on a step; without words it takes it away. */
function setNote(step, words) {
  const text = words.trim().slice(0, LONGEST);
  if (text === "") notes.delete(step);
  else if (notes.size < MOST_NOTES || notes.has(step)) notes.set(step, text);
  show();
  Deeds.keepSoon();
}

/** Keeps the note that was written for the step that is chosen. */
function onNote(event) {
  const place = now(), field = find("note-text");
  event.preventDefault();
  if (place === null || place.step === undefined) return;
  setNote(place.step, field.value);
  field.value = "";
}

/** What is kept of it with a session; null where there is nothing. */
function saved() {
  return trail.length === 0 && notes.size === 0 ? null : { trail: trail.slice(-MOST_SHOWN), notes: [...notes] };
}

/** Takes up what was kept, once the session's lines are played. What is no trail and no note is left out. */
function takeUp(kept) {
  const list = (part) => (isObject(kept) && Array.isArray(kept[part]) ? kept[part] : []);
  const short = ([step, words]) => [step, words.slice(0, LONGEST)];
  const placeOf = ({ step, goal }) => (step !== undefined ? { step } : { goal });
  trail = list("trail").filter(isPlace).slice(-MOST).map(placeOf);
  notes = new Map(list("notes").filter(isNote).slice(0, MOST_NOTES).map(short));
  show();
}

/** After lines; another session has no trail yet. */
const follow = (what) => (what === "start" ? takeUp(null) : show());

export { look, back, setNote, onNote, saved, takeUp, follow };
