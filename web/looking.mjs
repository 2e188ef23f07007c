// What one looks for and at, without a change of the run: the search, the record up to a step, and lanes that are folded.
import * as Search from "../front/run/search.mjs";
import Deeds from "./deeds.mjs";
import * as Earlier from "./earlier.mjs";
import { find } from "./elements.mjs";
import * as Names from "./names.mjs";
import OnScreen from "./on_screen.mjs";
import { pause } from "./pausing.mjs";
import Shown from "./shown.mjs";
import State from "./state.mjs";

const PLAY = 350, MOST_PLAYED = 300; // milliseconds a picture, pictures of a whole run
let at = -1, sought = 0, timer = null;

function showHits(isDone) {
  const { hits } = OnScreen, words = find("search").value.trim();
  find("hits").textContent = words === "" ? "" : hits.length === 0 ? (isDone ? "none" : "…") : `${at + 1} of ${hits.length.toLocaleString("en")}`;
}

/** Goes to one of the hits. */
function goTo(place) {
  const { hits } = OnScreen;
  if (hits.length === 0) return;
  at = (place + hits.length) % hits.length;
  const step = State.run.graph.numbers.at(hits[at]);
  Deeds.goTo({ step });
  showHits(true);
}

/** Looks for what stands in the field, and goes to the first hit. */
async function seek() {
  sought += 1;
  const own = sought, hits = [], { version } = State.run, words = find("search").value.trim();
  const text = Names.now().variableOf(words) ?? words;
  at = -1;
  OnScreen.hits = hits;
  showHits(false);
  for (const count of Search.find(State.run, text, hits)) {
    if (count % 4096 === 0) await pause();
    if (own !== sought || version !== State.run.version) return;
  }
  OnScreen.hits = hits.slice();
  OnScreen.hitFlags();
  await pause();
  if (own !== sought) return;
  if (hits.length > 0) goTo(0);
  else Deeds.draw();
  showHits(true);
}

function onSearchKey(event) {
  if (event.key !== "Enter") return;
  event.preventDefault();
  if (OnScreen.hits.length > 0 && at >= 0) goTo(at + (event.shiftKey ? -1 : 1));
  else seek();
}

/** Shows the run as it was after so many steps, wherever something of it is shown. */
function showAfter(steps, earlier) {
  OnScreen.showUntil(steps, earlier);
  const { until } = OnScreen, step = Shown.chosen ? Shown.chosen.step : undefined;
  if (step !== undefined && until !== null && State.run.graph.indexOf(step) >= until) Deeds.choose(null);
  Deeds.draw();
  Deeds.showTime();
  find("until").value = String(until === null ? State.run.graph.count : until);
}

/** Shows all steps again. */
function showNow() {
  wanted = null;
  showAfter(Infinity, null);
}

let wanted = null, isAsking = false;

/** Shows the record up to so many steps, when the console has told what was there then; the last wish counts. */
async function showUntil(steps) {
  wanted = Math.max(0, steps);
  if (isAsking) return;
  isAsking = true;
  try {
    for (let shown = null; wanted !== null && shown !== wanted;) {
      shown = wanted;
      const earlier = await Earlier.after(shown);
      if (earlier === undefined) wanted = null;
      else if (wanted !== null) showAfter(shown, earlier);
    }
  } finally {
    isAsking = false;
  }
}

function stopPlaying() {
  clearInterval(timer);
  timer = null;
  find("play").textContent = "▶";
}

/** Plays the record from where the slider stands, or from the beginning. */
function play() {
  if (timer !== null) {
    stopPlaying();
    return;
  }
  const { count } = State.run.graph, by = Math.max(1, Math.ceil(count / MOST_PLAYED));
  let steps = OnScreen.until === null ? 0 : OnScreen.until;
  find("play").textContent = "❚❚";
  timer = setInterval(() => {
    steps += by;
    showUntil(steps);
    if (steps >= State.run.graph.count) stopPlaying();
  }, PLAY);
}

/** After lines: the slider's length, and no search. */
function follow(what) {
  stopPlaying();
  wanted = null;
  const { count } = State.run.graph;
  Object.assign(find("until"), { max: String(count), value: String(count), disabled: count === 0 });
  find("play").disabled = count === 0;
  sought += 1;
  at = -1;
  find("search").value = "";
  showHits(true);
}

function fold(name, isFolded) {
  OnScreen.folded[isFolded ? "add" : "delete"](name);
  Deeds.choose(null);
  Deeds.draw();
}

function listenToAll() {
  find("search").addEventListener("keydown", onSearchKey);
  find("search").addEventListener("change", seek);
  find("until").addEventListener("input", () => { stopPlaying(); showUntil(Number(find("until").value)); });
}

export { seek, goTo, showUntil, showNow, play, fold, follow, listenToAll };
