// How much of the run the picture shows at once: as much as can be read, all of it, or all that is lit.
import Deeds from "./deeds.mjs";
import { find } from "./elements.mjs";
import OnScreen from "./on_screen.mjs";
import Shown from "./shown.mjs";
import State from "./state.mjs";

const LEAST_ZOOM = 0.25, MOST_ZOOM = 8;
const NARROW = 600; // the points of width below which names leave too little room to fit more into

/** Says what is made to fit, before the picture is drawn. */
function set(what) {
  Object.assign(Shown, { fit: what, zoom: 1 });
  find("fit").setAttribute("aria-pressed", String(what !== "none"));
  if (what === "none") OnScreen.size = null;
  if (what === "run") OnScreen.fit();
}

/** All of the run in the window, or as usual again. */
function toggle() {
  set(Shown.fit === "none" ? "run" : "none");
  Deeds.draw();
}

/** Draws all larger, or smaller, by a factor; of a long run the window has fewer steps then, or more. */
function size(by) {
  if (Shown.fit !== "none") set("none");
  if (OnScreen.isOn()) OnScreen.zoom(by);
  else Shown.zoom = Math.max(LEAST_ZOOM, Math.min(Shown.zoom * by, MOST_ZOOM));
  Deeds.draw();
}

/** With the next line the light goes, and the picture is as usual again. */
function endLit() {
  if (Shown.fit === "lit") set("none");
}

/**
 * Moves the window of a long run to so many steps, of which it has not all, and widens it where it has to; says whether
 * it does.
 */
function moveWindow(first, steps) {
  const room = OnScreen.sizeNow();
  if (!OnScreen.isOn() || (first >= OnScreen.from && first + steps <= OnScreen.from + room)) return false;
  if (steps > room) OnScreen.size = steps;
  OnScreen.from = first - Math.max(0, (room - steps) / 2);
  Deeds.draw();
  return steps > room;
}

/**
 * Brings all steps that are lit into sight: the picture moves where it has room for them, else all becomes smaller.
 * Where they are too far from each other, or the window is narrow, the last one is brought into sight.
 */
function showLit() {
  const first = Shown.slice === null ? -1 : Shown.slice.isIn.indexOf(1);
  if (first < 0 || OnScreen.drawn === null) return;
  const last = Shown.slice.isIn.lastIndexOf(1), steps = last - first + 1;
  if (find("canvas").clientWidth < NARROW || steps > OnScreen.LEAST_STEPS) {
    Deeds.scrollTo({ step: State.run.graph.numbers.at(last) });
    return;
  }
  const isWider = moveWindow(first, steps);
  if (!isWider && Deeds.scrollToLit()) return;
  set("lit");
  Deeds.draw();
}

export { toggle, size, endLit, showLit };
