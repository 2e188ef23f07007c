// The names of the variables of the run, wherever the page shows some: what one points at tells the number, and a click
// types it at the console.
import { find, make } from "./elements.mjs";
import Naming from "./naming.mjs";
import State from "./state.mjs";

let known = { run: null, naming: null };

/** The names of this run's variables; program and query are read for them once. */
function now() {
  if (known.run !== State.run) known = { run: State.run, naming: new Naming(State.given, State.run.graph) };
  return known.naming;
}

const isKept = (node) => node.data.includes("_") && node.parentElement.closest(".cause, .typed, .variable") === null;

/**
 * The texts below an element in which a variable may stand. The place of a cause and a typed line stay as they are.
 */
function textsIn(area) {
  const walker = document.createTreeWalker(area, NodeFilter.SHOW_TEXT), found = /** @type {Text[]} */ ([]);
  while (walker.nextNode()) if (isKept(walker.currentNode)) found.push(/** @type {Text} */ (walker.currentNode));
  return found;
}

/**
 * A variable by its name. Within a button the click is the button's; in a list the key Tab passes it, for its menu
 * has it, too.
 */
function nameFor({ variable, name }, isInButton, isInList) {
  if (isInButton) return make("span", { class: "variable", title: variable }, name);
  const how = { title: `${variable}: a click types it`, "data-types": variable, tabindex: isInList ? "-1" : null };
  return make("button", { class: "variable", type: "button", ...how }, name);
}

/** Puts names in the place of the numbers of variables below an element, and gives it. */
function dress(area, { isInList = false } = {}) {
  for (const text of textsIn(area)) {
    const isInButton = text.parentElement.closest("button") !== null, parts = now().partsOf(text.data);
    if (parts.length === 1 && typeof parts[0] === "string") continue;
    text.replaceWith(...parts.map((part) => (typeof part === "string" ? part : nameFor(part, isInButton, isInList))));
  }
  return area;
}

/**
 * Fills a place with parts, and hides it where there are none; what had the focus in it has it afterwards, or the first
 * button.
 */
function fill(name, parts) {
  const area = find(name), had = area.contains(document.activeElement) ? document.activeElement.id : null;
  area.hidden = parts.length === 0;
  area.replaceChildren(...parts);
  dress(area);
  if (had === null || area.hidden) return;
  const same = /** @type {HTMLButtonElement | null} */ (had === "" ? null : find(had));
  (same && !same.disabled ? same : area.querySelector("button:not([disabled])"))?.focus({ preventScroll: true });
}

const shown = (text) => (text.includes("_") ? now().shown(text) : text);

export { now, dress, fill, shown };
