// Makes elements of the page in few words.
import * as Replies from "../front/protocol/replies.mjs";
import Deeds from "./deeds.mjs";

/** @typedef {import("./types").Places} Places */

/**
 * The element of a name.
 * @template {string} N
 * @param {N} name
 * @returns {N extends keyof Places ? Places[N] : HTMLElement}
 */
const find = (name) => /** @type {any} */ (document.getElementById(name));

/** An element with its attributes (null leaves one out) and its children, which are elements or texts. */
function make(tag, attributes, ...children) {
  const element = document.createElement(tag);
  for (const [name, value] of Object.entries(attributes || {})) {
    if (value !== null && value !== undefined && value !== false) element.setAttribute(name, value === true ? "" : value);
  }
  element.append(...children.filter((child) => child !== null && child !== undefined));
  return element;
}

/** A button that, where it is clicked, types a line at the console. */
const lineButton = (words, line, attributes) => make("button", { "data-line": line, title: line, ...attributes }, words);

/** A row of buttons, and of words beside them. */
const buttons = (...all) => make("div", { class: "buttons" }, ...all);

/** Parts, or lists of parts, with something between each two of them. */
const joined = (parts, between) => parts.flatMap((part, at) => (at === 0 ? part : [between].concat(part)));

/** A button that rings some steps while one points at it. */
function ringing(button, steps) {
  button.addEventListener("mouseenter", () => Deeds.ring(steps));
  button.addEventListener("mouseleave", () => Deeds.ring(new Set()));
  return button;
}

/** The button that closes a place. */
const closeButton = (id, label) =>
  make("button", { class: "small", id, title: "Closes this", "aria-label": label }, "×");

/** A text with `such` parts as code. */
function withCode(text) {
  return text.split("`").map((part, index) => (index % 2 === 1 ? make("code", null, part) : part));
}

/** A button that looks like a link. */
const link = (attributes, ...words) => make("button", { class: "link", type: "button", ...attributes }, ...words);

/** A number of a step as a link: a click chooses that step, and brings it into sight. */
const goTo = (number, words = String(number)) => link({ "data-goto": number, title: `goes to step ${number}` }, words);

/** The name of a goal as a link: a click chooses that goal, and opens what can be done with it. */
const goToGoal = (name) => link({ "data-go-goal": name, title: `goes to goal ${name}` }, name);

/** Words in parts as elements, in which steps and goals are links. */
const elementsOf = (parts) => parts.map((part) => {
  if (typeof part === "string") return part;
  return part.step !== undefined ? goTo(part.step) : part.goal !== undefined ? goToGoal(part.goal) : part.variable;
});

/** A line of a reply, with the number of its step, or the name of its goal, as a link. */
function linkedLine(line) {
  const named = Replies.namedIn(line);
  if (named === null) return [line];
  return [named.before, "step" in named ? goTo(named.step) : goToGoal(named.goal), named.after].filter((part) => part !== "");
}

/** What an element is known by, when it was made anew. */
const nameOf = (element) => ["data-line", "data-goal", "data-variable", "data-root", "data-path", "data-goto", "id"].map((name) => element.getAttribute(name) || "").join(" ") + element.textContent;

/** Makes a panel anew; what had the focus in it has it afterwards, or what stands in its place. */
function keepFocus(name, does) {
  const panel = find(name), buttons = () => [...panel.querySelectorAll("button:not(.variable)")], before = buttons();
  const at = before.indexOf(document.activeElement), was = at < 0 ? "" : nameOf(before[at]);
  does();
  if (at < 0) return;
  const after = buttons(), same = after.find((button) => nameOf(button) === was);
  (same || after[Math.min(at, after.length - 1)] || find("step")).focus({ preventScroll: true });
}

const keys = new WeakMap();

/**
 * Fills a panel with rows, each of them `{ key, does }`: a row that stood there under the same key stays as it is, and `does` makes the
 * others. A key that is null is no other row's.
 */
function fillRows(name, rows) {
  const area = find(name), stood = new Map([...area.childNodes].map((child) => [keys.get(child), child])), wanted = rows.map(({ key, does }) => {
    const row = (key !== null && stood.get(key)) || does();
    keys.set(row, key === null ? undefined : key);
    return row;
  });
  const stays = new Set(wanted);
  for (const child of [...area.childNodes]) if (!stays.has(child)) child.remove();
  wanted.forEach((row, at) => { if (area.childNodes[at] !== row) area.insertBefore(row, area.childNodes[at] || null); });
}

export {
  keepFocus, find, make, lineButton, buttons, closeButton, joined, ringing, withCode, link, goTo, goToGoal, elementsOf, linkedLine,
  fillRows,
};
