// Leads through the tour: shows its words, points at what is to be clicked, and goes on when its line was typed.
import Deeds from "./deeds.mjs";
import { find, withCode } from "./elements.mjs";
import State from "./state.mjs";
import * as Talk from "./talk.mjs";
import * as Tour from "./tour.mjs";

let at = null; // the station where the tour is; null where there is none
let isAside = false; // whether other lines were typed than the story's

const station = () => (at !== null && at < Tour.STATIONS.length ? Tour.STATIONS[at] : null);

/** Begins the session of a station anew, and plays it up to there. */
function putThere() {
  const { program } = Tour.SESSIONS[station().session], bill = EXAMPLES.find(({ name }) => name === "bill");
  isAside = false;
  Deeds.begin({ program: program(bill.program), query: Tour.QUERY }, Tour.linesBefore(at));
  show();
}

function goTo(index) {
  const isFresh = at === null || index < at || (index < Tour.STATIONS.length && Tour.beginsSession(index));
  at = index;
  if (station() && isFresh) putThere();
  show();
}

function end() {
  at = null;
  show();
}

/** Types the station's line for the user. */
const doIt = () => Talk.send(station().line);

/** Shows where the tour is, the words of its station, and what leads on. */
function showStation() {
  const here = station(), words = here ? here.words : Tour.END;
  find("tour-chapter").textContent = here ? here.chapter : "Done";
  find("tour-at").textContent = here ? `${at + 1} of ${Tour.STATIONS.length}` : "the end";
  find("tour-words").replaceChildren(...(isAside ? ["You left the story, and that is fine. "] : withCode(words)));
  Object.assign(find("tour-do"), { hidden: !here || isAside, title: here ? here.line : "" });
  find("tour-again").hidden = !isAside;
  find("tour-back").hidden = at === 0;
}

function show() {
  find("guide").hidden = at === null;
  document.body.classList.toggle("on-tour", at !== null);
  if (at !== null) showStation();
  pointAgain();
}

const isSeen = (element) => element.getClientRects().length > 0;

/** What is to be clicked now: a button or a field in the open menu, else what opens it, else the console's line. */
function target() {
  const here = station();
  if (!here || isAside) return null;
  if (here.isTyped) return find("line");
  const inMenu = [...find("menu").querySelectorAll("[data-line]")].find((button) => button.dataset.line === here.line && isSeen(button));
  const roll = here.line.startsWith("roll ") ? find("menu").querySelector("[data-roll]") : null;
  const field = here.line.startsWith("ask ") ? find("menu").querySelector('[data-words="ask"]') : null;
  return inMenu || (field && isSeen(field) ? field : null) || (roll && isSeen(roll) ? roll : null) || document.querySelector(Tour.opensAt(here.line));
}

/** Points at what is to be clicked, and shows the part of the page where it is. */
function pointAgain() {
  for (const element of document.querySelectorAll(".pointed")) element.classList.remove("pointed");
  const element = target();
  if (!element) return;
  element.classList.add("pointed");
  if (!isSeen(element)) Deeds.showTab(element.closest("#talk") ? "console" : element.closest("#source") ? "program" : "run");
}

/** After lines were typed: on to the next station, or aside from the story. */
function onChange(what) {
  const here = station();
  if (!here) return;
  if (what === "lines" && !isAside) {
    const last = State.entries[State.entries.length - 1].line;
    const isNext = State.entries.length === Tour.linesBefore(at).length + 1;
    if (isNext && last.trim().replace(/ +/g, " ") === here.line) goTo(at + 1);
    else if (State.entries.length > Tour.linesBefore(at).length) isAside = true;
  }
  show();
}

const begin = () => goTo(0), back = () => goTo(at - 1);
const isOn = () => at !== null;

export { begin, back, end, doIt, putThere, onChange, pointAgain, isOn };
