// Wheel and drag in the picture: they move and size it, and with Shift a drag selects an area, whose steps are lit and
// summed by predicate.
import Deeds from "./deeds.mjs";
import { find, make } from "./elements.mjs";
import OnScreen from "./on_screen.mjs";
import Shown from "./shown.mjs";
import * as Summing from "./summing.mjs";
import State from "./state.mjs";

const LEAST_DRAG = 4; // points from which on a press is a drag
const SAME = 30; // milliseconds within which a click belongs to a drag
const SIZED = 1.2; // by how much a turn of the wheel sizes
const OTHERS = ".mark, .goal, .taken, .bar, .coming, [data-types]"; // what a press chooses, and drags nothing
let drag = null; // where one began, and what it does
let draggedAt = -1; // when the last drag ended
let keys = null; // the two ends of an area that is selected by keys, by the places of steps

/** Lights the flagged steps, and tells how many of which predicate they are. */
function tell(isIn) {
  const count = isIn.reduce((sum, flag) => sum + flag, 0), { numbers } = State.run.graph;
  if (count === 0) return;
  const first = numbers.at(isIn.indexOf(1)), last = numbers.at(isIn.lastIndexOf(1));
  Deeds.showFlags(isIn, count);
  const steps = count === 1 ? `1 step, ${first}` : `${count.toLocaleString("en")} steps, from ${first} to ${last}`;
  Deeds.tell(false, `${steps}: `, make("b", null, Summing.words(State.run, isIn)), ".");
}

/** Selects the steps between two places of the record, both with them. */
function selectRange(one, other) {
  const isIn = new Uint8Array(State.run.graph.count), most = isIn.length - 1;
  const place = (at) => Math.max(0, Math.min(most, Math.floor(at)));
  isIn.fill(1, place(Math.min(one, other)), place(Math.max(one, other)) + 1);
  tell(isIn);
}

/** Selects the steps whose marks stand between two places of the picture. */
function selectAcross(one, other) {
  const { graph } = State.run, isIn = new Uint8Array(graph.count);
  const [left, right] = [Math.min(one, other), Math.max(one, other)];
  for (const [number, { x }] of OnScreen.drawn.marks) if (x >= left && x <= right) isIn[graph.indexOf(number)] = 1;
  tell(isIn);
}

/** The place within the picture of a pointer. */
const acrossAt = (event) => event.clientX - find("canvas").getBoundingClientRect().left + find("canvas").scrollLeft;

/** Whether an area is selected: only of the run as it is now. */
const canSelect = () => OnScreen.drawn !== null && OnScreen.until === null;

function onDown(event) {
  if (event.button !== 0 || event.pointerType === "touch" || OnScreen.drawn === null) return;
  const isSelecting = event.shiftKey && canSelect();
  if (!isSelecting && event.target.closest(OTHERS)) return;
  const area = find("canvas");
  const where = { x: event.clientX, y: event.clientY, left: area.scrollLeft, top: area.scrollTop };
  drag = { ...where, from: OnScreen.from, across: acrossAt(event), isSelecting, hasMoved: false };
}

/**
 * Moves the picture with the pointer; of a long run the window, where the picture has nothing more to show on that
 * side.
 */
function pan(event) {
  const area = find("canvas"), by = event.clientX - drag.x, wanted = drag.left - by;
  const most = area.scrollWidth - area.clientWidth;
  area.scrollTo(Math.max(0, Math.min(wanted, most)), drag.top - (event.clientY - drag.y));
  const over = wanted < 0 ? wanted : Math.max(0, wanted - most);
  if (OnScreen.isOn()) Deeds.goToPart(drag.from + over / OnScreen.drawn.sizes.dx);
}

/** Shows the area that is being selected. */
function band(event) {
  const area = find("canvas"), now = acrossAt(event);
  const shown = area.querySelector(".band") || area.appendChild(make("div", { class: "band" }));
  const left = Math.min(drag.across, now), wide = Math.abs(now - drag.across);
  Object.assign(shown.style, { left: `${left}px`, width: `${wide}px`, height: `${area.scrollHeight}px` });
}

function onMove(event) {
  if (drag === null) return;
  const isFar = Math.hypot(event.clientX - drag.x, event.clientY - drag.y) >= LEAST_DRAG;
  if (!drag.hasMoved && !isFar) return;
  if (!drag.hasMoved) find("canvas").setPointerCapture(event.pointerId);
  drag.hasMoved = true;
  find("canvas").classList.add("dragged");
  if (drag.isSelecting) band(event);
  else pan(event);
}

function onUp(event) {
  if (drag === null) return;
  const { isSelecting, hasMoved, across } = drag;
  drag = null;
  find("canvas").classList.remove("dragged");
  find("canvas").querySelector(".band")?.remove();
  if (!hasMoved) return;
  draggedAt = event.timeStamp;
  if (isSelecting) selectAcross(across, acrossAt(event));
}

/**
 * With Ctrl the wheel sizes the picture; else it moves it, of a long run that is not higher than the window from left
 * to right.
 */
function onWheel(event) {
  const area = find("canvas"), { deltaX, deltaY } = event, isHigher = area.scrollHeight > area.clientHeight + 1;
  if (event.ctrlKey || event.metaKey) {
    event.preventDefault();
    Deeds.size(deltaY < 0 ? SIZED : 1 / SIZED);
    return;
  }
  if (isHigher || deltaY === 0 || deltaX !== 0 || event.shiftKey) return;
  event.preventDefault();
  if (area.scrollWidth > area.clientWidth + 1) area.scrollLeft += deltaY;
  else if (OnScreen.isOn()) Deeds.goToPart(OnScreen.from + (Math.sign(deltaY) * OnScreen.sizeNow()) / 4);
}

/** With Shift the arrows select from the chosen step on; says whether they did. */
function onKey(key) {
  const by = { ArrowLeft: -1, ArrowRight: 1 }[key], { graph } = State.run;
  const chosen = Shown.chosen?.step ?? Shown.visited;
  if (by === undefined || !canSelect()) return false;
  const begin = () => (chosen ? { from: graph.indexOf(chosen), to: graph.indexOf(chosen) } : null);
  if (keys === null || Shown.slice !== keys.slice) keys = begin();
  if (keys === null) return false;
  keys.to = Math.max(0, Math.min(graph.count - 1, keys.to + by));
  selectRange(keys.from, keys.to);
  keys.slice = Shown.slice;
  return true;
}

/** A drag is no click. */
function onClick(event) {
  if (event.timeStamp - draggedAt < SAME) event.stopPropagation();
}

function listenToAll() {
  const area = find("canvas");
  area.addEventListener("pointerdown", onDown);
  area.addEventListener("pointermove", onMove);
  area.addEventListener("pointerup", onUp);
  area.addEventListener("pointercancel", () => { drag = null; });
  area.addEventListener("click", onClick, { capture: true });
  area.addEventListener("wheel", onWheel, { passive: false });
}

export { selectRange, onKey, listenToAll };
