// The whole of a long run in one strip: a dot for each step, its lane from above, and a window, whose steps alone the
// picture shows.
import { between } from "../front/run/lanes.mjs";
import Deeds from "./deeds.mjs";
import { find } from "./elements.mjs";
import OnScreen from "./on_screen.mjs";
import { pauses } from "./pausing.mjs";
import * as Picture from "./picture.mjs";
import Shown from "./shown.mjs";
import State from "./state.mjs";

const EDGE = 10, FOOT = 18, TOP = 8; // points of the strip beside its dots
const MOST_AT_ONCE = 5000, DOTS = 1024, SLICE = 8; // steps whose dots are drawn at once; dots between two looks at the clock; milliseconds
const LEVELS = { leaf: 1, reduction: 2, lit: 3, hit: 4, chosen: 5 };
const { run, count, isOn, setFrom, zoom, reachOf, sizeNow: size } = OnScreen;

/** A colour such as #2f6fb2 as a pixel, faint where `part` is less than 1. */
function pixelOf(colour, ground, part) {
  const parts = (text) => [1, 3, 5].map((at) => parseInt(text.slice(at, at + 2), 16)), under = parts(ground);
  const [red, green, blue] = parts(colour).map((value, at) => Math.round(value * part + under[at] * (1 - part)));
  return ((255 << 24) | (blue << 16) | (green << 8) | red) >>> 0;
}

/** The colours of steps by what they do: by clause, and of all that are no reductions. */
function paints(theme, part) {
  const paint = Picture.coloursOf(run(), theme), leaf = pixelOf(theme.leaf, theme.ground, part);
  return { leaf, byClause: [leaf, ...run().clauses.map((clause) => pixelOf(paint(clause.predicate), theme.ground, part))] };
}

/** The strip as pixels, where the dot of more weight is seen: those of a chosen step's causes and consequences above the others. */
class Dots {
  constructor(wide, high) {
    this.wide = wide;
    this.high = high;
    this.image = new ImageData(wide, high);
    this.pixels = new Uint32Array(this.image.data.buffer);
    this.levels = new Uint8Array(wide * high);
  }

  put(x, y, dot, tall, colour, level) {
    for (let row = Math.max(0, y); row < Math.min(this.high, y + tall); row++) {
      for (let column = Math.max(0, x); column < Math.min(this.wide, x + dot); column++) {
        const at = row * this.wide + column;
        if (this.levels[at] > level) continue;
        this.levels[at] = level;
        this.pixels[at] = colour;
      }
    }
  }
}

/** Where all stands in the strip, in pixels. */
function placesIn(wide, high, ratio, lanes) {
  const left = EDGE * ratio, top = TOP * ratio, across = (wide - 2 * left) / count(), down = (high - FOOT * ratio - top) / lanes;
  const dot = Math.round(between(1, across, 4 * ratio)), tall = Math.max(1, Math.round(between(1.5 * ratio, down, 4 * ratio)));
  return { dot, tall, x: (index) => Math.round(left + index * across), y: (lane) => Math.round(top + (lane + 0.5) * down - tall / 2) };
}

/** Puts all dots into the strip, and yields from time to time. */
function* drawDots(dots, ratio, { chosen, causes, effects, isRight }) {
  const { graph, lanes } = run(), theme = Picture.THEMES[Shown.theme], places = placesIn(dots.wide, dots.high, ratio, Math.max(1, lanes.lanes.length)), steps = count();
  const { leaf, byClause } = paints(theme, causes === null ? 0.9 : isRight === null ? 0.25 : 0.5), [lit, after, faint] = [[theme.read, 1], [theme.woke, 1], [theme.leaf, 0.15]].map(([colour, part]) => pixelOf(colour, theme.ground, part));
  dots.pixels.fill(pixelOf(theme.ground, theme.ground, 1));
  for (let index = 0; index < steps; index++) {
    if (index % DOTS === DOTS - 1) yield index;
    const x = places.x(index), y = places.y(lanes.ofStep[index].index), isReduction = graph.kinds.at(index) === 0;
    if (isRight !== null && isRight[index] === 1) dots.put(x, y, places.dot, places.tall, faint, LEVELS.leaf);
    else if (causes !== null && causes.isIn[index] === 1) dots.put(x, y, places.dot + 1, places.tall + 1, lit, LEVELS.lit);
    else if (effects !== null && effects.isIn[index] === 1) dots.put(x, y, places.dot + 1, places.tall + 1, after, LEVELS.lit);
    else dots.put(x, y, places.dot, places.tall, isReduction ? byClause[graph.clauses.at(index)] || leaf : leaf, isReduction ? LEVELS.reduction : LEVELS.leaf);
  }
  const hit = pixelOf(theme.named, theme.ground, 1);
  for (const index of OnScreen.hits) {
    if (index % DOTS === DOTS - 1) yield index;
    if (index < steps) dots.put(places.x(index), places.y(lanes.ofStep[index].index) - 2, places.dot + 2, places.tall + 4, hit, LEVELS.hit);
  }
  if (chosen !== null) dots.put(places.x(chosen) - 3, places.y(lanes.ofStep[chosen].index) - 3, places.dot + 6, places.tall + 6, pixelOf(theme.ink, theme.ground, 1), LEVELS.chosen);
}

/** What is lit in the strip: a chosen step with its causes and consequences, or the steps of a slice; and the words for it. */
function litNow() {
  const number = Shown.chosen && Shown.chosen.step, index = number ? run().graph.indexOf(number) : -1;
  if (index < 0 || index >= count()) {
    const { slice, asked } = Shown, lit = slice ?? asked, isRight = slice === null && asked !== null ? asked.isRight : null;
    return { chosen: null, causes: lit, effects: null, isRight, words: lit === null ? "drag or click: goes there" : `${lit.count} steps are lit (blue)` };
  }
  const { causes, effects } = reachOf(number);
  return { chosen: index, causes, effects, isRight: null, words: `step ${number}: ${causes.count - 1} causes (blue), ${effects.count - 1} consequences (orange)` };
}

const layer = document.createElement("canvas");
let drawn = [], wanted = [], words = "", job = null;

const isSame = (one, other) => one.length === other.length && one.every((value, at) => value === other[at]);

function put(dots, of) {
  layer.width = dots.wide;
  layer.height = dots.high;
  layer.getContext("2d").putImageData(dots.image, 0, 0);
  drawn = of;
}

/**
 * Draws the dots of a long run in slices of time, after all else that a line has changed was shown. The strip shows what it showed until
 * that is done, or until something else is wanted.
 */
async function drawInSlices(dots, parts, of) {
  const isOver = (at) => of !== wanted || at >= run().lanes.ofStep.length || !run().isWhole;
  await State.showing;
  if (isOver(0)) return;
  const pause = pauses(SLICE);
  for (const at of parts) {
    if (await pause() && isOver(at)) return;
  }
  put(dots, of);
  draw();
}

/** The dots as a picture, which is drawn anew where something of it is another. */
function dotsLayer(wide, high, ratio) {
  const lit = litNow(), of = [run(), run().version, lit.chosen, lit.causes, Shown.theme, wide, high, ratio, OnScreen.hits, count()];
  words = lit.words;
  if (isSame(of, wanted)) return layer;
  wanted = isSame(of, drawn) ? drawn : of;
  if (wanted === drawn) return layer;
  const dots = new Dots(wide, high), parts = drawDots(dots, ratio, lit);
  if (count() > MOST_AT_ONCE) job = drawInSlices(dots, parts, of);
  else {
    for (const at of parts) if (at < 0) break;
    put(dots, of);
  }
  return layer;
}

/** Waits until the strip shows what it is to show. */
async function settled() {
  for (let last = null; job !== last;) {
    last = job;
    await last;
  }
}

function drawWindow(pen, wide, high, theme) {
  const across = (wide - 2 * EDGE) / count(), last = Math.min(count(), OnScreen.from + size()), left = EDGE + OnScreen.from * across, width = Math.max(4, (last - OnScreen.from) * across);
  pen.fillStyle = pen.strokeStyle = theme.ink;
  pen.lineWidth = 1.5;
  pen.globalAlpha = 0.08;
  pen.fillRect(left, 2, width, high - FOOT);
  pen.globalAlpha = 1;
  pen.strokeRect(left, 2, width, high - FOOT);
  return `steps ${OnScreen.from + 1} to ${last} of ${run().graph.count}`;
}

function draw() {
  const area = find("overview");
  area.hidden = !isOn();
  if (!isOn() || !run().isWhole) return;
  setFrom(OnScreen.from);
  const ratio = window.devicePixelRatio || 1, wide = area.clientWidth, high = area.clientHeight, theme = Picture.THEMES[Shown.theme];
  if (wide === 0) return;
  area.width = Math.round(wide * ratio);
  area.height = Math.round(high * ratio);
  const pen = area.getContext("2d");
  const dots = dotsLayer(area.width, area.height, ratio);
  if (dots.width > 0) pen.drawImage(dots, 0, 0, area.width, area.height);
  pen.scale(ratio, ratio);
  const shown = drawWindow(pen, wide, high, theme);
  pen.font = "11px sans-serif";
  pen.fillStyle = theme.dim;
  pen.fillText(wide < 500 ? shown : `${shown}     ${words}`, EDGE, high - 4);
  area.setAttribute("aria-valuemax", String(count()));
  area.setAttribute("aria-valuenow", String(OnScreen.from + 1));
  area.setAttribute("aria-valuetext", `${shown}; ${words}`);
}

let waits = false;
function goTo(from) {
  setFrom(from);
  if (waits) return;
  waits = true;
  requestAnimationFrame(() => {
    waits = false;
    Deeds.draw();
  });
}

/** The place of a pointer in the strip, by steps. */
const stepsAt = (event) => ((event.offsetX - EDGE) / (find("overview").clientWidth - 2 * EDGE)) * count();

let selectedFrom = null; // where an area began that is selected in the strip

function onPointer(event) {
  if (event.buttons !== 1) return;
  if (event.type === "pointerdown") selectedFrom = event.shiftKey ? stepsAt(event) : null;
  if (selectedFrom === null) goTo(stepsAt(event) - size() / 2);
}

function onPointerUp(event) {
  if (selectedFrom !== null && OnScreen.until === null) Deeds.selectRange(selectedFrom, stepsAt(event));
  selectedFrom = null;
}

function onKey(event) {
  const step = size(), to = { ArrowLeft: OnScreen.from - step / 4, ArrowRight: OnScreen.from + step / 4, PageUp: OnScreen.from - step, PageDown: OnScreen.from + step, Home: 0, End: count() }[event.key];
  if (to === undefined && event.key !== "+" && event.key !== "-") return;
  event.preventDefault();
  event.stopPropagation();
  if (to === undefined) zoom(event.key === "+" ? 1.4 : 1 / 1.4);
  goTo(to === undefined ? OnScreen.from : to);
}

function listenToAll() {
  const area = find("overview");
  area.addEventListener("pointerdown", (event) => { area.setPointerCapture(event.pointerId); onPointer(event); });
  area.addEventListener("pointermove", onPointer);
  area.addEventListener("pointerup", onPointerUp);
  area.addEventListener("keydown", onKey);
  area.addEventListener("wheel", (event) => { event.preventDefault(); zoom(event.deltaY < 0 ? 1.2 : 1 / 1.2); goTo(OnScreen.from); }, { passive: false });
}

export { draw, settled, goTo, listenToAll };
