// Starts the page, and says what clicks and keys do. Whatever changes the run is a line that is typed at the console.
import * as Replies from "../front/protocol/replies.mjs";
import * as SessionText from "../front/protocol/session_text.mjs";
import * as Graph from "../front/run/graph.mjs";
import * as Answers from "./answers.mjs";
import * as Beside from "./beside.mjs";
import * as Blaming from "./blaming.mjs";
import Canvas from "./canvas.mjs";
import * as Checking from "./checking.mjs";
import * as Choosing from "./choosing.mjs";
import Deeds from "./deeds.mjs";
import { find, make } from "./elements.mjs";
import * as ExampleNotes from "./example_notes.mjs";
import * as Files from "./files.mjs";
import * as Fitting from "./fitting.mjs";
import * as Guide from "./guide.mjs";
import * as Keeping from "./keeping.mjs";
import * as Links from "./links.mjs";
import * as Looking from "./looking.mjs";
import * as Menus from "./menus.mjs";
import OnScreen from "./on_screen.mjs";
import * as Overview from "./overview.mjs";
import * as Panels from "./panels.mjs";
import { pauses } from "./pausing.mjs";
import * as Program from "./program.mjs";
import * as Reloading from "./reloading.mjs";
import * as Resting from "./resting.mjs";
import * as Result from "./result.mjs";
import * as Selecting from "./selecting.mjs";
import Shown from "./shown.mjs";
import * as Store from "./store.mjs";
import State from "./state.mjs";
import * as Talk from "./talk.mjs";
import * as Trail from "./trail.mjs";
import * as Walking from "./walking.mjs";
import * as Why from "./why.mjs";

const FIRST_EXAMPLE = "quicksort", FIRST_QUERY = "quicksort([3,1,2],R)";
const typedBefore = [];
let recall = 0;

const typed = () => ({ program: find("program").value, query: find("query").value, history: "" });

/** Whether program or query were changed since Start. */
const isChanged = () => find("program").value !== State.given.program || find("query").value !== State.given.query.replace(/[\r\n]/g, "");

/** Puts texts into the fields that are not started yet. */
function setTyped({ program, query }) {
  Program.setText(program);
  find("query").value = query;
  Panels.showNote();
  Reloading.follow();
}

/** Starts the texts in the fields. */
function startTyped() {
  Guide.end();
  begin(typed());
  if (document.body.dataset.tab === "program") showTab("run");
}

/**
 * Begins a session, shows its texts, and types lines; it is done when these are played.
 * @param {import("./types").Texts} texts
 */
function begin({ program: text, ...others }, lines = []) {
  const given = { ...others, program: text.replace(/\r\n?/g, "\n") }; // as the field holds it
  Program.setText(given.program);
  find("query").value = given.query;
  Menus.close();
  Shown.chosen = null;
  Keeping.leaveDone();
  const begun = Talk.start({ program: given.program, query: given.query, history: given.history || "" });
  return lines.length > 0 ? Talk.sendAll(lines) : begun;
}

function chooseExample(name, query, lines) {
  const example = EXAMPLES.find((other) => other.name === name);
  return begin({ program: example.program, query: query || ExampleNotes.read(example).query }, lines);
}

let standing = ""; // the example that stands here, by name
let isPassing = false; // whether keys go through the list of examples, of which the browser tells each one

function startExample() {
  const { value } = find("examples");
  find("examples").value = standing;
  if (value !== "" && value !== standing) Keeping.beginOther(() => { Guide.end(); chooseExample(value); });
}

/** An example starts by a click or by Enter. Other keys go through the list, but for those that open it. */
function onExampleKey(event) {
  isPassing = !["Enter", " ", "F4"].includes(event.key) && !event.altKey;
  if (event.key !== "Enter" || find("examples").value === standing) return;
  event.preventDefault();
  startExample();
}

const SLICE = 16; // milliseconds that the page shows what has changed without a pause

/** Names the example that stands here, where one does, with what its comment says. */
function nameExample(what) {
  if (what !== "start") return;
  const example = EXAMPLES.find((other) => other.program === State.given.program);
  standing = example ? example.name : "";
  find("examples").value = standing;
  Panels.showLookAt(example && !Guide.isOn() ? ExampleNotes.read(example) : null);
}

let wasCount = 0, seen = 0; // steps, before a change; entries that were shown

function redraw() {
  Canvas.forget();
  Fitting.endLit();
  Canvas.draw();
}

function showNewSteps() {
  if (State.run.graph.count > wasCount) Canvas.showThere();
}

/** Lights the steps that went by a clause, and tells how many there are. */
function lightClause(number) {
  const { graph, clauses } = State.run, clause = clauses[number - 1], isIn = new Uint8Array(graph.count), places = [];
  for (let index = 0; index < graph.count; index++) {
    if (graph.clauses.at(index) !== number) continue;
    isIn[index] = 1;
    places.push(index);
  }
  Canvas.showFlags(isIn, places.length);
  Program.markClause(clause);
  const numberAt = (at) => graph.numbers.at(places[at]);
  const told = places.length === 1 ? "1 step went by it" : `${places.length.toLocaleString("en")} steps went by it`;
  const parts = places.length === 0 ? ["no step went by it."] : [`${told} (lit). `, Walking.along(places.length, numberAt)];
  Answers.put(false, `Clause ${number} of ${clause.predicate}: `, ...parts);
}

/** Where program or query was refused, it says why; else what is noted on the program. */
function tellCause(what) {
  if (what !== "start" || Answers.showRefusal(State.given, State.refusal)) return;
  const notes = State.refusal ? [] : Answers.notesOn(State.given.program);
  if (notes.length > 0) Answers.put(false, ...notes);
}

const showDetail = () => Panels.showDetail(Shown.chosen);

/** What shows a change, in its order: each is told what it is, and the fresh entries of the console. */
const parts = () => [
  leaveAddress, nameExample, hideWelcome, OnScreen.follow, Beside.follow, Result.show, redraw, showNewSteps,
  Looking.follow, Panels.showTold, Panels.showGoals, Store.show,
  Panels.showShelf, Panels.showCount, showDetail, Answers.show, Trail.follow, Why.show, Blaming.show, Choosing.follow, Guide.onChange,
  tellCause, Reloading.follow, Fitting.showLit, Keeping.keep,
];

/** What shows the run at the time that is on the screen. */
const PARTS_OF_TIME = [Result.show, Panels.showGoals, Store.show, Panels.showShelf, Panels.showCount, showDetail];

/** Shows what has changed, in parts between which the page may pause. A fault in one is thrown after the others. */
async function onChange(what) {
  if (what === "fault") Panels.showNote();
  if (what === "busy" || what === "idle") Panels.showBusy();
  if (!["start", "again", "lines"].includes(what)) return;
  if (what !== "lines") Shown.chosen = null;
  wasCount = OnScreen.wasCount;
  const pause = pauses(SLICE), faults = [], fresh = what === "lines" ? State.entries.slice(seen) : [];
  seen = State.entries.length;
  for (const part of parts()) {
    await pause();
    try {
      part(what, fresh);
    } catch (error) {
      faults.push(error);
    }
  }
  if (faults.length > 0) throw faults[0];
}

function showTab(name) {
  document.body.dataset.tab = name;
  for (const button of document.querySelectorAll(".tabs button")) button.setAttribute("aria-pressed", String(button.dataset.tab === name));
  if (name === "run" && State.session) Canvas.draw();
}

function setOrder(by) {
  Shown.by = by;
  for (const order of ["record", "depth"]) find(`by-${order}`).setAttribute("aria-pressed", String(order === by));
  Canvas.draw();
}

function setTheme(theme) {
  Shown.theme = theme;
  document.documentElement.dataset.theme = theme;
  find("theme").textContent = theme === "light" ? "Dark" : "Light";
  if (State.session) Canvas.draw();
}

/** Puts the record into another lawful order, in which each process goes on as far as it can. */
function tidy() {
  const { graph, lanes } = State.run, laneOf = (number) => lanes.ofStep[graph.indexOf(number)];
  Talk.send(`arrange ${Graph.tidyOrder(graph, laneOf).join(" ")}`).then(() => setOrder("record"));
}

const showHelp = () => find("help").showModal();
const hideWelcome = () => { find("welcome").hidden = true; };

/** Empties program and query, to be written. */
function writeOwn() {
  hideWelcome();
  setTyped({ program: "", query: "" });
  showTab("program");
  find("program").focus();
}

const BUTTONS = {
  "begin-tour": () => Keeping.beginOther(Guide.begin), "welcome-tour": () => Keeping.beginOther(Guide.begin),
  "welcome-run": () => { hideWelcome(); find("leap").click(); }, "welcome-own": writeOwn, "close-welcome": hideWelcome,
  "open-help": showHelp, "close-help": () => find("help").close(), "open-file": () => find("file").click(),
  "larger-query": () => begin({ ...typed(), query: find("larger-query").value }), "start-anew": startTyped,
  "save-session": () => Files.saveSession(), "save-picture": () => Menus.open({ picture: true }, find("save-picture")),
  "ask-more": () => Menus.open({ ask: true }, find("ask-more")),
  "redo-all": () => Talk.sendAll(State.run.shelf.map((step) => `redo ${step.number}`)),
  stop: () => Talk.stop(), "trail-back": Trail.back,
  theme: () => setTheme(Shown.theme === "light" ? "dark" : "light"), tidy,
  "by-record": () => setOrder("record"), "by-depth": () => setOrder("depth"),
  smaller: () => Fitting.size(1 / 1.4), larger: () => Fitting.size(1.4), fit: Fitting.toggle,
  reload: () => Reloading.reload(), "keep-run": () => Beside.keep(), "drop-run": () => Beside.drop(), "swap-runs": () => Beside.swap(),
  play: () => Looking.play(), "show-all-steps": () => Looking.showNow(),
  "lanes-alone": () => Panels.showLanes(true), "lanes-all": () => Panels.showLanes(false),
  again: () => Talk.again(), "close-answer": () => Answers.hide(),
  "why-close": Why.close, "choices-stop": Choosing.stop, "choices-close": Choosing.close,
  "blame-light": () => Blaming.lightAgain(), "blame-close": () => Blaming.close(), "blame-trust": () => Blaming.trust(),
  "blame-alone": () => Blaming.tryAlone(), "blame-return": () => Blaming.goBack(),
  "tour-do": () => Guide.doIt(), "tour-back": () => Guide.back(), "tour-again": () => Guide.putThere(), "tour-end": () => Guide.end(),
  forget: () => Keeping.forget(), "make-link": () => Keeping.makeLink(), "copy-link": () => Keeping.copyLink(),
};

/** Chooses a step, and brings it into sight. */
function goToStep(step) {
  if (!State.run.graph.byNumber.has(step)) return;
  if (document.body.dataset.tab === "console") showTab("run");
  goTo({ step });
}

/** Chooses a step or a goal, and brings it into sight. */
function goTo(chosen) {
  Canvas.choose(chosen);
  Canvas.scrollTo(chosen);
}

/** Chooses a goal that is there, and opens what can be done with it; of one that is gone the step that took it. */
function goToGoal(goal) {
  const chosen = { goal }, taker = OnScreen.takerOf(goal);
  if (taker !== undefined) {
    goToStep(taker.number);
    return;
  }
  goTo(chosen);
  if (Canvas.elementOf(chosen)) Menus.open(chosen, Canvas.elementOf(chosen));
}

function explainPart(element) {
  Store.explain(element.dataset.root, element.dataset.path.split(".").filter(Boolean).map(Number));
  element.classList.add("told");
}

/** Types the number of a variable behind what stands in the console's line. */
function typeNumber(element) {
  const line = find("line"), before = line.value.trimEnd();
  showTab("console");
  line.value = before === "" ? element.dataset.types : `${before} ${element.dataset.types}`;
  line.focus();
}

/**
 * What a click does, by what it hits: the first of these that fits. An open menu is closed before.
 * @type {[string, (element: any) => unknown][]}
 */
const CLICKS = [
  ["[data-line]:not(:disabled)", ({ dataset }) => Talk.send(dataset.line)],
  ["[data-types]", typeNumber],
  ["[data-root]", explainPart],
  ["[data-keep]", ({ dataset }) => Resting.askKeep(dataset.keep)],
  ["[data-go-goal]", ({ dataset }) => goToGoal(dataset.goGoal)],
  ["[data-try]", ({ dataset }) => Beside.tryClause(...dataset.try.split(" ").map(Number))],
  ["[data-kept]", ({ dataset }) => Beside.onClick(Number(dataset.kept))],
  ["[data-outcome]", ({ dataset }) => Choosing.goThere(...dataset.outcome.split(" "))],
  ["[data-choices]", ({ dataset }) => Choosing.begin(dataset.choices)],
  ["[data-fold]", ({ dataset }) => Looking.fold(dataset.fold, true)],
  ["[data-unfold]", ({ dataset }) => Looking.fold(dataset.unfold, false)],
  ["[data-note-away]", ({ dataset }) => Trail.setNote(Number(dataset.noteAway), "")],
  ["[data-go-on]", ({ dataset }) => Keeping.goOn(Number(dataset.goOn))],
  ["[data-clause]", ({ dataset }) => lightClause(Number(dataset.clause))],
  ["[data-visit]", ({ dataset }) => Canvas.visit(Number(dataset.visit))],
  ["[data-goto]", ({ dataset }) => goToStep(Number(dataset.goto))],
  ["button[data-tab]", ({ dataset }) => showTab(dataset.tab)],
  [Object.keys(BUTTONS).map((id) => `button#${id}`).join(","), ({ id }) => BUTTONS[id]()],
];

function onClick(event) {
  const { target } = event;
  if (!target.isConnected) return; // the button has put something else in its own place
  const [hit, does] = CLICKS.find(([selector]) => target.closest(selector)) ?? [];
  if (does === undefined && target.closest("#menu") && !target.closest("[data-close]")) return;
  Menus.close();
  if (does === undefined) chooseAt(target);
  else does(target.closest(hit));
}

/** What a menu can be opened of, each with how its name is read. */
const KINDS = { step: Number, goal: String, taken: Number, variable: String };

/** Chooses what was clicked, and opens what can be done with it. */
function chooseAt(target) {
  const found = target.closest("[data-step], [data-goal], [data-taken], [data-variable]");
  if (!found && target.closest("#canvas")) Canvas.choose(null);
  if (!found) return;
  const kind = Object.keys(KINDS).find((name) => name in found.dataset);
  const chosen = { [kind]: KINDS[kind](found.dataset[kind]) };
  if (kind !== "variable") Canvas.choose(kind === "taken" ? null : chosen);
  Menus.open(chosen, found);
}

const KEYS = {
  s: () => find("step").click(), r: () => find("leap").click(), u: () => find("undo-last").click(), t: () => find("tidy").click(),
  y: () => Blaming.press("right"), n: () => Blaming.press("wrong"), b: () => Blaming.press("back"), p: Trail.back,
  f: () => { showTab("run"); find("search").focus(); },
  a: () => { showTab("run"); find("ask-more").click(); }, d: () => setOrder(Shown.by === "record" ? "depth" : "record"), "/": () => { showTab("console"); find("line").focus(); }, "?": showHelp,
};

/** Stops the line that is at work, else closes what is open, else chooses nothing. */
function onEscape(target) {
  if (!find("busy").hidden && State.busy?.canStop) {
    Talk.stop();
    return;
  }
  const wasOpen = !find("menu").hidden;
  if (target === find("line")) find("line").blur();
  Menus.close();
  if (wasOpen) find("canvas").focus();
  else Canvas.choose(null);
}

function onKey(event) {
  const { key, target } = event, isWithOther = event.ctrlKey || event.metaKey;
  if (key === "Enter" && isWithOther && target === find("program")) find("start").requestSubmit();
  if (isWithOther || event.altKey || find("help").open) return;
  if (key === "Escape") onEscape(target);
  if (key === "Tab" && target.closest("#menu")) Menus.onTab(event);
  if (target.closest("input, textarea, select")) return;
  const does = KEYS[key], isInCanvas = target === find("canvas");
  const isMoved = isInCanvas && ((event.shiftKey && Selecting.onKey(key)) || Canvas.onKey(key));
  if (isMoved || does) event.preventDefault();
  if (does) does();
}

/** The arrows up and down bring back lines that were typed before. */
function onLineKey(event) {
  if (event.key !== "ArrowUp" && event.key !== "ArrowDown") return;
  event.preventDefault();
  recall = Math.max(0, Math.min(recall + (event.key === "ArrowUp" ? -1 : 1), typedBefore.length));
  find("line").value = typedBefore[recall] || "";
}

function onType(event) {
  event.preventDefault();
  const line = find("line").value;
  if (line.trim() === "") return;
  typedBefore.push(line);
  recall = typedBefore.length;
  find("line").value = "";
  Talk.send(line);
}

/**
 * The console's drawer opens where somebody writes a line, or comes into it by a key; it stays as it is while one is
 * within.
 */
function listenToDrawer() {
  const talk = find("talk");
  talk.addEventListener("focusin", (/** @type {any} */ { target }) => {
    if (target === find("line") || target.matches(":focus-visible")) talk.classList.add("open");
  });
  talk.addEventListener("focusout", (/** @type {any} */ { relatedTarget }) => {
    if (!talk.contains(relatedTarget)) talk.classList.remove("open");
  });
}

function listenToAll() {
  document.addEventListener("click", onClick);
  listenToDrawer();
  document.addEventListener("keydown", onKey);
  find("type").addEventListener("submit", onType);
  find("line").addEventListener("keydown", onLineKey);
  find("start").addEventListener("submit", (event) => { event.preventDefault(); startTyped(); });
  find("examples").addEventListener("keydown", onExampleKey);
  find("examples").addEventListener("change", () => { if (!isPassing) startExample(); });
  find("examples").addEventListener("pointerdown", () => { isPassing = false; });
  find("examples").addEventListener("blur", () => { find("examples").value = standing; });
  for (const field of [find("program"), find("query")]) {
    const follows = [Panels.followText, Reloading.followSoon, Checking.followSoon, Keeping.keepSoon];
    for (const follow of follows) field.addEventListener("input", follow);
  }
  find("canvas").addEventListener("scroll", () => {
    Canvas.stayInSight();
    if (!Canvas.isOwnScroll()) Menus.close();
  }, { passive: true });
  find("canvas").addEventListener("mouseover", (event) => Canvas.addTitle(event.target));
  window.addEventListener("resize", () => { if (State.session) Canvas.draw(); });
  find("note-form").addEventListener("submit", Trail.onNote);
  for (const part of [Files, Overview, Program, Looking, Selecting, Reloading]) part.listenToAll();
  window.addEventListener("pagehide", Keeping.keep);
  window.addEventListener("hashchange", () => Keeping.beginOther(() => { Guide.end(); return fromAddress(); }));
  setInterval(() => { if (State.busy) Panels.showBusy(); }, 100);
  Talk.listen(onChange);
}

/** The session in the letters of an address; null, and in words why, where none is read. */
async function readLink(letters) {
  const tooLong = ({ message }) => `The session in the address is not read: ${message}. Open takes one from a file.`;
  try {
    const session = SessionText.read(await Links.unpack(letters), () => undefined);
    if (session === null || Replies.hasHole(session.history)) throw new Error("no whole session");
    Links.testLines(session);
    return { session };
  } catch (error) {
    const why = error instanceof RangeError ? tooLong(error) : "The address holds no session that can be read.";
    return { session: null, why };
  }
}

/** The trail and the notes in the letters of an address; null where there are none, or none can be read. */
const readNotes = (letters) => (letters === null ? null : Links.unpack(letters).then(JSON.parse).catch(() => null));

let isOfAddress = false; // whether a session is begun that the address tells

/**
 * A session that the address does not tell takes the address's part away: a reload would bring back another one, and
 * not offer this one.
 */
function leaveAddress(what) {
  if (what !== "start" || isOfAddress || location.hash.length <= 1) return;
  history.replaceState(null, "", location.href.split("#")[0]);
}

/** Does what an address asks for; says whether it tells what to begin with. */
function fromAddress() {
  isOfAddress = true;
  return beginAddressed().finally(() => { isOfAddress = false; });
}

/**
 * Does what an address asks for, as `#example=primes&query=primes(30,Ps)&lines=leap&by=depth&theme=dark&step=90`; says
 * whether it tells what to begin with.
 */
async function beginAddressed() {
  const asked = new URLSearchParams(location.hash.slice(1)), name = asked.get("example"), letters = asked.get("s");
  const { session, why } = letters === null ? { session: null, why: undefined } : await readLink(letters);
  if (session !== null) {
    await begin(session, session.lines);
    Trail.takeUp(await readNotes(asked.get("n")));
    return true;
  }
  const example = EXAMPLES.some((other) => other.name === name) ? name : FIRST_EXAMPLE;
  if (asked.get("theme")) setTheme(asked.get("theme") === "dark" ? "dark" : "light");
  if (asked.get("by") === "depth") setOrder("depth");
  const lines = (asked.get("lines") || "").split(";").filter(Boolean);
  await chooseExample(example, asked.get("query") || (name ? "" : FIRST_QUERY), lines);
  if (why !== undefined) Answers.put(true, why);
  goToStep(Number(asked.get("step")));
  return name === example;
}

/** @type {import("./types").Doers} */
const doers = {
  begin, beginOther: Keeping.beginOther, typed, isChanged, setTyped, keepSoon: Keeping.keepSoon, leaveDone: Keeping.leaveDone, wayBack: Keeping.wayBack,
  showTab, setOrder, showNow: Looking.showNow, showTime: () => PARTS_OF_TIME.forEach((part) => part()), timeRows: Panels.timeRows, showNote: Panels.showNote, showDetail: (chosen) => { Panels.showDetail(chosen); Trail.look(chosen); },
  draw: Canvas.draw, drawStrip: Overview.draw, goToPart: Overview.goTo,
  choose: Canvas.choose, scrollTo: Canvas.scrollTo, goTo, visit: Canvas.visit, markWay: Canvas.markWay, ring: Canvas.ring,
  showSlice: Canvas.showSlice, showAsked: Canvas.showAsked, showFlags: Canvas.showFlags, scrollToLit: Canvas.scrollToLit,
  markClause: Program.markClause, markLit: Program.markLit, showPlace: Program.showPlace,
  underline: Program.underline, lightClause, size: Fitting.size, selectRange: Selecting.selectRange,
  resultOf: Result.ofKept, tell: Answers.put, hideAnswer: Answers.hide, tellSlice: Resting.tell, openMenu: Menus.open, askFirst: Menus.askFirst,
  showRefusal: Answers.showRefusal, notesOn: Answers.notesOn,
  whyInShort: Why.inShort, drawBeside: Beside.draw, besideColumns: Beside.columns, besideParts: Beside.noteParts, canKeepRun: Beside.isComparable, keepRun: Beside.keep,
  looked: Trail.saved, takeUpLooked: Trail.takeUp, isOnTour: Guide.isOn, endTour: Guide.end, pointAgain: Guide.pointAgain, savePicture: Files.savePicture,
};
Object.assign(Deeds, doers);

/** Fills what page.html leaves open: the examples, the half page on the language, and with what the page was made. */
function fillTexts() {
  find("examples").append(...EXAMPLES.map(({ name }) => make("option", { value: name }, name)));
  for (const place of document.querySelectorAll(".language")) place.append(find("language").content.cloneNode(true));
  find("made-with").textContent = `${Panels.madeWith()}.`;
}

async function startPage() {
  if (typeof WebAssembly === "undefined") throw new Error("it has no WebAssembly, in which the program comes; some browsers switch it off in a strict mode");
  fillTexts();
  listenToAll();
  setTheme(window.matchMedia("(prefers-color-scheme: dark)").matches ? "dark" : "light");
  showTab("run");
  Keeping.offer(await fromAddress());
  if (location.hash.length < 2 && find("answer").hidden) find("welcome").hidden = false;
  document.body.classList.add("started");
}

startPage().catch((error) => {
  find("note").hidden = false;
  find("note").textContent = `ghcdb could not start in this browser: ${error.message}`;
});

export { begin, isChanged };
