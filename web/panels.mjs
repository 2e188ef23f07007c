// Fills what stands around the picture: console, goals, store, what was taken back, the chosen step, and how many there are.
import * as Replies from "../front/protocol/replies.mjs";
import * as GoingOn from "../front/run/going_on.mjs";
import { FAILED } from "../front/run/reasons.mjs";
import * as Terms from "../front/run/terms.mjs";
import { plural } from "../front/text/plural.mjs";
import Deeds from "./deeds.mjs";
import { find, make, lineButton, joined, withCode, link, goTo, elementsOf, linkedLine, fillRows, keepFocus } from "./elements.mjs";
import { withGoalText } from "./goal_texts.mjs";
import * as Names from "./names.mjs";
import * as Outcome from "./outcome.mjs";
import OnScreen from "./on_screen.mjs";
import * as Picture from "./picture.mjs";
import Shown from "./shown.mjs";
import * as StepWords from "./step_words.mjs";
import * as Summing from "./summing.mjs";
import State from "./state.mjs";

const MOST_ROWS = 100, MOST_LINES = 1000, MOST_TIDIED = 3000;
const LONGEST_GOAL = 200; // letters
const MOST_KEPT = 1000000; // steps that the program keeps
const LONGEST_LINE = 4000; // letters of a reply's line that are shown
const MOST_TOLD = 100; // lines that were typed at once, and are shown
const LEAST_SUMMED = 4; // causes or consequences of a step that are summed
const RUN = 1000; // steps that Run takes at most
const MOST_LINKED = 60; // lines of a reply in which numbers are links
const isRefusal = (line) => Replies.isRefusal(line) || /^(program|query|history|session): /.test(line);
let wasChanged = false;

const cutLine = (line) =>
  (line.length > LONGEST_LINE ? `${line.slice(0, LONGEST_LINE)}… (${line.length} letters, which Save writes)` : line);

function addTold(entry) {
  const told = find("told");
  told.append(make("div", { class: "typed" }, `> ${entry.line}`));
  if (entry.note) told.append(make("div", { class: "dim" }, entry.note));
  if (entry.length === 0) return;
  const lines = entry.tail(MOST_LINES), isRefused = entry.length === 1 && isRefusal(lines[0]), more = entry.length - lines.length;
  if (more > 0) told.append(make("div", { class: "dim" }, `(${plural(more, "line")} before these, which Save writes)`));
  const isMany = lines.length > MOST_LINKED, shown = lines.map(cutLine);
  const parts = isMany ? [shown.join("\n")] : joined(shown.map(linkedLine), "\n");
  told.append(make("div", { class: isRefused ? "refused" : null, "aria-hidden": isMany ? "true" : null }, ...parts));
  if (isMany) told.append(make("div", { class: "for-readers" }, `${plural(entry.length, "line")}, the last of them: ${lines[lines.length - 1]}`));
}

/** With what the page was made. */
const madeWith = () => `ghcdb, commit ${MADE_WITH.commit}, ${MADE_WITH.kit}, ${MADE_WITH.proved ? "a proved build" : "a build without a proof"}`;

/** Adds to the console what was typed and told; of a session that begins, or is played again, all of it. */
function showTold(what, fresh) {
  const entries = what === "lines" ? fresh : State.entries, more = entries.length - MOST_TOLD;
  if (what !== "lines") {
    find("told").replaceChildren(make("div", { class: "made-with dim" }, madeWith()));
    if (State.refusal) find("told").append(make("div", { class: "refused" }, State.refusal));
  }
  if (more > 0) find("told").append(make("div", { class: "dim" }, `(${plural(more, "line")} more, which Save writes)`));
  entries.slice(-MOST_TOLD).forEach(addTold);
  find("told").scrollTop = find("told").scrollHeight;
}

function goalRow(goal) {
  const waits = goal.waitsFor.length > 0 ? make("span", { class: "dim" }, ` waits for ${goal.waitsFor.join(", ")}`) : null;
  const failed = goal.refusal ? make("span", { class: "dim" }, ` ${goal.refusal}`) : null;
  const how = { class: "goal-name", "data-goal": goal.name, title: "What can be done with it" };
  const status = make("span", { class: `status ${goal.status}` }, goal.status);
  const name = make("button", how, status, make("span", { class: "dim" }, goal.name), " ");
  const title = goal.text.length > LONGEST_GOAL ? Terms.cut(goal.text, 2000) : null;
  const written = make("span", { title }, Terms.cut(goal.text, LONGEST_GOAL));
  const text = make("div", { class: "row", "data-goal": goal.name }, name, written, waits, failed);
  Names.dress(text, { isInList: true });
  const step = lineButton("Step", `step ${goal.name}`, { class: "small" });
  return make("div", { class: "line-row" }, text, goal.status === "ready" && OnScreen.until === null ? step : null);
}

/** Fills a panel with rows, as many as it shows, and says how many more there are. */
function fill(panel, rows, empty, count = rows.length, before = []) {
  const more = count - Math.min(rows.length, MOST_ROWS), told = more > 0 ? `and ${more} more` : rows.length === 0 ? empty : "";
  const after = told ? [{ key: null, does: () => make(more > 0 ? "div" : "span", { class: "dim" }, told) }] : [];
  fillRows(panel, [...before, ...rows.slice(0, MOST_ROWS), ...after]);
}

/** Where the picture is of an earlier time and the panels are not: a row that says so. */
function timeRows() {
  if (OnScreen.until === null || OnScreen.earlier !== null) return [];
  const words = `after all ${plural(State.run.graph.count, "step")}:`;
  return [{ key: null, does: () => make("div", { class: "dim" }, words) }];
}

const showGoals = () => keepFocus("goals", () => {
  const { goals, goalsRefused } = OnScreen.run(), isNow = OnScreen.until === null;
  const partsOf = ({ name, status, waitsFor, refusal }) => [isNow, name, status, waitsFor, refusal];
  const keyOf = (goal) => Names.shown([...partsOf(goal), Terms.cut(goal.text, LONGEST_GOAL)].join());
  const rows = goals.slice(0, MOST_ROWS).map((goal) => ({ key: keyOf(goal), does: () => goalRow(goal) }));
  const empty = State.refusal ? "none" : goalsRefused ? "They are too long to be told." : `none${OnScreen.run().why.length === 0 ? ": all is done" : ""}`;
  fill("goals", rows, empty, goals.length, timeRows());
  const spied = [...State.spied].map((predicate) => lineButton(`spied: ${predicate} ×`, `nospy ${predicate}`, { class: "chip" }));
  if (spied.length > 0) find("goals").prepend(make("div", null, ...spied));
});

const showShelf = () => keepFocus("shelf", () => {
  const isNow = OnScreen.until === null, shelf = isNow ? State.run.shelf : [];
  const rows = shelf.slice(0, MOST_ROWS).map((step) => {
    const words = StepWords.shortOf(step), line = `redo ${step.number}`;
    const attributes = { class: "chip taken", title: `${line}: puts it there again` };
    return { key: Names.shown(words), does: () => Names.dress(lineButton(words, line, attributes)) };
  });
  fill("shelf", rows, isNow ? "nothing" : "shown with all steps", shelf.length);
  find("redo-all").hidden = !isNow || shelf.length < 2;
});

/**
 * On how many steps one rests, and how many rest on it, by predicate: where they are more than one reads one by one.
 */
function tellReached(run, step) {
  const { causes, effects } = OnScreen.reachOf(step.number), own = run.graph.indexOf(step.number);
  const told = ({ isIn, count }, words) => {
    if (count - 1 < LEAST_SUMMED) return "";
    const others = isIn.slice();
    others[own] = 0;
    return `\n${(count - 1).toLocaleString("en")} ${words}: ${Summing.words(run, others)}`;
  };
  return told(causes, "causes") + told(effects, "consequences");
}

/** What the panel says of the step that is chosen. */
function showDetail(chosen) {
  const run = OnScreen.run(), area = find("detail"), step = chosen && run.graph.byNumber.get(chosen.step);
  if (!step) {
    area.replaceChildren(make("span", { class: "dim" }, "Click a step in the picture."));
    return;
  }
  const { causes, effects } = run.graph, isTold = run.texts.has(step.goal);
  withGoalText(step, () => { if (!isTold && Shown.chosen && Shown.chosen.step === step.number) showDetail(Shown.chosen); });
  const [does, goal = "", ...others] = Picture.tellStep(run, step).split("\n");
  const rest = others.map((line) => `\n${line}`).join("");
  const becauseOf = (edge) => ["\nbecause step ", goTo(edge.from), ` ${StepWords.causeOf(edge)}`];
  const because = causes.get(step.number).flatMap(becauseOf);
  const neededBy = joined(effects.get(step.number).slice(0, 20).map(({ to }) => goTo(to)), ", ");
  if (neededBy.length > 0) because.push("\nneeded by ", ...neededBy);
  const words = [`${does}\n${goal}`, tellReached(run, step), rest, ...because];
  const fresh = Names.dress(make("div", null, ...words)); // before it comes, since it is read aloud as it comes
  area.replaceChildren(...fresh.childNodes);
}

/** Why a goal has failed, with links to the steps that brought it there. */
function tellFailure(goal) {
  const why = State.run.whyFailed.map((line) => make("div", { class: "hint" }, ...elementsOf(line)));
  const finding = lineButton("Find the wrong clause", `blame ${goal.name}`, { class: "small" });
  const said = [`Goal ${goal.name} has failed: ${FAILED[goal.refusal] ?? goal.refusal}. `, ...why];
  return [...said, "Take back a step that it read, and it may be ready again. ", finding];
}

/**
 * Where no goal is ready: that goals wait, or nothing is left, and why that is not all that was wanted.
 * @param {{ goals: any[], why: any[] }} run
 */
function tellWhy({ goals, why: [first] }) {
  if (first === undefined) return [];
  if (goals.length === 0) return Deeds.whyInShort(first);
  const waits = goals.length === 1 ? "a goal waits" : `${goals.length} goals wait`;
  return [`Nothing is ready, and ${waits}. `, ...Deeds.whyInShort(first), " ", ...withCode("`Add goals` adds one that binds it.")];
}

/** The circle in which a run is stuck, as sentences of the names of its processes, and their lanes alone. */
function tellCircle(circle) {
  const told = Outcome.tellCircle(State.run, circle);
  const words = joined(told.sentences.map((one) => sentenceOf(told, one)), "; ");
  const isAlone = OnScreen.only !== null, id = isAlone ? "lanes-all" : "lanes-alone";
  const lanes = make("button", { class: "small", id }, isAlone ? "Show all lanes" : "Show these lanes alone");
  return ["A deadlock: ", ...words, ". ", lanes, " ", ...Deeds.whyInShort(State.run.why[0])];
}

/** What a process of a circle holds and waits for, with links to the goals. */
function sentenceOf({ names }, { who, holds, waitsFor, variable }) {
  const linkTo = (goal) => link({ "data-go-goal": goal, title: `goal ${goal}` }, names.get(goal));
  if (holds === null) return [linkTo(who), " waits for ", linkTo(waitsFor), ` to bind ${variable}`];
  return [linkTo(who), " holds ", linkTo(holds), " and waits for ", linkTo(waitsFor)];
}

/** Shows the lanes of the goals alone that wait for each other in a circle, or all of them. */
function showLanes(isAlone) {
  OnScreen.only = isAlone ? new Set(Outcome.circleIn(State.run).map(({ from }) => from)) : null;
  Deeds.draw();
  showNote();
}

/** What is said where the record is shown up to an earlier step. */
function timeParts() {
  const others = OnScreen.earlier === null ? "Goals, values and names are those after all steps. " : "";
  const back = make("button", { class: "small", id: "show-all-steps" }, "Show all steps");
  return [`This is the run after ${plural(OnScreen.until, "step")}: nothing was taken back. `, others, back];
}

/** What is said above the picture where there is something that one should know. */
function noteParts() {
  const { graph } = State.run;
  if (State.trouble) return [State.trouble, ...(State.session && State.session.hasEnded ? [" ", make("button", { class: "small", id: "again" }, "Go on without the last line")] : [])];
  if (State.refusal) return [`Refused: ${State.refusal}. Mend it, then press Start.`];
  if (State.session.hasEnded) return ["The session has ended. Start begins a new one."];
  if (OnScreen.until !== null) return timeParts();
  if (graph.count >= MOST_KEPT) return ["1,000,000 steps are kept, and there is no room for another one. ", ...withCode("`undo`, `roll` or Start lead back.")];
  const beside = Deeds.besideParts(), state = stateParts();
  return [...beside, ...(beside.length > 0 && state.length > 0 ? [make("br")] : []), ...state];
}

/** Where the last run came to its limit: that it is not at its end, and whether it may have none. */
function limitParts() {
  const last = State.entries[State.entries.length - 1], [told] = last === undefined ? [] : last.tail(1);
  if (told !== "stopped limit" || State.mayChange(last) === false) return [];
  const { graph: { count, clauses: taken }, clauses } = State.run, steps = plural(count, "step");
  const latest = Array.from({ length: Math.min(count, GoingOn.MOST) }, (none, at) => taken.at(count - 1 - at));
  const lone = GoingOn.loneClause(latest, clauses), more = RUN.toLocaleString("en");
  const stopped = `The run stopped after ${steps}, and is not at its end: Run takes up to ${more} more.`;
  if (lone === undefined) return [stopped];
  const [before, after] = GoingOn.wordsAbout(lone), named = link({ "data-clause": lone.number, title: "lights its steps" }, String(lone.number));
  return [stopped, before.replace("the", " The"), named, after];
}

/** What is said of the run as it stands: a failure, a circle, who waits for what. */
function stateParts() {
  const { goals, graph } = State.run, isReady = goals.some((goal) => goal.status === "ready");
  const [failed, stream] = ["failed", "stream"].map((status) => goals.find((goal) => goal.status === status));
  if (State.run.goalsRefused) return ["A goal is longer than the console tells (", make("code", null, State.run.goalsRefused), "), so none is shown. Press Run to go on, or Undo last to go back."];
  if (failed) return tellFailure(failed);
  if (isReady && graph.count === 0) return ["A green ring is a goal that is ready: click it, or press Run."];
  if (isReady) return limitParts();
  const circle = Outcome.circleIn(State.run);
  if (circle.length > 0) return tellCircle(circle);
  if (stream) return [`Nothing is ready. Click the stream ${stream.name} and give it an input.`];
  return tellWhy(State.run);
}

/** Where program or query were changed since Start: that the run is not of them. */
function changedParts() {
  if (State.refusal || !Deeds.isChanged()) return [];
  return [make("div", null, "This run is of the text before your changes. ", make("button", { class: "small main-button", id: "start-anew" }, "Start"), " runs the text as it stands now.")];
}

function showNote() {
  wasChanged = Deeds.isChanged();
  const parts = [...noteParts(), ...changedParts()];
  find("note").replaceChildren(...parts);
  Names.dress(find("note"));
  find("note").hidden = parts.length === 0;
  find("note").classList.toggle("refused", Boolean(State.refusal || State.trouble));
}

/** After a letter was typed in program or query: what is said is said anew where that is the first change, or the last one is gone. */
function followText() {
  if (State.session && Deeds.isChanged() !== wasChanged) showNote();
}

function showCount() {
  const { graph, goals, goalsRefused } = State.run, ready = goals.filter((goal) => goal.status === "ready");
  const { until } = OnScreen, shownReady = OnScreen.run().goals.filter((goal) => goal.status === "ready");
  const count = OnScreen.count(), deepest = count === 0 ? 0 : graph.deepest.at(count - 1) + 1;
  const of = until === null ? "" : `${until} of `, chain = `the longest chain of causes has ${deepest}`;
  find("count").textContent = `${of}${plural(graph.count, "step")}, longest chain ${deepest}`;
  find("count").title = `${plural(count, "kept step")}; ${chain}; ${plural(shownReady.length, "goal")} ready`;
  const last = graph.count > 0 ? graph.numbers.at(graph.count - 1) : undefined;
  const isOver = !State.session || State.session.hasEnded, isFull = graph.count >= MOST_KEPT;
  for (const name of /** @type {const} */ (["step", "leap", "leap-ten"])) find(name).disabled = isOver || isFull || (ready.length === 0 && (name === "step" || !goalsRefused));
  find("undo-last").disabled = isOver || last === undefined;
  find("tidy").disabled = isOver || graph.count < 3 || graph.count > MOST_TIDIED;
  find("ask-more").disabled = isOver || Boolean(State.refusal);
  find("keep-run").disabled = Boolean(State.refusal);
  if (last !== undefined) find("undo-last").dataset.line = `undo ${last}`;
  if (ready.length > 0) find("step").dataset.line = `step ${ready[0].name}`;
  showNote();
}

/** What the comment of an example says, above its program. */
function showLookAt(notes) {
  const area = find("look-at");
  area.hidden = !notes;
  if (!notes) return;
  const larger = notes.larger && notes.larger !== notes.query ? make("button", { class: "small", id: "larger-query", value: notes.larger }, `Try ${notes.larger}`) : null;
  area.replaceChildren(make("p", null, make("b", null, "Look at: "), ...withCode(notes.lookAt)), ...(larger ? [larger] : []));
}

/** How far a line is that takes long. */
function howFar({ read, played, memory }) {
  if (read > 0) return `, ${read.toLocaleString("en")} steps read`;
  if (played > 0) return `, ${played.toLocaleString("en")} lines played`;
  return memory > 0 ? `, ${Math.round(memory / 1e6)} MB` : "";
}

/** Where a line takes long, this tells how long and lets one stop it. */
function showBusy() {
  const { busy } = State, seconds = busy ? (performance.now() - busy.since) / 1000 : 0, isLong = seconds > 0.3;
  document.body.classList.toggle("busy", isLong);
  find("busy").hidden = !isLong;
  if (!isLong) return;
  const how = howFar(busy);
  find("busy-words").textContent = `${busy.line ? `${Terms.cut(busy.line, 60)}: ` : ""}at work for ${seconds.toFixed(1)} s${how}`;
  find("stop").hidden = !busy.canStop;
}

export { showTold, showGoals, showShelf, showCount, timeRows, showBusy, showNote, showLanes, followText, showDetail, showLookAt, madeWith };
