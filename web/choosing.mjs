// The place "Why?" where it tells what the other choices of a value lead to: a table of outcomes, which a session beside
// this one finds out in a worker of its own; and after a run, how many of its steps could have gone otherwise.
import * as Replies from "../front/protocol/replies.mjs";
import { MOST_STEPS, NONE_FOUND, gathered, linesTo } from "../front/run/other_choices.mjs";
import { plural, some } from "../front/run/reasons.mjs";
import { freeSteps, tryingOf } from "../front/session/trying.mjs";
import Deeds from "./deeds.mjs";
import { make, closeButton, joined, link } from "./elements.mjs";
import * as Names from "./names.mjs";
import * as Service from "./service.mjs";
import State from "./state.mjs";
import * as Talk from "./talk.mjs";

const NONE = { count: 0, names: [] };
const MOST_ASKED = 4; // variables that rest on a choice, and are asked about
let table = null; // the outcomes of a value as far as they are found out
let free = NONE; // how many steps of the run could have gone by another clause, and the variables that rest on one

/** A program in a worker, once that is ready, which goes on from a history of this session. */
function programIn(side, isReady, history) {
  const { program, query } = State.given, beside = { ended: undefined, kill: async () => {} };
  const begun = isReady.then(() => side.ask("trial", { given: { program, query, history } }));
  const ask = async (text) => {
    const told = [];
    await begun;
    for (const line of text.split("\n")) told.push(...(await side.ask("ask", { line })).reply);
    return told;
  };
  const failed = (error) => { beside.ended = error; throw error; };
  return Object.assign(beside, { ask: (text) => ask(text).catch(failed) });
}

/** What tries the other choices of this session in a worker beside it, and what ends that. */
async function beginTrying() {
  const side = Service.another();
  let isReady;
  const another = (history) => programIn(side, isReady ??= side.start(), history);
  const trying = await tryingOf({ ...Talk.sessionAt(), another });
  return { trying, end: () => { trying?.stop(); side.stop(); } };
}

/** Why nothing can be tried; nothing where something can. */
function whyNone(name, [line], trying) {
  if (Replies.isRefusal(line)) return `explain ${name} was refused: ${line}.`;
  return trying === undefined ? "Memory was refused for the history, so that no other choice can be tried." : "";
}

/** Finds out what a value would be by each of its other choices; it is shown as far as it is known. */
async function findOut(name) {
  const { run } = State, { version } = run, explained = await Talk.sessionAt().ask(`explain ${name}`);
  const { trying, end } = await beginTrying(), why = whyNone(name, explained, trying);
  if (why !== "") Deeds.tell(true, why);
  if (why !== "" || run !== State.run || version !== run.version) {
    end();
    return;
  }
  close();
  const way = { given: State.given, lines: Talk.typedLines(), steps: run.graph.count };
  const own = table = { name, count: null, outcomes: [], isAtWork: true, end, way, isGoing: false, chosen: "" };
  show();
  const choices = await trying.choices(name, explained);
  own.count = choices.length;
  show();
  for await (const outcome of trying.outcomes(name, choices)) {
    own.outcomes.push(outcome);
    show();
  }
  own.isAtWork = false;
  end();
  show();
}

/** The same; where there is no session, or it is stopped, nothing is found out. */
const begin = (name) => (Talk.canAsk() ? findOut(name).catch(close) : undefined);

/** Ends what is tried; what was found out stays. */
const stop = () => table?.end();

function close() {
  stop();
  table = null;
  show();
}

/** How far it is; of more choices than are tried, how many there are. */
function howFar({ count, outcomes, isAtWork }) {
  const tried = outcomes.filter(({ choice }) => choice !== undefined).length;
  if (count === null) return "Looking for steps that could have gone by another clause …";
  if (count === 0 && !isAtWork) return `${NONE_FOUND[0].toUpperCase()}${NONE_FOUND.slice(1)}.`;
  return `${tried} of ${plural(count, "other choice")} tried${isAtWork ? " …" : "."}`;
}

const nameOf = ({ step, goal, other }) => `${step} ${goal} ${other}`;

/** A choice as a link: it keeps the run of the table beside, and goes there. One that was gone to is marked. */
function choiceLink(choice) {
  const outcome = nameOf(choice), words = `step ${choice.step} by clause ${choice.other}`;
  const title = `keeps the run beside; ${[...linesTo(choice), `leap ${MOST_STEPS}`].join(", ")}`;
  if (outcome === table.chosen) return make("b", { "aria-current": "true" }, words);
  return link({ "data-outcome": outcome, title }, words);
}

/** A row: an outcome, and by which choices it comes. */
function rowOf({ words, choices, asItIs }) {
  const links = some(choices).map((one) => (one === ".." ? one : choiceLink(one)));
  const own = asItIs === undefined ? [] : [table.chosen === "" ? asItIs : "as it was"];
  const choicesTold = joined([...own, ...links], ", ");
  return make("tr", null, make("td", null, make("code", null, words)), make("td", null, ...choicesTold));
}

function tableParts() {
  const stops = table.isAtWork ? make("button", { class: "small danger", id: "choices-stop" }, "Stop") : null;
  const words = make("span", { role: "status" }, make("b", null, `What else could ${table.name} be? `), howFar(table));
  const head = make("tr", null, make("th", null, "Outcome"), make("th", null, "By"));
  return [
    make("div", { class: "blame-title" }, words, stops, closeButton("choices-close", "Close the table")),
    make("table", { class: "outcomes" }, head, ...gathered(table.outcomes).map(rowOf)),
  ];
}

/** After a run: that some of its steps could have gone otherwise, and which variables of the query rest on these. */
function freeParts({ count, names }) {
  const asked = (name) => make("button", { class: "small", "data-choices": name }, `What else could ${name} be?`);
  const asks = names.slice(0, MOST_ASKED).flatMap((name) => [" ", asked(name)]);
  return [make("div", null, `${plural(count, "step")} could have gone by another clause.`, ...asks)];
}

const show = () => Names.fill("choices", table !== null ? tableParts() : free.count > 0 ? freeParts(free) : []);

/** Looks for the steps that were free, where a run has come to its end. */
async function lookForFree() {
  const { run } = State, { version, goals, graph, goalsRefused } = run;
  const isOver = !goalsRefused && graph.count > 0 && goals.every(({ status }) => status !== "ready");
  const found = Talk.canAsk() && isOver ? await freeSteps(Talk.sessionAt()).catch(() => NONE) : NONE;
  if (run !== State.run || version !== run.version) return;
  free = found;
  show();
}

/** After lines: one that changes the run closes the table, but on the way to a choice; the run is looked at anew. */
function follow(what, fresh) {
  if (what === "lines" && !fresh.some(State.mayChange)) return;
  free = NONE;
  if (table?.isGoing) show();
  else close();
  lookForFree();
}

/** Brings the run of a table back, where one of its choices was gone to; says whether it stands there. */
async function comeBack({ chosen, way: { given, lines, steps } }) {
  if (chosen === "") return true;
  await Deeds.begin(given, lines);
  return State.run.graph.count === steps;
}

/** Keeps the run of the table beside, and goes where another choice leads; the table stays. */
async function goThere(step, goal, other) {
  const own = table, chosen = nameOf({ step, goal, other }), choices = own.outcomes.map((outcome) => outcome.choice);
  const choice = choices.find((one) => one !== undefined && nameOf(one) === chosen) ?? { step, goal, other };
  own.isGoing = true;
  if (await comeBack(own) && Deeds.keepRun()) {
    own.chosen = chosen;
    await Talk.send(...linesTo(choice), `leap ${MOST_STEPS}`);
  }
  own.isGoing = false;
}

export { begin, stop, close, follow, goThere };
