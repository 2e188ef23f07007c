// Keeps what is known of the session: types lines at the console, one after another, and tells those who listen what has changed. The
// session lives in a worker, so that the page goes on meanwhile; what a line leads to comes later, and is read in slices of time.
import * as Asking from "../front/protocol/asking.mjs";
import { NO_WAITS, arcsAmong } from "../front/run/arcs.mjs";
import { failedParts } from "../front/run/reasons.mjs";
import Run from "../front/run/run.mjs";
import { whyAtEnd } from "../front/run/waits.mjs";
import RunModel from "../front/run/run_model.mjs";
import * as Reader from "../front/text/reader.mjs";
import { pauses } from "./pausing.mjs";
import * as Service from "./service.mjs";
import State from "./state.mjs";

const SLICE = 12; // milliseconds that the page reads without a pause
const listeners = [];
let last = Promise.resolve(), ready = null, isStopped = false;

const listen = (listener) => listeners.push(listener);

const SAVED = "The lines are kept: Save writes them.";

/** Notes a fault of the page's own, and has it shown, as far as that can be done. The next line is taken. */
async function noteFault(error) {
  State.trouble = `The page came upon a fault of its own: ${error.message}. ${SAVED}`;
  for (const listener of listeners) await Promise.resolve("fault").then(listener).catch(() => {});
}

/** Tells those who listen; `showing` is done when they have shown it. A fault of one keeps nothing from others. */
async function changed(what) {
  /** @type {(value?: unknown) => void} */
  let isShown = () => {};
  if (what !== "busy" && what !== "idle") State.showing = new Promise((done) => { isShown = done; });
  for (const listener of listeners) await Promise.resolve(what).then(listener).catch(noteFault);
  isShown();
}

/** The lines of bytes, a part at a time, so that no part takes long. */
function* linesOf(bytes) {
  const decoder = new TextDecoder(), PIECE = 0x20000;
  let rest = "";
  for (let at = 0; at < bytes.length; at += PIECE) {
    const lines = decoder.decode(bytes.subarray(at, at + PIECE), { stream: true }).split("\n");
    lines[0] = rest + lines[0];
    rest = lines.pop();
    yield* lines;
  }
}

const MOST_READ = 3000; // steps; of a longer run no goal's text is worked out

/** The run as a terminal looks at it. */
function lookAt({ clauses, query, graph, texts }) {
  return graph.count > MOST_READ ? { goalOf: () => undefined } : Run.ofSteps(clauses, query, graph.steps, texts);
}

/**
 * The session, as those know it who ask it alone; that of its first steps where their `count` is told. A stop throws.
 */
function sessionAt(count = null) {
  const { run: { graph, goals, texts }, given: { program, query } } = State;
  return {
    variables: [...Asking.queryVariables(query).keys()], kept: { steps: { size: count ?? graph.count }, texts },
    get clauses() { return Reader.readProgram(program); },
    look: async () => lookAt({ clauses: Reader.readProgram(program), query, graph, texts }),
    goalsTold: async () => goals,
    goalNamed: async (name) => goals.find((goal) => goal.name === name),
    ask: async (line) => (await inquire("ask", { line, count })).reply,
  };
}

/** Asks why nothing goes on, where that is so, why a goal has failed, and who waits for whom. */
async function askWaits(run) {
  const session = sessionAt(), failed = run.goals.find(({ status }) => status === "failed");
  run.whyFailed = failed === undefined ? [] : await failedParts(session, failed.name, failed.refusal);
  run.why = run.goalsRefused ? [] : await whyAtEnd(session, run.goals);
  run.waits = run.goalsRefused ? NO_WAITS : await arcsAmong(session, run.goals, run.why);
}

/** Takes up what a line led to, in slices of time, and asks what follows of it. */
async function take(look, hasEnded = false) {
  const { run } = State, isLong = look.come.length > 0x10000, pause = pauses(SLICE);
  const parts = { ...look, goals: linesOf(look.goals), shelf: linesOf(look.shelf) };
  for (const part of run.change(parts, linesOf(look.come))) {
    if (isLong && State.busy) State.busy.read = run.graph.count;
    if (await pause() && isStopped) throw Service.STOPPED;
  }
  if (!hasEnded) await askWaits(run);
}

/** Does one thing after another; while one takes long, the page hears of it. */
function queued(line, does) {
  last = last.then(async () => {
    const canStop = line !== "" && Service.canStop();
    State.busy = { line, since: performance.now(), memory: 0, read: 0, played: 0, canStop };
    isStopped = false;
    changed("busy");
    try {
      await does();
    } catch (error) {
      await noteFault(error);
    } finally {
      State.busy = null;
      changed("idle");
    }
  });
  return last;
}

async function open() {
  ready = ready || Service.start();
  await ready;
  await takeUp(await Service.ask("open", { given: State.given }));
}

/** Takes up a session as it is told where it begins. */
async function takeUp({ refusal, look }) {
  State.refusal = refusal;
  State.session = { hasEnded: Boolean(refusal) };
  State.run = new RunModel(refusal ? "" : State.given.program, State.given.query);
  if (look) await take(look);
}

/** Nothing was typed in a session of what is given yet. */
const beginWith = (given) => Object.assign(State, { given: { history: "", ...given }, entries: [], spied: new Set(), trouble: "" });

/** Begins a session from nothing, or from a history. */
const start = (given) => queued("", async () => {
  beginWith(given);
  await open();
  await changed("start");
});

/**
 * Goes on under another program, with the steps that stay. `hear` takes what is told of it, while the session before is
 * known yet; where there is a refusal in it, that session stands.
 */
const reload = (program, hear) => queued("reload", async () => {
  if (!State.session || whyNot() !== "") return;
  const told = await orGoBack(["reload"], () => Service.ask("reload", { program }));
  if (told === null) {
    await changed("lines");
    return;
  }
  State.busy.canStop = false;
  hear(told);
  if (!told.given) return;
  beginWith(told.given);
  await takeUp(told);
  await changed("start");
});

function noteSpies(entry) {
  for (const line of entry.reply) {
    const found = /^(not )?spying (\S+)$/.exec(line);
    if (found) State.spied[found[1] ? "delete" : "add"](found[2]);
  }
}

/** A line that was typed, with its reply: a list of lines, or bytes where it is long, which are read on demand. */
class Entry {
  constructor(line, told, length, slice) {
    this.line = line;
    this.told = told;
    this.slice = slice;
    this.length = length;
  }

  get reply() {
    return Array.isArray(this.told) ? this.told : new TextDecoder().decode(this.told).split("\n").slice(0, -1);
  }

  /** The last lines of the reply. */
  tail(most) {
    if (Array.isArray(this.told)) return this.told.slice(-most);
    let at = this.told.length;
    for (let count = 0; count <= most && at > 0; count++) at = this.told.lastIndexOf(10, at - 1);
    return new TextDecoder().decode(this.told.subarray(at + 1)).split("\n").slice(0, -1);
  }
}

const MOST_AT_ONCE = 1000; // lines that the worker plays before it answers

/** Plays lines, a part of them at a time; hands on what was told of each part, and takes up where all of them led. */
async function play(lines, onTold) {
  for (let at = 0, hasEnded = false; at < lines.length && !hasEnded; at += MOST_AT_ONCE) {
    if (isStopped) throw Service.STOPPED;
    const end = at + MOST_AT_ONCE, part = { lines: lines.slice(at, end), isMore: end < lines.length };
    const told = await Service.ask("lines", part);
    if (isStopped) throw Service.STOPPED;
    onTold(told, at);
    if (lines.length > MOST_AT_ONCE && State.busy) State.busy.played = at + told.replies.length;
    ({ hasEnded } = told);
    if (told.look) await take(told.look, hasEnded);
    State.session.hasEnded = hasEnded;
  }
}

async function type(lines) {
  const fresh = [], spying = [];
  await play(lines, ({ replies, lengths = [], slices = [] }, from) => {
    for (const [at, reply] of replies.entries()) {
      const entry = new Entry(lines[from + at], reply, lengths[at] ?? reply.length, slices[at] || null);
      fresh.push(entry);
      if (/^(no)?spy /.test(entry.line.trim())) spying.push(entry);
    }
  });
  spying.forEach(noteSpies);
  State.entries = State.entries.concat(fresh);
  const [stopped = ""] = fresh.length > 0 ? fresh[fresh.length - 1].tail(1) : [];
  if (stopped.startsWith("the engine stopped")) State.trouble = `${stopped}. ${SAVED}`;
}

/** Plays lines without a new entry for each. */
async function playAgain(lines) {
  await open();
  await play(lines, () => {});
}

const typedLines = () => State.entries.filter((entry) => !entry.note).map((entry) => entry.line);

/** After a stop: a new worker plays the lines before it again; the line that was at work is not taken. */
async function goBack(lines, seconds) {
  ready = Service.start();
  isStopped = false;
  const line = "playing the lines before it again";
  State.busy = { ...State.busy, line, since: performance.now(), read: 0, played: 0, canStop: false };
  await playAgain(typedLines());
  noteLine(lines, `stopped by hand after ${seconds} s: not taken; the run stands where it stood`);
}

/** Does what lines ask for; null where that was stopped, and the session stands again as before them. */
async function orGoBack(lines, does) {
  const { since } = State.busy;
  try {
    return await does();
  } catch (error) {
    if (error !== Service.STOPPED) throw error;
    await goBack(lines, Math.round((performance.now() - since) / 100) / 10);
    return null;
  }
}

/** Why no line is taken; nothing where lines are taken. */
function whyNot() {
  if (State.refusal) return "there is no run. Mend the program or the query, then press Start";
  return State.session.hasEnded ? "the session has ended. Press Start for a new one" : "";
}

const nameOf = (lines) => (lines.length > 1 ? `${lines[0]} (and ${lines.length - 1} more)` : lines[0]);

/** Notes a line, or the first of some, that was not taken. */
function noteLine(lines, note) {
  State.entries.push(Object.assign(new Entry(nameOf(lines), [], 0, null), { note }));
}

/** Types lines one after the other, and shows where they led. */
const sendAll = (lines) => queued(nameOf(lines), async () => {
  if (!State.session) return;
  if (whyNot() !== "") {
    noteLine(lines, `not taken: ${whyNot()}`);
    await changed("lines");
    return;
  }
  State.trouble = "";
  await orGoBack(lines, () => type(lines));
  await changed("lines");
});

const send = (...lines) => sendAll(lines);

/** After the engine has stopped: a new one plays all lines but the last. */
const again = () => queued("", async () => {
  const lines = typedLines().slice(0, -1);
  State.entries = State.entries.filter((entry) => !entry.note).slice(0, -1);
  State.trouble = "";
  ready = null;
  await playAgain(lines);
  await changed("again");
});

Service.listen("progress", (memory) => {
  if (!State.busy) return;
  State.busy.memory = memory;
  changed("busy");
});

/** Asks the worker what no line asks for. `asked` counts what is not answered yet. */
async function inquire(what, message) {
  State.asked += 1;
  try {
    return await Service.ask(what, message);
  } finally {
    State.asked -= 1;
  }
}

const canAsk = () => Boolean(State.session) && !State.refusal && !State.session.hasEnded;

/** The same; null where it was stopped, or there is no session. */
const told = async (what, message) => (canAsk() ? inquire(what, message).catch(() => null) : null);

/** The reply of the console to a line; null where it is not told. */
const ask = async (line) => (await told("ask", { line }))?.reply ?? null;

/** On what a value or a goal rests; null where that is not told. */
const askSlice = async (name) => (await told("slice", { name }))?.slice ?? null;

/** What a console without a step and its consequences would reply to a line; null where that is not told. */
const askWithout = async (step, line) => (await told("without", { step, line }))?.reply ?? null;

/** Stops the line that is at work. */
function stop() {
  if (!State.busy || !State.busy.canStop) return;
  isStopped = true;
  Service.stop();
}

const settled = () => last;

export {
  listen, start, reload, send, sendAll, ask, askSlice, askWithout, sessionAt, canAsk, stop, again, typedLines,
  settled,
};
