// The debug adapter: it answers an editor's requests, in the Debug Adapter Protocol, by lines of ghcdb's console and nothing else. So
// every state that an editor sees is one that a session has.
//
// The requests stand in files by what they are for: beginning.mjs, restarting.mjs, setting.mjs (breakpoints),
// looking.mjs, stepping.mjs, changing.mjs, judging.mjs; runs are in running.mjs. `cancel` is heard here, at once.
import { Beginning } from "./beginning.mjs";
import { Breakpoints } from "./breakpoints.mjs";
import Changing from "./changing.mjs";
import Judging from "./judging.mjs";
import Looking from "./looking.mjs";
import { Inside } from "./inside.mjs";
import { Processes } from "./processes.mjs";
import { CANCELLED, Refused } from "./requests.mjs";
import Restarting from "./restarting.mjs";
import Running from "./running.mjs";
import Setting from "./setting.mjs";
import Stepping from "./stepping.mjs";
import { Ended } from "../../front/session/program.mjs";
import { NotTold } from "../../front/session/session.mjs";
import { Blaming } from "../../front/run/blaming.mjs";
import { notesAfter } from "../../front/run/telling.mjs";
import { meant } from "../../front/protocol/commands.mjs";
import * as Replies from "../../front/protocol/replies.mjs";

const MOST_THREAD_EVENTS = 200; // of one stop; an editor asks for all threads in any case

const LONG = 1000; // milliseconds of a line, after which an editor is told that it goes on

const ENDS_RUN = new Set(["pause", "disconnect", "terminate", "restart"]);

const answerTo = ({ seq, command }) => ({ type: "response", request_seq: seq, command: String(command), success: true });

class Adapter {
  /** `send` takes messages; `leave` ends the adapter; `native` is the program to use, or undefined for the page's engine. */
  constructor({ send, leave, native }) {
    this.sendMessage = send;
    this.leave = leave;
    this.native = native;
    this.last = 0; // the number of the last message sent
    this.inbox = [];
    this.first = 1; // how the editor counts its first line
    this.breakpoints = new Breakpoints();
    this.live = new Set(); // the processes that the editor knows
    this.isBusy = this.isRunning = this.wantsPause = this.isSkipping = false;
    this.runner = undefined; // the request that made the run
    /** @type {ReturnType<typeof setTimeout> | undefined} */
    this.endsLate = undefined; // what ends a slice of it that does not answer
    this.hearsProgress = false;
    this.hasToldEnd = false;
    /** @type {import("./session.mjs").EditorSession | undefined} */
    this.session = undefined;
  }

  /** The session that the editor sees from now on, by the launch configuration `given`. */
  show(session, places, given) {
    this.session = session;
    this.places = places;
    this.given = given;
    this.inside = new Inside(session);
    this.blaming = new Blaming(session);
    this.slice = Number(given.slice ?? 1000); // steps of a run, after which a pause is heard
    this.failed = new Set(); // the goals that had failed at the last stop
    this.hasToldEnd = false;
    this.frameTexts = new Map();
    this.textsNow = this.textsBefore = this.notedAt = undefined;
  }

  /** The processes are numbered anew. */
  countProcesses() {
    this.processes = new Processes(this.session);
    this.live = new Set();
  }

  send(message) {
    this.last += 1;
    this.sendMessage({ seq: this.last, ...message });
  }

  event(name, body) {
    this.send({ type: "event", event: name, ...(body !== undefined && { body }) });
  }

  /** Tells that the session has ended, once: there are clients that ask for its end again when they hear of it. */
  tellEnd() {
    if (!this.hasToldEnd) this.event("terminated");
    this.hasToldEnd = true;
  }

  /** Tells lines in the editor's console; a step's line leads to its clause. */
  tell(lines, category = "console") {
    for (const line of lines) {
      const clause = this.session?.clauses[Replies.readTaken(line)?.clause - 1];
      this.event("output", { category, output: `${line}\n`, ...(clause && { source: this.places.source(), line: this.places.shown(clause.line) }) });
    }
  }

  // ---- messages

  hear(message) {
    if (message?.type !== "request") return;
    if (message.command === "cancel") return this.hearCancel(message);
    if (this.isRunning && ENDS_RUN.has(message.command)) this.stopRun();
    if (this.isRunning && message.command === "pause") return this.sendAnswer(message);
    this.inbox.push(message);
    return this.work();
  }

  /** Cancels a request, which is named by its number, or by the progress that was told of it. */
  hearCancel(message) {
    const { requestId, progressId } = message.arguments ?? {};
    return this.answerBy(message, () => this.cancel(Number(progressId ?? requestId)));
  }

  /**
   * A request that waits for its turn is not begun, a run pauses, and a line of the editor's console is ended: the
   * session is as before it. All else is soon done, and goes on.
   */
  async cancel(number) {
    const place = this.inbox.findIndex(({ seq }) => seq === number), isAsked = this.answering?.seq === number;
    if (place >= 0) this.sendRefusal(this.inbox.splice(place, 1)[0], CANCELLED);
    else if (this.isRunning && this.runner?.seq === number) this.stopRun();
    else if (isAsked && this.answering.command === "evaluate") await this.session.cancel();
  }

  /** Tells an editor that hears of progress where a line goes on for long. What is given back tells the end of that. */
  tellProgress({ seq, arguments: given }) {
    const progressId = String(seq), title = String(given?.expression);
    const body = { progressId, title, requestId: seq, cancellable: true };
    let isTold = false;
    const timer = setTimeout(() => {
      isTold = this.hearsProgress;
      if (isTold) this.event("progressStart", body);
    }, LONG);
    return () => {
      clearTimeout(timer);
      if (isTold) this.event("progressEnd", { progressId });
    };
  }

  async work() {
    if (this.isBusy) return;
    this.isBusy = true;
    while (this.inbox.length > 0) await this.handleWaiting(); // one may come while this ends
    this.isBusy = false;
  }

  /** Answers what has come by now. */
  async handleWaiting() {
    while (this.inbox.length > 0) await this.handle(this.inbox.shift());
  }

  /** Does something when the request that is being answered has its answer. */
  later(what) {
    this.laters.push(what);
  }

  /** Answers a request, and does what follows. While a run goes on others are handled in it. */
  async handle(request) {
    const { laters: outer, handling } = this, laters = this.laters = [];
    this.handling = request;
    await this.answer(request);
    try {
      for (const what of laters) await what();
    } catch (error) {
      this.event("output", { category: "stderr", output: `${this.wordsOf(error, request.command)}\n` });
    }
    this.laters = outer;
    this.handling = handling;
  }

  async answer(request) {
    const { answering } = this, endProgress = request.command === "evaluate" ? this.tellProgress(request) : undefined;
    this.answering = request;
    const isDone = await this.answerBy(request, () => this.request(request.command, request.arguments ?? {}));
    if (!isDone) this.laters.length = 0;
    this.answering = answering;
    if (this.session !== undefined) this.session.isCancelled = false;
    endProgress?.();
  }

  /** Answers a request by what `does` gives, or by what it throws. Is it done? */
  async answerBy(request, does) {
    try {
      this.sendAnswer(request, await does());
      return true;
    } catch (error) {
      this.sendRefusal(request, error);
      return false;
    }
  }

  sendAnswer(request, body) {
    this.send({ ...answerTo(request), ...(body !== undefined && { body }) });
  }

  /** Answers a request that is refused, or was cancelled, by what was thrown. */
  sendRefusal(request, error) {
    const isCancelled = error === CANCELLED, message = isCancelled ? "cancelled" : "refused";
    const told = { id: isCancelled ? 2 : 1, format: this.wordsOf(error, request.command), showUser: !isCancelled };
    this.send({ ...answerTo(request), success: false, message, body: { error: told } });
  }

  wordsOf(error, command) {
    if (error instanceof Ended) this.tellEnd();
    const words = error instanceof Refused || error instanceof Ended ? error.message : `${command}: ${error.message}`;
    return words.replace(/\{/g, "(").replace(/\}/g, ")");
  }

  request(command, given) {
    const handler = this[`on_${String(command).replace("/", "_")}`];
    if (handler === undefined) throw new Refused(`${command} is not known here`);
    if (this.session === undefined && !WITHOUT_SESSION.has(command)) throw new Refused(`${command}: no program was launched`);
    if (this.isRunning && RUNS.has(command)) throw new Refused("a run goes on: pause it first");
    return handler.call(this, given);
  }

  // ---- stops

  /** Looks at the goals as they stand, and tells which processes came and went. */
  async look() {
    const goals = await this.goalsTold(), now = new Set(goals.map(({ name }) => this.processes.of(name)));
    const changed = [...[...now].filter((id) => !this.live.has(id)).map((id) => ["started", id]), ...[...this.live].filter((id) => !now.has(id)).map((id) => ["exited", id])];
    for (const [reason, threadId] of changed.slice(0, MOST_THREAD_EVENTS)) this.event("thread", { reason, threadId });
    this.live = now;
    this.noteTexts(goals);
    return goals;
  }

  /** Keeps the texts of the goals of this stop and of the one before: what was stepped between them was shown so. */
  noteTexts(goals) {
    if (this.notedAt === this.session.kept.changes) return;
    this.notedAt = this.session.kept.changes;
    this.textsBefore = this.textsNow;
    this.textsNow = new Map(goals.map(({ name, text }) => [name, text]));
  }

  /** The text of a goal that a step consumed, for its frame; once it was shown it stays. Undefined where `records` has to be read for it. */
  frameText(goal) {
    const text = this.frameTexts.get(goal) ?? this.textsBefore?.get(goal) ?? this.session.run.textOf(goal);
    if (text !== "") this.frameTexts.set(goal, text);
    return text === "" ? undefined : text;
  }

  /** The goals as they stand; none where one of them is too long to be told. */
  async goalsTold() {
    try {
      return await this.session.goals();
    } catch (error) {
      if (!(error instanceof NotTold)) throw error;
      this.tell([`${error.message}: no goal is shown`], "important");
      return [];
    }
  }

  /** The goal at which a process stands: a ready one before others; undefined where the process is done. */
  async goalOf(thread) {
    const mine = (await this.goalsTold()).filter(({ name }) => this.processes.of(name) === thread);
    return mine.find(({ status }) => status === "ready") ?? mine[0];
  }

  /** The first goal that has failed since the stop before; undefined where none has. */
  failedAnew(goals) {
    const failed = goals.filter(({ status }) => status === "failed");
    const anew = failed.find(({ name }) => !this.failed.has(name));
    this.failed = new Set(failed.map(({ name }) => name));
    return anew;
  }

  /**
   * Tells a stop: why, in words, and at which process where that is known. A step by which a goal fails stops at it.
   * @param {string} reason
   * @param {string} text
   * @param {import("./types").Where} where
   */
  async stopped(reason, text = reason, { thread, hit } = {}) {
    const goals = await this.look(), failed = this.failedAnew(goals);
    this.inside.references.clear(); // what was shown of the stop before counts no more
    const isException = reason === "step" && failed !== undefined && this.breakpoints.filters.has("failed");
    if (!isException) return this.tellStop(goals, { reason, text, thread, hit });
    const its = this.processes.of(failed.name);
    return this.tellStop(goals, { reason: "exception", text: this.failedText(failed), thread: its });
  }

  tellStop(goals, { reason, text, thread, hit = undefined }) {
    const shown = goals.find(({ status }) => status === "failed") ?? goals.find(({ status }) => status === "ready") ?? goals[0];
    const isThere = thread !== undefined && (this.live.has(thread) || this.isJudged(thread));
    this.shown = isThere ? thread : shown === undefined ? 1 : this.processes.of(shown.name);
    this.event("stopped", { reason, description: text, text, threadId: this.shown, allThreadsStopped: true, ...(hit && { hitBreakpointIds: [hit.id] }) });
  }

  /** Sends a line that changes the session; where it is refused, the request is. */
  async change(line) {
    const reply = await this.session.ask(line);
    if (Replies.isRefused(reply)) {
      const notes = await notesAfter(this.session, meant(...line.split(" ")), reply);
      throw new Refused([reply[0], ...notes].join("\n"));
    }
    this.tell(reply);
    return reply;
  }
}

const WITHOUT_SESSION = new Set(["initialize", "launch", "attach", "disconnect", "terminate"]);

// Requests that make a run or a step: while a run goes on they are refused.
const RUNS = new Set(["continue", "next", "stepIn", "stepOut", "stepBack", "reverseContinue", "goto", "restartFrame", "setVariable", "setExpression", "evaluate",
  "ghcdb/undo", "ghcdb/roll", "ghcdb/redo"]);

for (const requests of [Beginning, Restarting, Setting, Looking, Stepping, Changing, Running, Judging]) {
  Object.defineProperties(Adapter.prototype, Object.getOwnPropertyDescriptors(requests));
}

export { Adapter };
