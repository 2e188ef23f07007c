// Runs: forwards in slices, so that a pause is heard between two of them, and backwards to a breakpoint.
import * as Own from "../../front/run/own.mjs";
import { requests, CANCELLED } from "./requests.mjs";
import { Ended } from "../../front/session/program.mjs";
import { plural } from "../../front/run/reasons.mjs";
import * as Replies from "../../front/protocol/replies.mjs";
import * as Room from "../../front/session/room.mjs";

/** @typedef {import("./types").Stop} Stop */

const MOST_TOLD = 200; // steps of a run that it tells in the editor's console
const SLICE_LATE = 2000; // milliseconds in which a slice may still answer, once somebody asks for the run's end
const LONGEST = 300; // letters of a goal in the words of a stop

/**
 * The stop where a breakpoint could not be looked at, as where a value is too long.
 * @returns {Stop}
 */
function stopOf(error) {
  if (error instanceof Ended) throw error;
  return ["pause", error.message];
}

export default requests({
  /**
   * Runs something during which other requests are answered; a pause ends it.
   * @param {() => Promise<Stop>} what
   */
  async running(what) {
    this.isRunning = true;
    this.runner = this.handling;
    try {
      return await what();
    } finally {
      clearTimeout(this.endsLate);
      this.endsLate = undefined;
      this.isRunning = false;
      this.wantsPause = false;
    }
  },

  /** Runs on to a reason to stop. */
  async forward() {
    await this.stopped(...await this.running(() => this.runSlices()).catch(stopOf));
  },

  /** @returns {Promise<Stop>} */
  async runSlices() {
    const watched = await this.watchedValues();
    for (let steps = 0; ;) {
      const reply = await this.sliceOf(watched.size > 0 ? 1 : this.slice);
      const after = `after ${plural(steps, "step")}`;
      if (reply === undefined) return ["pause", `ended where it did not answer, ${after}, which stand`];
      const [, reason, name] = reply.at(-1).split(" ");
      steps += this.tellRun(reply.slice(0, -1), steps);
      const bound = await this.boundNow(watched);
      if (bound !== undefined) return ["data breakpoint", `${this.session.run.labelOf(bound.variable)} was bound`, { hit: bound }];
      if (reason === "spied") {
        const stop = await this.atSpied(name);
        if (stop !== undefined) return stop;
      } else if (reason !== "limit") return this.atEnd(reason, name);
      if (Room.isShort()) return ["pause", Room.cure()];
      if (this.wantsPause) return ["pause", `after ${plural(steps, "step")}`];
      await this.handleWaiting();
    }
  },

  /** The reply to a slice of a run; undefined where it was ended, since it did not answer. */
  async sliceOf(steps) {
    try {
      return await this.session.ask(`leap ${steps}`);
    } catch (error) {
      if (error !== CANCELLED) throw error;
      await this.session.ending;
      this.session.isCancelled = false;
      return undefined;
    }
  },

  tellRun(lines, before) {
    if (before < MOST_TOLD) this.tell(lines.slice(0, MOST_TOLD - before));
    if (before < MOST_TOLD && before + lines.length >= MOST_TOLD) this.tell([".. further steps are not told here"]);
    return lines.length;
  },

  /** What the console shows of a variable; of one that a step is yet to make as of one that nothing has bound. */
  async shownValue(variable) {
    const [line] = await this.session.ask(`show ${variable}`);
    return line.startsWith("F23 ") ? `${variable} = ${variable}` : line;
  },

  async watchedValues() {
    const values = new Map();
    for (const point of this.breakpoints.variables) values.set(point, await this.shownValue(point.variable));
    return values;
  },

  /** The data breakpoint whose variable has another value than before; undefined where none has. */
  async boundNow(watched) {
    for (const [point, before] of watched) if (await this.shownValue(point.variable) !== before) return point;
    return undefined;
  },

  /**
   * What stops a run before a spied goal; undefined where it goes on, and then the goal was stepped.
   * @returns {Promise<Stop | undefined>}
   */
  async atSpied(name) {
    const hit = await this.breakpoints.met(this.session, name, (text) => this.tell([text]));
    const thread = this.processes.of(name);
    if (hit !== undefined) return [hit.kind === "predicate" ? "function breakpoint" : "breakpoint", `${name} ${this.session.run.textOf(name)}`, { thread, hit }];
    const reply = await this.session.ask(`step ${name}`);
    this.tell(reply.filter((line) => line.startsWith("REDU ")));
    return Replies.isRefused(reply) ? ["pause", reply[0], { thread }] : undefined;
  },

  /** What an editor is told of a goal that has failed. */
  failedText({ name, text }) {
    return `${name} ${text.slice(0, LONGEST)} has failed`;
  },

  /** @returns {Promise<Stop>} */
  async atEnd(reason, name) {
    const goals = await this.goalsTold();
    if (goals.length === 0 && await this.session.goalsTold() === undefined) return ["pause", `stopped ${reason}`];
    if (reason === "clash") {
      const failed = goals.find((goal) => goal.name === name);
      return [this.breakpoints.reasonOf("failed"), this.failedText(failed), { thread: this.processes.of(name) }];
    }
    if (reason !== "quiet") return ["pause", reason];
    const waiting = goals.filter(({ status }) => status === "waits");
    if (waiting.length > 0) {
      const isFed = goals.some(({ status }) => status === "stream");
      this.tell(await Own.stuck(this.session), "important");
      const wait = waiting.length === 1 ? "waits" : "wait", help = isFed ? "; `in 1 TERM` feeds the input stream" : "";
      const text = `${plural(waiting.length, "goal")} ${wait}, and none is ready${help}`;
      return [this.breakpoints.reasonOf("stuck"), text];
    }
    if (goals.length > 0) return ["pause", "the input streams are open: `in 1 TERM` feeds one"];
    this.tell(["all is done", ...(await this.session.answers()).values()], "important");
    return ["pause", "all is done: step back, or end"];
  },

  /** Runs what comes of a goal. Such a run cannot be cut into slices: a pause ends it, and the session is as before it. */
  async skip(name, thread) {
    await this.stopped(...await this.running(() => this.skipNow(name, thread)));
  },

  /** @returns {Promise<Stop>} */
  async skipNow(name, thread) {
    this.isSkipping = true;
    try {
      const reply = await this.session.ask(`skip ${name}`);
      this.tellRun(reply, 0);
      return Replies.isRefused(reply) ? ["pause", reply[0], { thread }] : ["step", reply.at(-1), { thread }];
    } catch (error) {
      if (error !== CANCELLED) throw error;
      await this.session.ending;
      return ["pause", "the run was ended; the session stands as before it", { thread }];
    } finally {
      this.isSkipping = this.session.isCancelled = false;
    }
  },

  /**
   * Asks a run to stop: in slices it does so after one, or is ended where that does not answer; in one piece it is
   * ended.
   */
  stopRun() {
    this.wantsPause = true;
    if (this.isSkipping) this.endLine();
    else this.endsLate ??= setTimeout(() => { if (this.session.program.isBusy) this.endLine(); }, SLICE_LATE);
  },

  /** Ends the line that is asked; where it cannot be ended, that is told. */
  endLine() {
    if (this.session.isCancelled) return;
    this.session.cancel(true).catch((error) => this.tell([`${error.message}; the run goes on`], "important"));
  },

  /** Backwards: to before the step that bound a watched variable, else to before a step at a breakpoint, else to the beginning. */
  async backward() {
    const run = await this.session.look(), numbers = [...this.session.kept.steps.keys()];
    const binders = this.breakpoints.variables.map((point) => ({ point, number: run.binders.get(point.variable) })).filter(({ number }) => number !== undefined);
    if (binders.length > 0) {
      const { point, number } = binders.reduce((last, other) => (numbers.indexOf(other.number) > numbers.indexOf(last.number) ? other : last));
      return this.rollTo(number, "data breakpoint", { hit: point, text: `before step ${number}, which bound ${run.labelOf(point.variable)}` });
    }
    for (const step of [...this.session.kept.steps.values()].reverse()) {
      const hit = step.goal === null ? undefined : this.breakpoints.before(step, run);
      if (hit !== undefined) return this.rollTo(step.number, "breakpoint", { hit });
    }
    while (this.session.kept.steps.size > 0) await this.session.ask(`roll ${this.session.kept.steps.keys().next().value}`);
    return this.stopped("entry", "before the first step");
  },
});
