// What the terminal does for runs: in slices, so that ^C keeps what was done; past the spied goal at which one stopped,
// past goals that fit no pattern, and until a goal or a step is there, or a variable is bound. What is sent are lines
// of the console: `leap K` and `step G`.
import { meant, usageOf } from "../front/protocol/commands.mjs";
import * as Replies from "../front/protocol/replies.mjs";
import { plural, some } from "../front/run/reasons.mjs";
import * as GoingOn from "../front/run/going_on.mjs";
import { notesAfter } from "../front/run/telling.mjs";
import { Ended } from "../front/session/program.mjs";
import * as Room from "../front/session/room.mjs";
import { part } from "./part.mjs";

const SLICE = 1000; // steps between which ^C is heard
const TOLD = 100_000; // steps of a run after which it is told that it goes on
const MOST = 1_000_000; // steps of a run, where no number is said, or a variable is watched
const GOAL = /^\d+\.\d+$/, NUMBER = /^\d{1,10}$/;

/** The goal before which a run stopped that is spied; undefined where it stopped for another reason. */
const spiedIn = (stop) => /^stopped spied (\S+)$/.exec(stop)?.[1];

const noMore = (number) => `no step gets the number ${number} any more; shelf lists what was taken back`;

/**
 * How many steps a slice has. Where several workers make them a history is kept after each slice, so slices grow with
 * the session.
 */
const sliceOf = (session) => (session.isByMany ? Math.max(SLICE, Math.floor(session.kept.steps.size / 4)) : SLICE);

const Running = part({
  async on_leap(meaning, typed) {
    const [word = String(MOST), ...more] = meaning.words, most = NUMBER.test(word) ? Number(word) : 0;
    if (most === 0 || more.length > 0) return false;
    const taken = await this.passSpied();
    if (taken === most || this.isInterrupted) return true;
    const line = taken === 0 || meaning.words.length === 0 ? meaning.line : `leap ${most - taken}`;
    this.echo(line, typed);
    return this.tellRun(await this.runOn(most - taken), { ...meaning, line });
  },

  /**
   * Where the last run stopped before a spied goal, and nothing has changed since, a step takes that goal. How many
   * steps were taken.
   */
  async passSpied() {
    const { stoppedAt } = this;
    this.stoppedAt = undefined;
    if (stoppedAt?.changes !== this.session.kept.changes) return 0;
    const before = this.session.kept.steps.size;
    await this.send(meant("step", stoppedAt.goal));
    return this.session.kept.steps.size - before;
  },

  /**
   * Runs on for some steps at most, in slices, until one stops for another reason than its length, or ^C: the reply as
   * of one run, and the goals that it passed since they fit no pattern. Where the program ends in a slice, what was
   * done before is told.
   */
  async runOn(most) {
    const lines = [], passed = [];
    this.sliced = most > SLICE ? lines : undefined;
    try {
      const stop = await this.runSlices(most, lines, passed), goal = spiedIn(stop);
      this.stoppedAt = goal && { goal, changes: this.session.kept.changes };
      const isEnded = this.isInterrupted && stop === "stopped limit" && lines.length < most;
      return { reply: [...lines, stop], passed, isEnded };
    } catch (error) {
      if (error instanceof Ended && lines.length > 0) await this.show([...lines, "stopped limit"], { name: "leap" });
      throw error;
    } finally {
      this.sliced = undefined;
    }
  },

  /** Gathers the lines of slices, and the goals that were passed. Why the last one stopped. */
  async runSlices(most, lines, passed) {
    let stop = "stopped limit";
    this.isShort = false;
    while (stop === "stopped limit" && lines.length < most && !this.isInterrupted && !this.isShort) {
      const reply = await this.session.ask(`leap ${Math.min(most - lines.length, sliceOf(this.session))}`);
      stop = reply.pop();
      const before = lines.length;
      reply.forEach((line) => lines.push(line));
      this.isShort = Room.isShort();
      if (stop === "stopped limit" && lines.length < most) this.tellGoesOn(before, lines);
      const goal = spiedIn(stop), step = goal === undefined ? undefined : await this.passOther(goal);
      if (step === undefined) continue;
      lines.push(step);
      passed.push(goal);
      stop = "stopped limit";
    }
    return stop;
  },

  /** Of a long run it is told now and then that it goes on, and of which predicates its last steps were. */
  tellGoesOn(before, lines) {
    const told = Math.floor(lines.length / TOLD) * TOLD;
    if (told <= before) return;
    const last = GoingOn.predicatesIn(lines, this.session.clauses);
    this.note(`${told.toLocaleString("en-US")} steps so far, the last of ${last}; ^C ends the run, and they stand`);
  },

  /**
   * Does a spied goal fit a pattern, where there are some of its predicate? So does one of which too much would have to
   * be read.
   */
  async isMet(goal) {
    try {
      const run = await this.session.look(), predicate = run.predicateOf(goal), call = run.goalOf(goal)?.call;
      return call === undefined || this.patterns.meets(predicate, call, run);
    } catch (error) {
      if (error instanceof Ended) throw error;
      return true;
    }
  },

  /**
   * Takes a spied goal that fits no pattern: the line that tells the step. Undefined where the run is to stop before
   * it.
   */
  async passOther(goal) {
    if (this.patterns.isEmpty || await this.isMet(goal)) return undefined;
    return (await this.session.ask(`step ${goal}`)).find((line) => Replies.readTaken(line) !== null);
  },

  /** Tells a run, and what its end means. */
  async tellRun({ reply, passed, isEnded }, meaning) {
    const sent = some(passed.map((goal) => `step ${goal}`)).join(", ");
    if (passed.length > 0) this.note(`passed ${plural(passed.length, "goal")} that no pattern fits; sent: ${sent}`);
    await this.show(reply, meaning);
    if (this.isShort) return this.note(Room.cure());
    if (isEnded) {
      const ended = `ended by ^C after ${plural(reply.length - 1, "step")}, which stand; leap goes on`;
      return this.noteAll([ended, ...GoingOn.wordsOf(reply, this.session.clauses)]);
    }
    await this.noteAll(await notesAfter(this.session, meaning, reply));
    return this.tellFree(reply.at(-1));
  },

  async on_until({ words: [word, ...more] }) {
    const isGoal = GOAL.test(word), number = isGoal || NUMBER.test(word) ? Number.parseInt(word, 10) : 0;
    if (number === 0 || more.length > 0) return this.note(usageOf("until"));
    const why = (isGoal ? await this.whereGoalIs(word) : undefined) ?? this.whyNotMade(number, isGoal);
    if (why !== undefined) return this.note(why);
    await this.runToStep(number);
    if (!isGoal || !this.session.kept.steps.has(number)) return undefined;
    return this.note(await this.whereGoalIs(word) ?? `step ${number} made no goal ${word}`);
  },

  /** Why no step of a number is made from now on; undefined where one may be. A goal that is asked for is not there. */
  whyNotMade(number, isGoal) {
    const { steps } = this.session.kept;
    if (steps.has(number)) return `step ${number} is kept${isGoal ? ", and made no such goal" : ""}`;
    return [...steps.keys()].some((kept) => kept > number) ? noMore(number) : undefined;
  },

  /** Where a goal is that was made; undefined where it was not. */
  async whereGoalIs(name) {
    const taker = this.session.kept.takers.get(name), goal = await this.session.goalNamed(name);
    if (taker !== undefined) return `${name} was taken by step ${taker}`;
    return goal && `${name} is there: ${goal.text}`;
  },

  /**
   * Runs until a step of a number is made: by one step, whose number tells how many are left. It is told as one run.
   */
  async runToStep(number) {
    const sent = [], run = { reply: ["stopped limit"], passed: [], isEnded: false };
    const part = async (most) => {
      const { reply, passed, isEnded } = await this.runOn(most);
      sent.push(`leap ${most}`);
      Object.assign(run, { reply: [...run.reply.slice(0, -1), ...reply], passed: [...run.passed, ...passed], isEnded });
    };
    if (await this.passSpied() === 0) await part(1);
    const isGoing = run.reply.at(-1) === "stopped limit" && !this.isInterrupted, { last } = this.session.kept;
    if (isGoing && last < number) await part(number - last);
    if (sent.length > 0) this.note(`sent: ${sent.join(", ")}`);
    if (sent.length > 0) await this.tellRun(run, meant("leap"));
    if (last > number) this.note(noMore(number));
  },

  /** Runs step by step until a variable is bound. */
  async on_watch({ words: [name] }) {
    if (name === undefined) return this.note(usageOf("watch"));
    const meaning = meant("show", name), { line } = meaning, was = await this.session.ask(line);
    if (was[0] === "F25 command") return this.note(usageOf("watch"));
    if (Replies.isRefused(was)) return this.send(meaning, line);
    let now = was, last = "", taken = 0;
    for (; taken < MOST && !this.isInterrupted && Replies.isUnbound(now[0]); taken += 1) {
      last = (await this.session.ask("leap 1")).at(-1);
      if (last !== "stopped limit") break;
      now = await this.session.ask(line);
    }
    now = await this.session.ask(line);
    await this.show(now, meaning);
    if (Replies.isUnbound(now[0])) return this.note(this.isInterrupted ? "ended: it is not bound" : `it is not bound: ${last}`);
    return this.note(Replies.isUnbound(was[0]) ? `bound by step ${this.session.kept.last}; sent: leap 1, ${plural(taken, "time")}` : "it is bound already");
  },
});

export default Running;
