// Keeps account of the kept steps of a session from the replies to its lines, so that `records` need not be asked for. Pure.
import * as Effects from "../protocol/effects.mjs";
import * as Replies from "../protocol/replies.mjs";

class Kept {
  constructor() {
    this.steps = new Map(); // by number, in recorded order
    this.takers = new Map(); // the step that consumed a goal
    this.texts = new Map(); // goals as written, as far as CALL lines told them
    this.changes = 0; // how many lines have changed the session
    this.removed = new Set(); // steps that went since somebody looked; some may be there again
    this.shelved = new Set(); // steps that were taken back, and stand on the shelf
  }

  /** May a line change which steps are kept? */
  static mayChange(line) {
    return Effects.effectOf(line) !== "looks";
  }

  /** Adds a step, without what it read, bound and made. */
  add({ number, goal, act, kind, clause }) {
    this.steps.set(number, { number, goal, act, kind, clause });
    this.shelved.delete(number);
    if (goal !== null) this.takers.set(goal, number);
  }

  remove(number) {
    const step = this.steps.get(number);
    if (step === undefined) return;
    this.steps.delete(number);
    this.removed.add(number);
    this.shelved.add(number);
    if (step.goal !== null) this.takers.delete(step.goal);
  }

  /** Takes the steps of the reply to `records` for those that are kept. */
  begin(records) {
    this.steps.clear();
    this.takers.clear();
    for (const line of records) {
      const step = Replies.readRecord(line);
      if (step !== null) this.add(step);
    }
  }

  /** Learns what the reply to a line tells. */
  learn(line, reply) {
    if (!Kept.mayChange(line) || Replies.isRefused(reply)) return;
    this.changes += 1;
    if (reply[0] === "arranged") this.arrange(line.trim().split(/ +/).slice(1).map(Number));
    for (const told of reply) this.learnLine(told);
  }

  learnLine(told) {
    const taken = Replies.readTaken(told), call = Replies.readCall(told);
    if (taken !== null) this.add(taken);
    if (call !== null) this.texts.set(call.name, call.text);
    for (const number of Replies.readUndone(told) ?? []) this.remove(number);
  }

  /** The steps that went since this was asked last. */
  takeRemoved() {
    const { removed } = this;
    this.removed = new Set();
    return removed;
  }

  /** The first step in recorded order that is not among those known; undefined where all are. */
  firstBeside(known) {
    for (const number of this.steps.keys()) if (!known.has(number)) return number;
    return undefined;
  }

  arrange(numbers) {
    this.steps = new Map(numbers.map((number) => [number, this.steps.get(number)]));
  }

  /** The number of the last step in recorded order; undefined where none is kept. */
  get last() {
    let last;
    for (const number of this.steps.keys()) last = number;
    return last;
  }
}

export default Kept;
