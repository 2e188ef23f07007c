// The way back to a session whose program has to be ended in the midst of a line: a history, and the lines that changed
// the session since.
import Kept from "../run/kept.mjs";
import * as Replies from "../protocol/replies.mjs";

const AT_ONCE = 1000; // lines that are played again at once
const LIGHT = 1000; // so many lines of replies are soon told again, however short the history is

/** Is a history whole? */
const isWhole = (history) => !history.includes(Replies.NO_MEMORY);

/** A history, as its lines are in a file. */
const textOf = (lines) => `${lines.join("\n")}\n`;

// What is thrown where a line cannot be ended without losing the session.
class NotEnded extends Error {}

const NOT_BEGUN = "the session could not be begun again";

const STEPS = new Set(["reduce", "unify", "assign"]);
const RUNS = /^ *(leap|skip) ?/;

/** The lines that do just what a reply tells, whoever makes the run and wherever memory is refused. */
function linesThatDo(reply) {
  return reply.flatMap((line) => {
    const step = Replies.readTaken(line), numbers = Replies.readUndone(line);
    if (numbers !== null) return numbers.reverse().map((number) => `undo ${number}`);
    return step === null || !STEPS.has(step.kind) ? [] : [`step ${step.goal} ${step.clause ?? ""}`.trimEnd()];
  });
}

const countSteps = (reply) => reply.filter((line) => line.startsWith("REDU ")).length;

class WayBack {
  /** `isByMany`: several workers make the runs, so that a run is not made alike again. */
  constructor(isByMany) {
    this.isByMany = isByMany;
    this.begin(undefined, 0);
  }

  /** Starts from a history, a text of so many lines; undefined: from what the session began with. */
  begin(history, length) {
    this.history = history;
    this.length = length;
    this.lines = [];
    this.steps = 0; // that the lines took
    this.weight = 0; // the lines of their replies
    this.isDue = false;
  }

  /** Notes a line that was accepted, and its reply. */
  note(line, reply) {
    if (Replies.isRefused(reply) || !(Kept.mayChange(line) || /^ *(no)?spy /.test(line))) return;
    const isAlike = !(this.isByMany && RUNS.test(line)) && isWhole(reply) && reply.at(-1) !== "stopped memory";
    const steps = countSteps(reply);
    for (const again of isAlike ? [line] : linesThatDo(reply)) this.lines.push(again);
    this.steps += steps;
    this.weight += reply.length;
    this.isDue ||= !isWhole(reply) || (!isAlike && steps > 1); // step by step the console looks at each state between
  }

  /** Where a new history is not to be had now, one is due later. */
  wait() {
    this.length = 2 * this.weight;
    this.isDue = false;
  }

  /** Is a new history due? Where there is more to play again than it is long, or a run that cannot be made alike. */
  get isHeavy() {
    return this.isDue || this.weight > Math.max(LIGHT, this.length);
  }

  /** Plays the lines again. Throws `NotEnded` where other steps come of them than the first time. */
  async play(program) {
    let steps = 0;
    for (let at = 0; at < this.lines.length; at += AT_ONCE) {
      const reply = await program.ask(this.lines.slice(at, at + AT_ONCE).join("\n"));
      const refusal = reply.find(Replies.isRefusal);
      if (refusal !== undefined) throw new NotEnded(`${NOT_BEGUN}: ${refusal}`);
      steps += countSteps(reply);
    }
    if (steps !== this.steps) throw new NotEnded(`${NOT_BEGUN} as it was`);
  }
}

export { NOT_BEGUN, NotEnded, WayBack, isWhole, textOf };
