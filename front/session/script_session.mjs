// A session of a script: replies are handed on as they come, and of a long run nothing is kept before somebody looks.
import Kept from "../run/kept.mjs";
import { Session } from "./session.mjs";
import * as Replies from "../protocol/replies.mjs";

const MOST_KEPT = 20_000; // steps that are kept as they come; of more, the program is asked again where somebody looks

/**
 * The lines of the reply to a line, after those that `hear` took as they came, where it is there. `learn` is told all
 * of them first, and whether they are the reply's first ones.
 */
async function asked(asker, line, learn, hear) {
  let isFirst = true;
  const last = await asker.ask(line, hear && ((lines) => {
    learn(lines, isFirst);
    isFirst = false;
    return hear(lines);
  }));
  learn(last, isFirst);
  return last;
}

class ScriptSession extends Session {
  mostKept = MOST_KEPT;
  isForgotten = false; // what was told of the steps

  /** The lines of the reply to a line, after those that `hear` took as they came. */
  async ask(line, hear) {
    return asked(this.program, line, (lines, isFirst) => this.learn(String(line), lines, isFirst), hear);
  }

  /** Learns what lines of a reply tell of the steps. */
  learn(text, lines, isFirst) {
    const { kept } = this;
    if (!Kept.mayChange(text)) return;
    if (isFirst && this.isForgotten) kept.changes += Replies.isRefused(lines) ? 0 : 1;
    else if (isFirst) kept.learn(text, lines);
    else if (!this.isForgotten) lines.forEach((line) => kept.learnLine(line));
    if (kept.steps.size > this.mostKept) this.forget();
  }

  forget() {
    this.isForgotten = true;
    this.kept.begin([]);
    this.kept.texts.clear();
    this.kept.takeRemoved();
  }

  /** The run with all that `records` tells of it. From now on all is kept, for who looks once will look again. */
  async look() {
    this.mostKept = Infinity;
    if (!this.isForgotten) return super.look();
    const records = await this.ask("records");
    this.isForgotten = false;
    this.kept.begin(records);
    this.run.learn(records);
    this.seen.records = this.kept.changes;
    return this.run;
  }
}

export { ScriptSession, asked };
