// The question of `blame` that is open, or its verdict: the line that was asked last, what its reply tells, which
// answer leads to which line, and which predicates are trusted. Terminal, editors and page keep one each.
import * as BlameLines from "../protocol/blame_lines.mjs";
import * as Printed from "../text/printed.mjs";

class OpenQuestion {
  constructor() {
    this.trusted = new Set(); // predicates, as `part/4`
    this.byTrust = new Set(); // goals that were taken for right, for their predicate is trusted
    this.line = undefined; // of `blame`, that was answered last
    this.told = undefined; // what its reply tells
  }

  /** Takes a line of `blame` and its reply. */
  take(line, reply) {
    this.line = line;
    this.told = BlameLines.read(reply);
  }

  /** The goal that is asked about; undefined where it is found who is to blame. */
  get goal() {
    return this.told?.ask?.goal;
  }

  /** The predicate of the call that was told last. */
  get predicate() {
    const given = this.told?.given ?? null;
    return given === null ? undefined : Printed.predicateOf(given);
  }

  /** Is the question about a predicate that is trusted? */
  get isTrusted() {
    return this.goal !== undefined && this.trusted.has(this.predicate);
  }

  /** The line with an answer by hand. */
  answered(isRight) {
    this.byTrust.delete(this.goal);
    return BlameLines.answered(this.line, this.goal, isRight);
  }

  /** The line with the answer that trust gives. */
  lineByTrust() {
    this.byTrust.add(this.goal);
    return BlameLines.answered(this.line, this.goal, true);
  }

  /** The line without the last answer by hand, and those that trust gave after it; undefined where none was. */
  lineBefore() {
    const answers = BlameLines.answersOn(this.line), byTrust = answers.map(({ goal }) => this.byTrust.has(goal));
    const last = byTrust.lastIndexOf(false);
    if (last < 0) return undefined;
    return answers.slice(last).reduce((line) => BlameLines.unanswered(line), this.line);
  }
}

export { OpenQuestion };
