// The talk about who is to blame, by words: what an answer to the open question says, and which predicates are trusted.
import * as BlameLines from "../protocol/blame_lines.mjs";
import { meant, usageOf } from "../protocol/commands.mjs";
import { OpenQuestion } from "./open_question.mjs";
import * as Own from "./own.mjs";
import * as Printed from "../text/printed.mjs";
import * as Replies from "../protocol/replies.mjs";
import { IN_TURNS, afterBlame } from "./blame_words.mjs";
import { notesAfter } from "./telling.mjs";

const ANSWERS = new Map(Object.entries({ y: true, yes: true, right: true, n: false, no: false, wrong: false }));
const BACK = "u";

class Blaming extends OpenQuestion {
  constructor(session) {
    super();
    this.session = session;
  }

  /** Does what was told last still hold? A line that changes the session ends the talk. */
  get isOpen() {
    return this.line !== undefined && this.changes === this.session.kept.changes;
  }

  /** Asks a line of `blame`, and notes what it was answered by. */
  async askOnce(line) {
    const reply = await this.session.ask(line);
    if (Replies.isRefused(reply)) return reply;
    this.take(line, reply);
    this.changes = this.session.kept.changes;
    return reply;
  }

  /**
   * Is a word an answer, or does it take one back? A variable of the query is none, as `Y` may be. At the end, too, it is no command: nobody
   * who answers once too often takes a step.
   */
  isAnswer(word) {
    const small = word.toLowerCase();
    return this.isOpen && !this.session.variables.includes(word) && (small === BACK || ANSWERS.has(small));
  }

  /** The line with the answer that a word gives; undefined where nothing is asked, or there is none to take back. */
  lineWith(word) {
    if (word.toLowerCase() === BACK) return this.lineBefore();
    return this.goal === undefined ? undefined : this.answered(ANSWERS.get(word.toLowerCase()));
  }

  /** The line that words ask for: alone that of the open question. */
  lineOf(words) {
    if (words.length === 0 && this.isOpen) return this.line;
    return ["blame", ...words.map((word) => Own.signOf(this.session, word))].join(" ");
  }

  /** Why there is no such line. */
  whyNoLine(word) {
    return word.toLowerCase() === BACK ? "no answer was given yet; undo takes back a step" : "nothing is asked any more; u takes the last answer back, step takes a step";
  }

  /**
   * Lets calls of the predicate of a word be taken for right, or no longer; it may be named without the number of its arguments. Gives lines
   * that tell so; without a word they tell which are trusted.
   */
  trustLines(word) {
    const { trusted, session: { predicates } } = this, named = predicates.filter((other) => Printed.isNamed(other, word));
    if (word === undefined) return [trusted.size === 0 ? "no predicate is trusted" : `trusted: ${[...trusted].join(", ")}`];
    if (named.length === 0) return [`no clause of ${word}; the program's predicates: ${predicates.join(", ")}`];
    for (const predicate of named) if (!trusted.delete(predicate)) trusted.add(predicate);
    return named.map((predicate) => (trusted.has(predicate) ? `${predicate} is trusted: blame takes its calls for right` : `${predicate} is trusted no longer`));
  }

  /** What `blame`, `trust` or an answer means: lines to be told, and the line of `blame` to be asked then, if any. */
  asked(name, words) {
    if (name === "blame") return { told: [], line: this.lineOf(words) };
    if (name === "trust") {
      return { told: this.trustLines(words[0]), line: this.isOpen && this.isTrusted ? this.line : undefined };
    }
    const line = this.lineWith(name);
    return { told: line === undefined ? [this.whyNoLine(name)] : [], line };
  }

  /**
   * Asks a line of `blame`, and answers itself what is asked about calls that are trusted, until `isEnded` says so. Gives the line that was
   * asked last, its reply, and notes on what was taken for right.
   */
  async ask(given, isEnded = () => false) {
    const goals = [];
    let line = given, reply = await this.askOnce(line);
    while (BlameLines.isQuestion(reply) && this.trusted.has(this.predicate) && !isEnded()) {
      goals.push(this.goal);
      line = this.lineByTrust();
      reply = await this.askOnce(line);
    }
    return { line, reply, notes: goals.length === 0 ? [] : [`right, for they are trusted: ${goals.join(", ")}`] };
  }

  /** What the reply to a line of `blame` means, or what helps where it is refused. */
  async wordsAfter(line, reply) {
    if (reply[0] === "F25 command") return [usageOf("blame")];
    if (!Replies.isRefused(reply)) return this.eachOnce(await afterBlame(this.session, line, reply));
    return notesAfter(this.session, meant("blame", ...line.split(" ").slice(1)), reply);
  }

  /** That a call went in turns is told of the first question alone. */
  eachOnce(lines) {
    const isTold = this.hasToldTurns && BlameLines.answersOn(this.line).length > 0;
    this.hasToldTurns = isTold || lines.includes(IN_TURNS);
    return isTold ? lines.filter((line) => line !== IN_TURNS) : lines;
  }
}

export { Blaming };
