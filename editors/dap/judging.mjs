// The editor's console asks who is to blame, and hears the answers. The call asked about is shown as a process of its own, and at the end
// the one at fault.
import { callWords } from "../../front/run/blame_words.mjs";
import * as Replies from "../../front/protocol/replies.mjs";
import { requests } from "./requests.mjs";

const JUDGED = 0x7fffffff; // the number of the process that is none: the call asked about
const LONGEST = 300;

export default requests({
  /** The lines for `blame`, an answer to its question, or `trust`; undefined where a line is none of these. */
  async judge(line) {
    const [word, ...words] = line.split(/ +/);
    if (!["blame", "trust"].includes(word) && !this.blaming.isAnswer(line)) return undefined;
    const { told, line: asked } = this.blaming.asked(word, words);
    return asked === undefined ? told : [...told, ...await this.blame(asked)];
  },

  async blame(given) {
    const { line, reply, notes } = await this.blaming.ask(given), words = await this.blaming.wordsAfter(line, reply);
    if (Replies.isRefused(reply)) return [...reply, ...words];
    this.later(() => this.stoppedAnew(this.judgedName(), JUDGED));
    return [...notes, `sent: ${line}`, ...reply, ...words];
  },

  /** Is the call asked about the process of a number? It is there until the session changes. */
  isJudged(thread) {
    return thread === JUDGED && this.judgedGoal !== undefined;
  },

  /** The goal of the call asked about, or at fault; undefined where there is none. */
  get judgedGoal() {
    const { isOpen, told } = this.blaming;
    return isOpen ? told.ask?.goal ?? told.fault?.goal ?? undefined : undefined;
  },

  /** The call asked about, or at fault, in words. */
  judgedName() {
    const { told } = this.blaming;
    if (this.judgedGoal === undefined) return "no clause is at fault";
    return `${told.fault === null ? "right or wrong?" : "at fault:"} ${callWords(this.session, told, this.judgedGoal)}`.slice(0, LONGEST);
  },

  judgedThreads() {
    return this.judgedGoal === undefined ? [] : [{ id: JUDGED, name: this.judgedName() }];
  },

  /** The frame of the call asked about, where it was called; at the end the clause at fault. */
  async judgedFrame() {
    const goal = this.judgedGoal, step = this.session.kept.steps.get(this.session.kept.takers.get(goal)), { fault } = this.blaming.told;
    const [kind, what] = step === undefined ? ["goal", await this.session.goalNamed(goal)] : ["step", step.number];
    const clause = this.session.clauses[fault?.clause - 1], place = clause === undefined ? this.session.run.placeOf(goal) : { clause: clause.number, ...this.places.placeOf(clause) };
    return this.frame(kind, what, this.judgedName(), place);
  },
});
