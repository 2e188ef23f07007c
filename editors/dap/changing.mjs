// Requests that change a session otherwise than by a step of a process: lines of the console, values given by hand, undo, roll, redo.
import { notesAfter } from "../../front/run/telling.mjs";
import { suggestionFor, NAMES } from "../../front/protocol/commands.mjs";
import { termOf } from "./options.mjs";
import { requests, Refused } from "./requests.mjs";
import * as Replies from "../../front/protocol/replies.mjs";

const TELLS_MORE = new Set(["explain", "part", "whynot"]); // lines of which the reply alone tells no goals, or no names

const NO_VALUE = ": a value is one term, as 3, red or [1,2]; nothing is computed";

/** The request for a line of a command and a step's number. */
const byNumber = (word) =>
  /** @this {import("./adapter.mjs").Adapter} */
  async function changeStep({ step }) {
    const line = `${word} ${step}`;
    await this.change(line);
    this.later(() => this.stoppedAnew(line));
  };

export default requests({
  /** A line of the console as it was typed; where it changed the session, the editor hears of a stop. `explain X all` asks for `explain X`. */
  async typed(given, word) {
    const isWhole = word === "explain" && / all$/.test(given), line = isWhole ? given.replace(/(?<! ) +all$/, "") : given;
    const before = this.session.kept.changes, reply = await this.session.ask(line);
    if (reply[0] === "F25 command" && !NAMES.includes(word)) throw new Refused(suggestionFor(line));
    const meaning = { name: word, words: line.split(/ +/).slice(1), line, isWhole };
    const isAll = !Replies.isRefused(reply) && !TELLS_MORE.has(word);
    if (isAll && this.session.kept.changes !== before) this.later(() => this.stoppedAnew(line));
    return isAll ? reply : [...reply, ...await notesAfter(this.session, meaning, reply)];
  },

  /** An unbound variable is bound by goals asked for: a step like any other, which can be taken back. */
  async on_setVariable({ variablesReference, name, value }) {
    return this.bind(await this.termShown(name, variablesReference) ?? await this.inside.termNamed(name, variablesReference), value);
  },

  async on_setExpression({ expression, value, frameId }) {
    return this.bind(await this.inside.termNamed(expression, frameId), value);
  },

  async bind(term, value) {
    const run = await this.session.look(), end = term && run.endOf(term);
    if (term?.variable === undefined) throw new Refused("this is no variable");
    if (end.variable === undefined) throw new Refused(`${run.labelOf(term.variable)} is bound: take back the step that bound it (who ${term.variable}), then set it`);
    if (termOf(value) === undefined) throw new Refused(`${value}${NO_VALUE}`);
    const asked = await this.change(`ask ${end.variable} = ${value}`), [goal] = Replies.goalsMade(asked);
    const reply = await this.session.ask(`step ${goal}`);
    if (Replies.isRefused(reply)) {
      await this.session.ask(`undo ${Replies.readTaken(asked[0]).number}`);
      throw new Refused(reply[0]);
    }
    this.tell(reply);
    this.later(() => this.stoppedAnew(`${run.labelOf(end.variable)} was bound by hand`));
    return { value: String(value) };
  },

  on_ghcdb_undo: byNumber("undo"),
  on_ghcdb_roll: byNumber("roll"),
  on_ghcdb_redo: byNumber("redo"),

  /** A stop to which no request for a step has led: the editor hears first that the process that it shows went on. */
  stoppedAnew(text, thread) {
    this.event("continued", { threadId: this.shown, allThreadsContinued: true });
    return this.stopped("step", text, { thread });
  },
});
