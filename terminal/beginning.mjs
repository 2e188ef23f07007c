// What the terminal does where a session begins in place of another one: with the program as its file has it now, or
// with another query; or where the steps go on under the program as it is now, as far as its clauses are still there.
// Where what is asked for is refused, the session before stands.
import { Blaming } from "../front/run/blaming.mjs";
import { Patterns } from "../front/run/patterns.mjs";
import { plural } from "../front/run/reasons.mjs";
import * as ReloadPlan from "../front/run/reload_plan.mjs";
import { meant, usageOf } from "../front/protocol/commands.mjs";
import { wordsOfQuery } from "../front/protocol/words.mjs";
import { isNoFile } from "../front/session/files.mjs";
import { unlessEnded } from "../front/session/program.mjs";
import { NO_MEMORY, changesOf, keptOf, probeOf, reloadOf, reloadedLines } from "../front/session/reloading.mjs";
import { Session } from "../front/session/session.mjs";
import { part } from "./part.mjs";

const ASK_AGAIN = { quit: "quit again ends", restart: "restart again begins anew", query: "query again begins anew" };

/** How many steps go with a session. */
function unsavedIn({ kept: { steps, shelved } }) {
  const isShelf = steps.size === 0;
  return `${plural(isShelf ? shelved.size : steps.size, "step")} ${isShelf ? "taken back" : "kept"} and not saved`;
}

const Beginning = part({
  /** Warns once that steps would be lost; true where it does so now. */
  warnsOfLoss(name) {
    const { session } = this, state = `${name} ${session.kept.changes}`;
    if (session.isSaved || this.warned === state) return false;
    this.warned = state;
    if (name !== "query") this.question = () => this.act(meant(name), name); // y says the word again
    this.note(`${unsavedIn(session)}: save FILE keeps them; ${ASK_AGAIN[name]}`);
    return true;
  },

  /** Is another session accepted, which begins? Where it is refused, tells why. */
  isAccepted(next, beginning) {
    return unlessEnded(beginning.then(() => true), async (ended) => {
      await this.tellRefusals(ended, next, this.out);
      this.note("the session before stands");
      return false;
    });
  },

  /** Another session takes the place of this one; false where it is refused. */
  async goOnWith(next) {
    if (!await this.isAccepted(next, this.start(next))) return false;
    await this.session.end();
    this.session = next;
    this.blaming = new Blaming(next);
    Object.assign(this, { warned: undefined, stoppedAt: undefined });
    return true;
  },

  /** Can the program's file be read again? Where it cannot, tells so. */
  canReadAgain() {
    const { file } = this.session.given, isGone = isNoFile(file);
    if (isGone) this.note(`${file} is no file that can be read again; the session stands`);
    return !isGone;
  },

  async on_restart() {
    const { words, native } = this.session;
    if (this.warnsOfLoss("restart") || !this.canReadAgain()) return;
    if (!await this.goOnWith(new Session(words, native))) return;
    this.patterns = new Patterns(); // a session that begins anew spies nothing
    this.greet();
  },

  /** The program is the one that the session has, whatever its file holds now. */
  async on_query({ rest }) {
    const { words, native, bytes, given } = this.session;
    if (rest === "") return this.note(`the query is ${given.query}`, usageOf("query"));
    if (this.warnsOfLoss("query")) return undefined;
    if (!await this.goOnWith(new Session(wordsOfQuery(words, rest), native, { program: bytes }))) return undefined;
    Object.assign(this, { patterns: new Patterns(), displayed: [] });
    return this.note(`begun anew with the query ${rest}`);
  },

  async on_reload() {
    const { session } = this, probe = probeOf(session);
    if (!this.canReadAgain() || !await this.isAccepted(probe, probe.tryOut())) return undefined;
    if (probe.bytes.equals(session.bytes)) return this.note("the program's file is as it was; the session stands");
    const reload = await reloadOf(session, probe);
    return reload === undefined ? this.note(NO_MEMORY) : this.proposeReload(reload);
  },

  /** Shows what has changed, and which steps go; where some do, asks before they do. */
  async proposeReload(reload) {
    const { plan, unshelved } = reload, act = () => this.reloadBy(reload);
    await this.noteAll(changesOf(reload));
    if (plan.going.length + unshelved.length === 0) return act();
    this.question = act;
    return this.note(`y reloads and keeps ${keptOf(plan)}; any other line leaves the session as it is`);
  },

  /** Another session takes the place of this one: on the new program, with the steps that stay. */
  async reloadBy(reload) {
    const { plan, unspied, handed } = reload, { session, session: { words, native } } = this;
    const next = new Session(words, native, handed);
    if (!await this.goOnWith(next)) return;
    next.savedAt = undefined; // it stands in no file yet
    next.savedInto = session.savedInto;
    unspied.forEach((predicate) => this.patterns.forget(predicate));
    this.displayed = this.displayed.map((name) => ReloadPlan.nameAfter(plan, name)).filter(Boolean);
    this.tellNotes();
    this.note(...reloadedLines(reload));
  },
});

export default Beginning;
