// The request `restart`. Where the program's file has changed, and nothing else is asked for, the session goes on under
// the program as it is now, as `reload` does at a terminal; else it begins anew.
import { isDeepStrictEqual } from "node:util";
import * as ReloadPlan from "../../front/run/reload_plan.mjs";
import { NO_MEMORY, changesOf, probeOf, reloadOf, reloadedLines } from "../../front/session/reloading.mjs";
import { askedBy } from "./beginning.mjs";
import { Places } from "./places.mjs";
import { requests, Refused } from "./requests.mjs";
import { EditorSession } from "./session.mjs";

const AGAIN = "a further restart begins anew";

export default requests({
  async on_restart({ arguments: given }) {
    try {
      const asked = askedBy(given ?? this.given);
      await (this.hasChanged(asked) ? this.reload(asked) : this.beginAnew(asked));
    } catch (error) {
      if (error instanceof Refused && !error.isTold) this.tell(error.message.split("\n"), "stderr");
      if (error instanceof Refused) this.tell(["the session before stands"], "stderr");
      throw error;
    }
  },

  async beginAnew(asked) {
    await this.launch(asked);
    await this.setAgain();
    this.later(() => this.stopped("entry", "begun anew"));
  },

  /** Has the program's file changed, and nothing else, in a session that goes on? */
  hasChanged({ words, text }) {
    const { session } = this;
    return session.program.ended === undefined && isDeepStrictEqual(words, session.words) && text !== session.text;
  },

  /** The steps by clauses that are still there stay; breakpoints and what is spied stay, too. */
  async reload(asked) {
    const { session } = this, probe = probeOf(session);
    await this.accepted(probe.tryOut(), probe, new Places(asked, this.first));
    const found = await reloadOf(session, probe);
    if (found === undefined) throw new Refused(NO_MEMORY);
    const next = new EditorSession(session.words, session.native, found.handed);
    next.savedInto = session.savedInto;
    await this.goOnWith(next, { ...asked, text: probe.text });
    if (ReloadPlan.isRenumbered(found.plan)) this.countProcesses();
    else this.processes.session = this.session; // they keep their numbers where the goals keep their names
    this.tellRun(changesOf(found), 0);
    const lines = reloadedLines(found);
    this.tell([...lines, AGAIN]);
    await this.breakAgain(found);
    this.later(() => this.stopped("restart", lines[0]));
  },

  /** Breakpoints are set again. One at a variable goes where that is gone, or has another name now. */
  async breakAgain({ plan, unspied }) {
    const { breakpoints } = this, isThere = ({ variable }) => ReloadPlan.nameAfter(plan, variable) === variable;
    for (const { id, variable } of breakpoints.variables.filter((point) => !isThere(point))) {
      const breakpoint = { id, verified: false, message: `${variable} is of a step that went` };
      this.event("breakpoint", { reason: "changed", breakpoint });
    }
    breakpoints.variables = breakpoints.variables.filter(isThere);
    unspied.forEach((predicate) => breakpoints.spied.delete(predicate));
    await this.setAgain();
  },
});
