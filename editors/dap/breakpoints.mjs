// Where a run stops: at a clause, at a predicate, where a variable is bound, and where goals fail or wait. The console stops a run at a
// predicate alone (`spy`); the rest is found out at each such stop.
import { fits } from "../../front/run/patterns.mjs";

// The filters of exceptions that an editor may set. Without one the stop is a pause: the run has ended in any case.
const FILTERS = [
  { filter: "failed", label: "A goal has failed", default: true },
  { filter: "stuck", label: "Goals wait, and none is ready", default: true },
];

class Breakpoints {
  constructor() {
    this.last = 0; // the number of the last breakpoint
    this.asked = new Map(); // the editor's last request of each kind, by the method that sets its breakpoints
    this.clauses = [];
    this.predicates = [];
    this.variables = [];
    this.spied = new Set();
    this.filters = new Set(FILTERS.map(({ filter }) => filter));
  }

  /** The reason that an editor is told for a stop that one of the filters is about. */
  reasonOf(filter) {
    return this.filters.has(filter) ? "exception" : "pause";
  }

  /** Makes the console spy just the predicates at which a run may have to stop. */
  async spy(session) {
    const wanted = new Set([...this.clauses, ...this.predicates].map(({ predicate }) => predicate));
    for (const predicate of wanted) if (!this.spied.has(predicate)) await session.ask(`spy ${predicate}`);
    for (const predicate of this.spied) if (!wanted.has(predicate)) await session.ask(`nospy ${predicate}`);
    this.spied = wanted;
  }

  /** The breakpoints at the predicate of a goal: of those at clauses the ones of whose clause `isTaken` says so. */
  at(name, run, isTaken) {
    const predicate = run.predicateOf(name), all = [...this.clauses, ...this.predicates];
    return all.filter(({ predicate: its, clause }) => its === predicate && (clause === undefined || isTaken(clause)));
  }

  /**
   * The breakpoint that stops before a spied goal; undefined where each lets it pass. A clause's stops where that clause says yes. `log`
   * is called with the message of a breakpoint that only tells something.
   */
  async met(session, name, log) {
    const run = await session.look(), saysYes = new Set(await session.clausesSayingYes(name));
    for (const point of this.at(name, run, (clause) => saysYes.has(clause))) {
      if (!fitsGoal(point, name, run)) continue;
      point.hits += 1;
      if (point.hits < point.least) continue;
      if (point.messageOf === undefined) return point;
      log(point.messageOf(run, name));
    }
    return undefined;
  }

  /** The breakpoint before which a kept step lies, for a run backwards. A clause's stops where the step took that clause. */
  before(step, run) {
    const points = this.at(step.goal, run, (clause) => clause === step.clause);
    return points.find((point) => point.messageOf === undefined && fitsGoal(point, step.goal, run));
  }
}

/** Does a goal fit the patterns of a breakpoint: of its condition, and of a function breakpoint's name? */
function fitsGoal({ pattern, named }, name, run) {
  const patterns = [pattern, named].filter(Boolean), call = run.goalOf(name)?.call;
  return patterns.length === 0 || (call !== undefined && patterns.every((one) => fits(one, call, run)));
}

export { Breakpoints, FILTERS };
