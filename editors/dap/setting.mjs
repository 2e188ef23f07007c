// Requests that set breakpoints. One that cannot be read, or never be met, is answered as not verified, with words.
import path from "node:path";
import * as Reader from "../../front/text/reader.mjs";
import { FILTERS } from "./breakpoints.mjs";
import { readFunction, readOptions } from "./options.mjs";
import { requests, Refused } from "./requests.mjs";

const KNOWN_FILTERS = FILTERS.map(({ filter }) => filter);
const NO_CONDITION = "no condition is read here: a run stops where the variable is bound";

/**
 * What becomes of an editor's list of breakpoints: what is answered to each, and the points at which runs stop. `make`
 * gives of one its points and what else is answered, or refuses it. `numbers` are those that they had, where they were
 * set before.
 */
async function madeOf(adapter, list, numbers, make) {
  const answered = [], points = [];
  for (const [place, given] of [...list ?? []].entries()) {
    const id = numbers[place] ?? (adapter.breakpoints.last += 1);
    try {
      const { stops, ...shown } = await make(given);
      stops.forEach((stop) => points.push({ id, hits: 0, ...stop }));
      answered.push({ id, verified: true, ...shown });
    } catch (error) {
      if (!(error instanceof Refused)) throw error;
      answered.push({ id, verified: false, message: error.message });
    }
  }
  return { answered, points };
}

export default requests({
  clauseAt(line) {
    return this.session.clauses.find((clause) => clause.line <= line && line <= clause.endLine);
  },

  on_breakpointLocations({ line, endLine = line }) {
    const [from, to] = [line, endLine].map((number) => this.places.meant(number));
    const found = this.session.clauses.filter((clause) => clause.line <= to && clause.endLine >= from);
    return { breakpoints: found.map((clause) => ({ line: this.places.shown(clause.line) })) };
  },

  /** Sets breakpoints at clauses and predicates again, for the program as it is now, and tells what became of each. */
  async setAgain() {
    for (const [how, { given, answered }] of this.breakpoints.asked) {
      const { breakpoints } = await this[how](given, answered.map(({ id }) => id));
      for (const breakpoint of breakpoints) this.event("breakpoint", { reason: "changed", breakpoint });
    }
  },

  async on_setBreakpoints(request, numbers = []) {
    const { source } = request, isOurs = source.path !== undefined && path.resolve(source.path) === this.places.file;
    const { answered, points } = await madeOf(this, request.breakpoints, numbers, (given) => {
      const clause = isOurs ? this.clauseAt(this.places.meant(given.line)) : undefined;
      if (clause === undefined) throw new Refused("no clause stands here");
      const { predicate, number } = clause, query = this.session.variables;
      const options = readOptions(given, { predicate, clause, query });
      const fits = options.pattern === undefined ? "" : ` and that fits ${String(given.condition).trim()}`;
      const message = `stops before a goal to which clause ${number} says yes${fits}`;
      const stops = [{ kind: "clause", predicate, clause: number, ...options }];
      return { stops, line: this.places.shown(clause.line), source: this.places.source(), message };
    });
    return isOurs ? this.goOnWithPoints("on_setBreakpoints", request, answered, { clauses: points }) : { breakpoints: answered };
  },

  async on_setFunctionBreakpoints(request, numbers = []) {
    const make = (given) => ({ stops: this.stopsAt(given) });
    const { answered, points } = await madeOf(this, request.breakpoints, numbers, make);
    return this.goOnWithPoints("on_setFunctionBreakpoints", request, answered, { predicates: points });
  },

  /** From now on breakpoints set by a request count, which is kept, so that it can be made again. */
  async goOnWithPoints(how, given, answered, points) {
    Object.assign(this.breakpoints, points).asked.set(how, { given, answered });
    await this.breakpoints.spy(this.session);
    return { breakpoints: answered };
  },

  /** Where a function breakpoint stops: at its predicates, or at those of which its condition is a pattern. */
  stopsAt(given) {
    const stops = [], { variables: query, predicates } = this.session;
    let why;
    for (const { predicate, pattern: named } of readFunction(given.name, predicates)) {
      try {
        stops.push({ kind: "predicate", predicate, named, ...readOptions(given, { predicate, query }) });
      } catch (error) {
        if (!(error instanceof Refused)) throw error;
        why ??= error;
      }
    }
    if (stops.length === 0) throw why;
    return stops;
  },

  /** A filter may come by its name alone, or as an option with a condition, which is not read. */
  async on_setExceptionBreakpoints({ filters = [], filterOptions = [] }) {
    const given = [...filters.map((filterId) => ({ filterId })), ...filterOptions];
    const { answered, points } = await madeOf(this, given, [], ({ filterId, condition }) => {
      if (!KNOWN_FILTERS.includes(filterId)) throw new Refused(`no such filter; there are: ${KNOWN_FILTERS.join(", ")}`);
      if (condition) throw new Refused("no condition is read here: a run stops at each such goal");
      return { stops: [{ filter: filterId }] };
    });
    this.breakpoints.filters = new Set(points.map(({ filter }) => filter));
    return { breakpoints: answered };
  },

  async on_dataBreakpointInfo({ name, variablesReference, frameId }) {
    const named = await this.inside.termNamed(name, variablesReference ?? frameId);
    const { variable } = named ?? await this.termShown(name, variablesReference) ?? {};
    if (variable === undefined) return { dataId: null, description: `${name} is no variable of the run` };
    const description = `${variable}: forwards, where it is bound; backwards, before the step that bound it`;
    return { dataId: variable, description, accessTypes: ["write"], canPersist: false };
  },

  async on_setDataBreakpoints({ breakpoints }) {
    const { answered, points } = await madeOf(this, breakpoints, [], async ({ dataId, condition, hitCondition }) => {
      if (!await this.isVariable(dataId)) throw new Refused(`${dataId} is no variable of the run; one is named as _1_2`);
      if (condition || hitCondition) throw new Refused(NO_CONDITION);
      return { stops: [{ variable: dataId }] };
    });
    this.breakpoints.variables = points;
    return { breakpoints: answered };
  },

  /** Is a text the name of a variable that the run has now? */
  async isVariable(name) {
    return Reader.isState(name) && !(await this.session.ask(`show ${name}`))[0].startsWith("F23 ");
  },
});
