// What an editor shows of a stop: the frames of a process, their scopes, and the variables in them. Terms unfold as they are opened.
import * as Print from "../../front/text/print.mjs";
import * as Reader from "../../front/text/reader.mjs";
import * as Replies from "../../front/protocol/replies.mjs";
import { holdersIn, waitsOf } from "../../front/run/waits.mjs";

const LONGEST = 1000; // letters of a value
const MOST_ELEMENTS = 10_000; // of a list that are counted and shown; the rest unfolds by itself

const flat = (name, value) => ({ name, value, variablesReference: 0 });

// For terms in which every binding was followed by the console.
const SETTLED = { endOf: (term) => term };

/** A goal of the reply to `goals`; undefined where the text is nested too deeply to be read. */
function goalOf({ status, text }) {
  if (status !== "stream") return Reader.goalIn(text);
  const tail = Reader.termIn(/^instream \d+ (.*)$/.exec(text)[1]);
  return tail && { sort: "stream", tail };
}

/** The lines that begin with a step's number: it and what stands after it. */
const stepsIn = (lines) => lines.map(Replies.namedIn).filter((found) => found?.before === "");

const isCell = ({ name, arguments: terms }) => name === "." && terms.length === 2;

/** The elements of a list as far as it is known, and what comes after them: undefined where the list ends there. */
function elementsOf(list, store) {
  const elements = [];
  let rest = list;
  while (isCell(rest) && elements.length < MOST_ELEMENTS) {
    elements.push(rest.arguments[0]);
    rest = store.endOf(rest.arguments[1]);
  }
  return { elements, rest: rest.name === "[]" ? undefined : rest };
}

/** How many parts a term has, told of lists alone, so that an editor can ask for a page of a long one. */
function countsOf(term, store) {
  if (!isCell(term)) return undefined;
  const { elements, rest } = elementsOf(term, store);
  return { indexedVariables: elements.length, namedVariables: rest === undefined ? 0 : 1 };
}

/** The parts of a goal, each with its name. */
function partsOf(goal) {
  if (goal.sort === "call") return goal.call.arguments.map((argument, place) => [`argument ${place + 1}`, argument]);
  return goal.sort === "stream" ? [["stream", goal.tail]] : [["left", goal.left], ["right", goal.right]];
}

class Inside {
  constructor(session) {
    this.session = session;
    this.last = 10;
    this.references = new Map(); // to what is shown of this stop, by their numbers
  }

  reference(kind, what) {
    this.last += 1;
    this.references.set(this.last, { kind, what });
    return this.last;
  }

  /**
   * A variable or a part of a term, which unfolds where it has parts. Of its list so many elements as `before` says are
   * shown elsewhere.
   * @returns {import("./types").Variable}
   */
  variable(name, term, store = this.session.run.shown, before = 0) {
    const end = store.endOf(term), unfolds = end.arguments?.length > 0 && !Print.isOperation(end);
    const value = Print.term(end, { store, most: LONGEST });
    const variablesReference = unfolds ? this.reference("term", { term: end, store, before }) : 0;
    const shown = { name, value, variablesReference, ...(unfolds && countsOf(end, store)) };
    if (term.variable === undefined) return shown;
    return { ...shown, evaluateName: term.variable, type: this.session.run.labelOf(term.variable) };
  }

  /** The scopes of a frame; `goals` are all goals as they stand. */
  scopesOf(frame, goals) {
    const { kind, what } = this.references.get(frame);
    const scope = (name, of, more) =>
      ({ name, variablesReference: this.reference(of, what), expensive: false, ...more });
    const scopes = [];
    if (kind === "goal") scopes.push(scope("Goal", "parts", { presentationHint: "arguments" }));
    if (kind === "goal" && what.waitsFor.length > 0) scopes.push(scope("Waits for", "waits"));
    if (kind === "step") scopes.push(scope("Clause", "environment", { presentationHint: "locals" }), scope("Bound here", "binds"), scope("Because of", "why"));
    const ofGoals = scope("Goals", "goals", { indexedVariables: goals.length });
    return [...scopes, scope("Query", "query"), ofGoals, scope("Taken back", "shelf")];
  }

  /**
   * The variables in a scope or a term, from `start` to `end`. A list's elements and the goals are indexed: `filter`
   * takes these or the named ones alone. Undefined where the reference counts no more.
   * @param {number} reference
   * @param {{ filter?: string, start?: number, end?: number }} page
   */
  async variablesOf(reference, { filter, start = 0, end } = {}) {
    const found = this.references.get(reference);
    if (found === undefined) return undefined;
    const parts = await this[`in_${found.kind}`](found.what);
    const { indexed, named } = Array.isArray(parts) ? { indexed: [], named: parts } : parts;
    const wanted = { indexed, named }[filter] ?? [...indexed, ...named];
    return wanted.slice(start, end).map((part) => (typeof part === "function" ? part() : part));
  }

  /** The parts of a term, each made when it is shown. */
  in_term({ term, store, before }) {
    if (!isCell(term)) return term.arguments.map((part, place) => () => this.variable(String(place + 1), part, store));
    const { elements, rest } = elementsOf(term, store), shown = before + elements.length;
    const name = rest !== undefined && isCell(rest) ? `| after ${shown}` : "| tail";
    return {
      indexed: elements.map((element, place) => () => this.variable(String(before + place + 1), element, store)),
      named: rest === undefined ? [] : [() => this.variable(name, rest, store, shown)],
    };
  }

  in_parts(shown) {
    const goal = goalOf(shown);
    return goal === undefined ? [flat("goal", shown.text.slice(0, LONGEST))] : partsOf(goal).map(([part, term]) => this.variable(part, term, SETTLED));
  }

  async in_waits(goal) {
    const waits = await waitsOf(this.session, [goal]);
    return waits.map((wait) => flat(this.session.run.labelOf(wait.variable), holdersIn(this.session, wait)));
  }

  /** What the variables of a step's clause stand for. */
  async in_environment(number) {
    const env = (await this.session.look()).environmentOf(number) ?? new Map();
    return [...env].filter(([name]) => Reader.isWritten(name)).map(([name, term]) => this.variable(name, term));
  }

  async in_binds(number) {
    const run = await this.session.look();
    return (run.records.get(number)?.binds ?? []).map(({ variable }) => this.variable(run.labelOf(variable), { variable }));
  }

  async in_why(number) {
    const run = await this.session.look();
    const textOf = (cause) => run.textOf(this.session.kept.steps.get(cause).goal);
    const causes = stepsIn(await this.session.ask(`why ${number}`));
    return causes.map(({ step, after }) => flat(`step ${step}`, `${textOf(step)}  ${after}`));
  }

  /** The query's variables, of which the console tells the values: so not all records need be read. */
  async in_query() {
    const shown = [];
    for (const [name, { variable }] of this.session.run.environmentOf(0)) {
      if (!Reader.isWritten(name)) continue;
      const [line] = await this.session.ask(`show ${name}`), isTold = line.startsWith(`${name} = `);
      const text = line.slice(isTold ? `${name} = `.length : 0), term = isTold ? Reader.termIn(text) : undefined;
      if (!isTold) await this.session.look();
      const found = !isTold ? this.variable(name, { variable }) : term === undefined ? flat(name, text.slice(0, LONGEST)) : this.variable(name, term, SETTLED);
      shown.push({ ...found, evaluateName: variable, type: this.session.run.labelOf(variable) });
    }
    return shown;
  }

  async in_goals() {
    const statusOf = ({ status, waitsFor, refusal }) => [status, waitsFor.join(","), refusal].filter(Boolean).join(" ");
    const shown = (goal) => flat(goal.name, `${statusOf(goal)}   ${goal.text.slice(0, LONGEST)}`);
    return { indexed: (await this.session.goals()).map((goal) => () => shown(goal)), named: [] };
  }

  async in_shelf() {
    return stepsIn(await this.session.ask("shelf")).map(({ step, after }) => flat(`step ${step}`, after.trimStart()));
  }

  /** The term for which a name stands in a frame: of its clause, of the query, or `_n_m`; undefined where it is none. */
  async termNamed(name, frame) {
    const label = /^(_\d+_\d+)( \(|$)/.exec(name);
    if (label !== null) return { variable: label[1] };
    const { kind, what } = this.references.get(frame) ?? {}, run = await this.session.look();
    const number = kind === "goal" ? run.makerOf(what.name)?.number : ["step", "environment"].includes(kind) ? what : undefined;
    return run.environmentOf(number ?? 0)?.get(name) ?? run.environmentOf(0).get(name);
  }
}

export { Inside };
