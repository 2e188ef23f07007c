// A run as the program's text and `records` tell it: the goals of its steps as written, where they stand in the text, and the names
// that the text gives to variables. Each of them is computed when it is asked for, and kept: no name of a goal is given twice. Pure.
import * as Reader from "../text/reader.mjs";
import * as Printed from "../text/printed.mjs";
import * as Print from "../text/print.mjs";
import * as Replies from "../protocol/replies.mjs";
import { beginningOf } from "./named.mjs";

/** The term in which each variable stands for what `env` gives. */
function substitute(term, env) {
  return Reader.fold(term, (leaf) => (leaf.variable === undefined ? leaf : env.get(leaf.variable) ?? leaf), (name, terms) => ({ name, arguments: terms }));
}

function substituteGoal(goal, env) {
  if (goal.sort === "call") return { sort: "call", call: substitute(goal.call, env) };
  return { sort: goal.sort, left: substitute(goal.left, env), right: substitute(goal.right, env) };
}

const SETTLED = { endOf: (term) => term }; // of a goal as the console prints it, in which bindings are followed
const LONGEST = 1_048_576, SHOWN = 200; // letters of a binding that is read; letters of a longer one that are shown

class Run {
  /** The run of a program's clauses and a query, of which no step is known. `kept` tells its steps, as they are now. */
  constructor(clauses, query, kept) {
    this.clauses = clauses;
    this.kept = kept;
    this.query = Reader.readQuery(query);
    this.records = new Map(); // what each step bound, by its number
    this.bound = new Map(); // what each variable is bound to: a text, or the term once it was read
    this.binders = new Map(); // the step that bound a variable
    this.goals = new Map(); // goals as written, by name
    this.environments = new Map([[0, new Map(this.query.variables.map((name, place) => [name, { variable: `_0_${place + 1}` }]))]]);
    this.addQueryGoals();
  }

  /** The run of steps alone, whatever else is kept. */
  static ofSteps(clauses, query, steps, texts) {
    const run = new Run(clauses, query, { steps: new Map(steps.map((step) => [step.number, step])), texts, changes: 0 });
    run.learnSteps(steps);
    return run;
  }

  addQueryGoals() {
    let streams = 0;
    this.query.goals.forEach((goal, place) => {
      const made = substituteGoal(goal, this.environments.get(0));
      const isStream = Print.predicateOf(made.call) === "instream/1";
      const stream = isStream && { sort: "stream", stream: (streams += 1), tail: made.call.arguments[0] };
      this.goals.set(`0.${place + 1}`, stream || made);
    });
  }

  /** Is what `records` told last still so? Where it is not, no binding is followed and nothing new is computed. */
  get isFresh() {
    return this.learnedAt === this.kept.changes;
  }

  /** Learns the lines of the reply to `records`, as it is now. */
  learn(lines) {
    this.forget([...this.records.keys()]);
    this.learnMore(lines);
  }

  /** Learns record lines of further steps: with what was known of the others that is all of the run as it is now. */
  learnMore(lines) {
    this.learnSteps(Replies.readRecords(lines.filter((line) => !this.records.has(Replies.numberIn(line)))));
  }

  /** Learns steps as their record lines tell them. */
  learnSteps(steps) {
    this.learnedAt = this.kept.changes;
    for (const { number, binds } of steps) {
      this.records.set(number, { binds });
      for (const { variable, term } of binds) {
        this.bound.set(variable, term);
        this.binders.set(variable, number);
      }
    }
  }

  /** Forgets what was known of steps that went. */
  forget(numbers) {
    for (const number of numbers) {
      for (const { variable } of this.records.get(number)?.binds ?? []) {
        this.bound.delete(variable);
        this.binders.delete(variable);
      }
      this.records.delete(number);
    }
  }

  /** What a variable is bound to. Of a text that is too long to be read `shown` letters stand for it, or it throws. */
  termOf(variable, shown) {
    const bound = this.bound.get(variable);
    if (typeof bound !== "string") return bound;
    const { length } = bound, isLong = length > LONGEST;
    if (isLong && shown !== undefined) return beginningOf(bound, shown);
    if (isLong) throw new Error(`the value of ${variable} has ${length} letters, and is not taken apart`);
    const term = Reader.readTerm(bound);
    this.bound.set(variable, term);
    return term;
  }

  /** Where the chain of a term ends, as far as it is known. */
  endOf(term, shown) {
    return this.isFresh ? Printed.endOfChain(term, ({ variable }) => this.termOf(variable, shown)) : term;
  }

  /** The store as it is shown: of a binding that is too long to be read its first letters stand for it. */
  get shown() {
    return { endOf: (term) => this.endOf(term, SHOWN) };
  }

  /** The step that made a goal; undefined for a goal of the query, and where the step is not kept. */
  makerOf(goal) {
    return this.kept.steps.get(Printed.nameParts(goal)[0]);
  }

  /** The clause by which a step took its goal; undefined where it took none, and where the step is not kept. */
  clauseOf(number) {
    return this.clauses[this.kept.steps.get(number)?.clause - 1];
  }

  /** The goals that a step made by its clause, and its variables' names; those of the query where `number` is 0. */
  madeBy(number) {
    return number === 0 ? { goals: this.query.goals, news: this.query.variables } : this.clauseOf(number);
  }

  /** A goal as written, by its name; undefined where it is not known. */
  goalOf(name) {
    const chain = [];
    for (let at = name; at !== null && at !== undefined && !this.goals.has(at); at = this.makerOf(at)?.goal) chain.push(at);
    for (const goal of chain.reverse()) {
      const made = this.madeGoal(goal);
      if (made !== undefined) this.goals.set(goal, made);
    }
    return this.goals.get(name);
  }

  /** A goal that a step made, where the goal that the step consumed is known. */
  madeGoal(name) {
    const step = this.makerOf(name), written = this.writtenGoal(name);
    if (step === undefined || step.kind === "ask") return written;
    const consumed = this.goals.get(step.goal);
    if (consumed === undefined) return undefined;
    if (consumed.sort === "stream") return { ...consumed, tail: { variable: `_${step.number}_1` } };
    const env = this.environmentOf(step.number);
    return written === undefined || env === undefined ? undefined : substituteGoal(written, env);
  }

  /** What each variable of a head stands for in a call, as far as the two are alike; `store.endOf` follows bindings. */
  static bindingsOf(head, call, store = SETTLED) {
    const bindings = new Map(), left = [[head, call]];
    while (left.length > 0) {
      const [pattern, term] = left.pop();
      if (pattern.variable !== undefined) bindings.set(pattern.variable, term);
      if (!pattern.arguments?.length) continue;
      const end = store.endOf(term);
      if (end.name !== pattern.name || end.arguments.length !== pattern.arguments.length) continue;
      left.push(...pattern.arguments.map((argument, place) => [argument, end.arguments[place]]).reverse());
    }
    return bindings;
  }

  /** What the variables of a step's clause stand for, 0 being the query; undefined where the step takes no clause. */
  environmentOf(number) {
    if (this.environments.has(number)) return this.environments.get(number);
    const clause = this.clauseOf(number);
    const goal = this.isFresh && clause !== undefined ? this.goalOf(this.kept.steps.get(number).goal) : undefined;
    if (goal === undefined) return undefined;
    const env = Run.bindingsOf(clause.head, goal.call, this);
    clause.news.forEach((name, place) => env.set(name, { variable: `_${number}_${place + 1}` }));
    this.environments.set(number, env);
    return env;
  }

  /** The text of a goal as written; empty where it is not known. */
  textOf(name) {
    const told = name === null ? "" : this.kept.texts.get(name);
    if (told !== undefined) return told;
    const goal = this.goalOf(name);
    return goal === undefined ? "" : Print.goal(goal);
  }

  /** The predicate of a call, as `append/3`, by the text alone; undefined where the goal is no call. */
  predicateOf(name) {
    const written = name === null ? undefined : this.writtenGoal(name);
    return Print.predicateOf(written?.call);
  }

  /** The goal of the text of which a goal came: of a clause, of the query, or of an ask. */
  writtenGoal(name) {
    const [number, place] = Printed.nameParts(name), step = this.kept.steps.get(number);
    const made = step?.kind === "ask" ? Reader.readQuery(step.act.slice("ask ".length)) : this.madeBy(number);
    return made?.goals[place - 1];
  }

  /** Where a goal stands in the texts: the clause's number, or 0 for the query, and the place; undefined where it has none. */
  placeOf(name) {
    for (let at = name; at !== null && at !== undefined;) {
      const written = this.writtenGoal(at), step = this.makerOf(at);
      if (written !== undefined && step?.kind !== "ask") return { clause: step?.clause ?? 0, ...written.place };
      at = step?.goal;
    }
    return undefined;
  }

  /** What a variable of the state is in the text, a name or a `_`; undefined where it does not stand there. */
  writtenVariable(variable) {
    if (!Reader.isState(variable)) return undefined;
    const [number, place] = Printed.numbersOf(variable);
    return this.madeBy(number)?.news[place - 1];
  }

  /** The name that the text gives to a variable of the state; undefined where it has none. */
  nameOf(variable) {
    const name = this.writtenVariable(variable);
    return name !== undefined && Reader.isWritten(name) ? name : undefined;
  }

  /** Is a variable of the state a `_` of the text? */
  isUnnamed(variable) {
    const name = this.writtenVariable(variable);
    return name !== undefined && !Reader.isWritten(name);
  }

  /** A variable with its name in words, as `_16_2 (Tail1 of step 16)`. */
  labelOf(variable) {
    const name = this.nameOf(variable), [number] = Printed.numbersOf(variable);
    return name === undefined ? variable : `${variable} (${name} of ${number === 0 ? "the query" : `step ${number}`})`;
  }

  /** The variables of the state to which the text gives a name. */
  variablesNamed(name) {
    const found = (number) => {
      const place = this.madeBy(number)?.news.indexOf(name) ?? -1;
      return place < 0 ? [] : [`_${number}_${place + 1}`];
    };
    return [0, ...this.kept.steps.keys()].flatMap(found);
  }
}

export default Run;
