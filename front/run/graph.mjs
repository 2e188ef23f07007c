// The graph of a run's steps, as the console's records tell them: who made, read, woke and named what. Pure functions.
import * as Replies from "../protocol/replies.mjs";
import * as Printed from "../text/printed.mjs";

const { numbersOf, nameParts } = Printed, { readRecord } = Replies;

const KINDS = ["reduce", "unify", "assign", "input", "close", "ask"];
const MOST_WITH_IMPLIED = 3000; // steps; of a longer run it is not looked for which edges others imply
const MOST_KEPT = 20000; // steps and lists of causes that are kept after they were read
const NONE = -1; // no index
const MADE = 0, READ = 1, NAMED = 2, WAYS = 3, WOKE = 4; // how a step depends on another one
const WORDS = ["made", "read", "named"];

/** A list of numbers that grows at its end. */
class Numbers {
  constructor(Kind) {
    this.all = new Kind(1024);
    this.length = 0;
  }

  push(value) {
    if (this.length === this.all.length) {
      const larger = new this.all.constructor(this.length * 2);
      larger.set(this.all);
      this.all = larger;
    }
    this.all[this.length] = value;
    this.length += 1;
  }

  at(index) {
    return this.all[index];
  }
}

/** A few things by their indexes, which are forgotten when they are too many. */
class Known extends Map {
  /** The thing of an index, which is made where it is not known. */
  of(index, make) {
    if (this.has(index)) return this.get(index);
    if (this.size >= MOST_KEPT) this.clear();
    this.set(index, make());
    return this.get(index);
  }
}

const PLACES = 0x100000; // places that a key which is a number can tell

/** A goal's name as a key: a number where its place allows that. */
const keyOfGoal = (maker, place) => (place < PLACES ? maker * PLACES + place : `${maker}.${place}`);

/** A variable as a key: a number where its place allows that. Another term is its own key. */
function keyOfVariable(variable) {
  if (!variable.startsWith("_")) return variable;
  const bar = variable.indexOf("_", 1), place = Number(variable.slice(bar + 1));
  return place < PLACES ? Number(variable.slice(1, bar)) * PLACES + place : variable;
}

/**
 * The graph of a run of any length. A step comes at the end (`push`) or goes from there (`pop`), and both cost what that step alone
 * costs. Steps go by their index in the record, or by their number. A step is kept as its line, and read where it is asked for. On what
 * it depends is found in the record: of a long one that takes half the time in which the console tells `causes` and they are read.
 */
class RunGraph {
  constructor() {
    this.told = []; // for each step its line, or the step as it was given
    this.indexes = new Map(); // by number
    this.binders = new Map(); // by variable
    this.queryConsumers = new Map(); // by place in the query
    this.kinds = new Numbers(Uint8Array);
    this.numbers = new Numbers(Float64Array); // of the step
    this.makers = new Numbers(Float64Array); // of what made its goal
    this.clauses = new Numbers(Int32Array);
    this.places = new Numbers(Int32Array);
    this.depths = new Numbers(Int32Array);
    this.deepest = new Numbers(Int32Array);
    this.firstMade = new Numbers(Int32Array);
    this.firstCause = new Numbers(Int32Array);
    this.lastEffect = new Numbers(Int32Array);
    this.consumers = new Numbers(Int32Array); // for each goal that was made: the index of the step that consumed it
    this.from = new Numbers(Int32Array); // for each edge, as the next three
    this.to = new Numbers(Int32Array);
    this.effectBefore = new Numbers(Int32Array);
    this.hows = new Numbers(Uint8Array); // made, read or named, and whether it woke
    this.knownSteps = new Known();
    this.knownCauses = new Known();
    this.changed();
    const has = (number) => this.indexOf(number) !== NONE;
    const accessor = (of) => ({ get: (number) => (has(number) ? of(this.indexOf(number)) : undefined), has });
    this.byNumber = accessor((index) => this.stepAt(index));
    this.causes = accessor((index) => this.causesAt(index));
    this.effects = accessor((index) => this.effectsAt(index));
    this.depth = accessor((index) => this.depths.at(index));
    this.store = { has: (variable) => this.binderOf(variable) !== undefined, get: (variable) => this.termOf(variable) };
  }

  get count() {
    return this.told.length;
  }

  /** The longest chain of causes, in steps. */
  get deepestChain() {
    return this.count === 0 ? 0 : this.deepest.at(this.count - 1) + 1;
  }

  indexOf(number) {
    return this.indexes.get(number) ?? NONE;
  }

  /** The step at a place; undefined where there is none. */
  stepAt(index) {
    const told = this.told[index];
    return typeof told === "string" ? this.knownSteps.of(index, () => readRecord(told)) : told;
  }

  /** All steps. It reads each of them: for a run that is not long. */
  get steps() {
    this.listed = this.listed || this.told.map((told, index) => this.stepAt(index));
    return this.listed;
  }

  /** All direct dependences, each an edge from the cause to the step that depends on it. For a run that is not long. */
  get edges() {
    if (!this.areImplied && this.count <= MOST_WITH_IMPLIED) markImplied(this);
    this.areImplied = true;
    return this.steps.flatMap((step, index) => this.causesAt(index));
  }

  /** The number of the step that bound a variable. */
  binderOf(variable) {
    return this.binders.get(keyOfVariable(variable));
  }

  /** What a variable was bound to. */
  termOf(variable) {
    const number = this.binderOf(variable);
    return number === undefined ? undefined : this.byNumber.get(number).binds.find((binding) => binding.variable === variable).term;
  }

  /** The place of the step that consumed a goal: NONE if none did; undefined if the goal was not made by a kept step or the query. */
  consumerOf(goal) {
    const [maker, place] = nameParts(goal);
    return this.consumerAt(maker, place);
  }

  consumerAt(maker, place) {
    if (maker === 0) return this.queryConsumers.get(place) ?? NONE;
    const at = this.madeAt(maker, place);
    return at === NONE ? undefined : this.consumers.at(at);
  }

  /** Where a goal stands among all that were made. */
  madeAt(maker, place) {
    const index = this.indexOf(maker);
    if (index === NONE) return NONE;
    const at = this.firstMade.at(index) + place - 1;
    return at < this.madeEnd(index) ? at : NONE;
  }

  madeEnd(index) {
    return index + 1 < this.count ? this.firstMade.at(index + 1) : this.consumers.length;
  }

  /** Adds to a list the places of the steps that took the goals which a step made; NONE where no step did. */
  addTakers(index, list) {
    for (let made = this.firstMade.at(index); made < this.madeEnd(index); made++) list.push(this.consumers.at(made));
  }

  causeEnd(index) {
    return index + 1 < this.count ? this.firstCause.at(index + 1) : this.from.length;
  }

  setConsumer(step, index) {
    if (step.goal === null) return;
    const [maker, place] = nameParts(step.goal), at = this.madeAt(maker, place);
    if (at !== NONE) this.consumers.all[at] = index;
    if (maker === 0 && index === NONE) this.queryConsumers.delete(place);
    else if (maker === 0) this.queryConsumers.set(place, index);
  }

  /** On what a step depends, found in the record: who made its goal, who bound what it read, who made what it names, in recorded order. */
  findCauses(step) {
    const causes = [];
    if (step.goal !== null) this.addCause(causes, nameParts(step.goal)[0], MADE);
    for (const variable of step.reads) this.addCause(causes, this.binderOf(variable), READ);
    for (const variable of step.names) this.addCause(causes, numbersOf(variable)[0], NAMED);
    return markWoke(step, inOrder(causes));
  }

  /** Adds that a step depends on another one; of several ways the first counts: made, then read, then named. */
  addCause(causes, from, how) {
    const index = this.indexOf(from);
    if (index !== NONE && causes.every((cause) => cause.index !== index)) causes.push({ index, how });
  }

  /** On what a step depends, as another graph knows it, of what is here. */
  toldCauses(ways) {
    return ways.map(({ from, how }) => ({ index: this.indexOf(from), how })).filter(({ index }) => index !== NONE);
  }

  /** The variables by which a step depends on another one: those that it read and that one bound, and those that it names and that one made. */
  variablesBetween(step, from) {
    return [...step.reads.filter((variable) => this.binderOf(variable) === from), ...step.names.filter((variable) => numbersOf(variable)[0] === from)];
  }

  causesAt(index) {
    return this.knownCauses.of(index, () => {
      const step = this.stepAt(index), to = step.number;
      return this.waysAt(index).map(({ from, how }) => {
        const kind = WORDS[how & WAYS], variables = this.variablesBetween(step, from);
        return { from, to, kind, variables, woke: (how & WOKE) !== 0, implied: false };
      });
    });
  }

  effectsAt(index) {
    const effects = [], number = this.numbers.at(index);
    for (let edge = this.lastEffect.at(index); edge !== NONE; edge = this.effectBefore.at(edge)) {
      effects.push(this.causesAt(this.to.at(edge)).find((cause) => cause.from === number));
    }
    return effects.reverse();
  }

  /** Puts a step, or the line that tells it, at the end. `causes` are the ways that another graph knows. */
  push(told, causes = null) {
    const step = typeof told === "string" ? readRecord(told) : told;
    if (step === null) return;
    const index = this.count, edges = causes === null ? this.findCauses(step) : this.toldCauses(causes), [maker, place] = step.goal === null ? [NONE, NONE] : nameParts(step.goal);
    let depth = 0;
    for (const edge of edges) depth = Math.max(depth, this.depths.at(edge.index) + 1);
    this.numbers.push(step.number);
    this.kinds.push(KINDS.indexOf(step.kind));
    this.clauses.push(step.clause || 0);
    this.makers.push(maker);
    this.places.push(place);
    this.depths.push(depth);
    this.deepest.push(Math.max(depth, index > 0 ? this.deepest.at(index - 1) : 0));
    this.firstMade.push(this.consumers.length);
    this.firstCause.push(this.from.length);
    this.lastEffect.push(NONE);
    for (const edge of edges) this.addEdge(edge.index, index, edge.how);
    this.told.push(told);
    this.indexes.set(step.number, index);
    this.setConsumer(step, index);
    for (let made = 0; made < step.makes.length; made++) this.consumers.push(NONE);
    for (const binding of step.binds) this.binders.set(keyOfVariable(binding.variable), step.number);
    this.changed();
  }

  addEdge(from, to, how) {
    this.effectBefore.push(this.lastEffect.at(from));
    this.lastEffect.all[from] = this.from.length;
    this.from.push(from);
    this.to.push(to);
    this.hows.push(how);
  }

  /** The numbers of a step's causes, each with how it depends on that. */
  waysAt(index) {
    const ways = [];
    for (let edge = this.firstCause.at(index); edge < this.causeEnd(index); edge++) {
      ways.push({ from: this.numbers.at(this.from.at(edge)), how: this.hows.at(edge) });
    }
    return ways;
  }

  /** Takes the last step away. No step that stays depends on it. */
  pop() {
    const index = this.count - 1, step = this.stepAt(index), edges = this.firstCause.at(index);
    for (let edge = this.from.length - 1; edge >= edges; edge--) this.lastEffect.all[this.from.at(edge)] = this.effectBefore.at(edge);
    for (const binding of step.binds) this.binders.delete(keyOfVariable(binding.variable));
    this.setConsumer(step, NONE);
    this.indexes.delete(step.number);
    this.knownSteps.delete(index);
    this.knownCauses.delete(index);
    this.consumers.length = this.firstMade.at(index);
    const perStep = [this.numbers, this.kinds, this.clauses, this.makers, this.places, this.depths, this.deepest];
    for (const list of [this.told, ...perStep, this.firstMade, this.firstCause, this.lastEffect]) list.length = index;
    for (const list of [this.from, this.to, this.effectBefore, this.hows]) list.length = edges;
    this.changed();
  }

  changed() {
    this.listed = null;
    this.areImplied = false;
  }
}

const inOrder = (causes) => (causes.length > 1 ? causes.sort((one, other) => one.index - other.index) : causes);

/**
 * Marks the cause that a waiting goal waited for last, as docs/LANGUAGE.md says under `woke`: the last one, where the step read it, and
 * its goal was made before that. The causes stand in recorded order.
 */
function markWoke(step, causes) {
  const last = causes[causes.length - 1];
  if ((step.kind === "reduce" || step.kind === "assign") && last !== undefined && last.how === READ) last.how |= WOKE;
  return causes;
}

/** Marks each edge that a longer chain of causes implies: the picture draws these faintly. */
function markImplied(graph) {
  const words = (graph.count >> 5) + 1, before = [];
  for (let index = 0; index < graph.count; index++) {
    const all = new Uint32Array(words), edges = graph.causesAt(index), at = (edge) => graph.indexOf(edge.from);
    for (const edge of edges) before[at(edge)].forEach((word, part) => { all[part] |= word; });
    for (const edge of edges) edge.implied = ((all[at(edge) >> 5] >>> (at(edge) & 31)) & 1) === 1;
    for (const edge of edges) all[at(edge) >> 5] |= 1 << (at(edge) & 31);
    before.push(all);
  }
}

/** The graph of steps in recorded order, or of the lines that tell them. */
function graphOf(steps) {
  const graph = new RunGraph();
  for (const step of steps) graph.push(step);
  return graph;
}

/** The graph of some steps of another graph alone, from one index up to another: all, or those that are wanted. */
function partOf(whole, from, to, isWanted = (index) => true) {
  const graph = new RunGraph();
  for (let index = from; index < Math.min(to, whole.count); index++) {
    if (isWanted(index)) graph.push(whole.stepAt(index), whole.waysAt(index));
  }
  return graph;
}

/**
 * For each step by its index, 1 where it is a step, or that step depends on it by however many edges; and how many there are. Each edge
 * leads to a later step, so that one look at each step is enough, from that step on to the first.
 */
function causesReached(graph, index) {
  const isIn = new Uint8Array(graph.count), from = graph.from.all, first = graph.firstCause.all;
  let count = 0;
  isIn[index] = 1;
  for (let at = index, end = graph.causeEnd(index); at >= 0; at--) {
    if (isIn[at] === 1) {
      count += 1;
      for (let edge = first[at]; edge < end; edge++) isIn[from[edge]] = 1;
    }
    end = first[at];
  }
  return { isIn, count };
}

/** The same of some steps and all that depend on them: `isFirst` tells of an index from `first` on whether it is one of them. */
function dependents(graph, isFirst, first = 0) {
  const isIn = new Uint8Array(graph.count), from = graph.from.all;
  let count = 0;
  for (let at = first, edge = graph.firstCause.at(first); at < graph.count; at++) {
    const end = graph.causeEnd(at);
    let is = isFirst(at);
    for (; edge < end && !is; edge++) is = isIn[from[edge]] === 1;
    if (is) {
      isIn[at] = 1;
      count += 1;
    }
    edge = end;
  }
  return { isIn, count };
}

/** The same of a step and all that depends on it, from that step on. */
const effectsReached = (graph, index) => dependents(graph, (at) => at === index, index);

/** Another lawful order: each process goes on as far as it can. `laneOf` gives the lane of a step's number. */
function tidyOrder(graph, laneOf) {
  const missing = graph.steps.map((step, index) => graph.causeEnd(index) - graph.firstCause.at(index)), order = [];
  const free = missing.flatMap((count, index) => (count === 0 ? [index] : [])); // by their places in the record
  let lane = null;
  const add = (index) => {
    missing[index] -= 1;
    if (missing[index] === 0) free.splice(free.findIndex((other) => other > index) >>> 0, 0, index);
  };
  while (free.length > 0) {
    const same = free.findIndex((index) => laneOf(graph.numbers.at(index)) === lane), [index] = free.splice(Math.max(0, same), 1);
    order.push(graph.numbers.at(index));
    lane = laneOf(graph.numbers.at(index));
    for (let edge = graph.lastEffect.at(index); edge !== NONE; edge = graph.effectBefore.at(edge)) add(graph.to.at(edge));
  }
  return order;
}

export { graphOf, partOf, tidyOrder, RunGraph, causesReached, dependents, effectsReached, keyOfGoal, NONE };
