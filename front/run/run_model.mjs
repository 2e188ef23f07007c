// What is known of a run: its graph, lanes, goals and the rest, which follow what the console tells. A long run is read in small parts. Pure.
import * as Graph from "./graph.mjs";
import { NO_WAITS } from "./arcs.mjs";
import * as Lanes from "./lanes.mjs";
import * as Replies from "../protocol/replies.mjs";
import * as Clauses from "../text/clauses.mjs";

const PART = 64, MANY = 4096; // lines that are read, and steps that are looked at, between two places where the reader may pause

class RunModel {
  constructor(program, query = "") {
    this.given = { program, query };
    this.graph = new Graph.RunGraph();
    this.lanes = new Lanes.RunLanes();
    this.goals = [];
    this.goalsRefused = ""; // why the console did not tell them
    this.why = []; // where nothing goes on: what is not bound, with what `whynot` tells of it
    this.whyFailed = []; // why the first goal that failed did, as lines: for each clause, say
    this.waits = NO_WAITS; // who waits for whom, as far as it was asked
    this.shelf = [];
    this.texts = new Map();
    this.clauses = Clauses.clausesOf(program);
    this.isWhole = true; // not while a change is read
    this.version = 0; // grows with each change
  }

  /**
   * Follows what the worker tells. Steps have gone (`gone`, their numbers); or the first `kept` steps stay, all later
   * ones go, and those of `lines` come. Beside it stand the lines of `goals` and `shelf`, one after another, and texts.
   * It yields each time that it may pause; `isWhole` is false until it has ended.
   */
  *change(look, lines) {
    this.version += 1;
    this.isWhole = false;
    if (look.gone !== null) yield* this.takeAway(look.gone);
    else {
      yield* this.cut(look.kept);
      yield* this.add(lines);
    }
    this.goals = yield* this.inParts(look.goals, Replies.readGoals);
    yield* Lanes.gatherNames(this.goals);
    this.goalsRefused = look.goalsRefused;
    yield* this.lanes.follow(this);
    for (const [name, text] of look.texts) this.texts.set(name, text);
    this.shelf = yield* this.inParts(look.shelf, Replies.readShelf);
    yield* Lanes.gatherTaken(this.shelf, this.goals);
    this.version += 1;
    this.isWhole = true;
  }

  /** What lines tell, read one by one. */
  *inParts(lines, read) {
    const all = [];
    for (const line of lines) {
      all.push(...read([line]));
      if (all.length % PART === 0) yield this.graph.count;
    }
    return all;
  }

  /** Takes away all steps after the first ones. */
  *cut(kept) {
    const { graph, lanes } = this;
    yield* lanes.cut(graph, kept);
    while (graph.count > kept) {
      graph.pop();
      if (graph.count % PART === 0) yield graph.count;
    }
  }

  *add(lines) {
    const { graph } = this;
    for (const line of lines) {
      graph.push(line);
      if (graph.count % PART === 0) yield graph.count;
    }
  }

  /** Takes steps away, on which no step that stays depends: all from the first of them on go, and those that stay come again. */
  *takeAway(numbers) {
    const { graph } = this, gone = new Set(numbers), lines = [];
    let first = graph.count;
    for (let left = gone.size; left > 0 && first > 0; first--) if (gone.has(graph.numbers.at(first - 1))) left -= 1;
    for (let index = first; index < graph.count; index++) {
      if (index % MANY === 0) yield index;
      if (!gone.has(graph.numbers.at(index))) lines.push(graph.told[index]);
    }
    yield* this.cut(first);
    yield* this.add(lines);
  }
}

export default RunModel;
