// Puts a run into lanes, one for each process and each ask, and gives every step and goal its place. Pure functions.
import * as Graph from "./graph.mjs";
import * as Terms from "./terms.mjs";
import * as Printed from "../text/printed.mjs";
import { NO_WAITS } from "./arcs.mjs";

const between = (least, value, most) => Math.max(least, Math.min(value, most));
const MOST_CLEAR_ROWS = 5;
const PART = 64, MANY = 1024; // what is put in, and what is taken away, between two places where one may pause
const MOST_ARC_COLUMNS = 6; // columns of arcs for which room is kept
const NARROW = 600; // the room below which names are short, and stand above their lanes where the picture is not made to fit
const LEAST_LEFT = 22; // points beside the first step where names stand above
const BOLD_LETTER = 0.62, LETTER = 0.56; // the width of a letter, as a part of the font's size

const SORTS = ["call", "unification", "assignment", "stream", "stream"]; // of the goal of a step, by the step's kind

const finish = (parts) => { while (!parts.next().done); };

const keyOfName = (name) => Graph.keyOfGoal(...Printed.nameParts(name));

const named = new WeakMap();

/** Finds goals by their names, once for each list of goals; yields now and then. */
function* gatherNames(goals) {
  const byKey = new Map();
  for (const [at, goal] of goals.entries()) {
    if (at % PART === 0) yield at;
    byKey.set(keyOfName(goal.name), goal);
  }
  named.set(goals, byKey);
}

/** Goals by the keys of their names. */
function goalsByKey(goals) {
  if (!named.has(goals)) finish(gatherNames(goals));
  return named.get(goals);
}

/** What each goal of a run is, by its name: `call` (with its predicate), `unification`, `assignment` or `stream`. */
class GoalKinds {
  constructor(run) {
    this.run = run;
    this.there = new Map();
  }

  /** The kind of a goal that is there, by its key. */
  ofThere(key) {
    const goal = goalsByKey(this.run.goals).get(key);
    if (goal === undefined) return undefined;
    if (!this.there.has(key)) this.there.set(key, { sort: goal.sort, predicate: goal.sort === "call" ? Printed.predicateOf(goal.text) : null });
    return this.there.get(key);
  }

  /** The kind of the goal that a step consumed. */
  ofConsumer(index) {
    const { graph, clauses } = this.run, kind = graph.kinds.at(index);
    return { sort: SORTS[kind], predicate: kind === 0 ? clauses[graph.clauses.at(index) - 1]?.predicate ?? "?" : null };
  }

  at(maker, place) {
    const index = this.run.graph.consumerAt(maker, place);
    return index === undefined || index === Graph.NONE ? this.ofThere(Graph.keyOfGoal(maker, place)) : this.ofConsumer(index);
  }

  get(name) {
    return name === null ? undefined : this.at(...Printed.nameParts(name));
  }
}

const isSmall = (kind) => kind !== undefined && (kind.sort === "unification" || kind.sort === "assignment");

/** What a step's lane is found by: its goal, or the number of an ask, which has none. */
const keyOf = (step) => (step.goal === null ? String(step.number) : step.goal);

/** Lanes in their order, among which others are put; `before` of the ring itself is its end. */
class Ring {
  constructor() {
    /** @type {any} a lane, or the ring itself */
    this.next = this;
    this.previous = this;
  }

  put(lane, before) {
    lane.next = before;
    lane.previous = before.previous;
    before.previous.next = lane;
    before.previous = lane;
  }

  takeOut(lane) {
    lane.previous.next = lane.next;
    lane.next.previous = lane.previous;
  }
}

function notePredicate(lane, kind, index) {
  if (!kind?.predicate || lane.predicates.includes(kind.predicate)) return;
  lane.predicates.push(kind.predicate);
  lane.since.push(index);
}

/**
 * The lanes of a run, which grow and shrink with its graph: a step that comes or goes at the end costs what that step
 * alone costs. A lane begins with the step at `bornAt`, which made its first goal or is an ask; or at the left.
 */
class RunLanes {
  constructor() {
    this.ring = new Ring();
    this.lanes = []; // as they began
    this.ofStep = []; // by index
    this.ofMade = []; // by the places of the goals that were made
    this.ofQuery = new Map(); // by place in the query
    this.isNumbered = true; // whether each lane has its index from the top
  }

  begin(name, before, bornAt, { isMade = false, isAsked = false } = {}) {
    const lane = { name, bornAt, isMade, isAsked, count: 0, predicates: [], since: [], index: 0 };
    this.lanes.push(lane);
    this.ring.put(lane, before);
    this.isNumbered = false;
    return lane;
  }

  /** The lane of a goal that is there or was; undefined where nothing is known of it. */
  ofGoal(graph, name) {
    return this.at(graph, ...Printed.nameParts(name));
  }

  at(graph, maker, place) {
    return maker === 0 ? this.ofQuery.get(place) : this.ofMade[graph.madeAt(maker, place)];
  }

  /** Puts what a run has more of into lanes, the query's goals first of all, and numbers them; yields now and then. */
  *follow(run) {
    const { graph } = run, kinds = new GoalKinds(run);
    if (this.lanes.length === 0) this.beginQuery(queryPlaces(run));
    while (this.ofStep.length < graph.count) {
      this.add(graph, kinds);
      if (this.ofStep.length % PART === 0) yield graph.count;
    }
    yield* this.number();
  }

  /** The lanes of the query's goals, from the top. */
  beginQuery(places) {
    for (const place of places) this.ofQuery.set(place, this.begin(`0.${place}`, this.ring, -1));
  }

  /** Takes away what came with the steps from an index on; yields now and then. */
  *cut(graph, count) {
    if (this.ofStep.length > count) this.ofMade.length = Math.min(this.ofMade.length, count < graph.count ? graph.firstMade.at(count) : graph.consumers.length);
    while (this.ofStep.length > count) {
      if (this.ofStep.length % MANY === 0) yield this.ofStep.length;
      const lane = this.ofStep.pop();
      lane.count -= 1;
      while (lane.since.at(-1) >= count) {
        lane.since.pop();
        lane.predicates.pop();
      }
    }
    while (this.lanes.at(-1)?.bornAt >= count) {
      if (this.lanes.length % MANY === 0) yield this.lanes.length;
      this.ring.takeOut(this.lanes.pop());
      this.isNumbered = false;
    }
  }

  /** Gives the next step its lane, and the goals that it made theirs: its own process goes on, small goals stay with it, other calls begin lanes beside it. */
  add(graph, kinds) {
    const index = this.ofStep.length, maker = graph.makers.at(index), place = graph.places.at(index);
    const isAsked = maker === Graph.NONE, known = this.at(graph, maker, place);
    const lane = known || this.begin(keyOf(graph.stepAt(index)), this.ring, index, { isAsked });
    this.ofStep.push(lane);
    lane.count += 1;
    const own = isAsked ? undefined : kinds.ofConsumer(index);
    notePredicate(lane, own, index);
    this.placeMade(graph, kinds, index, lane, own);
  }

  placeMade(graph, kinds, index, lane, own) {
    const number = graph.numbers.at(index), count = graph.madeEnd(index) - graph.firstMade.at(index);
    const made = Array.from({ length: count }, (none, place) => kinds.at(number, place + 1)), goesOn = goesOnIn(made, own);
    let last = lane;
    made.forEach((kind, place) => {
      if (place === goesOn || isSmall(kind)) {
        this.ofMade.push(lane);
        return;
      }
      const before = goesOn >= 0 && place < goesOn ? lane : last.next;
      const child = this.begin(`${number}.${place + 1}`, before, index, { isMade: true });
      this.ofMade.push(child);
      if (before !== lane) last = child;
    });
  }

  /** Gives each lane its index from the top, where lanes have come or gone since that was done; yields now and then. */
  *number() {
    let index = 0;
    if (this.isNumbered) return;
    for (let lane = this.ring.next; lane !== this.ring; lane = lane.next) {
      lane.index = index++;
      if (index % MANY === 0) yield index;
    }
    this.isNumbered = true;
  }
}

/**
 * The place, among the goals that a step made, of the one in which its process goes on: the last one of the same predicate, else the
 * last call, else the stream's rest; -1 where there is none. An ask goes on in the last call that it made.
 */
function goesOnIn(made, own) {
  let last = -1, same = -1;
  made.forEach((kind, place) => {
    if (kind === undefined || isSmall(kind)) return;
    last = place;
    if (own && kind.predicate === own.predicate) same = place;
  });
  return same >= 0 ? same : last;
}

/** The places of the query's goals, those that are there and those that were consumed. */
function queryPlaces(run) {
  const there = run.goals.filter((goal) => goal.name.startsWith("0.")).map((goal) => Printed.nameParts(goal.name)[1]);
  return [...new Set([...there, ...run.graph.queryConsumers.keys()])].sort((one, other) => one - other);
}

/** The lanes of a run that was not put into lanes yet. */
function runLanes(run) {
  const lanes = new RunLanes();
  finish(lanes.follow(run));
  return lanes;
}

/** Which lane a lane is folded into, with all that came of it: the highest of its ancestors that is to be folded, by name; null where none is. */
function foldsOf(whole, folded) {
  const known = new Map();
  const parentOf = (lane) => (lane.isMade ? whole.ofStep[lane.bornAt] : null);
  return (lane) => {
    const way = [];
    let at = lane;
    while (at !== null && !known.has(at)) {
      way.push(at);
      at = parentOf(at);
    }
    let into = at === null ? null : known.get(at);
    for (const one of way.reverse()) {
      into = into || (folded.has(one.name) ? one : null);
      known.set(one, into);
    }
    return into;
  };
}

/**
 * The lanes of some steps of a run, from one index up to another, each with its steps and the goals that are there, of
 * all lanes of the run, which are numbered. `foldOf` gives the lane that a lane is folded into, or null; of lanes that
 * are not shown nothing is there.
 * @param {(lane: any) => any} foldOf
 * @param {(lane: any) => boolean} isShown
 */
function lanesIn(run, whole, from, to, goals, foldOf = () => null, isShown = () => true) {
  const { graph } = run, kinds = new GoalKinds(run), parts = new Map(), laneOf = new Map();
  const isIn = (index) => index >= from && index < to && isShown(whole.ofStep[index]);
  const partOf = (own) => {
    const into = foldOf(own), lane = into || own;
    if (!parts.has(lane)) {
      const predicates = lane.predicates.filter((none, at) => lane.since[at] < graph.count);
      const isFolded = into !== null, born = isIn(lane.bornAt) ? graph.stepAt(lane.bornAt) : null;
      const fresh = { isFolded, parent: lane.isMade ? born : null, asked: lane.isAsked ? born : null, predicates };
      parts.set(lane, { ...lane, ...fresh, steps: [], goals: [] });
    }
    return parts.get(lane);
  };
  if (from === 0) for (const lane of whole.ofQuery.values()) if (isShown(lane)) partOf(lane);
  for (let index = from; index < to; index++) {
    if (!isIn(index)) continue;
    const part = partOf(whole.ofStep[index]), step = graph.stepAt(index);
    part.steps.push(step);
    laneOf.set(keyOf(step), part);
  }
  for (const goal of goals) {
    const lane = whole.ofGoal(graph, goal.name), kind = kinds.get(goal.name);
    if (lane === undefined || !isShown(lane)) continue;
    const part = partOf(lane);
    part.goals.push(goal);
    laneOf.set(goal.name, part);
    if (kind?.predicate && !part.predicates.includes(kind.predicate)) part.predicates.push(kind.predicate);
  }
  return { lanes: [...parts.values()].sort((one, other) => one.index - other.index), laneOf, kinds };
}

/** The lanes of a run, from the top, each with its steps and the goals that are there. */
const lanesOf = (run) => lanesIn(run, runLanes(run), 0, run.graph.count, run.goals);

/** A text as a run's reader knows it: where `shown` is given, with names in the place of numbers of variables. */
const shownIn = (run, text) => (run.shown === undefined ? text : run.shown(text));

const shortName = (predicate) => predicate.split("/")[0];

/** What stands at the beginning of an ask's lane: the word, and its first goal with what is known by now. */
function askText(step, run, store, longest) {
  const [first, ...others] = step.makes, text = (first && (run.texts.get(first) || Printed.splitOutside(step.act.slice(4), ",")[0])) || "true";
  const told = Printed.sortOfText(text) === "call" ? Terms.briefCall(text, store) : shownIn(run, text);
  return Terms.cut(`ask ${told}${others.length > 0 ? ", …" : ""}`, longest);
}

/** What stands at a lane's beginning: its call with what is known by now, or the predicates that it was. */
function laneText(lane, run, kinds, store, longest) {
  if (lane.asked) return askText(lane.asked, run, store, longest);
  const text = run.texts.get(lane.name) || (lane.goals.find((goal) => goal.name === lane.name) || { text: "" }).text;
  const kind = kinds.get(lane.name);
  if (kind && kind.sort === "stream") return `stream ${text.split(" ")[1] || ""}`;
  if (isSmall(kind)) return Terms.cut(shownIn(run, text), longest);
  if (lane.predicates.length > 1 || text === "") return Terms.cut(lane.predicates.slice(0, 3).map(shortName).join(" → "), longest);
  return Terms.cut(Terms.briefCall(text, store), longest);
}

/** Whether a small goal has room in a row beside others: its line from its maker may cross no line of another maker. */
function fitsBeside(span, others) {
  return others.every((other) => (other.maker === span.maker ? other.to !== span.to : other.to < span.from || span.to < other.from));
}

/** The row of a small goal: the first in which its line is clear of others, else the first in which its place is free. */
function rowFor(span, rows) {
  const clear = rows.findIndex((others) => fitsBeside(span, others));
  if (clear >= 0) return clear;
  if (rows.length < MOST_CLEAR_ROWS) return rows.length;
  const free = rows.findIndex((others) => others.every((other) => other.to !== span.to));
  return free >= 0 ? free : rows.length;
}

/** Rows within a lane: reductions and inputs in row 0, bindings and sums below them, and the same for goals that are there. */
function placeInLane(lane, kinds, columnOf, makerOf, rowOf, columns) {
  const isLeaf = (name) => isSmall(kinds.get(name)) && name !== lane.name;
  const rows = [];
  const place = (key, goal, to) => {
    if (lane.isFolded || !isLeaf(goal)) {
      rowOf.set(key, 0);
      return;
    }
    const maker = makerOf.get(goal);
    const span = { maker, from: maker ? columnOf(maker) : -1, to }, row = rowFor(span, rows);
    rows[row] = [...(rows[row] || []), span];
    rowOf.set(key, row + 1);
  };
  for (const step of lane.steps) place(step.number, keyOf(step), columnOf(step));
  for (const goal of lane.goals) place(goal.name, goal.name, columns);
  lane.rows = 1 + rows.length;
}

const MOST_RADIUS = 11, LARGEST_FONT = 12.5;
const FONTS = { roomy: LARGEST_FONT, dense: 11, tiny: 9.5 };
const APART = { roomy: 27, dense: 17, tiny: 6 }; // points from step to step, at least, in each look
const SHORT = 30; // steps of a run that is rather wider than its room than drawn as points, but where all is to be seen

/** Where the first column begins beside names of so many letters. */
const leftBeside = (letters, font) => 24 + letters * font * BOLD_LETTER;

/** How far apart steps stand at least. In a narrow window a short run is scrolled, too. */
function leastApart(kind, columns, { room, high, isWhole }) {
  if (high !== undefined) return 0.5;
  return columns > SHORT ? APART.tiny : isWhole && room >= NARROW ? APART[kind] : APART.roomy;
}

const kindOf = (radius) => (radius >= 8 ? "roomy" : radius >= 5 ? "dense" : "tiny");

/** How large all is drawn: what the room allows, from steps that stand side by side as points to circles with numbers. */
function sizesFor(room, columns, lanes, sides, least, isFit) {
  const dx = between(least, (room - sides) / Math.max(1, columns), 56);
  const most = lanes > 80 ? 4 : lanes > 30 ? 6 : lanes > 16 ? 8 : MOST_RADIUS;
  const radius = between(isFit ? 1 : 3, dx * 0.3, most);
  const kind = kindOf(radius);
  const font = room < NARROW ? 10.5 : FONTS[kind];
  return { dx, radius, kind, font, leaf: radius * 0.6, row: 13 + 2.3 * radius, leafRow: kind === "roomy" ? 25 : 7 + 1.3 * radius };
}

const RANKS = { tiny: 0, dense: 1, roomy: 2 };
const LOOKS = [["roomy", "long"], ["roomy", "name"], ["roomy", "none"], ["dense", "name"], ["dense", "none"], ["tiny", "none"]];

/** The radius from which on a mark is large: it holds the number of its step, which can be read. */
function leastLarge({ graph }) {
  const digits = graph.count > 0 ? String(graph.numbers.at(graph.count - 1)).length : 1;
  return digits > 4 ? MOST_RADIUS : 8;
}

/** The sizes of the best look for which there is room: large marks go before long labels of goals. */
function bestSizes(run, options, columns, lanes, letters) {
  const arcs = roomForArcs(run, lanes);
  const large = leastLarge(run), isAs = (sizes, kind) => RANKS[sizes.kind] >= RANKS[kind] && (kind !== "roomy" || sizes.radius >= large - 0.01);
  const isFit = options.high !== undefined;
  const looks = LOOKS.map(([kind, labels]) => {
    const names = isAbove(options) ? 0 : leftBeside(letters, isFit ? LARGEST_FONT : FONTS[kind]);
    const sides = names + roomForGoals(run, labels) + arcs, least = leastApart(kind, columns, options);
    const sizes = sizesFor(options.room, columns, lanes.length, sides, least, isFit);
    return { isLarge: isAs(sizes, kind), fits: sides + columns * sizes.dx < options.room + 1, sizes: { ...sizes, labels } };
  });
  const scrolled = looks.filter(({ isLarge, sizes }) => isLarge && sizes.labels !== "long"); // where nothing fits, one scrolls
  return (looks.find(({ isLarge, fits }) => isLarge && fits) || scrolled[0] || looks[looks.length - 1]).sizes;
}

/** What stands after a goal that is there: `labels` is `long`, `name` or `none`. */
function goalLabel(run, goal, labels) {
  if (labels === "none") return "";
  if (labels === "name") return goal.name;
  const told = { waits: ` waits ${goal.waitsFor.join(",")}`, failed: ` failed ${goal.refusal}` }[goal.status] || "";
  return `${goal.name} ${Terms.cut(shownIn(run, goal.text), 26)}${Terms.cut(shownIn(run, told), 22)}`;
}

/** The width of a column of arcs, with their variables. */
const arcWidth = (run, edges) => 10 + Math.max(0, ...edges.map((edge) => shownIn(run, edge.variable).length)) * 6;

const MOST_TAKEN = 3; // steps that are shown beside their goal
const taken = new WeakMap(); // by lists of steps that were taken back: those of each goal that is there

/** Finds the steps that were taken back from each of some goals; yields now and then. */
function* gatherTaken(shelf, goals) {
  const there = goalsByKey(goals), byGoal = new Map();
  for (const [at, step] of shelf.entries()) {
    if (at % PART === 0) yield at;
    const key = step.goal === null ? null : keyOfName(step.goal);
    if (key === null || !there.has(key)) continue;
    if (!byGoal.has(key)) byGoal.set(key, []);
    byGoal.get(key).push(step);
  }
  taken.set(shelf, byGoal);
}

/** The last steps that were taken back from a goal that is there. */
function takenFrom(run, goal) {
  if (!taken.has(run.shelf)) finish(gatherTaken(run.shelf, run.goals));
  return (taken.get(run.shelf).get(keyOfName(goal.name)) || []).slice(-MOST_TAKEN);
}

/** About how much room the goals that are there take up, with their labels and what was taken back from them. */
function roomForGoals(run, labels) {
  if (run.goals.length === 0) return labels === "none" ? 50 : 96;
  const widths = run.goals.map((goal) => goalLabel(run, goal, labels).length * 7 + takenFrom(run, goal).length * 30);
  return 70 + Math.max(...widths);
}

/** Do the names of lanes stand above them? Beside them they would take too much of a narrow window. */
const isAbove = ({ room, high, above = false }) => high === undefined && (above || room < NARROW);

/**
 * The options of a layout, with names above the lanes where marks are larger so, and all is within the height `tall`
 * that there is: a wide run has height to spare, and lacks width.
 */
function withNamesPlaced(run, options, columns, lanes, letters) {
  const { tall, high, room, top } = options;
  if (tall === undefined || high !== undefined || isAbove(options)) return options;
  const above = { ...options, above: true }, beside = bestSizes(run, options, columns, lanes, letters);
  if (beside.radius >= MOST_RADIUS) return options;
  const sizes = bestSizes(run, above, columns, lanes, letters), isWithin = sizes.dx <= (room - LEAST_LEFT) / columns;
  if (sizes.radius <= beside.radius || !isWithin) return options;
  return placeLanes({ lanes, sizes, nameRoom: nameRoomOf(sizes) }, top) <= tall ? above : options;
}

const nameRoomOf = (sizes) => sizes.font + (sizes.kind === "roomy" ? 3 : 13);

/** The numbers above the columns; `before` is how many columns of the run stand before the first one. */
function axis(columns, dx, x, before) {
  const every = [1, 5, 10, 20, 50, 100, 200, 500].find((number) => number * dx >= 20 + 7 * String(columns + before).length) || 1000;
  const ticks = [];
  for (let column = 1; column <= columns; column++) {
    const isFirst = column === 1 && every - (before % every) - 1 >= (before > 0 ? every / 2 : 0);
    if (isFirst || (column + before) % every === 0) ticks.push({ x: x(column - 1), text: String(column + before) });
  }
  return ticks;
}

/** The goals that are there, each with its place, its label, and the steps that were taken back from it. */
function placeGoals(view, run) {
  const { sizes } = view;
  for (const lane of view.lanes) {
    for (const goal of lane.goals) {
      const x = view.thereX, y = view.yOf(lane, view.rows.get(goal.name));
      const label = goalLabel(run, goal, sizes.labels);
      let end = x + sizes.radius + 6 + label.length * sizes.font * LETTER;
      for (const step of takenFrom(run, goal)) {
        end += sizes.radius * 2 + 8;
        view.taken.push({ step, x: end - sizes.radius, y });
      }
      view.goals.set(goal.name, { goal, x, y, label, end, lane });
    }
  }
}

/** The columns of arcs: each arc goes into the first in which it meets no other, short ones first. */
function columnsOfArcs(arcs) {
  const columns = [], length = (arc) => Math.abs(arc.fromY - arc.toY);
  for (const arc of [...arcs].sort((one, other) => length(one) - length(other))) {
    const top = Math.min(arc.fromY, arc.toY) - 2, bottom = Math.max(arc.fromY, arc.toY) + 2;
    const meets = (column) => column.some((other) => other.top < bottom && top < other.bottom);
    const free = columns.findIndex((column) => !meets(column));
    arc.column = free >= 0 ? free : columns.length;
    columns[arc.column] = [...(columns[arc.column] || []), { top, bottom }];
  }
  return columns.length;
}

/** The arcs between goals that are shown and stand as they do now: those of the circle, and the others. */
function arcsShown({ waits = NO_WAITS, goals }) {
  const { arcs, circle } = waits, waiting = new Set(goals.filter(({ status }) => status === "waits").map(({ name }) => name));
  const there = new Set(goals.map(({ name }) => name)), next = new Map(circle.map(({ from, to }) => [from, to]));
  const isTwice = ({ from, to, variable }) => circle.some((wait) => wait.from === from && wait.to === to && wait.variable === variable);
  const all = [...circle, ...arcs.filter((arc) => !isTwice(arc))].filter(({ from, to }) => waiting.has(from) && there.has(to));
  return all.map((arc) => ({ ...arc, isInCircle: next.get(arc.from) === arc.to }));
}

/** How much room the arcs of waits take up: the columns that they need where the goals stand below each other. */
function roomForArcs(run, lanes) {
  const edges = arcsShown(run);
  const places = new Map(lanes.flatMap(({ goals }) => goals).map(({ name }, at) => [name, at * 20]));
  const arcs = edges.map(({ from, to }) => ({ fromY: places.get(from) + 4, toY: places.get(to) - 4 }));
  return Math.min(MOST_ARC_COLUMNS, columnsOfArcs(arcs)) * arcWidth(run, edges);
}

/** The arcs from waiting goals to the goals that have their variable, beside each other at the right. Gives where they end. */
function placeWaits(view, run) {
  const right = Math.max(0, ...[...view.goals.values()].map((place) => place.end));
  const edges = arcsShown(run);
  view.waits = edges.map((edge) => {
    const from = view.goals.get(edge.from), to = view.goals.get(edge.to);
    return { ...edge, fromX: from.end + 4, fromY: from.y + 4, toX: to.end + 6, toY: to.y - 4 };
  });
  const wide = arcWidth(run, edges), columns = columnsOfArcs(view.waits);
  for (const wait of view.waits) wait.x = right + 22 + wait.column * wide;
  return right + 22 + columns * wide;
}

function placeLanes(view, top) {
  let y = top;
  for (const lane of view.lanes) {
    lane.y = y + view.nameRoom + view.sizes.row / 2;
    y += view.nameRoom + view.sizes.row + (lane.rows - 1) * view.sizes.leafRow + ((lane.rows > 1 && view.sizes.kind === "roomy" ? 8 : 0) + 2) * (view.sizes.gap || 1);
  }
  return y;
}

/** Makes all rows so much lower that they fit into the height that there is. */
function shrink(view, options) {
  const { sizes } = view, part = Math.max(0.05, (options.high - options.top) / (view.bottom - options.top));
  Object.assign(sizes, { row: sizes.row * part, leafRow: sizes.leafRow * part, gap: part, radius: Math.max(1, Math.min(sizes.radius, sizes.row * part * 0.45)) });
  sizes.leaf = Math.min(sizes.radius * 0.6, sizes.leafRow * 0.45);
  sizes.kind = kindOf(sizes.radius);
}

/**
 * The places of a run. `run` has graph, goals, shelf, texts and clauses; `options.by` is `record` or `depth`,
 * `options.room` the width that there is, `options.top` the room above the first lane, `options.high` the height that
 * all is to fit into, if it is, `options.tall` the height that there is without that, and `options.isWhole` whether the
 * whole width of a short run is to be seen.
 */
function layout(run, given) {
  const { lanes, laneOf, kinds } = run.placed || lanesOf(run);
  const columnOf = ({ number }) => (given.by === "depth" ? run.graph.depth.get(number) : run.graph.indexOf(number));
  const columns = run.graph.steps.reduce((most, step) => Math.max(most, columnOf(step) + 1), given.leastColumns || 0);
  const rows = new Map(), store = run.store || run.graph.store;
  const makerOf = new Map(run.graph.steps.flatMap((step) => step.makes.map((goal) => [goal, step])));
  for (const lane of lanes) {
    placeInLane(lane, kinds, columnOf, makerOf, rows, columns);
    lane.text = laneText(lane, run, kinds, store, given.room < NARROW ? 13 : run.isPart ? 22 : 30);
  }
  const letters = Math.max(8, ...lanes.map((lane) => lane.name.length + lane.text.length + 2));
  const options = withNamesPlaced(run, given, columns, lanes, letters);
  const sizes = bestSizes(run, options, columns, lanes, letters);
  const left = isAbove(options) ? LEAST_LEFT : leftBeside(letters, sizes.font);
  const x = (column) => left + column * sizes.dx + sizes.dx / 2;
  const view = { by: options.by, lanes, laneOf, kinds, rows, makerOf, sizes, left, columns, store, marks: new Map(), goals: new Map(), taken: [], waits: [] };
  view.yOf = (lane, row) => lane.y + row * sizes.leafRow;
  view.nameRoom = isAbove(options) ? nameRoomOf(sizes) : 0;
  view.isAbove = isAbove(options);
  view.thereX = left + columns * sizes.dx + sizes.radius + 6;
  view.bottom = placeLanes(view, options.top);
  if (options.high !== undefined && view.bottom > options.high) {
    shrink(view, options);
    view.bottom = placeLanes(view, options.top);
  }
  view.ticks = axis(columns, sizes.dx, x, options.by === "depth" ? 0 : run.before || 0);
  for (const step of run.graph.steps) {
    const lane = laneOf.get(keyOf(step)), row = rows.get(step.number);
    const isLeaf = step.kind === "unify" || step.kind === "assign";
    view.marks.set(step.number, { step, lane, isFolded: lane.isFolded, x: x(columnOf(step)), y: view.yOf(lane, row), isLeaf, row });
  }
  placeGoals(view, run);
  view.width = Math.max(placeWaits(view, run), left + columns * sizes.dx + (sizes.kind === "roomy" ? 80 : 30));
  return view;
}

export { layout, lanesOf, lanesIn, foldsOf, RunLanes, GoalKinds, queryPlaces, gatherNames, gatherTaken, shortName, between };
