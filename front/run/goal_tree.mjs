// Steps as a tree: each below the step that made its goal, at most some of them. And the goals of an explanation's steps, as the values
// stood when each was taken. Pure.
import * as Printed from "../text/printed.mjs";
import * as Print from "../text/print.mjs";
import * as Reader from "../text/reader.mjs";
import * as Replies from "../protocol/replies.mjs";
import { LONGEST, beginningOf, cut } from "./named.mjs";

const SHOWN = 40, WIDEST = 90; // letters that are shown of a text that is too long to be read, and of a goal in a line

const placeOf = (step) => (step.goal === null ? [0, 0] : Printed.nameParts(step.goal));
const byPlace = (one, other) => placeOf(one.step)[1] - placeOf(other.step)[1];

/**
 * The steps as nodes, each with those that took what it made, and the first ones: those whose goal none of the others made.
 * A step stands after the one that made its goal, as in the record.
 */
function nodesOf(steps) {
  const nodes = new Map(), roots = [];
  for (const step of steps) {
    const parent = nodes.get(placeOf(step)[0]), node = { step, parent, depth: parent === undefined ? 0 : parent.depth + 1, inner: [], below: 0, isShown: false };
    nodes.set(step.number, node);
    (parent?.inner ?? roots).push(node);
  }
  return { nodes, roots };
}

/** Marks the nodes that are shown: of all levels the upper ones first. */
function choose(roots, most) {
  const row = [...roots];
  for (let at = 0; at < row.length && at < most; at += 1) {
    row[at].isShown = true;
    for (const inner of row[at].inner.sort(byPlace)) row.push(inner);
  }
}

/** Counts for each node that is shown those below it that are not; how many have none above them. */
function countHidden(nodes) {
  let alone = 0;
  for (const node of nodes.values()) {
    node.above = node.isShown ? node : node.parent?.above;
    if (node.above === undefined) alone += 1;
    else if (!node.isShown) node.above.below += 1;
  }
  return alone;
}

/**
 * The lines of the tree, from its first step down: of each the step, how deep it stands, and how many steps below it are left out. Of more
 * than `most` steps the upper ones are shown. `left` counts the steps left out that have none above them.
 * @template {import("../types").ShortStep} S
 * @param {S[]} steps
 * @returns {{ rows: { step: S, depth: number, below: number }[], left: number }}
 */
function treeOf(steps, most = Infinity) {
  const { nodes, roots } = nodesOf(steps), rows = [];
  choose(roots, most);
  const left = countHidden(nodes), open = roots.filter(({ isShown }) => isShown).reverse();
  while (open.length > 0) {
    const { step, depth, below, inner } = open.pop();
    rows.push({ step, depth, below });
    for (let at = inner.length - 1; at >= 0; at -= 1) if (inner[at].isShown) open.push(inner[at]);
  }
  return { rows, left };
}

/** What bindings of some steps tell, as they stood before one of the steps. */
class Values {
  constructor(steps) {
    this.bound = new Map(); // the text or the term that a variable is bound to, and which step of the row bound it
    steps.forEach(({ binds }, at) => binds.forEach(({ variable, term }) => this.bound.set(variable, { term, at })));
  }

  termOf(bound) {
    if (typeof bound.term !== "string") return bound.term;
    bound.term = bound.term.length > LONGEST ? beginningOf(bound.term, SHOWN) : Reader.readTerm(bound.term);
    return bound.term;
  }

  /** The store before the step at a place of the row. */
  before(place) {
    const boundTo = ({ variable }) => {
      const bound = this.bound.get(variable);
      return bound?.at < place ? this.termOf(bound) : undefined;
    };
    return { endOf: (term) => Printed.endOfChain(term, boundTo) };
  }
}

/** A goal as it was written, with the values of a store; as it was written where it is too long or too deep to be read. */
function goalText(written, store) {
  const printed = (text) => Print.goal(Reader.readQuery(text).goals[0], { store, most: WIDEST });
  return cut((written.length > LONGEST ? undefined : Reader.readable(printed, written)) ?? written, WIDEST);
}

/** The steps of a reply to `explain`, as its lines tell them. */
const stepsOf = (reply) => reply.map(Replies.readExplained).filter((step) => step !== null);

/** A row in words: `step 3: app([4,5],[2,3],_1_1) by 2`. `text` is the goal's, if the step took one. */
const wordsOf = ({ step, below }, text) => `step ${step.number}: ${text === undefined ? "" : `${text} `}${step.act}${below > 0 ? ` (and ${below} below)` : ""}`;

export { treeOf, Values, goalText, stepsOf, wordsOf };
