// Which steps of a run are of the part of a call: those whose goals descend from it. Pure.
import * as Graph from "../front/run/graph.mjs";

const MANY = 4096; // steps between two places where the caller may pause

/**
 * Puts 1 into `flags`, by the steps' places in a graph, for each step of the part of a goal; gives how many it found. What is flagged
 * already is not looked at again. It costs what the part has, and yields now and then.
 */
function* mark(graph, goal, flags) {
  const left = [graph.consumerOf(goal)];
  let count = 0;
  while (left.length > 0) {
    const index = left.pop();
    if (index === undefined || index === Graph.NONE || flags[index] === 1) continue;
    flags[index] = 1;
    count += 1;
    if (count % MANY === 0) yield count;
    graph.addTakers(index, left);
  }
  return count;
}

export { mark };
