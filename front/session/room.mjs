// How much room Node has left for the front itself: it ends a process that goes past its limit, and nobody is told then.
import v8 from "node:v8";
import vm from "node:vm";

// Of the limit: what may be in use, since a long reply, a history or a table that doubles needs the rest; and what is
// used anew before it is counted again.
const MOST = 0.4, STEP = 0.1;
let collect; // gives back what nobody uses
let seen = 0; // in use when it was counted last

/** What is in use when what nobody uses is given back. */
function inUse() {
  v8.setFlagsFromString("--expose-gc");
  collect ??= vm.runInNewContext("gc");
  collect();
  return v8.getHeapStatistics().used_heap_size;
}

/** Is there little room left? It is counted exactly only where much was used since the last time. */
function isShort() {
  const { used_heap_size: used, heap_size_limit: limit } = v8.getHeapStatistics();
  if (used >= MOST * limit && used >= seen + STEP * limit) seen = inUse();
  return seen >= MOST * limit && used >= seen;
}

/** What helps where there is little room. */
function cure() {
  const most = Math.floor(v8.getHeapStatistics().heap_size_limit / 2 ** 20);
  return `most of the ${most} MB that Node gives is used: save the session, then roll steps; ` +
    "or begin with NODE_OPTIONS=--max-old-space-size=2000";
}

export { cure, isShort };
