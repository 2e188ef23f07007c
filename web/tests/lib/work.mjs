// How much work something does, counted and not timed: how often each block of this repository's functions is entered. It is the
// same on each machine, however busy, so a test can say how work grows. What the engine does within itself is not counted.
// Functions are counted that first run after this module: so it is imported first.
import { Session } from "node:inspector";

const OURS = new URL("../../../", import.meta.url).href;

const session = new Session();
session.connect();
const ask = (what, words) => {
  let told;
  session.post(`Profiler.${what}`, words, (wrong, result) => { told = wrong ? Promise.reject(wrong) : result; }); // at once
  return told;
};
ask("enable");
ask("startPreciseCoverage", { callCount: true, detailed: true });

/** How many blocks were entered since it was asked last. */
function entered() {
  const ours = ask("takePreciseCoverage").result.filter(({ url }) => url.startsWith(OURS));
  return ours.flatMap(({ functions }) => functions.flatMap(({ ranges }) => ranges)).reduce((sum, { count }) => sum + count, 0);
}

/** How many blocks are entered while something is done. */
export function workOf(does) {
  entered();
  does();
  return entered();
}
