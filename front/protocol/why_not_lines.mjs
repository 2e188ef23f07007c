// What the replies to `whynot` tell: who reaches a variable that is not bound, and which steps let it go. Pure.
import * as Replies from "./replies.mjs";

const VERDICTS = new Map([["stays unbound", true], ["may be bound", false]]);

/**
 * A step that let a variable go: the variable, and the goal that the step took, as it was written then; null where
 * the line tells none.
 */
function readLost(line) {
  const [, variable, taking = ""] = /^(_\d+_\d+) lost by (.*)$/.exec(line) ?? [];
  const taken = Replies.readTakenGoal(taking);
  return taken && { variable, ...taken };
}

/** The variables for which a goal waits that reaches one. */
const waitsFor = ({ status }) => /^waits (\S+)$/.exec(status)?.[1].split(",") ?? [];

/**
 * May a goal that reaches a variable bind it, or hand it on, when it goes on? Not one that has failed, or that waits
 * for this variable alone.
 */
const mayBind = ({ variable, status }) => !status.startsWith("failed") && status !== `waits ${variable}`;

/**
 * A reply: the goals that reach a variable asked about, the steps that let one go, and whether all of them stay
 * unbound for ever; `staysUnbound` is undefined where nothing was asked about.
 */
function read([, ...lines]) {
  const holders = lines.map(Replies.readHolder).filter(Boolean), lost = lines.map(readLost).filter(Boolean);
  return { holders, lost, staysUnbound: VERDICTS.get(lines.at(-1)) };
}

export { read, waitsFor, mayBind };
