// Who waits for whom, as a picture draws it: arcs, and a circle of goals that wait for each other. `whynot` tells who
// has what is waited for; here one only goes along that.
import * as WhyNotLines from "../protocol/why_not_lines.mjs";

const MOST_KEPT = 3_000; // steps: of a longer run nothing is asked for the arcs alone
const MOST_ASKED = 12; // goals that wait about which is asked
const MOST_LOOKED = 1_000; // goals among which somebody is looked for: of more the page would stand still
const MOST_ARCS = 40;
const MOST_IN_CIRCLE = 24; // goals

/**
 * A wait: a goal, another one, and the variable that the first waits for and the other may bind.
 * @typedef {{ from: string, to: string, variable: string }} Wait
 */

/** @type {{ arcs: Wait[], circle: Wait[], left: number }} */
const NO_WAITS = { arcs: [], circle: [], left: 0 };

/** Adds to `binders`, by the variable, the goals told that may bind it; where there are none an empty list. */
function addBinders(binders, { holders }) {
  const fresh = new Map(holders.map(({ variable }) => [variable, []]));
  for (const holder of holders.filter(WhyNotLines.mayBind)) fresh.get(holder.variable).push(holder.goal);
  for (const [variable, goals] of fresh) binders.set(variable, goals);
}

/** Is it told of all for which a goal waits? */
const isTold = (binders, { waitsFor }) => waitsFor.every((variable) => binders.has(variable));

/** The answers to what was asked anyway that tell of few enough goals. */
const answersIn = (why) => why.map(({ told }) => told).filter((told) => told && told.holders.length <= MOST_LOOKED);

/** What `whynot` tells: what was asked anyway, and up to so many answers on goals of which that tells nothing. */
async function answersOn(session, waiting, why, most) {
  const answers = answersIn(why), binders = new Map(), known = answers.length;
  for (const told of answers) addBinders(binders, told);
  for (const goal of waiting) {
    if (answers.length === known + most) break;
    if (isTold(binders, goal)) continue;
    const told = WhyNotLines.read(await session.ask(`whynot ${goal.name}`));
    addBinders(binders, told);
    answers.push(told);
  }
  return { answers, binders };
}

/** The waits of a goal for others, the first of many. */
function waitsOf({ name, waitsFor }, binders) {
  return waitsFor.flatMap((variable) => {
    const others = (binders.get(variable) ?? []).slice(0, MOST_ARCS + 2).filter((goal) => goal !== name);
    return others.map((to) => ({ from: name, to, variable }));
  });
}

/** The arcs of goals that wait, as many as a picture shows, and how many of these goals lack some. */
function arcsOf(waiting, binders) {
  const arcs = [];
  let left = 0;
  for (const goal of waiting) {
    const room = MOST_ARCS - arcs.length, own = room > 0 && isTold(binders, goal) ? waitsOf(goal, binders) : undefined;
    if (own === undefined || own.length > room) left += 1;
    arcs.push(...(own ?? []).slice(0, room));
  }
  return { arcs, left };
}

/** The last goal beside one of them that may bind a variable; undefined where there is none. */
function lastBeside(binders, variable, goal) {
  const goals = binders.get(variable) ?? [];
  return goals.at(-1) === goal ? goals.at(-2) : goals.at(-1);
}

/** Of each goal told a wait for the last of those who help it; nothing of those that no other one helps. */
function lastWaits(told) {
  const binders = new Map(), found = new Map();
  addBinders(binders, told);
  for (const { goal, status } of told.holders) {
    const awaited = WhyNotLines.waitsFor({ status });
    const waits = awaited.map((variable) => ({ from: goal, to: lastBeside(binders, variable, goal), variable }));
    const last = waits.filter(({ to }) => to !== undefined).at(-1);
    if (last !== undefined) found.set(goal, waits.find(({ to }) => to === last.to));
  }
  return found;
}

/**
 * Goes on from a goal along waits, and notes them in `way`, with the goals' places; gives the goal where the way ends:
 * one that has a place, or that no other one helps.
 */
function goOn(waits, start, way, places) {
  let goal = start;
  for (; waits.has(goal) && !places.has(goal); goal = waits.get(goal).to) {
    places.set(goal, way.length);
    way.push(waits.get(goal));
  }
  return goal;
}

/**
 * The waits of a circle among goals that wait in vain: who goes on from goal to goal comes upon it. There is none where
 * something may be bound yet, or where each way ends at a goal that no other one helps.
 */
function circleIn(told, waiting) {
  const places = new Map(), way = [], waits = told.staysUnbound ? lastWaits(told) : new Map();
  for (const { name } of waiting) {
    const first = way.length, place = places.get(goOn(waits, name, way, places)) ?? -1;
    if (place >= first) return way.slice(place);
  }
  return [];
}

/**
 * The arcs of the goals that wait, up to `MOST_ARCS`, the first circle that is short enough to be told, and of how many
 * more goals that wait no arcs are known. `why` is what was asked anyway; of a long run, or among many goals, nothing
 * else is asked.
 */
async function arcsAmong(session, goals, why) {
  const waiting = goals.filter(({ status }) => status === "waits");
  if (waiting.length === 0) return NO_WAITS;
  const isSmall = session.kept.steps.size <= MOST_KEPT && goals.length <= MOST_LOOKED;
  const { answers, binders } = await answersOn(session, waiting, why, isSmall ? MOST_ASKED : 0);
  const isShort = ({ length }) => length > 0 && length <= MOST_IN_CIRCLE;
  return { ...arcsOf(waiting, binders), circle: answers.map((told) => circleIn(told, waiting)).find(isShort) ?? [] };
}

export { NO_WAITS, arcsAmong };
