// What terminal/run does; how it is called stands there.
import * as Own from "../front/run/own.mjs";
import { freeLines } from "../front/run/other_choices.mjs";
import { plural } from "../front/run/reasons.mjs";
import { notesAfter } from "../front/run/telling.mjs";
import { meant } from "../front/protocol/commands.mjs";
import { readExpected, whyOther } from "../front/protocol/expected.mjs";
import { readRun } from "../front/protocol/words.mjs";
import * as Replies from "../front/protocol/replies.mjs";
import { NotTold } from "../front/session/session.mjs";
import { freeSteps } from "../front/session/trying.mjs";
import { withQuery } from "../front/session/words_with_query.mjs";
import { addLines, endWith, statusOfGoals, withSession, write, STATUS } from "./scripted.mjs";

const LEAP = meant("leap");
const TOO_LONG = "the run has taken as many steps as a run may, and goals are ready still";

/** The status of values that are not told. */
function statusOfAnswers(answers) {
  const refusals = [...answers.values()].filter(Replies.isRefusal);
  if (refusals.length === 0) return STATUS.done;
  return refusals.includes(Replies.NO_MEMORY) ? STATUS.untold : STATUS.refusedLine;
}

/**
 * What is to be said of one value: why it is not told; of a run that came to its end, that nobody can bind it any more.
 */
async function notesOn(session, name, line, isDone) {
  if (!isDone && !Replies.isRefusal(line)) return [];
  const notes = await notesAfter(session, meant("show", name), [line]);
  return Replies.isRefusal(line) ? [`${name}: ${line}`, ...notes] : notes;
}

/** Is no goal left? */
const hasEnded = (status) => [STATUS.done, STATUS.letGo].includes(status);

/** Why goals are left. */
async function notesOnEnd(session, stop) {
  if (stop === "stopped limit") return [TOO_LONG];
  if (stop !== "stopped quiet") return notesAfter(session, LEAP, [stop]);
  const goals = await session.goals(), streams = goals.filter(({ status }) => status === "stream").length;
  const open = streams > 0 ? [`open at the end: ${plural(streams, "input stream")}`] : [];
  return goals.length > streams ? [...await Own.stuck(session), ...open] : open;
}

/** All that is to be said of how it went; of a session that tells no more, why. */
async function notesOnAll(session, stop, answers, status) {
  try {
    const notes = hasEnded(status) ? freeLines(await freeSteps(session)) : await notesOnEnd(session, stop);
    for (const [name, line] of answers) notes.push(...await notesOn(session, name, line, hasEnded(status)));
    return notes;
  } catch (error) {
    if (error instanceof NotTold || error instanceof RangeError) return [error.message];
    throw error;
  }
}

/** Runs a session to its end, and tells the values of the query's variables. The status. */
async function runToEnd(session, { expected, line }, errors) {
  const stop = (await session.ask(line, async () => {})).at(-1), ofGoals = await statusOfGoals(session);
  const answers = await session.answers(), lines = [...answers.values()].filter((line) => !Replies.isRefusal(line));
  await write(lines.map((line) => `${line}\n`).join(""), "latin1");
  const others = expected.map((one) => whyOther(one, answers.get(one.name))).filter((why) => why !== undefined);
  addLines(errors, [...await notesOnAll(session, stop, answers, ofGoals), ...others]);
  return statusOfAnswers(answers) || ofGoals || (others.length > 0 ? STATUS.otherValue : STATUS.done);
}

/** Runs what the words of a command line name. The status. */
function run(words, errors) {
  const asked = readRun(words), expected = asked.expected.map(readExpected), wrong = expected.indexOf(undefined);
  const line = asked.steps.length === 0 ? LEAP.line : `leap ${asked.steps.at(-1)}`;
  const plays = (session) => runToEnd(session, { expected, line }, errors);
  if (asked.steps.some((most) => !/^[1-9]\d{0,6}$/.test(most ?? ""))) {
    errors("--steps N: 1 to 9,999,999 are wanted\n");
    return STATUS.commandLine;
  }
  if (wrong < 0) return withSession(withQuery(asked.words), { plays, errors });
  errors(`--expect '${asked.expected[wrong] ?? ""}': X = TERM is wanted\n`);
  return STATUS.commandLine;
}

endWith(run);
