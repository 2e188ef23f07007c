// What the replies to `part` and `blame` tell, and how a line of `blame` takes one more answer, or one less. Pure.
import * as Replies from "./replies.mjs";

const GOAL = "\\d+\\.\\d+";
const STANDS = new RegExp(`^(${GOAL}) (?:(ready|stream)|(waits) (\\S+)|(failed) (F\\d+))$`);
// No call begins with a sign: `1.1 gave = x` is an equation of the atom `gave`.
const MADE = new RegExp(`^(?:(${GOAL}) (gave|left|stands) (?!:?= )(.*)|(${GOAL}) (.* :?= .*))$`);
const TAKEN = new RegExp(`^(\\d+) (${GOAL}) by (\\d+)$`);
const ASK = new RegExp(`^ask (${GOAL}) of (\\d+)$`), FAULT = new RegExp(`^fault (?:(\\d+) (${GOAL}) by (\\d+)|(${GOAL})|0)$`);
const ANSWER = new RegExp(`^([+-])(${GOAL})$`);

/** A goal with its status, as `4.2 failed F10` tells it; null where the text tells none. */
const readStanding = Replies.reading(STANDS, ([, goal, alone, waits, variables, failed, refusal = ""]) =>
  ({ goal, status: alone ?? waits ?? failed, waitsFor: variables?.split(",") ?? [], refusal }));

/**
 * A goal that the call's step made: `gave` with what it gave, `left` where it is the goal asked about, `stands` where no step took it,
 * `written` for an equation or a sum; null where the line tells none.
 */
const readMade = Replies.reading(MADE, ([, goal, how, text, written, equation]) =>
  (goal === undefined ? { goal: written, how: "written", text: equation } : { goal, how, text }));

/** The step that took the call, as `16 2.2 by 2` tells it; null where the line tells none. */
const readTaking = Replies.reading(TAKEN, ([, step, goal, clause]) =>
  ({ step: Number(step), goal, clause: Number(clause) }));

/** The question's goal, and among how many calls it was chosen; null where the line asks nothing. */
const readAsk = Replies.reading(ASK, ([, goal, of]) => ({ goal, of: Number(of) }));

/**
 * The verdict: a step with its goal and clause; or a goal alone, which no clause answers; or none of them, where the query is at fault.
 * Null where the line is no verdict.
 */
const readFault = Replies.reading(FAULT, ([, step, taken, clause, goal = taken ?? null]) =>
  ({ step: step === undefined ? null : Number(step), goal, clause: clause === undefined ? null : Number(clause) }));

// By the first word of a line: what it adds to what a reply tells.
const HEADS = {
  given: (told, rest) => { told.given = rest; },
  gave: (told, rest) => { told.gave = rest; },
  asked: (told, rest) => { told.asked.push(Number(rest)); },
  in: (told) => { told.inTurns = true; },
  left: (told, rest) => { told.left = readStanding(rest); },
  ask: (told, rest, line) => { told.ask = readAsk(line); },
  fault: (told, rest, line) => { told.fault = readFault(line); },
};

function learn(told, line) {
  const [word] = line.split(" ", 1), standing = readStanding(line), made = standing === null ? readMade(line) : null;
  if (Object.hasOwn(HEADS, word)) HEADS[word](told, line.slice(word.length + 1), line);
  else if (standing !== null) told.standing = standing;
  else if (made !== null) told.made.push(made);
  else told.taken = readTaking(line) ?? told.taken;
}

/**
 * What a reply to `part` or `blame` tells: what the call was given and gave, which asks reach into it, whether it went in turns, the goal
 * asked about that descends from it, the goals that its step made, the step; of a call that no step took how it stands. Of `blame` also the
 * question or the verdict. What is not told is null.
 */
function read(lines) {
  const told = { given: null, asked: [], inTurns: false, gave: null, left: null, made: [], taken: null, standing: null, ask: null, fault: null };
  lines.forEach((line) => learn(told, line));
  return told;
}

/** Is the line one of `blame`? */
const isBlame = (line) => /^ *blame( |$)/.test(line);

/** An answer as it stands on a line: `+2.2` says that what goal 2.2 gave is right, `-2.2` that it is wrong; null where the word is none. */
const readAnswer = Replies.reading(ANSWER, ([, sign, goal]) => ({ goal, isRight: sign === "+" }));

/** The answers that stand on a line. */
const answersOn = (line) => line.trim().split(/ +/).map(readAnswer).filter((answer) => answer !== null);

/** The line with an answer more. */
const answered = (line, goal, isRight) => `${line.trimEnd()} ${isRight ? "+" : "-"}${goal}`;

/** The line with its last answer taken off; the same where it has none. */
function unanswered(line) {
  const words = line.trim().split(/ +/);
  return readAnswer(words.at(-1)) === null ? line : words.slice(0, -1).join(" ");
}

/** Is the reply a question, or a verdict? */
const isQuestion = (reply) => !Replies.isRefused(reply) && readAsk(reply.at(-1) ?? "") !== null;
const isVerdict = (reply) => !Replies.isRefused(reply) && readFault(reply.at(-1) ?? "") !== null;

export { read, isBlame, isQuestion, isVerdict, readAnswer, answersOn, answered, unanswered };
