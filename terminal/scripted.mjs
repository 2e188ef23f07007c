// A session whose lines come from standard input, for scripts: replies are handed on as they come, and a status tells
// how it went.
import { Ended } from "../front/session/program.mjs";
import { ScriptSession, asked } from "../front/session/script_session.mjs";
import { everyRefusal, linesAfterFirst } from "../front/session/every_refusal.mjs";
import { whyNoSession, withQuery } from "../front/session/words_with_query.mjs";
import { isLetGo } from "../front/run/waits.mjs";
import { isWhole } from "../front/session/way_back.mjs";
import { readWords, isSession } from "../front/protocol/words.mjs";
import * as Replies from "../front/protocol/replies.mjs";
import { MARK, plain } from "./plain.mjs";

/** @typedef {import("../front/types").Refusal} Refusal */

const STATUS = {
  done: 0, commandLine: 2, device: 3, refusedLine: 4, failed: 5, waits: 6, unfinished: 7, otherValue: 8, untold: 9,
  letGo: 10,
};

const LINE_FEED = 10, RETURN = 13;
const MOST_BYTES = 1_048_576; // of a line

// A line of the input, whose pieces come one by one. Of one that is too long a byte more than allowed is kept: it is
// refused alike.
class Line {
  pieces = [];
  length = 0;

  add(piece) {
    if (!this.isTooLong) this.pieces.push(piece);
    this.length += piece.length;
  }

  /** Is it too long, even where its last byte is a CR that is none of the line? */
  get isTooLong() {
    return this.length > MOST_BYTES + 1;
  }

  /** Its bytes as ghcdb takes them: a CR before the line feed is none of it, one before the end of the input is. */
  bytes(hasLineFeed) {
    const bytes = Buffer.concat(this.pieces).subarray(0, MOST_BYTES + 1);
    return hasLineFeed && !this.isTooLong && bytes.at(-1) === RETURN ? bytes.subarray(0, -1) : bytes;
  }
}

/** The pieces of the input. Throws `Ended`, as ghcdb ends, where it cannot be read. */
async function* piecesOf(input) {
  try {
    yield* input;
  } catch {
    throw new Ended("session: F26 device\n", STATUS.device);
  }
}

/** The lines of the input, each as its bytes. */
async function* linesOf(input) {
  let line = new Line();
  for await (const piece of piecesOf(input)) {
    let from = 0;
    for (let end = piece.indexOf(LINE_FEED); end >= 0; end = piece.indexOf(LINE_FEED, from)) {
      line.add(piece.subarray(from, end));
      yield line.bytes(true);
      line = new Line();
      from = end + 1;
    }
    if (from < piece.length) line.add(piece.subarray(from));
  }
  if (line.length > 0) yield line.bytes(false);
}

/** A line as it is sent: of a CR at its end one more is taken off. */
const sent = (line) => (line.at(-1) === RETURN ? Buffer.concat([line, Buffer.from([RETURN])]) : line);

/** The words of a line; of one that is too long, which has a reply whatever it holds, itself. */
const wordsOf = (line) => (line.length > MOST_BYTES ? [line] : line.toString("latin1").split(" ").filter(Boolean));

/**
 * The status of what is left at the end: goals, or else a variable of the query that a step let go. Goals that are too
 * long to be told are left, whatever they are.
 */
async function statusOfGoals(session) {
  const statuses = new Set();
  let hasHole = false;
  const last = await asked(session, "goals", (lines) => {
    hasHole ||= !isWhole(lines);
    Replies.readGoals(lines).forEach(({ status }) => statuses.add(status));
  }, async () => {});
  if (hasHole) return STATUS.untold;
  if (statuses.has("failed")) return STATUS.failed;
  if (statuses.has("ready") || statuses.has("stream") || Replies.isRefused(last)) return STATUS.unfinished;
  if (statuses.size > 0) return STATUS.waits;
  return await isLetGo(session) ? STATUS.letGo : STATUS.done;
}

/** Plays the lines of the input to their end; `teller` hears of each reply as it comes. The exit status. */
async function statusOf(session, input, teller) {
  const hear = (lines) => teller.hear(lines);
  let wasRefused = false, hasHole = false; // a line; a reply, which has a refusal in place of a line
  const learn = (lines, isFirst) => {
    if (isFirst && Replies.isRefused(lines)) wasRefused = true;
    else if (!isWhole(lines)) hasHole = true;
  };
  for await (const line of linesOf(input)) {
    const given = wordsOf(line);
    if (given.length === 1 && given[0] === "quit") break;
    if (given.length === 0) continue;
    teller.begin(line, session);
    await teller.end(await asked(session, sent(line), learn, hear));
  }
  if (wasRefused) return STATUS.refusedLine;
  return hasHole ? STATUS.untold : statusOfGoals(session);
}

/** Tells lines that are added to what the console says. */
const addLines = (errors, lines) => lines.forEach((line) => errors(`${MARK}${plain(line)}\n`));

/**
 * Begins a session for the words of a command line, and gives the exit status that comes of `plays(session)`. Where the
 * program ends by itself, `errors` takes texts that say why, and `ended(error, refusals)` of the teller hears of it,
 * with all that it refuses of its texts.
 * @param {string[]} words
 * @param {{
 *   plays: (session: ScriptSession) => Promise<number>, errors: (text: string) => void,
 *   teller?: { ended: (error: Ended, refusals: Refusal[]) => unknown },
 * }} takers
 */
async function withSession(words, { plays, errors, teller }) {
  if (!isSession(readWords(words))) {
    errors(`${plain(whyNoSession(words))}\n`);
    return STATUS.commandLine;
  }
  const session = new ScriptSession(words);
  try {
    await session.begin();
    const status = await plays(session);
    await session.end();
    return status;
  } catch (error) {
    if (!(error instanceof Ended)) throw error;
    const { kept, texts, native } = session; // nothing is kept where the program, the query or a history was refused
    const refusals = kept === undefined ? await everyRefusal(texts, native, error.errors.trim()) : [];
    errors(error.errors);
    addLines(errors, linesAfterFirst(refusals));
    await teller?.ended(error, refusals);
    return error.status;
  } finally {
    await session.program?.kill(); // whatever it is at
  }
}

/**
 * Gives the lines of the input to a session. `teller` hears of each line: its `begin(line, session)`, then
 * `hear(lines)` of the reply as it comes, and `end(lines)` with its last lines; `ended(error, refusals)` where the
 * program has ended by itself, with all that it refuses of its texts. The exit status.
 */
function play(words, input, teller, errors) {
  return withSession(words, { plays: (session) => statusOf(session, input, teller), errors, teller });
}

/** Writes a text to standard output; it is done when the text was taken. */
const write = (text, encoding) => new Promise((resolve) => { process.stdout.write(text, encoding, resolve); });

/** Ends with the status that comes of the words of the command line. */
async function endWith(plays) {
  process.stdout.on("error", () => process.exit(STATUS.device));
  process.exitCode = await plays(process.argv.slice(2), (text) => process.stderr.write(text));
}

/** Plays the lines of standard input for the words of the command line, and ends with the status. */
async function playStandardInput(teller) {
  await endWith((words, errors) => play(withQuery(words), process.stdin, teller, errors));
  process.stdin.destroy();
}

export { addLines, endWith, play, playStandardInput, statusOfGoals, withSession, write, STATUS };
