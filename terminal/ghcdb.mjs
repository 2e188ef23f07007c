// What terminal/ghcdb does; how it is called stands there.
import fs from "node:fs";
import path from "node:path";
import { fileURLToPath } from "node:url";
import { spawnSync } from "node:child_process";
import { completionsOf } from "../front/protocol/complete.mjs";
import { Front } from "./front.mjs";
import { Keyboard } from "./keyboard.mjs";
import { MARK, plain } from "./plain.mjs";
import { nativeProgram } from "../front/session/program.mjs";
import { readWords, isSession } from "../front/protocol/words.mjs";
import { namesFileAlone, whyNoSession, withQuery } from "../front/session/words_with_query.mjs";

const COMMAND_LINE = 2; // a status
const HERE = path.dirname(fileURLToPath(import.meta.url));

const areTerminals = process.stdin.isTTY && process.stdout.isTTY && process.stderr.isTTY;
const typed = process.argv.slice(2), words = areTerminals ? withQuery(typed) : typed;

/** Runs the program alone. */
function runAlone() {
  const native = nativeProgram(), console_ = path.join(HERE, "..", "web", "console");
  if (native === undefined && !fs.existsSync(console_)) {
    process.stderr.write("ghcdb: no program is built, and web/console is not there\n");
    return 127;
  }
  const command = native === undefined ? [process.execPath, [console_, ...words]] : [native, words];
  const { status, signal } = spawnSync(...command, { stdio: "inherit" });
  if (signal !== null) process.stderr.write(`ghcdb was ended by ${signal}\n`);
  return status ?? 70;
}

/** The keyboard of a front: ^C and ^D go to those who know what they mean. */
function keyboardOf(front) {
  const keyboard = new Keyboard({
    input: process.stdin, output: process.stdout,
    complete: async (line) => (front.isBusy ? { begun: line, words: [] } : completionsOf(front.session, line)),
    interrupt: () => {
      keyboard.drop();
      if (front.isBusy) return front.interrupt();
      process.stdout.write(`^C\n${MARK}quit ends; the session stands\n`);
      return keyboard.prompt();
    },
    end: () => {
      process.stdout.write("\n");
      keyboard.lines.push("quit");
      keyboard.wake?.();
      keyboard.hasEnded = true;
    },
  });
  return keyboard;
}

/** Where the terminal is closed, or somebody ends the front, what is not saved is left for the next start. */
function leaveWhenEnded(front, keyboard) {
  const leave = async (signal) => {
    if (front.isLeaving) return;
    front.isLeaving = true;
    await front.leave();
    keyboard.close();
    await front.session.program.kill();
    process.removeAllListeners(signal);
    process.kill(process.pid, signal); // which ends it now as it ends others
  };
  for (const signal of ["SIGTERM", "SIGHUP"]) process.on(signal, () => leave(signal));
  const streams = [process.stdin, process.stdout, process.stderr, keyboard];
  for (const stream of streams) stream.on("error", () => leave("SIGHUP"));
}

/** Answers lines until the session has ended. */
async function talk(front, keyboard) {
  while (!front.hasEnded && !front.isLeaving) {
    await front.answer(await keyboard.next());
    if (keyboard.hasEnded && !front.hasEnded && !front.isLeaving) keyboard.reopen();
  }
  keyboard.close();
  if (!front.isLeaving) process.exit(front.status);
}

/** Plays a session at the terminal. */
async function main() {
  const tell = (stream) => (line) => stream.write(`${line}\n`);
  const front = new Front({ words, native: nativeProgram(), out: tell(process.stdout), errors: tell(process.stderr) });
  await front.begin();
  if (front.hasEnded) process.exit(front.status);
  if (words !== typed) front.note(`the query is that of the program's comment: ${readWords(words).query}`);
  const keyboard = keyboardOf(front);
  leaveWhenEnded(front, keyboard);
  await talk(front, keyboard).catch(async (error) => {
    await front.leave();
    throw error;
  });
}

/** Says what is lacking where no session can begin. */
function tellLacking() {
  process.stderr.write(`ghcdb: ${plain(whyNoSession(words))}\n`);
  return COMMAND_LINE;
}

if (areTerminals && isSession(readWords(words))) main();
else process.exitCode = areTerminals && namesFileAlone(words) ? tellLacking() : runAlone();
