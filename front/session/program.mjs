// A session of ghcdb, to which lines are given one by one: of the native program, which runs beside Node, or of the
// engine of web/ghcdb.html, which runs in a thread of its own. Both answer alike, and both can be ended while they
// are at work.
import fs from "node:fs";
import os from "node:os";
import path from "node:path";
import v8 from "node:v8";
import { Worker } from "node:worker_threads";
import { fileURLToPath } from "node:url";
import { spawn } from "node:child_process";
import { moduleOfPage, THREAD } from "./engine_of_page.mjs";
import { tried } from "./files.mjs";

const HERE = path.dirname(fileURLToPath(import.meta.url));

const NATIVE = path.join(HERE, "..", "..", "crates", "ghcdb", "out", "ghcdb");

// What is thrown where the program has ended: what it wrote to standard error, and its status.
class Ended extends Error {
  constructor(errors, status) {
    super(errors.trim() || `ghcdb ended with status ${status}`);
    this.errors = errors;
    this.status = status;
  }
}

/** What a promise gives; where the program ends beneath it, what `otherwise` makes of that. */
const unlessEnded = (promise, otherwise) => promise.catch((error) => {
  if (error instanceof Ended) return otherwise(error);
  throw error;
});

// A line after each other line, whose reply ends the other's. No session has such a variable, and each line has a
// reply of a line at least: so the first line of a reply is never the mark.
const MARK = "show _4294967295_9", MARK_REPLY = "F23 no variable\n";
const LINE_FEED = 10;

// Memory may be refused for the mark's line itself, and then nothing more comes. Where the last line is such a refusal
// and nothing follows it for a while, another mark is sent: the first one has the line before, whatever that says.
const NO_MEMORY = "F1 no memory\n", MARK_LATE = 300;
const OTHER_MARK = "why 4294967295", OTHER_REPLY = "F16 not a kept step\n";

const KILLED = 70; // the status where a signal ended the program

// The names by which a program opens texts that are handed to it, so that no folder is wanted for them.
const HANDED = { history: "/dev/fd/3", program: "/dev/fd/4" };

// Node's pipes are sockets, which nobody can open by a name: `cat` makes pipes of them, and the program starts then.
const HAND_OVER = "exec 8>&2 9<&0 2>/dev/null; cat <&3 3<&- 4<&- 8>&- 9<&- | "
  + "{ exec 3<&0; cat <&4 3<&- 4<&- 8>&- 9<&- | { exec 4<&0 <&9 2>&8 8>&- 9<&-; exec \"$@\"; }; }";
const SIGNALLED = 128; // the status of a shell whose program a signal ended: the signal's number more than this

// Ends a group of processes when its own input ends, which Node alone holds open: so when Node ends, even by SIGKILL.
const WATCH = 'read -r line; kill -9 "-$1"';

/** Starts a program in a group of its own, away from the terminal's ^C. It opens `files` by the names of `HANDED`. */
function start(program, words, files) {
  if (files.size === 0) return spawn(program, words, { stdio: ["pipe", "pipe", "pipe"], detached: true });
  const options = { stdio: Array(5).fill("pipe"), detached: true };
  const child = spawn("sh", ["-c", HAND_OVER, "sh", program, ...words], options);
  for (const [stream, name] of [[3, HANDED.history], [4, HANDED.program]]) {
    child.stdio[stream]?.on("error", () => {}); // it was not read to its end
    child.stdio[stream]?.end(files.get(name) ?? "");
  }
  return child;
}

/** Starts who ends a group when Node ends. Where there is no `sh` the program ends when it reads its next line. */
function startWatcher(group) {
  const options = { stdio: ["pipe", "ignore", "ignore"], detached: true };
  const watcher = spawn("sh", ["-c", WATCH, "sh", String(group)], options);
  watcher.on("error", () => {});
  watcher.unref();
  watcher.stdin?.unref();
  return watcher;
}

/** The name of the signal that ended a program; undefined where none did. */
function signalOf(status, signal) {
  const { signals } = os.constants;
  return signal ?? Object.keys(signals).find((name) => signals[name] === status - SIGNALLED);
}

// What both kinds of sessions do: one line at a time is asked, and what comes of it can be held back for a while.
class Talk {
  before = Promise.resolve(); // what was asked before
  /** @type {Ended | undefined} */
  ended = undefined;

  /** Hands a line to the program: each kind of session does so in its own way. */
  send(line) {
    throw new TypeError(`there is no program for ${line}`);
  }

  /**
   * The lines of the reply to a line, a text or bytes, which has a word at least; to several lines, all their replies.
   * `hear` may take the first lines of a long reply as they come, and is waited for; then the reply is what comes after
   * them.
   */
  ask(line, hear) {
    const asked = this.before.then(() => this.askNow(line, hear));
    this.before = asked.catch(() => {});
    return asked;
  }

  askNow(line, hear) {
    if (this.ended) return Promise.reject(this.ended);
    return new Promise((resolve, reject) => {
      this.waiting = { resolve, reject, hear };
      this.send(line);
    });
  }

  get isBusy() {
    return this.waiting !== undefined;
  }

  /** Tells who waits what came of the line. */
  settle(tell) {
    if (this.isHeld) this.heldBack = tell;
    else if (this.isBusy) {
      const { waiting } = this;
      this.waiting = undefined;
      tell(waiting);
    }
  }

  close(ended) {
    this.ended ??= ended;
    this.settle(({ reject }) => reject(this.ended));
  }

  /** Nothing that comes of the line is told any more. */
  giveUp() {
    this.isHeld = false;
    this.close(new Ended("the session was ended", 0));
  }

  /** Holds back what comes of the line that is asked, until `release`. */
  hold() {
    this.isHeld = true;
  }

  release() {
    this.isHeld = false;
    const { heldBack } = this;
    this.heldBack = undefined;
    if (heldBack !== undefined) this.settle(heldBack);
  }
}

class NativeSession extends Talk {
  constructor(program, words, files) {
    super();
    this.child = start(program, words, files);
    this.pieces = [];
    this.errors = "";
    this.child.stdout.on("data", (piece) => this.gather(piece));
    this.child.stderr.on("data", (piece) => { this.errors += piece; });
    this.child.stdin.on("error", () => {}); // told by the end of the program
    this.ending = new Promise((resolve) => {
      this.child.on("error", (error) => resolve(new Ended(`${program}: ${error.message}`, 127)));
      this.child.on("close", (status, signal) => resolve(this.endedBy(status, signalOf(status, signal))));
    });
    this.ending.then((ended) => this.close(ended));
    this.endWithNode();
  }

  endedBy(status, signal) {
    if (signal === undefined) return new Ended(this.errors, status);
    return new Ended(`${this.errors}ghcdb was ended by ${signal}\n`, KILLED);
  }

  /** Nobody else ends the program when Node ends, since it is in a group of its own. */
  endWithNode() {
    if (this.child.pid === undefined) return;
    const watcher = startWatcher(this.child.pid), end = () => this.signal("SIGKILL");
    process.once("exit", end);
    this.ending.then(() => {
      watcher.kill("SIGKILL");
      process.removeListener("exit", end);
    });
  }

  /** Sends a signal to the program, and to those who hand it its texts. */
  signal(name) {
    if (this.ended || this.child.pid === undefined) return;
    tried(() => process.kill(-this.child.pid, name)); // they may have ended by now
  }

  /** Is the reply whole? Its last line is the last mark's, and it has another one. */
  isWhole() {
    const mark = this.isMarkedAgain ? OTHER_REPLY : MARK_REPLY;
    if (!this.endsWith(mark)) return false;
    const end = this.pieces.at(-1), isLonger = end.length > mark.length;
    return (isLonger ? end.at(-mark.length - 1) : this.pieces.at(-2)?.at(-1)) === LINE_FEED;
  }

  /** Does what came end with a line? */
  endsWith(line) {
    if (this.pieces.at(-1).length < line.length) this.pieces = [Buffer.concat(this.pieces)];
    return this.pieces.at(-1).subarray(-line.length).equals(Buffer.from(line));
  }

  /** Sends another mark where the first may have been refused; where that one may have been, too, ends the program. */
  markLater() {
    if (!this.endsWith(NO_MEMORY)) return;
    this.marksLate = setTimeout(() => {
      if (!this.isBusy || this.isHeld) return;
      if (this.isMarkedAgain) this.signal("SIGKILL");
      else this.child.stdin.write(`${OTHER_MARK}\n`);
      this.isMarkedAgain = true;
    }, MARK_LATE);
  }

  /** The lines of a whole reply, without those of the marks. */
  static linesOf(pieces, isMarkedAgain) {
    return Buffer.concat(pieces).toString("latin1").split("\n").slice(0, isMarkedAgain ? -3 : -2);
  }

  gather(piece) {
    this.pieces.push(piece);
    if (!this.isBusy) return undefined;
    clearTimeout(this.marksLate);
    if (!this.isWhole()) {
      this.markLater();
      return this.handOn(this.waiting);
    }
    const { pieces, isMarkedAgain } = this;
    this.pieces = [];
    this.isMarkedAgain = false;
    return this.settle(({ resolve, reject }) => {
      try {
        resolve(NativeSession.linesOf(pieces, isMarkedAgain));
      } catch (error) {
        reject(error); // the reply is longer than any text can be
      }
    });
  }

  /** Hands on the lines that are whole, but for the last: the mark may follow it. It reads on when they are taken. */
  handOn({ hear, reject }) {
    if (hear === undefined || !this.pieces.at(-1).includes(LINE_FEED)) return;
    const bytes = Buffer.concat(this.pieces), end = bytes.lastIndexOf(LINE_FEED, bytes.lastIndexOf(LINE_FEED) - 1);
    this.pieces = [bytes.subarray(end + 1)];
    if (end < 0) return;
    this.child.stdout.pause();
    hear(bytes.toString("latin1", 0, end).split("\n")).then(() => this.child.stdout.resume(), reject);
  }

  send(line) {
    this.child.stdin.write(Buffer.concat([Buffer.from(line), Buffer.from(`\n${MARK}\n`)]));
  }

  hold() {
    super.hold();
    this.signal("SIGSTOP");
  }

  release() {
    this.signal("SIGCONT");
    super.release();
  }

  /** Ends the session as the end of its input does. */
  async end() {
    this.child.stdin.end();
    return (await this.ending).status;
  }

  /** Ends the program, whatever it is at. */
  async kill() {
    this.signal("SIGKILL");
    this.giveUp();
    await this.ending;
  }
}

let compiled;

/** The module that the page carries, which is compiled once. */
const ofPage = () => {
  v8.setFlagsFromString("--liftoff-only"); // better code costs more than it saves up to a million steps
  return (compiled ??= new WebAssembly.Module(moduleOfPage()));
};

class EngineSession extends Talk {
  constructor(words, files) {
    super();
    this.worker = new Worker(THREAD, { workerData: { words, files, compiled: ofPage() } });
    this.worker.on("message", (told) => this.hear(told));
    this.worker.on("error", (error) => this.close(new Ended(error.message, 70)));
    this.worker.on("exit", () => this.close(new Ended("the engine ended", 70)));
    this.worker.unref();
  }

  hear({ reply, errors, status }) {
    if (status !== undefined) return this.close(new Ended(errors, status));
    this.worker.unref();
    return this.settle(({ resolve }) => resolve(reply));
  }

  send(line) {
    this.worker.ref();
    this.worker.postMessage(line);
  }

  async end() {
    const status = this.ended?.status ?? 0;
    await this.kill();
    return status;
  }

  async kill() {
    this.giveUp();
    await this.worker.terminate();
  }
}

/** The native program to use: the one that is named, else the proved one where it was built; undefined for the page's engine. */
function nativeProgram(named = process.env.GHCDB) {
  if (named === "page") return undefined;
  return named || tried(() => fs.accessSync(NATIVE, fs.constants.X_OK) ?? NATIVE);
}

/**
 * A session begun with the words of a command line; it ends at once where these are refused. `files` has texts as
 * bytes, by the names of `HANDED`, by which the words name them.
 */
function open(words, native = nativeProgram(), files = new Map()) {
  return native === undefined ? new EngineSession(words, files) : new NativeSession(native, words, files);
}

export { open, nativeProgram, ofPage, unlessEnded, Ended, HANDED };
