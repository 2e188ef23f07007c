// The keyboard: lines are edited, kept for later sessions, and completed by Tab; ^C and ^D go to those who know what they mean.
import fs from "node:fs";
import readline from "node:readline";
import tty from "node:tty";
import { EventEmitter } from "node:events";
import { inHome, isFile, tried, writeWhole } from "../front/session/files.mjs";
import { plain } from "./plain.mjs";

const HISTORY = inHome(".ghcdb_history");
const MOST_LINES = 1000;
const STANDARD_INPUT = 0;

const MINE = 0o600; // nobody else may read it

/** The last lines of earlier sessions, the last one first. A file that has more than twice as many is cut to these. */
function oldLines() {
  if (!isFile(HISTORY)) return []; // one that is no file might never end
  const lines = tried(() => fs.readFileSync(HISTORY, "utf8"), "").split("\n").filter(Boolean);
  const last = lines.slice(-MOST_LINES);
  if (lines.length > 2 * MOST_LINES) tried(() => writeWhole(HISTORY, `${last.join("\n")}\n`, MINE));
  return last.map(plain).reverse();
}

/** Keeps a line for later sessions, where that can be done. */
function keep(line) {
  if (isFile(HISTORY) || !fs.existsSync(HISTORY)) tried(() => fs.appendFileSync(HISTORY, `${line}\n`, { mode: MINE }));
}

class Keyboard extends EventEmitter {
  /** `complete` gives words for a line; `interrupt` and `end` hear of ^C and ^D. An `error`: the terminal is gone. */
  constructor({ input, output, complete, interrupt, end }) {
    super();
    Object.assign(this, { input, output, complete, interrupt, end });
    this.lines = [];
    this.history = oldLines();
    process.on("SIGINT", () => this.interrupt()); // of a terminal that edits no lines; elsewhere ^C is a key
    this.open();
  }

  open() {
    this.reader = readline.createInterface({
      input: this.input, output: this.output, prompt: "> ", terminal: process.env.TERM !== "dumb", history: this.history, historySize: MOST_LINES,
      completer: (line, callback) => this.complete(line).then(({ words, begun }) => callback(null, [words, begun]), () => callback(null, [[], line])),
    });
    this.reader.on("line", (line) => this.hear(line));
    this.reader.on("history", (history) => { this.history = history; });
    this.reader.on("SIGINT", () => this.interrupt());
    this.reader.on("SIGCONT", () => this.reader.resume()); // after ^Z and `fg` the reader stands still until somebody wakes it
    this.reader.on("error", (error) => this.emit("error", error));
    this.reader.on("close", () => { if (!this.isClosing) this.end(); });
  }

  hear(line) {
    if (line.trim() !== "") keep(line);
    this.lines.push(line);
    this.wake?.();
  }

  /** The next line. */
  async next() {
    while (this.lines.length === 0) {
      this.reader.prompt(true);
      await new Promise((resolve) => { this.wake = resolve; });
    }
    this.wake = undefined;
    return this.lines.shift();
  }

  /** Drops what was typed, and the lines that nobody has taken yet, as ^C does. */
  drop() {
    this.lines.length = 0;
    this.reader.line = "";
    this.reader.cursor = 0;
  }

  prompt() {
    this.reader.prompt();
  }

  /** After ^D the keyboard can be opened again: where no lines are edited, the terminal's own input has ended by it. */
  reopen() {
    this.hasEnded = false;
    try {
      if (this.input.readableEnded) this.input = new tty.ReadStream(STANDARD_INPUT);
      this.open();
    } catch (error) {
      this.emit("error", error);
    }
  }

  close() {
    this.isClosing = true;
    this.reader.close();
  }
}

export { Keyboard };
