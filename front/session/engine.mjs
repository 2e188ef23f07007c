// The engine: the program ghcdb itself, as a WebAssembly module. A session is one instance of it, which waits for the next line.
//
// `web/build` has prepared the module so that it can be left where it reads its input, and entered again there.
import { decode, encode, joined, linesOf } from "../text/bytes.mjs";
import Host from "./host.mjs";

const LEAVING = 1, ENTERING = 2; // states of a module that can be left; 0 is running
const ROOM = 65536; // bytes for what the functions that are left hold
const PROGRAM = "program.ghc", HISTORY = "run.history";

/** The bytes that zlib packed; those of a module, which begin with 0, are handed on as they are. */
async function unpacked(bytes) {
  if (bytes[0] === 0) return bytes;
  try {
    const stream = new Blob([bytes]).stream().pipeThrough(new DecompressionStream("deflate"));
    return await new Response(stream).arrayBuffer();
  } catch (error) {
    throw new Error("the engine that the page carries is damaged", { cause: error });
  }
}

// One run of the program: it goes on until it ends, or waits for input that was not given yet.
class Run {
  /** @param {import("../types").HostGiven} given */
  constructor(compiled, given) {
    this.host = new Host(given);
    this.calls = this.host.instanceOf(compiled, { before: () => this.enter(), wait: () => this.leave() });
    this.room = this.host.heap.take(ROOM);
    new Uint32Array(this.calls.memory.buffer).set([this.room + 8, this.room + ROOM], this.room / 4);
    this.waits = false;
    this.status = undefined; // the exit status, where it has ended by itself
    this.broken = undefined; // why it stopped, where it did not; nothing in it is called after that
    this.goOn();
  }

  // The program reads again what it read when it was left.
  enter() {
    if (this.calls.asyncify_get_state() === ENTERING) this.calls.asyncify_stop_rewind();
  }

  // The program reads input that is not there: it is left.
  leave() {
    this.calls.asyncify_start_unwind(this.room);
    this.waits = true;
  }

  goOn() {
    try {
      if (this.waits) this.calls.asyncify_start_rewind(this.room);
      this.waits = false;
      const status = this.calls.main();
      if (this.calls.asyncify_get_state() === LEAVING) this.calls.asyncify_stop_unwind();
      else this.status = status;
    } catch (error) {
      if (error instanceof Host.Ended) this.status = error.status;
      else this.broken = error.message;
      this.waits = false;
    }
  }

  // Gives further input, and goes on with it.
  give(bytes) {
    this.host.feed(bytes);
    if (this.waits) this.goOn();
  }

  // Ends the input.
  end() {
    this.host.inputEnded = true;
    if (this.waits) this.goOn();
  }

  // What was written to standard output since it was taken last, and to standard error.
  takeOutput() {
    return this.host.takeWritten(Host.OUTPUT);
  }

  // With why it stopped, where it did not end by itself.
  takeErrors() {
    const why = this.broken === undefined ? "" : `the engine stopped: ${this.broken}\n`;
    return joined([this.host.takeWritten(Host.ERRORS), encode(why)]);
  }
}

// A session: lines are told what the program replies to them.
class Session {
  constructor(run) {
    this.run = run;
    this.refused = !run.waits;
    this.start = decode(run.takeOutput()) + this.errors();
  }

  errors() {
    return decode(this.run.takeErrors());
  }

  // It takes no line any more: it was refused, it was told to quit, or the engine stopped.
  get hasEnded() {
    return !this.run.waits;
  }

  // The bytes of the reply to a line.
  bytes(text) {
    if (text.includes("\n")) throw new Error("a line holds no line feed");
    if (this.hasEnded) return new Uint8Array(0);
    this.run.give(encode(`${text}\n`));
    const told = this.run.takeOutput(), errors = this.errors();
    return errors === "" ? told : encode(decode(told) + errors);
  }

  // The lines of the reply to a line.
  line(text) {
    return linesOf(this.bytes(text));
  }

  // The replies to lines.
  lines(texts) {
    return texts.map((text) => this.line(text));
  }
}

class Engine {
  constructor(compiled) {
    this.compiled = compiled;
  }

  // The engine of a module's bytes, packed or not, or of the module that the page carries.
  static async load(bytes) {
    return new Engine(await WebAssembly.compile(await unpacked(bytes ?? Engine.bytesOfBase64(MODULE))));
  }

  static bytesOfBase64(text) {
    return Uint8Array.from(atob(text), (letter) => letter.charCodeAt(0));
  }

  /**
   * Starts the program as a command line would; `words` are those after the program's name.
   * @param {import("../types").HostGiven} given
   */
  start({ words, files, full }) {
    return new Run(this.compiled, { words: [encode("ghcdb"), ...words], files, full });
  }

  /**
   * A session on a program and a query, which goes on from a history where one is given that is not empty.
   * @param {import("../types").Opening} given
   */
  open({ program, query, history }) {
    const words = [PROGRAM, "--query", query];
    const files = new Map([[PROGRAM, encode(program)]]);
    if (history) {
      words.push("--load", HISTORY);
      files.set(HISTORY, encode(history));
    }
    return new Session(this.start({ words: words.map(encode), files }));
  }
}

export default Engine;
