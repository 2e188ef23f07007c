// What web/console does; how it is called stands there.
import v8 from "node:v8";
import fs from "node:fs";
import Host from "../front/session/host.mjs";
import { moduleOfPage } from "../front/session/engine_of_page.mjs";

// A session of a process is short: to make better code of the module, in threads beside, costs more than that code
// saves up to 200,000 steps and more.
v8.setFlagsFromString("--liftoff-only");

const BROKEN = 70;
const BAD_DESCRIPTOR = 9, CANNOT_SEEK = 29, INPUT_OUTPUT = 5; // errors by their numbers on Linux
const MOST_AT_ONCE = 0x7ffff000; // bytes that the system reads or writes by one call

// The words of the command line as bytes: Node gives texts, in which bytes that are no UTF-8 are lost.
function wordsGiven() {
  const given = process.argv.slice(2);
  try {
    const words = fs.readFileSync("/proc/self/cmdline", "latin1").split("\0").slice(0, -1);
    return words.slice(words.length - given.length).map((word) => Buffer.from(word, "latin1"));
  } catch {
    return given.map((word) => Buffer.from(word));
  }
}

// A host whose files and streams are the system's.
class SystemHost extends Host {
  constructor(words, closed) {
    super({ words, files: new Map() });
    this.closed = closed;
  }

  // The answer to a call on a descriptor; -1 where it fails, and the system's number of why is kept.
  asked(descriptor, call) {
    if (this.closed.includes(String(descriptor))) return this.fail(BAD_DESCRIPTOR);
    try {
      return call();
    } catch (error) {
      return this.fail(-error.errno || INPUT_OUTPUT);
    }
  }

  openFile(name) {
    return this.asked(undefined, () => fs.openSync(Buffer.from(name), "r"));
  }

  read(descriptor, to, most) {
    const room = this.bytes(to, Math.min(most, MOST_AT_ONCE));
    return this.asked(descriptor, () => fs.readSync(descriptor, room, 0, room.length, null));
  }

  write(descriptor, from, length) {
    const text = this.bytes(from, Math.min(length, MOST_AT_ONCE));
    return this.asked(descriptor, () => fs.writeSync(descriptor, text));
  }

  // Node sets the place of no open file; the program never asks for it.
  seek() {
    return this.fail(CANNOT_SEEK);
  }

  close(descriptor) {
    return this.asked(descriptor, () => (fs.closeSync(descriptor), 0));
  }
}

// Runs the program on words, and gives its exit status.
function run(words) {
  const host = new SystemHost([Buffer.from("ghcdb"), ...words], process.env.GHCDB_CLOSED ?? "");
  const { main } = host.instanceOf(new WebAssembly.Module(moduleOfPage()));
  try {
    return main();
  } catch (error) {
    if (error instanceof Host.Ended) return error.status;
    throw error;
  }
}

try {
  process.exitCode = run(wordsGiven());
} catch (error) {
  process.exitCode = BROKEN;
  fs.writeSync(2, `ghcdb: the engine stopped: ${error.message}\n`);
}
