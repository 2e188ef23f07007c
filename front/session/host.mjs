// The host of the engine: what the program asks of the system that it runs on, served from texts in place of files and devices.
//
// The words of the command line and the files are given; standard input is fed piece by piece; what is written to standard
// output and standard error is gathered. There are no folders, no environment and no threads.
import { decode, joined } from "../text/bytes.mjs";
import Heap from "./heap.mjs";

const INPUT = 0, OUTPUT = 1, ERRORS = 2, FIRST_FILE = 3;
// Errors by their numbers on Linux.
const NO_SUCH_FILE = 2, BAD_DESCRIPTOR = 9, NO_THREAD = 11, NO_SPACE = 28, CANNOT_SEEK = 29;
const FROM_START = 0, FROM_HERE = 1;
const NOWHERE = 16; // the place given with "no memory"; nobody looks there
const FEATURES = 32; // bytes that say what a processor can do

// What is thrown where the program ends itself.
class Ended {
  constructor(status) {
    this.status = status;
  }
}

class Host {
  /** @param {import("../types").HostGiven} given */
  constructor({ words, files, full = [] }) {
    this.words = words;
    this.files = files;
    this.full = full;
    this.open = new Map([[INPUT, { bytes: new Uint8Array(0), at: 0 }]]); // by their descriptors bytes, and where they are read next
    this.lastFile = FIRST_FILE - 1;
    this.inputEnded = false; // does the input end after what was fed?
    this.written = new Map([[OUTPUT, []], [ERRORS, []]]);
    this.error = 0;
  }

  // Makes an instance of the module, which asks this host alone, and gives what it exports. `reading.before` is called
  // before anything is read, and `reading.wait` where the program reads input that is not there yet.
  instanceOf(compiled, reading) {
    const asked = WebAssembly.Module.imports(compiled).map(({ name }) => name);
    const { exports } = new WebAssembly.Instance(compiled, { host: this.imports(asked) });
    const calls = /** @type {import("../types").EngineCalls} */ (exports);
    this.memory = calls.memory;
    this.heap = new Heap(this.memory, Number(calls.__heap_base.value));
    this.reading = reading;
    this.features = this.heap.take(FEATURES);
    this.bytes(this.features, FEATURES).fill(255);
    return calls;
  }

  // Adds bytes to the input that is not read yet.
  feed(bytes) {
    const { bytes: before, at } = this.open.get(INPUT);
    this.open.set(INPUT, { bytes: joined([before.subarray(at), bytes]), at: 0 });
  }

  // What was written to a stream since it was taken last.
  takeWritten(stream) {
    const pieces = this.written.get(stream);
    this.written.set(stream, []);
    return joined(pieces);
  }

  // So many bytes of the memory, from a place on.
  bytes(place, length) {
    return new Uint8Array(this.memory.buffer, place, length);
  }

  // The bytes from a place up to a byte 0.
  bytesAt(place) {
    const all = new Uint8Array(this.memory.buffer);
    return all.slice(place, all.indexOf(0, place));
  }

  // Answers that a call has failed, and keeps why for those who ask.
  fail(error) {
    this.error = error;
    return -1;
  }

  // Answers a request for memory by two numbers of 64 bits: 1 where there is some, else 0, and the place.
  answer(at, place) {
    const { words } = this.heap;
    const index = at >>> 2;
    words[index] = place === 0 ? 0 : 1;
    words[index + 1] = 0;
    words[index + 2] = place === 0 ? NOWHERE : place;
    words[index + 3] = 0;
  }

  // Puts a word of the command line into a room: its length, -1 where there is none, -2 where it is too long.
  word(index, to, room) {
    if (index >= this.words.length) return -1;
    const word = this.words[index];
    this.bytes(to, room).set(word.subarray(0, room));
    return word.length <= room ? word.length : -2;
  }

  // A descriptor of a file, from whose beginning it is read. Its name comes as bytes.
  openFile(name) {
    const bytes = this.files.get(decode(name));
    if (bytes === undefined) return this.fail(NO_SUCH_FILE);
    this.lastFile += 1;
    this.open.set(this.lastFile, { bytes, at: 0 });
    return this.lastFile;
  }

  // Puts the next bytes of a file or of the input into a room, and answers how many; 0 at the end.
  read(descriptor, to, most) {
    this.reading.before();
    const reader = this.open.get(descriptor);
    if (reader === undefined) return this.fail(BAD_DESCRIPTOR);
    const piece = reader.bytes.subarray(reader.at, reader.at + most);
    reader.at += piece.length;
    if (piece.length === 0 && descriptor === INPUT && !this.inputEnded) this.reading.wait();
    this.bytes(to, piece.length).set(piece);
    return piece.length;
  }

  write(descriptor, from, length) {
    if (!this.written.has(descriptor)) return this.fail(BAD_DESCRIPTOR);
    if (this.full.includes(descriptor)) return this.fail(NO_SPACE);
    this.written.get(descriptor).push(this.bytes(from, length).slice());
    return length;
  }

  // Sets the place of a file at which it is read next.
  seek(descriptor, offset, from) {
    const reader = this.open.get(descriptor);
    if (reader === undefined || descriptor < FIRST_FILE) return this.fail(CANNOT_SEEK);
    const base = from === FROM_START ? 0 : from === FROM_HERE ? reader.at : reader.bytes.length;
    reader.at = base + offset;
    return reader.at;
  }

  close(descriptor) {
    return this.open.delete(descriptor) ? 0 : this.fail(BAD_DESCRIPTOR);
  }

  // The functions that a module imports, by their names. One that the host does not have stops the engine when it is called, as
  // the one does that waits for another thread to end.
  imports(names) {
    const calls = this.calls();
    const lacks = (name) => () => { throw new Error(`the program asked for ${name}, which a page does not have`); };
    return Object.fromEntries(names.map((name) => [name, calls[name] ?? lacks(name)]));
  }

  // What the host answers to each call. A number of 64 bits comes and goes as a BigInt.
  calls() {
    const wide = BigInt;
    return {
      rattle_alloc: (at, bytes) => this.answer(Number(at), this.heap.take(Number(bytes))),
      rattle_realloc: (at, place, kept, bytes) =>
        this.answer(Number(at), this.heap.resize(Number(place), Number(kept), Number(bytes))),
      rattle_dealloc: (place) => this.heap.give(Number(place)),
      rattle_arg: (index, to, room) => wide(this.word(Number(index), Number(to), Number(room))),
      rattle_errno: () => this.error,
      rattle_set_errno: (error) => { this.error = error; },
      open: (name) => this.openFile(this.bytesAt(Number(name))),
      read: (descriptor, to, most) => wide(this.read(descriptor, Number(to), Number(most))),
      write: (descriptor, from, length) => wide(this.write(descriptor, Number(from), Number(length))),
      lseek: (descriptor, offset, from) => wide(this.seek(descriptor, Number(offset), from)),
      close: (descriptor) => this.close(descriptor),
      __write: (descriptor, from, length) => wide(this.write(descriptor, Number(from), Number(length))),
      // The program asks first whether the processor has all that its code for x86-64 needs. This code needs nothing of it: yes.
      __x86_get_cpuid_feature_leaf: () => wide(this.features),
      __sysv_signal: () => 0n, // the one signal that the program asks about, of a pipe that is closed, never comes here
      sched_yield: () => 0,
      syscall: () => 0n, // that of futexes: the one thread wakes nobody, and sleeps for no time
      // There is one processor; which of them the thread may use is not told.
      sysconf: () => 1n,
      sched_getaffinity: () => -1,
      // No thread can be had: where the program asks for one, it makes the run by the one that it has.
      malloc: (bytes) => wide(this.heap.take(Number(bytes))),
      free: (place) => { if (place !== 0n) this.heap.give(Number(place)); },
      pthread_attr_init: () => 0,
      pthread_attr_setguardsize: () => 0,
      pthread_attr_destroy: () => 0,
      pthread_create: () => NO_THREAD,
      // A program that may have started threads ends so, wherever they are.
      _exit: (status) => { throw new Ended(status); },
    };
  }
}

Host.OUTPUT = OUTPUT;
Host.ERRORS = ERRORS;
Host.Ended = Ended;

export default Host;
