// The record as a console has told it: its bytes, a line for each step, which are added to, cut, or compared with the whole record. Pure.
import * as Replies from "./replies.mjs";

const LINE_END = 10;
const LEAST_ROOM = 4096; // bytes

/** How many bytes two texts have in common at their beginning. */
function commonLength(one, other) {
  const most = Math.min(one.length, other.length), words = most >> 2, first = new Uint32Array(one.buffer, 0, words), second = new Uint32Array(other.buffer, 0, words);
  let word = 0;
  while (word < words && first[word] === second[word]) word++;
  let at = word * 4;
  while (at < most && one[at] === other[at]) at++;
  return at;
}

function countLines(bytes, to = bytes.length) {
  let count = 0;
  for (let at = bytes.indexOf(LINE_END); at >= 0 && at < to; at = bytes.indexOf(LINE_END, at + 1)) count++;
  return count;
}

/** A record that is empty or refused has no line of a step. */
const stepsOf = (reply) => (Replies.beginsWithStep(reply) ? reply : reply.subarray(0, 0));

class Told {
  constructor() {
    this.room = new Uint8Array(LEAST_ROOM);
    this.length = 0; // bytes
    this.count = 0; // lines
  }

  get bytes() {
    return this.room.subarray(0, this.length);
  }

  /** Where the last line begins. */
  get lastLine() {
    return this.length === 0 ? 0 : this.room.lastIndexOf(LINE_END, this.length - 2) + 1;
  }

  /** The number of the last step; null where there is none. */
  get lastNumber() {
    return this.length === 0 ? null : Replies.numberAt(this.room, this.lastLine);
  }

  add(lines) {
    const length = this.length + lines.length;
    if (length > this.room.length) {
      const larger = new Uint8Array(Math.max(length, this.room.length * 2));
      larger.set(this.bytes);
      this.room = larger;
    }
    this.room.set(lines, this.length);
    this.length = length;
    this.count += countLines(lines);
  }

  /** Takes the reply to `records` in place of what is there. Gives how many lines stay, and the text after them. */
  replace(reply) {
    const now = stepsOf(reply), same = commonLength(this.bytes, now), start = same === 0 ? 0 : now.lastIndexOf(LINE_END, same - 1) + 1;
    const kept = countLines(now, start), come = now.slice(start);
    this.length = start;
    this.count = kept;
    this.add(come);
    return { kept, come };
  }

  /**
   * Adds what the reply to `since N` tells, N being the number of the last step. Gives the text after it; null where the reply does not
   * begin with the last line as it was told.
   */
  addSince(reply) {
    const last = this.room.subarray(this.lastLine, this.length);
    if (reply.length < last.length || last.some((byte, at) => byte !== reply[at])) return null;
    const come = reply.slice(last.length);
    this.add(come);
    return come;
  }

  /** Takes the lines of steps away, by a set of their numbers: no line of another step is another for that. */
  take(numbers) {
    const left = new Set(numbers);
    while (left.size > 0 && this.length > 0 && left.delete(this.lastNumber)) {
      this.length = this.lastLine;
      this.count -= 1;
    }
    if (left.size > 0) this.takeWithin(left);
  }

  takeWithin(left) {
    const { room } = this;
    let to = 0;
    for (let at = 0, end = 0; at < this.length; at = end) {
      end = room.indexOf(LINE_END, at) + 1;
      if (left.size > 0 && left.delete(Replies.numberAt(room, at))) {
        this.count -= 1;
        continue;
      }
      if (to < at) room.copyWithin(to, at, end);
      to += end - at;
    }
    this.length = to;
  }
}

Told.countLines = countLines;

export default Told;
