// The Debug Adapter Protocol's messages: texts of JSON, each after a head that tells its length in bytes.
import { tried } from "../../front/session/files.mjs";

const HEAD_END = "\r\n\r\n";
const LONGEST_HEAD = 65_536, LONGEST_BODY = 268_435_456; // bytes: what is longer comes from no editor, and is an end

/** A message as it is sent. */
function encode(message) {
  const body = Buffer.from(JSON.stringify(message));
  return Buffer.concat([Buffer.from(`Content-Length: ${body.length}${HEAD_END}`), body]);
}

// Takes bytes as they come, and gives the messages that are whole. What is no JSON is left out. Each byte is copied
// once or twice, however many pieces a message comes in.
class Decoder {
  constructor(hear) {
    this.hear = hear;
    this.pieces = []; // that are not taken apart yet
    this.length = 0; // of them together
    this.wanted = 0; // bytes without which there is nothing to be taken apart
  }

  take(piece) {
    this.pieces.push(piece);
    this.length += piece.length;
    while (this.length > 0 && this.length >= this.wanted && this.takeMessage());
  }

  /** Takes a message; false where none is whole. */
  takeMessage() {
    const bytes = this.pieces.length === 1 ? this.pieces[0] : Buffer.concat(this.pieces, this.length);
    this.pieces = [bytes];
    const end = bytes.indexOf(HEAD_END);
    if (end < 0 && this.length > LONGEST_HEAD) throw new RangeError(`a head of more than ${LONGEST_HEAD} bytes`);
    if (end < 0) return false;
    const found = /^content-length: *(\d+)/im.exec(bytes.toString("latin1", 0, end)), start = end + HEAD_END.length;
    const length = found === null ? 0 : Number(found[1]);
    if (length > LONGEST_BODY) throw new RangeError(`a message of ${length} bytes`);
    this.wanted = start + length;
    if (this.length < this.wanted) return false;
    const message = tried(() => JSON.parse(bytes.toString("utf8", start, this.wanted)));
    this.keep(bytes.subarray(this.wanted));
    if (message !== undefined) this.hear(message);
    return true;
  }

  keep(rest) {
    this.pieces = rest.length === 0 ? [] : [rest];
    this.length = rest.length;
    this.wanted = 0;
  }
}

const LATE = 1000; // milliseconds in which an editor may take the last messages

// Messages from one stream to another. While the editor takes none of those that were sent, nothing more is read.
class Wire {
  /** `hear` takes the messages; `gone` is the status of the process where the editor closes its end. */
  constructor(input, output, { hear, gone }) {
    this.input = input;
    this.output = output;
    const decoder = new Decoder(hear);
    output.on("error", () => process.exit(gone)); // the editor has gone
    output.on("drain", () => input.resume());
    input.on("data", (piece) => this.read(decoder, piece));
    input.on("end", () => this.leave(gone));
  }

  read(decoder, piece) {
    try {
      decoder.take(piece);
    } catch (error) {
      if (!(error instanceof RangeError)) throw error;
      process.stderr.write(`ghcdb: ${error.message}\n`);
      process.exit(1);
    }
  }

  send(message) {
    if (!this.output.write(encode(message))) this.input.pause();
  }

  /** Ends the process when all that was sent is taken. */
  leave(status) {
    if (this.isLeaving) return;
    this.isLeaving = true;
    setTimeout(() => process.exit(status), LATE);
    this.output.write("", () => process.exit(status));
  }
}

export { encode, Decoder, Wire };
