// A session as the end of an address: its text without replies, compressed, in letters that an address can hold. Pure, but for the browser's own
// compression.
const MOST = 8192; // letters of an address that all programs take
const MOST_READ = 3000000, MOST_LINES = 20000; // bytes of a session's text, and lines of the session
const PIECE = 0x2000;
const DEFLATED = 0x10000, INFLATED = 1024; // bytes that are taken at once; these become a megabyte at most

function inParts(bytes, part) {
  let at = 0;
  return new ReadableStream({
    pull(controller) {
      controller.enqueue(bytes.subarray(at, at + part));
      at += part;
      if (at >= bytes.length) controller.close();
    },
  });
}

/** The bytes that a stream makes of others. Where they are more than `most`, an error, and no more are made. */
async function through(stream, bytes, part, most = Infinity) {
  const reader = inParts(bytes, part).pipeThrough(stream).getReader(), parts = [];
  let length = 0;
  for (let part = await reader.read(); !part.done; part = await reader.read()) {
    parts.push(part.value);
    length += part.value.length;
    if (length <= most) continue;
    reader.cancel();
    throw new RangeError(`it has more than ${most.toLocaleString("en")} bytes`);
  }
  return new Uint8Array(await new Blob(parts).arrayBuffer());
}

function toLetters(bytes) {
  let letters = "";
  for (let at = 0; at < bytes.length; at += PIECE) letters += String.fromCharCode(...bytes.subarray(at, at + PIECE));
  return btoa(letters).replace(/\+/g, "-").replace(/\//g, "_").replace(/=+$/, "");
}

const toBytes = (letters) => Uint8Array.from(atob(letters.replace(/-/g, "+").replace(/_/g, "/")), (letter) => letter.charCodeAt(0));

/** The letters of a text. */
async function pack(text) {
  return toLetters(await through(new CompressionStream("deflate-raw"), new TextEncoder().encode(text), DEFLATED));
}

/** The text of letters. An error where they are none of `pack`, or the text is too long. */
async function unpack(letters) {
  const bytes = await through(new DecompressionStream("deflate-raw"), toBytes(letters), INFLATED, MOST_READ);
  return new TextDecoder("utf-8", { fatal: true }).decode(bytes);
}

/** Tests that a session has no more lines than are read. */
function testLines({ lines }) {
  if (lines.length > MOST_LINES) throw new RangeError(`it has more than ${MOST_LINES.toLocaleString("en")} lines`);
}

const isThere = () => typeof CompressionStream !== "undefined";

export { pack, unpack, testLines, isThere, MOST, MOST_READ, MOST_LINES };
