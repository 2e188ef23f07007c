// Bytes, and the texts that they are in UTF-8. Pure.

const encode = (text) => new TextEncoder().encode(text);
const decode = (bytes) => new TextDecoder().decode(bytes);

/** The lines of bytes, each of which ends with a line feed. */
const linesOf = (bytes) => decode(bytes).split("\n").slice(0, -1);

/** The bytes of all parts, one after the other. */
function joined(parts) {
  const all = new Uint8Array(parts.reduce((sum, part) => sum + part.length, 0));
  let at = 0;
  for (const part of parts) {
    all.set(part, at);
    at += part.length;
  }
  return all;
}

export { decode, encode, joined, linesOf };
