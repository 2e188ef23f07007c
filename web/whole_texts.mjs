// Texts that are too long to be taken, or have a hole where memory ran out, and the words for it. Pure.
import * as Replies from "../front/protocol/replies.mjs";

const MOST_BYTES = 1048576; // of a program that ghcdb takes
const HOLE = "memory was refused for a line of it (F1 no memory)";
const AGAIN = "Undo or roll some steps, then type save again";

/** Has an entry the reply to `save`, with a hole in it? */
const isBroken = (entry) => entry.line.trim().startsWith("save") && Replies.hasHole(entry.reply.join("\n"));

const isTooLong = (program) => program.length > MOST_BYTES;
const tellTooLong = (program) => `it has ${program.length.toLocaleString("en")} letters, and ghcdb takes a program of ${MOST_BYTES.toLocaleString("en")} bytes at most`;

export { HOLE, AGAIN, isBroken, isTooLong, tellTooLong };
