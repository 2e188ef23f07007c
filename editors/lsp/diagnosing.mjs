// What is wrong with a program: ghcdb itself reads it, and all its refusals are told with their causes; else the notes.
import * as Causes from "../../front/text/causes.mjs";
import { everyRefusal } from "../../front/session/every_refusal.mjs";
import { Places, queryOf } from "../dap/places.mjs";

const ERROR = 1, WARNING = 2; // as the protocol numbers them
const NO_QUERY = "true"; // what is asked where the program's comment has no query
const START = { start: { line: 0, character: 0 }, end: { line: 0, character: 1 } };

/** Where a cause stands in the program's text: of the query's, in the comment. */
function rangeOf(cause, places) {
  const spot = places.spotOfCause(cause);
  return { start: { line: spot.line, character: spot.column }, end: { line: spot.endLine, character: spot.endColumn } };
}

/** @typedef {import("../../front/types").Refusal} Refusal */

/** @param {Refusal["cause"]} cause */
const messageOf = ({ title, hints, isQuery }) => [`${isQuery ? "query: " : ""}${title.replace(/^note: /, "")}`, ...hints].join("\n");

/** The diagnostics of a program's text. */
async function diagnosticsOf(text, native) {
  const query = queryOf(text) || NO_QUERY, places = new Places({ file: "program", text, query }, 0);
  const told = (cause) => ({ source: "ghcdb", range: rangeOf(cause, places), message: messageOf(cause) });
  /** @param {Refusal} refusal */
  const refused = ({ said, lines, cause }) => {
    const [code] = /F\d+/.exec(said) ?? [], message = [said, ...lines].join("\n");
    const about = cause === undefined ? { source: "ghcdb", range: START, message } : told(cause);
    return { severity: ERROR, ...about, ...(code && { code }) };
  };
  const refusals = await everyRefusal({ text, query }, native);
  if (refusals.length > 0) return refusals.map(refused);
  return Causes.notesOn(text, "program").map((cause) => ({ severity: WARNING, ...told(cause) }));
}

export { diagnosticsOf };
