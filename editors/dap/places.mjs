// Where things stand, for an editor: in the program's file, in the query's comment there, or in a text that is in no file. An editor may
// count lines and columns from 0 or from 1.
import path from "node:path";
import * as Causes from "../../front/text/causes.mjs";
import { COMMENT, queryOf } from "../../front/text/query_comment.mjs";

const QUERY = 1, STEPS = 2, SHELF = 3; // references of the texts that are in no file
const NAMES = { [QUERY]: "query", [STEPS]: "kept steps", [SHELF]: "taken back" };

class Places {
  /** The places of a program's file with its text, and of a query; `first` is the number of the first line, 0 or 1. */
  constructor({ file, text, query }, first) {
    this.file = file;
    this.program = text;
    this.queryText = query;
    this.first = first;
    const found = COMMENT.exec(text);
    if (found === null || found[1] !== query) return;
    const at = found.index + found[0].length - query.length;
    this.query = { line: text.slice(0, at).split("\n").length, letter: at - text.lastIndexOf("\n", at - 1) };
  }

  /** A number of ours, as the editor counts. */
  shown(number) {
    return number - 1 + this.first;
  }

  /** A number of the editor's, as we count. */
  meant(number) {
    return number + 1 - this.first;
  }

  source() {
    return { name: path.basename(this.file), path: this.file };
  }

  virtual(reference) {
    return { name: NAMES[reference], sourceReference: reference };
  }

  at(source, { line, letter, endLine, endLetter }) {
    return { source, line: this.shown(line), column: this.shown(letter), endLine: this.shown(endLine), endColumn: this.shown(endLetter) };
  }

  /** Where a clause stands, whole. */
  placeOf({ line, letter, endLine }) {
    const lines = this.program.split("\n").slice(line - 1, endLine);
    return { line, letter, endLine, endLetter: lines.at(-1).length + 1 };
  }

  /** Where a goal was called: a place of Run's. */
  spotOf(place) {
    if (place !== undefined && place.clause > 0) return this.at(this.source(), place);
    const inQuery = place ?? { line: 1, letter: 1, endLine: 1, endLetter: 1 };
    if (this.query === undefined) return this.at(this.virtual(QUERY), inQuery);
    const { line, letter } = this.query, shift = (column) => column + letter - 1;
    return this.at(this.source(), { line, letter: shift(inQuery.letter), endLine: line, endLetter: shift(inQuery.endLetter) });
  }

  /** Where the cause of a refusal or a note stands. */
  spotOfCause(cause) {
    const { line, length, isQuery } = cause, letter = Causes.letterOf(cause, isQuery ? this.queryText : this.program);
    return this.spotOf({ clause: isQuery ? 0 : 1, line, letter, endLine: line, endLetter: letter + length });
  }
}

export { Places, queryOf, QUERY, STEPS, SHELF };
