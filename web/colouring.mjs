// A line of a program in parts: comments, variables, integers and the rest, as they are coloured; a part of it
// underlined; and which comments fold. Pure.
import * as Tokens from "../front/text/tokens.mjs";

const PLAIN = "", LEAST_FOLDED = 2; // lines of a comment that folds
const COLOURED = ["variable", "integer"], MARKS = [":-", "|"];
const kindOf = ({ kind, text }) => (COLOURED.includes(kind) ? kind : MARKS.includes(text) ? "mark" : PLAIN);

/** Adds a part; parts of one kind become one. */
function add(parts, kind, text) {
  const last = parts[parts.length - 1];
  if (text === "") return;
  if (last !== undefined && last.kind === kind) last.text += text;
  else parts.push({ kind, text });
}

/** What stands between two tokens: blanks, and a comment. */
function addGap(parts, gap) {
  const at = gap.indexOf("%");
  add(parts, PLAIN, at < 0 ? gap : gap.slice(0, at));
  if (at >= 0) add(parts, "comment", gap.slice(at));
}

/** The parts of a line, one after the other, each with its kind; all of them together are the line. */
function partsOf(line) {
  const parts = [];
  let at = 0;
  for (const token of Tokens.tokensOf(line)) {
    addGap(parts, line.slice(at, token.at));
    add(parts, kindOf(token), line.slice(token.at, token.end));
    at = token.end;
  }
  return parts;
}

/** The same, where the letters from a place on, so many, are of the kind `wrong`. */
function partsWithWrong(line, start, length) {
  const end = Math.min(line.length, start + length), parts = [];
  let at = 0;
  for (const { kind, text } of partsOf(line)) {
    const after = at + text.length, within = (place) => Math.max(at, Math.min(place, after));
    add(parts, kind, line.slice(at, within(start)));
    add(parts, "wrong-word", line.slice(within(start), within(end)));
    add(parts, kind, line.slice(within(end), after));
    at = after;
  }
  return parts;
}

/** The first lines of comments of several lines, each with how many they are; 0 is the first of all. */
function commentsIn(lines) {
  const found = [];
  let count = 0;
  for (let at = 0; at <= lines.length; at++) {
    if (at < lines.length && lines[at].trimStart().startsWith("%")) count += 1;
    else {
      if (count >= LEAST_FOLDED) found.push({ at: at - count, count });
      count = 0;
    }
  }
  return found;
}

export { partsOf, partsWithWrong, commentsIn };
