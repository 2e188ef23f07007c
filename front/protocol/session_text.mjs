// A session as a text that one can save and open: the form of the rows of tests/rows/, so that a saved session is a test, too. Pure.
import { queryOf } from "../text/query_comment.mjs";

const escaped = (text) => text.replace(/\{/g, "{7B}");
const unescaped = (text) => text.replace(/\{([0-9A-F]{2})\}/g, (all, digits) => String.fromCharCode(parseInt(digits, 16)));
const barred = (lines) => lines.map((line) => (line === "" ? "|" : `| ${escaped(line)}`));

/** The lines of a value that stands after bars; `{}` at its end says that no line end follows. */
function valueLines(text) {
  if (text.endsWith("\n")) return barred(text.slice(0, -1).split("\n"));
  const lines = barred(text.split("\n"));
  lines[lines.length - 1] += lines[lines.length - 1] === "|" ? " {}" : "{}";
  return lines;
}

/** The text of a session: program, query, the history that it began with, and each line with its reply. */
function write(session) {
  const lines = ["# A session of ghcdb, saved by web/ghcdb.html.", "program:", ...valueLines(session.program), "query:", ...valueLines(session.query)];
  if (session.history) lines.push("file run.history:", ...valueLines(session.history), "options:", "| --load", "| run.history");
  lines.push("session:");
  for (const { line, reply } of session.entries) {
    for (const told of barred([`> ${line}`, ...reply])) lines.push(told);
  }
  return `${lines.join("\n")}\n`;
}

/** The value of the lines with bars that stand from a place on. */
function valueAt(lines, start) {
  let text = "";
  for (let at = start; at < lines.length && lines[at].startsWith("|"); at++) {
    const line = lines[at].slice(2);
    text += line.endsWith("{}") ? unescaped(line.slice(0, -2)) : `${unescaped(line)}\n`;
  }
  return text;
}

/** The lines of the reply to each line of a session. */
function repliesOf(session) {
  const replies = [];
  for (const line of session.split("\n").slice(0, -1)) {
    if (line.startsWith("> ")) replies.push([]);
    else if (replies.length > 0) replies[replies.length - 1].push(line);
  }
  return replies;
}

/** The first reply that is another than the one that was saved: its place, the line and both replies; null where all are the same. */
function firstOther(lines, saved, now) {
  for (let at = 0; at < lines.length && at < saved.length; at++) {
    const reply = now[at] || [];
    if (reply.length !== saved[at].length || reply.some((line, index) => line !== saved[at][index])) return { at, line: lines[at], saved: saved[at], now: reply };
  }
  return null;
}

/** The keys of a saved session, each with its value. */
function values(text) {
  const lines = text.replace(/\r\n/g, "\n").split("\n"), found = new Map();
  lines.forEach((line, at) => {
    const key = /^([a-z][a-z ._]*):(?: (.*))?$/.exec(line);
    if (key) found.set(key[1], key[2] === undefined ? valueAt(lines, at + 1) : unescaped(key[2]));
  });
  return found;
}

/**
 * A session from its text, with the lines that were typed and the reply to each; null where the text is no session. Where it names an
 * example in the place of a program, `exampleOf` gives the program of `append.ghc`, and so on (undefined where there is none); its comment
 * tells the query, where the text has none. An error tells what is wrong with a session.
 */
function read(text, exampleOf) {
  const found = values(text);
  if (!found.has("session") || !(found.has("query") || found.has("example"))) return null;
  const typed = found.get("session").split("\n").filter((line) => line.startsWith("> ")).map((line) => line.slice(2));
  const program = found.has("example") ? exampleOf(found.get("example")) : found.get("program") || "";
  if (program === undefined) throw new Error(`the session names the example ${found.get("example")}, which is not here`);
  const query = found.has("query") ? found.get("query") : queryOf(program) || undefined;
  if (query === undefined) throw new Error("the session has no query");
  return { program, query, history: found.get("file run.history") || "", lines: typed, replies: repliesOf(found.get("session")) };
}

export { write, read, firstOther };
