// Shortens terms that are too long to be shown, before the worker hands them over: `…` stands for what is left out. Pure.
import { joined } from "../text/bytes.mjs";
import * as Printed from "../text/printed.mjs";
import { openBrackets } from "../text/tokens.mjs";
import * as Replies from "./replies.mjs";

const MOST = 20000; // letters of a term, a goal or a binding
const LINE_END = 10;
const PLACES = "([,|", CLOSING = { "(": ")", "[": "]" };

/** A term or a goal in at most some letters and its closing brackets: one part of it is `…`, and nothing stands after that. */
function term(text, most = MOST) {
  if (text.length <= most) return text;
  let end = most;
  while (end > 0 && !PLACES.includes(text[end - 1])) end -= 1;
  if (end === 0) return `${text.slice(0, most)}…`;
  const open = openBrackets(text.slice(0, end), (letter) => letter);
  const isRest = open.at(-1) === "[" && text[end - 1] === ",";
  return `${isRest ? `${text.slice(0, end - 1)}|` : text.slice(0, end)}…${open.reverse().map((bracket) => CLOSING[bracket]).join("")}`;
}

const arityOf = (call) => Number(Printed.predicateOf(call).split("/")[1]);

/** The same of a goal's text: of a call each later argument is `…`, too, so that its predicate is the same. */
function goalText(text, most = MOST) {
  const short = term(text, most), isCall = Printed.sortOfText(text) === "call" && short.endsWith(")");
  if (short === text || !isCall) return short;
  return `${short.slice(0, -1)}${",…".repeat(arityOf(text) - arityOf(short))})`;
}

/** A line of `records`, with the terms that its step bound shortened. */
const record = (line, most = MOST) => (line.length <= most ? line : Replies.withTerms(line, (bound) => term(bound, most)));

/** A line of `goals`, or one that tells a goal, with its goal shortened. */
function goal(line, most = MOST) {
  if (line.length <= most) return line;
  const before = Replies.beforeGoal(line);
  return before + goalText(line.slice(before.length), most);
}

/** A line of any reply, with its terms shortened; the same where it is short, or tells none. */
function line(text, most = MOST) {
  if (text.length <= most) return text;
  const changed = record(text, most), before = Replies.beforeTerm(text), after = Replies.afterTerm(text);
  return changed !== text || before === "" ? changed : before + term(text.slice(before.length, text.length - after.length), most) + after;
}

/** The bytes of lines, each long one shortened by `record` or `goal`; the same bytes where none is long. */
function lines(bytes, shorten, most = MOST) {
  const parts = [];
  let taken = 0; // of the bytes
  for (let at = 0, end = 0; at < bytes.length; at = end + 1) {
    end = bytes.indexOf(LINE_END, at);
    if (end < 0) end = bytes.length;
    if (end - at <= most) continue;
    const line = new TextDecoder().decode(bytes.subarray(at, end));
    parts.push(bytes.subarray(taken, at), new TextEncoder().encode(shorten(line, most)));
    taken = end;
  }
  return parts.length === 0 ? bytes : joined([...parts, bytes.subarray(taken)]);
}

export { term, goalText, record, goal, line, lines, MOST };
