// Shows what was answered where one looks, above the picture: refusals and why, notes on a program, causes, who bound a
// variable; and lights the steps that it names.
import * as Replies from "../front/protocol/replies.mjs";
import * as Terms from "../front/run/terms.mjs";
import * as Causes from "../front/text/causes.mjs";
import Deeds from "./deeds.mjs";
import { find, make, joined, linkedLine } from "./elements.mjs";
import * as Names from "./names.mjs";
import State from "./state.mjs";
import { HOLE, AGAIN, isBroken } from "./whole_texts.mjs";

const MOST_SHOWN = 8; // lines
const MOST_NOTED = 200000; // letters: of a longer program no notes are made, and no cause of a refusal is looked for
const TOO_LONG = "The program is so long that the page does not look for the cause.";

const wordsOf = (line) => line.trim().replace(/ +/g, " ");

/** Says something above the picture: `isBad` where something was refused. */
function put(isBad, ...parts) {
  find("answer-words").replaceChildren(...parts);
  Names.dress(find("answer-words"));
  find("answer").classList.toggle("refused", isBad);
  find("answer").hidden = false;
}

/** A cause of the module Causes, as elements: title, the text's line with a caret, hints. */
function causeParts(cause, text) {
  const [title, ...lines] = Causes.linesOf(cause, text), place = lines.splice(0, 4).join("\n");
  return [make("b", null, title), make("pre", { class: "cause" }, place), ...lines.map((hint) => make("div", { class: "hint" }, hint.trim()))];
}

/** Why a program, a query or a line's goals were refused: the cause where one is known. Nothing where there is none to be told. */
function partsOfRefusal(refusal, given, known = null) {
  const limit = Replies.limitIn(refusal);
  if (limit !== undefined) return [limit];
  const cause = known || Causes.causeOf(refusal, given);
  return cause === undefined ? [] : causeParts(cause, given.text);
}

/** The place that a refusal names; undefined where it names none. */
function placeIn(refusal) {
  const [, line, column] = /^F2 syntax at (\d+):(\d+)$/.exec(refusal) || [];
  return line === undefined ? undefined : { line: Number(line), column: Number(column), length: 1 };
}

/** Says why a program or a query was refused, and selects the place in the text; whether that is known. */
function showRefusal({ program, query }, refused, ...after) {
  const [, name, refusal] = /^(program|query): (F\d+ .*)$/.exec(refused) || [];
  if (name === undefined) return false;
  const given = { text: name === "program" ? program : query, which: name, isQuery: name === "query", program };
  const isLong = program.length + query.length > MOST_NOTED;
  const cause = isLong ? placeIn(refusal) : Causes.causeOf(refusal, given);
  const parts = isLong ? [Replies.limitIn(refusal) || TOO_LONG] : partsOfRefusal(refusal, given, cause);
  if (cause) Deeds.showPlace(name, cause.line, Causes.letterOf(cause, given.text), cause.length, cause.title);
  if (parts.length + after.length > 0) put(true, ...parts, ...after);
  return true;
}

/** What is said of a program that runs, but may not be meant so. */
function notesOn(program) {
  const [first, ...others] = program.length > MOST_NOTED ? [] : Causes.notesOn(program, "program");
  if (first === undefined) return [];
  const titles = others.map((note) => note.title.replace("note: ", "")).join("; ");
  const told = causeParts(first, program), more = `${others.length} more: ${Terms.cut(titles, 200)}`;
  return others.length > 0 ? [...told, make("div", { class: "dim" }, more)] : told;
}

const ASKED = /^ *(?:ask +|in +\S+ +)(.*)$/;

/** Of a line that asks for goals or feeds a stream: why its text was refused. */
function partsOfAsked({ line, reply }) {
  const [, text] = ASKED.exec(line) || [];
  return text === undefined ? [] : partsOfRefusal(reply[0], { text, which: wordsOf(line).split(" ")[0], isQuery: true, program: State.given.program });
}

const hide = () => { find("answer").hidden = true; };

/** The numbers of the steps that a reply to `who X` names, the last one first. */
const stepsBy = (reply) => reply.map(Replies.readBinder).filter(Boolean).map(({ number }) => number).reverse();

/** Lights the step that a line asked about, or the steps that bound a variable. */
function light(entry) {
  const [word, name] = wordsOf(entry.line).split(" ");
  const steps = word === "why" ? [Number(name)] : stepsBy(entry.reply);
  if (steps.length === 0 || !State.run.graph.byNumber.has(steps[0])) return;
  Deeds.goTo({ step: steps[0] });
  Deeds.markWay(steps.slice(1));
}

function tellReply(entry) {
  const lines = entry.tail(MOST_SHOWN), more = entry.length - lines.length;
  put(false, make("code", null, wordsOf(entry.line)), " ", ...joined(lines.map(linkedLine), ", "), more > 0 ? ` and ${more} more` : "");
}

/** Of another line: the limit that it met. */
function partsOfLimit({ line, reply }) {
  const words = Replies.limitIn(reply[0], line);
  return words === undefined ? [] : [`${words}. ${reply[0].endsWith("print") ? "Values shows how each one begins." : ""}`];
}

/** A line that was not taken, or was stopped. */
function tellNote({ line, note }) {
  put(true, make("code", null, Terms.cut(line, 60)), ` ${note}.`, note.startsWith("stopped") && /^(leap|skip)\b/.test(line) ? " With a number, as in leap 10000, a run ends by itself." : "");
}

/** A history that is not whole. */
const tellBroken = ({ line }) =>
  put(true, make("code", null, wordsOf(line)), ` told no whole history: ${HOLE}. ${AGAIN}.`);

/** After lines: what was not taken, else the last refusal among them, else the answer to a question. */
function show(what, fresh) {
  const refused = fresh.findLast(State.isRefused), last = fresh.at(-1);
  if (State.refusal && last && last.note) return; // why the text was refused stands there
  hide();
  const asked = refused ? partsOfAsked(refused) : [];
  if (last && last.note) tellNote(last);
  else if (refused) put(true, make("code", null, wordsOf(refused.line)), " was refused: ", ...linkedLine(refused.reply[0]), make("div", null, ...(asked.length > 0 ? asked : partsOfLimit(refused))));
  else if (last && last.length > 1 && isBroken(last)) tellBroken(last);
  else if (last && last.slice) Deeds.tellSlice(wordsOf(last.line).split(" ")[1], last.slice);
  else if (last && /^(why|who) /.test(wordsOf(last.line)) && last.reply[0] !== "none") {
    tellReply(last);
    light(last);
  }
}

export { show, hide, put, showRefusal, notesOn };
