// The place "Why?" where it answers what is not bound: who waits for whom, and which step let a variable go, as the
// console's `whynot` tells it; and the same in short, of a run that goes on no more.
import * as Effects from "../front/protocol/effects.mjs";
import * as Replies from "../front/protocol/replies.mjs";
import * as WhyNotLines from "../front/protocol/why_not_lines.mjs";
import { make, lineButton, buttons, closeButton, elementsOf } from "./elements.mjs";
import * as Names from "./names.mjs";
import State from "./state.mjs";
import * as WhyWords from "./why_words.mjs";

const MOST_ROWS = 40;

const known = () => ({ run: State.run, texts: Names.now().run });

/** What a run lacks that goes on no more, by its first cause, with the way to all that is told of it. */
function inShort({ subject, told }) {
  const cause = told && WhyWords.causeIn(told), all = lineButton("Why?", `whynot ${subject}`, { class: "small" });
  return cause === undefined ? [all] : [...elementsOf(WhyWords.causeWords(known(), cause)), " ", all];
}

const isGoal = (subject) => /^\d/.test(subject);

/** What is asked; of a value that is bound in part, about the rest. */
function questionOn(subject, [line]) {
  if (isGoal(subject)) return `Why does goal ${subject} not go on? `;
  return /^\S+ = _\d+_\d+$/.test(line) ? `Why is ${subject} not bound? ` : `Why is not all of ${subject} bound? `;
}

/** The row of each variable; of many, the first. */
function rowList(told) {
  const rows = WhyWords.rowsOf(known(), told), more = rows.length - MOST_ROWS;
  const items = rows.slice(0, MOST_ROWS).map((row) => make("li", null, ...elementsOf(row)));
  const others = more > 0 ? make("li", { class: "dim" }, `and ${more} more`) : null;
  return rows.length === 0 ? null : make("ul", { class: "made", "aria-label": "Who could bind it" }, ...items, others);
}

/** The answer on a value or a goal, and what else can be asked. */
function answerParts(subject, reply) {
  const told = WhyNotLines.read(reply), cause = told.staysUnbound ? WhyWords.causeIn(told) : undefined;
  const words = make("span", { role: "status" }, make("b", null, questionOn(subject, reply)), WhyWords.verdictOf(told));
  const others = isGoal(subject) ? null : make("button", { "data-choices": subject }, "Other choices");
  return [
    make("div", { class: "blame-title" }, words, closeButton("why-close", "Close the answer")),
    cause && make("p", null, ...elementsOf(WhyWords.causeWords(known(), cause))), rowList(told),
    buttons(lineButton("What it rests on", `explain ${subject}`), lineButton("Find the wrong clause", `blame ${subject}`), others),
  ].filter(Boolean);
}

const close = () => Names.fill("why-not", []);

const isAnswer = ({ line, reply }) => Effects.wordOf(line) === "whynot" && !Replies.isRefused(reply);

/** After lines: the answer to the last question. A line that changes the run closes it. */
function show(what, fresh) {
  const asked = fresh.findLast(isAnswer);
  if (what !== "lines" || fresh.some(State.mayChange)) close();
  if (asked === undefined) return;
  const [, subject] = asked.line.trim().split(/ +/);
  Names.fill("why-not", answerParts(subject, asked.reply));
}

export { show, inShort, close };
