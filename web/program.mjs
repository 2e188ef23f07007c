// The pane of the program: line numbers and colours, the clauses of the steps that are lit, the place of an error with
// its cause, comments that fold, and its width. A click on a clause lights its steps.
import * as Colouring from "./colouring.mjs";
import Deeds from "./deeds.mjs";
import { find, make } from "./elements.mjs";
import * as Folding from "./folding.mjs";
import State from "./state.mjs";
import { isTooLong, tellTooLong } from "./whole_texts.mjs";

const MOST_LINES = 3000, MOST_LETTERS = 500000; // of a longer program no numbers are shown
const MOST_COLOURED = 1000; // lines
const LEAST_WIDE = 220, LEAST_VIEW = 420; // points of the column, and of the picture beside it
let marked = null, lit = "", shown = []; // the clause of the chosen step; those of all that is lit; the lines behind the field

const text = () => find("program").value;

const partOf = ({ kind, text: words }) => (kind === "" ? words : make("span", { class: kind }, words));

/** A line of the text behind the field: it is as high as the line there, whether it wraps or not, and has its number. */
const lineBehind = (line, parts) => make("div", null, ...(line === "" ? ["\u200b"] : parts.map(partOf)));

/** The places of the lines that are others than those that stand there: from the beginning, and from the end. */
function changedIn(lines) {
  const most = Math.min(lines.length, shown.length);
  let from = 0, end = 0;
  while (from < most && lines[from] === shown[from]) from += 1;
  while (end < most - from && lines[lines.length - 1 - end] === shown[shown.length - 1 - end]) end += 1;
  return { from, end };
}

/** Shows the lines behind the field; those that stand there stay. */
function showLines() {
  const all = text().split("\n"), isLong = all.length > MOST_LINES || text().length > MOST_LETTERS;
  const lines = isLong ? [] : all;
  const area = find("program-lines"), isColoured = !isLong && lines.length <= MOST_COLOURED;
  const { from, end } = changedIn(lines);
  const partsOf = (line) => (isColoured ? Colouring.partsOf(line) : [{ kind: "", text: line }]);
  const fresh = lines.slice(from, lines.length - end).map((line) => lineBehind(line, partsOf(line)));
  for (const gone of [...area.children].slice(from, shown.length - end)) gone.remove();
  const next = area.children[from] || null;
  for (const line of fresh) area.insertBefore(line, next);
  shown = lines;
  find("program-pane").classList.toggle("coloured", isColoured);
  find("program-pane").classList.toggle("numbered", !isLong);
  unmark();
  follow();
}

/** Takes away all marks of lines, and the cause. */
function unmark() {
  for (const name of ["marked", "lit", "wrong"]) paint(name, []);
  for (const word of find("program-lines").querySelectorAll(".wrong-word")) word.classList.remove("wrong-word");
  for (const cause of find("program-lines").querySelectorAll(".cause-here")) cause.remove();
  marked = null;
  lit = "";
}

/** Keeps the lines behind the field where those in it are. */
function follow() {
  const field = find("program"), lines = find("program-lines");
  lines.style.width = `${field.clientWidth}px`;
  lines.style.transform = Folding.isOn() ? "" : `translate(${-field.scrollLeft}px, ${-field.scrollTop}px)`;
}

/** Tells those who do not see it how wide the column of the program is. */
function tellWidth() {
  find("divider").setAttribute("aria-valuemax", String(mostWide()));
  find("divider").setAttribute("aria-valuenow", String(Math.round(width())));
}

const mostWide = () => Math.max(LEAST_WIDE, window.innerWidth - LEAST_VIEW);

function setText(program) {
  if (find("program").value !== program) { // a browser takes seconds to put a long one there again
    Folding.openAll();
    find("program").value = program;
    find("program").scrollTop = 0;
    showLines();
    if (find("program-pane").classList.contains("coloured") && document.activeElement !== find("program")) Folding.fold(shown);
    follow();
  } else showLines();
}

/** Gives the lines of some clauses a mark, which no other line has then. */
function paint(name, clauses) {
  const lines = find("program-lines").children;
  for (const line of find("program-lines").querySelectorAll(`.${name}`)) line.classList.remove(name);
  for (const { from, to } of clauses) {
    for (const line of [...lines].slice(from - 1, to)) line.classList.add(name);
  }
}

/** Brings a line into sight. */
function showLine(number) {
  const area = Folding.scroller(), line = find("program-lines").children[number - 1];
  const top = line ? /** @type {HTMLElement} */ (line).offsetTop : (number - 1) * 18;
  if (top < area.scrollTop + 10 || top > area.scrollTop + area.clientHeight - 40) area.scrollTop = Math.max(0, top - area.clientHeight / 3);
  follow();
}

/** Marks a clause of the program that the run has; none where it is null, or the text was changed since. */
function markClause(clause) {
  const isSame = clause !== null && text() === State.given.program, next = isSame ? clause : null;
  if (next === marked) return;
  marked = next;
  paint("marked", next === null ? [] : [next]);
  if (next !== null) showLine(next.from);
}

/** Marks the clauses of all steps that are lit, by their numbers. */
function markLit(numbers) {
  const clauses = text() === State.given.program ? numbers.map((number) => State.run.clauses[number - 1]).filter(Boolean) : [];
  const key = clauses.map(({ from }) => from).join();
  if (key === lit) return;
  lit = key;
  paint("lit", clauses);
}

/** Underlines a place of a line behind the field, and puts below the line why it was refused. */
function underline(number, letter, length, words) {
  const line = find("program-lines").children[number - 1];
  if (line === undefined || !find("program-pane").classList.contains("coloured")) return;
  const parts = Colouring.partsWithWrong(shown[number - 1], letter - 1, length).map(partOf);
  const isLow = number > 3 && number === shown.length;
  const cause = words === "" ? null : make("div", { class: `cause-here${isLow ? " above" : ""}` }, words);
  const all = [...(shown[number - 1] === "" ? ["\u200b"] : parts), cause];
  line.replaceChildren(...all.filter((part) => part !== null));
}

/**
 * Selects the place at which a text was refused, by line and letter, so many letters, and marks its line, with the
 * cause in `words`.
 */
function showPlace(name, line, letter, length, words = "") {
  const field = find(name), lines = field.value.split("\n");
  const start = lines.slice(0, line - 1).reduce((sum, other) => sum + other.length + 1, 0) + letter - 1;
  if (name === "program") showAll();
  field.focus({ preventScroll: true });
  field.setSelectionRange(start, start + length);
  if (name === "program") {
    underline(line, letter, length, words);
    paint("wrong", [{ from: line, to: line }]);
    showLine(line);
  }
}

/** A click on a clause lights its steps, where the run is of this text. */
function onClick() {
  const { value, selectionStart, selectionEnd } = find("program");
  const line = value.slice(0, selectionStart).split("\n").length;
  if (selectionStart !== selectionEnd || value !== State.given.program || State.refusal) return;
  const at = State.run.clauses.findIndex(({ from, to }) => from <= line && line <= to);
  if (at >= 0) Deeds.lightClause(at + 1);
}

/** Shows the lines of all comments; `still` stays where it is. */
function showAll(still) {
  Folding.openAll(still);
  follow();
}

/** While comments are folded: a click on one shows its lines, and another one comes into the field, where it hits. */
function onFoldedClick(event) {
  const field = find("program"), lines = [...find("program-lines").children], at = lines.findIndex((line) => line.contains(event.target));
  if (at < 0 || !getSelection().isCollapsed) return;
  if (lines[at].classList.contains("fold")) {
    Folding.open(lines[at]);
    follow();
    return;
  }
  const place = shown.slice(0, at).reduce((sum, line) => sum + line.length + 1, 0) + Folding.lettersBefore(lines[at], event);
  showAll(lines[at]);
  field.focus({ preventScroll: true });
  field.setSelectionRange(place, place);
  onClick();
}

/** Makes the column of program and console so many points wide. */
function setWidth(wide) {
  const now = Math.round(Math.max(LEAST_WIDE, Math.min(wide, mostWide())));
  document.documentElement.style.setProperty("--side", `${now}px`);
  tellWidth();
  Deeds.draw();
}

const width = () => find("source").getBoundingClientRect().width;

/** A text that no program can be is not taken: a browser stands still for seconds to show it. */
function onPaste(event) {
  const given = event.clipboardData ? event.clipboardData.getData("text/plain") : "";
  if (!isTooLong(given)) return;
  event.preventDefault();
  Deeds.tell(true, `The text was not pasted: ${tellTooLong(given)}.`);
}

/** A new line begins as far in as the one before it, as a change that the browser can undo. */
function onEnter(event) {
  const { value, selectionStart } = find("program"), start = value.lastIndexOf("\n", selectionStart - 1) + 1;
  const line = value.slice(start, selectionStart);
  const [blanks] = /^[ \t]*/.exec(line);
  if (event.key !== "Enter" || event.ctrlKey || event.metaKey || event.isComposing || blanks === "") return;
  event.preventDefault();
  document.execCommand("insertText", false, `\n${blanks}`);
}

function listenToAll() {
  find("program").addEventListener("keydown", onEnter);
  find("program").addEventListener("paste", onPaste);
  const divider = find("divider"), field = find("program");
  field.addEventListener("input", showLines);
  field.addEventListener("scroll", follow, { passive: true });
  field.addEventListener("click", onClick);
  field.addEventListener("focus", () => showAll());
  find("program-lines").addEventListener("click", onFoldedClick);
  const followSoon = () => requestAnimationFrame(() => { follow(); tellWidth(); }); // it may change the field's own size
  new ResizeObserver(followSoon).observe(field);
  divider.addEventListener("pointerdown", (event) => divider.setPointerCapture(event.pointerId));
  divider.addEventListener("pointermove", (event) => { if (event.buttons === 1) setWidth(event.clientX); });
  divider.addEventListener("keydown", (event) => {
    if (event.key !== "ArrowLeft" && event.key !== "ArrowRight") return;
    event.preventDefault();
    setWidth(width() + (event.key === "ArrowLeft" ? -24 : 24));
  });
}

export { setText, underline, markClause, markLit, showPlace, showLine, listenToAll };
