// Comments of some lines that are one line until they are clicked, while nobody writes in the program. Whoever comes
// into the field sees all lines, and those in sight stay where they are.
import * as Colouring from "./colouring.mjs";
import { find } from "./elements.mjs";

const pane = () => find("program-pane"), area = () => find("program-lines");
const isOn = () => pane().classList.contains("folded");

/** What is scrolled: the field, or the pane while comments are folded. */
const scroller = () => (isOn() ? pane() : find("program"));

/** Folds all comments of the lines that are shown. */
function fold(lines) {
  const shown = [...area().children], comments = shown.length === 0 ? [] : Colouring.commentsIn(lines);
  for (const { at, count } of comments) {
    shown[at].classList.add("fold");
    shown[at].dataset.more = `${count} lines`;
    for (const line of shown.slice(at + 1, at + count)) line.classList.add("within");
  }
  find("program").scrollTop = 0;
  pane().classList.toggle("folded", comments.length > 0);
}

/** Shows the lines of a comment; where it was the last one that was folded, the field is as usual again. */
function open(first) {
  first.classList.remove("fold");
  for (let line = first.nextElementSibling; line?.classList.contains("within"); line = line.nextElementSibling) {
    line.classList.remove("within");
  }
  if (area().querySelector(".fold") === null) openAll();
}

/** The first line that is in sight, but for comments that are folded. */
function firstSeen() {
  const { top } = pane().getBoundingClientRect();
  const isSeen = (line) => line.offsetHeight > 0 && line.getBoundingClientRect().bottom > top;
  return [...area().children].find((line) => !line.classList.contains("fold") && isSeen(line));
}

/** Shows all lines; `still` stays where it is, or the first that is in sight. */
function openAll(still = firstSeen()) {
  if (!isOn()) return;
  const topOf = (element) => element.getBoundingClientRect().top;
  const before = still === undefined ? 0 : topOf(still) - topOf(pane());
  for (const line of area().children) line.classList.remove("fold", "within");
  pane().classList.remove("folded");
  pane().scrollTop = 0;
  if (still !== undefined) find("program").scrollTop = /** @type {HTMLElement} */ (still).offsetTop - before;
}

/** How many letters of a line stand before a point. */
function lettersBefore(line, { clientX, clientY }) {
  const place = document.caretPositionFromPoint?.(clientX, clientY), range = document.createRange();
  const older = place ? null : document.caretRangeFromPoint?.(clientX, clientY);
  const node = place?.offsetNode ?? older?.startContainer;
  if (!line.contains(node)) return 0;
  range.setStart(line, 0);
  range.setEnd(node, place?.offset ?? older.startOffset);
  return range.toString().replace("\u200b", "").length;
}

export { fold, open, openAll, isOn, scroller, lettersBefore };
