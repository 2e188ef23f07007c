// For tests of the terminal: sessions whose lines are given one by one, on the page's engine.
import { Front } from "../../front.mjs";

const begun = [];

/** Begins a session; `type` gives what is shown after a line, `lines` after each of several lines, `start` what was shown first. */
async function begin(words, native = undefined) {
  let shown = [];
  const show = (line) => shown.push(line), front = new Front({ words, native, out: show, errors: show });
  begun.push(front);
  const told = async (what) => {
    shown = [];
    await what();
    return shown;
  };
  const start = await told(() => front.begin()), type = (line) => told(() => front.answer(line));
  return { front, start, type };
}

/** Plays rows: each a line and all that it has to show. Gives what it shows, in the same form. */
async function played({ type }, rows) {
  const all = [];
  for (const [line] of rows) all.push([line, ...await type(line)]);
  return all;
}

/** Ends what was begun. */
const endAll = () => Promise.all(begun.splice(0).map((front) => front.session.program?.kill()));

export { begin, endAll, played };
