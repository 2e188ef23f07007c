// Goals and calls in words, with the names that the program's text gives to variables.
import * as Print from "../text/print.mjs";
import * as Printed from "../text/printed.mjs";
import * as Reader from "../text/reader.mjs";

const LONGEST = 20_000; // letters of a text that is read
const WIDEST = 200; // letters of a call that are shown

const cut = (text, most) => (text.length > most ? `${text.slice(0, most - 1)}${Print.CUT}` : text);

/**
 * The names of variables in texts: those of the program's text, where no other variable there has the same; as a store,
 * to print by.
 */
function namesIn(run, texts) {
  const names = new Map(), users = new Map();
  for (const variable of texts.flatMap((text) => Printed.variablesIn(text))) {
    const name = run.nameOf(variable);
    if (name === undefined) continue;
    names.set(variable, name);
    users.set(name, (users.get(name) ?? new Set()).add(variable));
  }
  const nameOf = ({ variable }) => (users.get(names.get(variable))?.size === 1 ? names.get(variable) : undefined);
  return { endOf: (term) => (nameOf(term) === undefined ? term : { variable: nameOf(term) }) };
}

/** The term that a text is; undefined where it is too long or too deep to be read. */
const termOf = (text) => (text.length > LONGEST ? undefined : Reader.termIn(text));

/** What stands as a term for a text that is too long to be read. */
const beginningOf = (text, most) => ({ name: `${text.slice(0, most)}${Print.CUT}`, arguments: [] });

/** A call with the names of its variables, as a store tells them. */
function printed(text, store) {
  const call = termOf(text);
  return call === undefined ? cut(text, WIDEST) : Print.term(call, { store, most: WIDEST });
}

const namedCall = (run, text) => printed(text, namesIn(run, [text]));

/** The same with the values of those variables that are bound by now. */
function callNow(run, text) {
  const names = namesIn(run, [text]), isOpen = (end) => end.variable !== undefined;
  const endOf = (term) => (isOpen(run.shown.endOf(term)) ? names.endOf(term) : run.shown.endOf(term));
  return printed(text, { endOf });
}

export { LONGEST, WIDEST, beginningOf, callNow, cut, namesIn, termOf, namedCall };
