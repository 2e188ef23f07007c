// Says in the program, a while after the last letter was typed, why its text would be refused. The engine judges it,
// beside the session.
import * as Causes from "../front/text/causes.mjs";
import Deeds from "./deeds.mjs";
import { find } from "./elements.mjs";
import * as Service from "./service.mjs";
import State from "./state.mjs";

const PAUSE = 600, MOST = 20000; // milliseconds after a letter; letters of a text that is judged
let timer = null;

const lineOfCaret = () => find("program").value.slice(0, find("program").selectionStart).split("\n").length;

/** Underlines what would be refused; why, is told where it covers no line in which somebody writes. */
function show(refusal, text) {
  const [, told] = /^program: (F\d+ .*)$/.exec(refusal) ?? [];
  if (told === undefined) return;
  const cause = Causes.causeOf(told, { text, which: "program", isQuery: false, program: text });
  if (cause === undefined) return;
  const away = lineOfCaret() - cause.line, words = away === 0 || away === 1 ? "" : cause.title;
  Deeds.underline(cause.line, Causes.letterOf(cause, text), cause.length, words);
}

async function check() {
  const text = find("program").value, query = find("query").value;
  if (State.busy || !State.session || text === State.given.program || text.length > MOST) return;
  const { refusal } = await Service.ask("check", { program: text, query }).catch(() => ({ refusal: "" }));
  if (find("program").value === text) show(refusal, text);
}

function followSoon() {
  clearTimeout(timer);
  timer = setTimeout(check, PAUSE);
}

export { followSoon };
