// How much the terminal shows of a reply: of long runs and listings the first and the last lines, of long terms the
// beginning. `all` as the last word shows a listing or a value whole. `display X` shows X after each line that changed
// the run.
import { setImmediate as nextTurn } from "node:timers/promises";
import { meant } from "../front/protocol/commands.mjs";
import * as Replies from "../front/protocol/replies.mjs";
import * as Short from "../front/protocol/short.mjs";
import * as Own from "../front/run/own.mjs";
import { plural } from "../front/run/reasons.mjs";
import { part } from "./part.mjs";
import { MARK } from "./plain.mjs";

const FIRST = 20, LAST = 10; // lines that are shown of a long run or listing
const LONG = 40; // lines that a run or a listing may have that is shown whole
const VALUE = 1600, LINE = 400; // letters that are shown of the terms of a lone line, and of a line among others
const AT_ONCE = 500; // lines that are shown before keys are heard again

const LISTINGS = new Set([
  "records", "since", "goal", "goals", "show", "causes", "effects", "why", "who", "explain", "shelf", "clauses", "part",
  "list", "holders", "whynot",
]);
const OF_STEPS = { tail: 1, what: "step" }, OF_LINES = { tail: 0, what: "line" }; // the last line of steps tells of all

const NONE_DISPLAYED = "nothing is displayed; display X shows X after each run and step";

/** What is meant without `all`, the terminal's word for showing a listing whole. */
function withoutAll(meaning) {
  if (!LISTINGS.has(meaning.name) || meaning.words.at(-1) !== "all") return meaning;
  const words = meaning.words.slice(0, -1);
  return { ...meaning, words, line: [meaning.name, ...words].join(" "), isWhole: true };
}

/**
 * The line that shows whole what is cut.
 * @param {Partial<import("../front/types").Meaning>} meaning
 */
function wordForAll({ name, line }, isRun) {
  if (isRun) return "records all";
  return LISTINGS.has(name) ? `${line} all` : "goals all";
}

const Showing = part({
  /**
   * Tells a reply, of which a part may be left out; then a note tells which line shows it.
   * @param {import("../front/types").Reply} reply
   * @param {Partial<import("../front/types").Meaning>} meaning
   */
  async show(reply, meaning = {}) {
    const { name, isWhole } = meaning, last = reply.at(-1) ?? "", isRun = last.startsWith("stopped ");
    if (isWhole || name === undefined || name === "save") return this.showAll(reply);
    const most = reply.length === 1 ? VALUE : LINE, lines = reply.map((line) => Short.line(line, most));
    const all = wordForAll(meaning, isRun), ends = isRun || last.startsWith("steps ") ? OF_STEPS : OF_LINES;
    if (isRun || LISTINGS.has(name)) await this.showEnds(lines, { all, ...ends });
    else await this.showAll(lines);
    const isCut = lines.some((line, place) => line !== reply[place]);
    if (isCut) this.note(`… stands for what is left out; ${all} shows it`);
  },

  /** Shows lines; of many the first and the last, and `tail` lines more that tell of all. */
  async showEnds(lines, { all, tail, what }) {
    if (lines.length <= LONG) return this.showAll(lines);
    await this.showAll(lines.slice(0, FIRST));
    this.note(`.. ${plural(lines.length - tail - FIRST - LAST, what)} more (${all} shows all) ..`);
    return this.showAll(lines.slice(-LAST - tail));
  },

  /** Tells lines, of which there may be many: between pieces of them keys are heard, and ^C ends it. */
  async showAll(lines) {
    for (let at = 0; at < lines.length; at += AT_ONCE) {
      if (at > 0) await nextTurn();
      if (at > 0 && this.isInterrupted) return this.note(`.. ${plural(lines.length - at, "line")} more ..`);
      lines.slice(at, at + AT_ONCE).forEach((line) => this.out(line));
    }
  },

  noteAll(lines) {
    return this.showAll(lines.map((line) => MARK + line));
  },

  /** Notes that are a listing of their own, shown as much of as of a reply. */
  noteListing(lines, { line, isWhole }) {
    const notes = lines.map((told) => MARK + told);
    return isWhole ? this.showAll(notes) : this.showEnds(notes, { all: `${line} all`, ...OF_LINES });
  },

  async on_display({ words: [word] }) {
    if (word === undefined) return this.tellDisplayed();
    const name = Own.signOf(this.session, word), reply = await this.send(meant("show", name));
    if (!Replies.isRefused(reply) && !this.displayed.includes(name)) this.displayed.push(name);
  },

  on_undisplay({ words: [word] }) {
    const name = word && Own.signOf(this.session, word);
    if (name !== undefined && !this.displayed.includes(name)) this.note(`${word} is not displayed`);
    this.displayed = this.displayed.filter((other) => name !== undefined && other !== name);
    this.tellDisplayed();
  },

  tellDisplayed() {
    this.note(this.displayed.length === 0 ? NONE_DISPLAYED : `displayed: ${this.displayed.join(", ")}`);
  },

  /** Shows what is displayed, where the session has changed since so many changes. */
  async showDisplayed(changes) {
    if (this.session.kept.changes === changes) return;
    for (const name of this.isInterrupted ? [] : this.displayed) {
      const meaning = meant("show", name), reply = await this.session.ask(meaning.line);
      this.echo(meaning.line, "");
      await this.show(reply, meaning);
    }
  },
});

export { Showing, withoutAll };
