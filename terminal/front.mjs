// The terminal in front of ghcdb's console: it hands lines on, and adds what a person needs. Each added line begins with the mark; all
// others are the console's own, as it told them.
import path from "node:path";
import { setTimeout as after } from "node:timers/promises";
import * as Causes from "../front/text/causes.mjs";
import { Blaming } from "../front/run/blaming.mjs";
import { Ended, unlessEnded } from "../front/session/program.mjs";
import { NotTold, Session } from "../front/session/session.mjs";
import { helpLines, meaningOf, meant, suggestionFor, usageOf, whyNoCommand } from "../front/protocol/commands.mjs";
import Beginning from "./beginning.mjs";
import Judging from "./judging.mjs";
import * as Own from "../front/run/own.mjs";
import { Patterns } from "../front/run/patterns.mjs";
import { MARK, plain } from "./plain.mjs";
import { everyRefusal, linesAfterFirst } from "../front/session/every_refusal.mjs";
import { isHistory, whyNoName, whyNotWritten, whyOtherFile } from "../front/session/files.mjs";
import Running from "./running.mjs";
import { Showing, withoutAll } from "./showing.mjs";
import Spying from "./spying.mjs";
import { plural, some } from "../front/run/reasons.mjs";
import { notesAfter } from "../front/run/telling.mjs";
import * as Unsaved from "./unsaved.mjs";

const MOST_NOTES = 6; // on a program that are shown
const HEARD_LATE = 300; // milliseconds after ^C in which a line that is no long run may still answer
const SLICE_LATE = 2000; // the same for a slice of a run, of which there are many
const LEFT_LATE = 60_000; // milliseconds in which the last line is ended when the terminal is closed

const RUN_ENDED = "the run was ended; the session stands as before it";
const LINE_ENDED = "the line was ended; the session stands as before it";
const ASKING_ENDED = "the line was ended; the session stands";

// What a refusal to tell the history means.
const NO_ROOM = "memory was refused for it, so nothing was saved: undo or roll some steps, or save again";
const NOT_ALONE = "save alone writes a history with what was asked for";

const PROMPTS = /^(> )+/;
const isYes = (typed) => /^y(es)?$/.test(typed.trim()), isNo = (typed) => /^no?$/.test(typed.trim());
const sliceEnded = (count) => (count === 0 ? RUN_ENDED : `the run was ended where it did not answer; the ${plural(count, "step")} before stand`);

class Front {
  /** `out` and `errors` take whole lines for standard output and standard error. */
  constructor({ words, native, out, errors }) {
    this.session = new Session(words, native);
    this.blaming = new Blaming(this.session);
    this.out = (line) => out(plain(line));
    this.errors = (line) => errors(plain(line));
    this.hasEnded = false;
    this.status = 0;
    this.isBusy = false; // with a line
    this.isRunning = false; // a run is being made that may be long, in one piece
    this.sliced = undefined; // the lines of a run that is being made in slices
    this.isInterrupted = false;
    this.warned = undefined; // for which command and number of changes it warned of unsaved steps
    this.stoppedAt = undefined; // the spied goal at which the last run stopped, and the number of changes then
    this.patterns = new Patterns(); // to which spied goals are narrowed
    this.question = undefined; // what is done after `y`
    this.isShort = false; // did a run stop since Node has little memory left?
    this.displayed = []; // the variables that are shown after each run and step
    this.trying = undefined; // what tries other choices
  }

  note(...lines) {
    lines.forEach((line) => this.out(MARK + line));
  }

  /** Starts the program; where it is refused, says why. Afterwards it has ended, or has greeted. */
  async begin() {
    await unlessEnded(this.start(this.session), (ended) => this.finish(ended));
    if (this.hasEnded) return;
    this.greet();
    this.tellUnsaved(Unsaved.left(this.session.given.load));
  }

  /** Tells in a line which session of this program was not saved last, and where those before it are. */
  tellUnsaved(left) {
    const file = path.resolve(this.session.given.file), own = left.filter((one) => one.file === file), last = own.pop();
    if (last === undefined) return;
    const others = some(own.map(({ place }) => place).reverse()), before = others.length === 0 ? "" : `; before it: ${others.join(", ")}`;
    this.note(`a session of ${file} --query '${last.query}' was not saved: --load ${last.place} goes on from it${before}`);
  }

  async start(session) {
    await session.begin();
    await session.keepWayBack();
    if (Unsaved.isLeft(session.given.load)) session.savedAt = undefined; // it stands in no file of the user's yet
  }

  /** Tells what is seldom meant in the program. */
  tellNotes() {
    const { text, given } = this.session, notes = Causes.notesOn(text, given.file);
    for (const cause of notes.slice(0, MOST_NOTES)) this.note(...Causes.linesOf(cause, text));
    if (notes.length > MOST_NOTES) this.note(`.. ${plural(notes.length - MOST_NOTES, "note")} more ..`);
  }

  greet() {
    this.tellNotes();
    this.note("Flat GHC. help lists the commands; step alone takes a step, leap runs, back goes back.");
  }

  /** Tells why the program has ended, and ends with it. */
  finish(ended) {
    this.hasEnded = true;
    this.status = ended.status;
    return this.tellRefusals(ended, this.session, this.errors);
  }

  /** Nobody asked for the program's end: another one begins where the session stood before the line. */
  async comeBack(ended) {
    try {
      await this.session.endRun();
    } catch (error) {
      await this.finish(ended);
      this.note(error.message);
      return this.leave();
    }
    await this.tellRefusals(ended, this.session, this.errors);
    return this.note("the program was started again; the session stands as before the last line");
  }

  /** Tells what a program said that has ended, what helps, and what else a program and a query are refused for. */
  async tellRefusals({ errors }, { texts, native }, tell) {
    errors.trimEnd().split("\n").forEach((line) => tell(line));
    const refusals = await everyRefusal(texts, native, errors.trim());
    linesAfterFirst(refusals).forEach((line) => tell(MARK + line));
  }

  /** Where steps are kept and not saved, they are left for the next start. */
  async leave() {
    this.isInterrupted = true;
    if (this.session.isSaved) return undefined;
    const { session } = this, late = after(LEFT_LATE, undefined, { ref: false });
    const whole = await Promise.race([session.history(), late]).catch(() => undefined);
    const history = whole ?? session.way?.history;
    const place = history === undefined ? undefined : Unsaved.leave(session.given, history);
    if (place === undefined) return this.note("what was not saved is lost");
    this.forgetLeft();
    const what = whole === undefined ? "the last lines are lost" : `${plural(session.kept.steps.size, "step")} not saved`;
    return this.note(`${what}: --load ${place} goes on from what was kept`);
  }

  /** The session stands elsewhere now, or was given up: the history that was left, if it began from one, goes. */
  forgetLeft() {
    const { load } = this.session.given;
    if (Unsaved.isLeft(load)) Unsaved.forget(load);
  }

  /** Does what a typed line asks for, one line at a time. A line that was copied with its prompt is taken without that. */
  async answer(line) {
    const typed = line.replace(PROMPTS, "");
    if (typed.trim() === "") return;
    this.isBusy = true;
    this.isInterrupted = false;
    const { session, session: { kept: { changes } } } = this;
    try {
      await this.heed(typed);
      if (!this.hasEnded && session === this.session) await this.showDisplayed(changes);
    } catch (error) {
      await this.tellWhyNot(error);
    } finally {
      clearTimeout(this.endsLate);
      this.isBusy = false;
    }
  }

  /** A word may answer the question that is open; else it is a command. */
  async heed(typed) {
    const { question } = this;
    this.question = undefined;
    if (question !== undefined && isYes(typed)) return question();
    if (question !== undefined && isNo(typed)) return this.note("the session stands");
    if (this.blaming.isAnswer(typed.trim())) return this.judge(typed.trim(), [], typed.trim());
    const meaning = meaningOf(typed, this.session.variables);
    return meaning.name === undefined ? this.passOn(meaning, typed) : this.act(meaning, typed);
  }

  async tellWhyNot(error) {
    if (error instanceof Ended) await this.afterEnd(error);
    else if (error instanceof NotTold) this.note(`${error.message}; step and leap go on`);
    else this.note(`the terminal can tell no more of it (${error.message}); the session stands`);
  }

  /** What no command of the terminal is goes to the console, which may know more. */
  async passOn(meaning, typed) {
    const reply = await this.session.ask(typed);
    reply.forEach((line) => this.out(line));
    if (reply[0] === "F25 command") this.note(suggestionFor(typed));
  }

  async act(given, typed) {
    const meaning = withoutAll(given);
    const own = this[`on_${meaning.name}`];
    if (own !== undefined && await own.call(this, meaning, typed) !== false) return undefined;
    return this.send(meaning, typed);
  }

  /** Tells a line that is sent, where another one was typed. */
  echo(line, typed) {
    if (typed.trim().replace(/ +/g, " ") !== line.replace(/ +/g, " ")) this.note(`sent: ${line}`);
  }

  /** Sends a line of the console, and tells its reply with what is to be added. Gives the reply. */
  async send(meaning, typed = "") {
    this.echo(meaning.line, typed);
    this.isRunning = meaning.name === "skip";
    const reply = await this.session.ask(meaning.line).finally(() => { this.isRunning = false; });
    if (reply[0] === "F25 command") {
      this.out(reply[0]);
      this.note(...whyNoCommand(meaning));
    } else {
      await this.show(reply, meaning);
      await this.noteAll(await notesAfter(this.session, meaning, reply));
      if (meaning.name === "skip") await this.tellFree(reply.at(-1));
    }
    return reply;
  }

  /** Sends lines one after another, until ^C. */
  async sendAll(meanings, typed = "") {
    for (const meaning of meanings) if (!this.isInterrupted) await this.send(meaning, typed);
  }

  /**
   * What ^C asks for: a row of lines, or of slices of a run, ends after the one that is asked; that one ends, too, if it does not answer
   * soon, of a slice at a second ^C. Where the way back takes long, a second ^C leaves the line as it is.
   */
  interrupt() {
    if (this.ending !== undefined) this.session.stopBeginning();
    else if (!this.isInterrupted) this.endsLate = setTimeout(() => this.endLine(), this.isRunning ? 0 : this.sliced ? SLICE_LATE : HEARD_LATE);
    else if (this.sliced) this.endLine();
    this.isInterrupted = true;
  }

  /** What is told of a line that was ended. */
  get whatEnds() {
    if (this.sliced) return sliceEnded(this.sliced.length);
    return this.isRunning ? RUN_ENDED : this.session.isChanging ? LINE_ENDED : ASKING_ENDED;
  }

  /** Ends the line that the program is at, if it is at one. */
  endLine() {
    this.trying?.stop();
    if (this.ending !== undefined || !this.session.program.isBusy) return;
    const told = this.whatEnds;
    this.ending = this.session.endRun().then(() => told, (error) => {
      this.ending = undefined;
      this.isInterrupted = false;
      this.note(`${error.message}; the line goes on`);
    });
  }

  /** The program has ended beneath a line: by ^C, or by itself. */
  async afterEnd(error) {
    if (this.ending === undefined) return this.comeBack(error);
    const told = await this.ending;
    this.ending = undefined;
    return this.note(told);
  }

  // ---- commands that the terminal answers itself, or completes. A reply of `false` leaves the line to the console.

  on_help({ words }) {
    this.note(...helpLines(words));
  }

  async on_step({ words }) {
    if (words.length > 0) return false;
    const goals = await this.session.goalsTold(), ready = goals?.find(({ status }) => status === "ready");
    if (goals === undefined) return this.send(meant("leap", "1"));
    return ready === undefined ? this.tellNoneReady(goals) : this.send(meant("step", ready.name));
  }

  async tellNoneReady(goals) {
    const [first, ...others] = await Own.stuck(this.session);
    this.note(...(goals.length === 0 ? [`no goal is ready: ${first}`] : ["no goal is ready", first]), ...others);
  }

  async takeBack() {
    const { last } = this.session.kept;
    if (last === undefined) this.note("no step is kept");
    else await this.send(meant("undo", String(last)));
    return last !== undefined;
  }

  async on_undo({ words }) {
    if (words.length > 0) return false;
    await this.takeBack();
    return true;
  }

  async on_back({ words: [word = "1"] }) {
    if (!/^\d{1,9}$/.test(word)) return this.note(usageOf("back"));
    for (let left = Number(word); left > 0 && !this.isInterrupted; left -= 1) if (!await this.takeBack()) break;
  }

  async on_show({ words, isWhole }) {
    if (words.length > 0) return false;
    if (this.session.variables.length === 0) this.note("the query has no variables");
    return this.sendAll(this.session.variables.map((name) => ({ ...meant("show", name), isWhole })));
  }

  async on_stuck({ name }) {
    this.note(...await Own[name](this.session));
  }

  on_stat = this.on_stuck;

  async on_list(meaning) {
    await this.noteListing(await Own[meaning.name](this.session, meaning.words), meaning);
  }

  on_holders(meaning) {
    return meaning.words.length === 1 ? this.on_list(meaning) : this.note(usageOf("holders"));
  }

  on_records(meaning) {
    return meaning.words.length === 1 && this.on_list(meaning);
  }

  async on_explain(meaning, typed) {
    const words = meaning.words.map((word) => Own.signOf(this.session, word));
    return this.send({ ...meaning, ...meant(meaning.name, ...words) }, typed);
  }

  on_whynot = this.on_explain;
  on_keep = this.on_explain;

  async on_save({ words }) {
    const version = words[0] === "1" ? "1" : "", file = words.slice(version === "" ? 0 : 1).join(" ");
    if (file === "") return false;
    const why = whyNoName(file) ?? whyOtherFile(file), act = () => this.saveInto(file, version);
    if (why !== undefined) return this.note(why);
    if (!this.isOfOther(file)) return act();
    this.question = act;
    return this.note(`${file} is the history of another session: y writes over it`);
  }

  /** Is a file a history that this session neither came from nor was saved in? */
  isOfOther(file) {
    const { given: { load }, savedInto } = this.session, own = [load, savedInto].filter((one) => one !== undefined);
    return isHistory(file) && !own.some((one) => path.resolve(one) === path.resolve(file));
  }

  /** Saves the session, and tells what of it stands in no file. */
  async saveInto(file, version) {
    let refusal;
    try {
      refusal = await this.session.save(file, version);
    } catch (error) {
      if (error instanceof Ended) throw error;
      return this.note(whyNotWritten(file, error));
    }
    if (refusal === undefined) {
      if (this.session.isSaved) this.forgetLeft();
      this.note(`saved in ${file}; --load ${file} goes on from it`);
      if (!this.session.isSaved) this.note("what was taken back, and what is spied, is not in it: save FILE keeps that, too");
      return undefined;
    }
    this.out(refusal);
    return this.note(refusal.startsWith("F1 ") ? NO_ROOM : NOT_ALONE);
  }

  async on_quit() {
    if (this.warnsOfLoss("quit")) return;
    this.forgetLeft();
    this.status = await this.session.end();
    this.hasEnded = true;
  }
}

Object.assign(Front.prototype, Beginning, Judging, Running, Showing, Spying);

export { Front };
