// Runs in a worker, or in the page where a browser refuses workers: keeps the engine's session, plays lines, and tells what has changed.
import * as Asking from "../protocol/asking.mjs";
import * as Effects from "../protocol/effects.mjs";
import Told from "../protocol/told.mjs";
import * as Short from "../protocol/short.mjs";
import Engine from "./engine.mjs";
import Host from "./host.mjs";
import * as ReloadPlan from "../run/reload_plan.mjs";
import * as Replies from "../protocol/replies.mjs";
import { decode, linesOf } from "../text/bytes.mjs";
import * as Reader from "../text/reader.mjs";

const MOST_WITH_TEXTS = 3000; // steps; the goals of a longer run are not asked for
const MOST_LINES_READ = 300000; // bytes; a longer reply is handed on as it is
const EVERY = 8192, LEAST_PAUSE = 150; // requests for memory, milliseconds: how often it says that a line is still at work
const NOTHING = new Uint8Array(0), FIRST_OF_REFUSAL = 70; // the letter F

/** What shortens the lines of a reply: a history stays as it is. */
const shortening = (line) => (Effects.wordOf(line) === "save" ? (told) => told : (told) => Short.line(told));
const refusalIn = (reply) => (reply[0] === FIRST_OF_REFUSAL ? decode(reply).trim() : "");

class WorkerSide {
  constructor(engine) {
    this.engine = engine;
    this.session = null;
  }

  /** Begins a session, from nothing or from a history. */
  open({ given }) {
    return this.begin(given, this.engine.open(given));
  }

  /** Begins a session at which nobody looks: it is asked alone. */
  trial({ given }) {
    this.session = this.engine.open(given);
    if (this.session.refused) throw new Error(this.session.start.trim());
    return {};
  }

  /** Takes up a session of what is given; one that was refused, too. */
  begin(given, session) {
    this.given = given;
    this.told = new Told(); // the record as it was told last
    this.texts = new Map();
    this.sent = new Set();
    this.lacksTexts = false; // where steps have come that were too many to ask for their goals
    this.unseen = []; // the lines played since it was looked last
    this.second = null; // another session, made where somebody asks what was
    this.session = session;
    const { refused, start } = session;
    if (!refused && !given.history) for (const goal of Replies.readGoals(this.session.line("goals"))) this.texts.set(goal.name, goal.text);
    return { refusal: refused ? start.trim() : "", look: refused ? null : this.look() };
  }

  /** What is to be shown, by the whole record: how many of its steps stay, the lines of those that have come, and all else that is shown. */
  look() {
    return this.changed(this.told.replace(this.session.bytes("records")));
  }

  /** The same, where steps can have come at the end alone. */
  addedLook() {
    const { lastNumber, count: kept } = this.told, come = lastNumber === null ? null : this.told.addSince(this.session.bytes(`since ${lastNumber}`));
    return come === null ? this.look() : this.changed({ kept, come });
  }

  /** The same, where steps have gone: a reply, a list of lines or bytes, tells their numbers. */
  takenLook(reply) {
    const lines = Array.isArray(reply) ? reply : linesOf(reply);
    const gone = lines.flatMap((line) => Replies.readUndone(line) ?? []);
    this.told.take(new Set(gone));
    return this.changed({ gone: Float64Array.from(gone), come: NOTHING });
  }

  /** Another session that stands where this one does, with the numbers of the kept steps, and how many it has now. */
  aside() {
    if (this.unseen.length > 0) throw new Error("lines are at work");
    const { program, query } = this.given, history = decode(this.session.bytes("save"));
    const session = this.engine.open({ program, query, history });
    if (session.refused) throw new Error(session.start);
    const numbers = linesOf(this.told.bytes).map((line) => Number(line.slice(0, line.indexOf(" "))));
    return { session, numbers, count: numbers.length };
  }

  /**
   * Goes on under another program, with the steps that stay. Where its text is refused, or the history of these steps,
   * or memory for it, the session stands.
   */
  reload({ program }) {
    const { program: text, query } = this.given, fresh = this.engine.open({ program, query });
    if (fresh.refused) return { refusal: fresh.start.trim() };
    const [before, after] = [text, program].map(Reader.readProgram), records = linesOf(this.told.bytes);
    const [saved, shelf] = ["save", "shelf"].map((line) => this.session.line(line));
    const plan = ReloadPlan.planTold({ before, after, records, saved, shelf });
    if (plan === undefined) return { refusal: Replies.NO_MEMORY };
    let given, session;
    for (const history of ReloadPlan.historiesOf(plan)) {
      given = { program, query, history };
      session = this.engine.open(given);
      if (!session.refused) return { ...this.begin(given, session), given, ...ReloadPlan.inShort(plan) };
    }
    return { refusal: session.start.trim() };
  }

  /** Why program and query would be refused; an empty text where they would not. The session stands. */
  check({ program, query }) {
    const fresh = this.engine.open({ program, query });
    return { refusal: fresh.refused ? fresh.start.trim() : "" };
  }

  /** A session of the first steps alone. */
  after(count) {
    const second = this.second ??= this.aside(), { session, numbers } = second;
    for (; second.count > count; second.count--) session.line(`undo ${numbers[second.count - 1]}`);
    for (; second.count < count; second.count++) session.line(`redo ${numbers[second.count]}`);
    return session;
  }

  /** What a console without a step and its consequences replies to a line. */
  without({ step, line }) {
    const { session } = this.aside();
    session.line(`roll ${step}`);
    return { reply: session.line(line) };
  }

  /** What has changed, its long terms shortened, with the bytes of the replies to `goals` and `shelf` beside the record. */
  changed({ gone = null, kept = 0, come: all }) {
    this.second = null;
    const come = Short.lines(all, Short.record), goals = Short.lines(this.session.bytes("goals"), Short.goal);
    return { gone, kept, come, goals, goalsRefused: refusalIn(goals), shelf: this.session.bytes("shelf"), texts: this.newTexts(come) };
  }

  /** The texts of goals that were not handed on yet, those that steps took which have come among them. */
  newTexts(come) {
    const isLong = this.told.count > MOST_WITH_TEXTS, lines = () => linesOf(this.lacksTexts ? Short.lines(this.told.bytes, Short.record) : come);
    this.lacksTexts = isLong || !Asking.completeTexts(this.texts, Replies.readRecords(lines()), this.session);
    const fresh = [...this.texts].filter(([name]) => !this.sent.has(name));
    for (const [name] of fresh) this.sent.add(name);
    return fresh;
  }

  /** What is to be shown after lines, the last of them with this reply; null where they have changed nothing. */
  lookAfter(lines, reply) {
    const effects = lines.map(Effects.effectOf);
    if (effects.every((effect) => effect === "looks")) return null;
    if (effects.length === 1 && effects[0] === "takes") return this.takenLook(reply);
    return effects.every((effect) => ["adds", "looks"].includes(effect)) ? this.addedLook() : this.look();
  }

  /** The reply to a line: a list of lines, or bytes where it is long; how many they are; of `explain` its steps. */
  reply(line) {
    const bytes = this.session.bytes(line), isLong = bytes.length > MOST_LINES_READ;
    const reply = isLong ? bytes : linesOf(bytes);
    if (!isLong && this.told.count + this.unseen.length <= MOST_WITH_TEXTS) Asking.addCalls(this.texts, reply);
    const slice = Effects.wordOf(line) === "explain" ? Asking.sliceIn(linesOf(bytes)) : null;
    return { reply, length: Told.countLines(bytes), slice };
  }

  /** Plays lines, and tells what is to be shown then; `isMore` says that others follow, after which it tells that. */
  lines({ lines, isMore = false }) {
    const told = [];
    let last = null;
    for (const line of lines) {
      if (this.session.hasEnded) break;
      if (line.trim() === "quit") last = this.look(); // after it nothing can be asked
      told.push(this.reply(line));
      this.unseen.push(line);
    }
    const { hasEnded } = this.session, parts = ["reply", "length", "slice"];
    const [replies, lengths, slices] = parts.map((part) => told.map((one) => one[part]));
    if (isMore && !hasEnded) return { replies, lengths, slices, hasEnded, look: null };
    const unseen = this.unseen.splice(0), reply = replies[replies.length - 1];
    const look = hasEnded ? last : this.lookAfter(unseen, reply);
    return { replies, lengths, slices, hasEnded, look };
  }

  /** Asks what no line of the user asks for, as after the first steps alone where their `count` is told. */
  ask({ line, count = null }) {
    const session = count === null ? this.session : this.after(count);
    return { reply: session.hasEnded ? [] : session.line(line).map(shortening(line)) };
  }

  /** On what a value or a goal rests. */
  slice({ name }) {
    return { slice: Asking.sliceIn(this.session.line(`explain ${name}`)) };
  }
}

/** What of an answer can be handed over without being copied. */
function transferable(answer) {
  const { replies = [], look } = answer, parts = look ? [look.come, look.gone, look.goals, look.shelf] : [];
  return [...replies, ...parts].filter((part) => ArrayBuffer.isView(part) && part.byteLength > 0).map((part) => part.buffer);
}

/** Lets hosts tell from time to time how much memory their runs have, while the page cannot ask. */
function tellProgress(post) {
  const { calls } = Host.prototype;
  let lastTold = 0;
  Host.prototype.calls = function callsThatTell() {
    const all = calls.call(this), take = all.rattle_alloc;
    let requests = 0;
    all.rattle_alloc = (at, bytes) => {
      requests += 1;
      if (requests % EVERY === 0 && performance.now() - lastTold > LEAST_PAUSE) {
        lastTold = performance.now();
        post({ progress: this.memory.buffer.byteLength });
      }
      return take(at, bytes);
    };
    return all;
  };
}

/** What answers messages, of which `what` names what the side does: `post` tells what was asked. */
function answerer(post, loadEngine) {
  let side = null;
  const load = async ({ bytes }) => { side = new WorkerSide(await loadEngine(bytes)); return {}; };
  return async (message) => {
    try {
      const answer = await (message.what === "load" ? load(message) : side[message.what](message));
      post({ id: message.id, answer }, transferable(answer));
    } catch (error) {
      post({ id: message.id, error: String(error && error.message) }, []);
    }
  };
}

/** Serves a page from a worker. */
function serve() {
  tellProgress((message) => postMessage(message));
  const answers = answerer((message, moved) => postMessage(message, moved), (bytes) => Engine.load(bytes));
  onmessage = ({ data }) => answers(data);
}

WorkerSide.serve = serve;
WorkerSide.answerer = answerer;

export default WorkerSide;
