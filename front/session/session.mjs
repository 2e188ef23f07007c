// A session as the terminal and the editors keep it: the program that runs, the steps that its replies told, and a look at the run,
// which is taken only when something has changed and somebody asks.
import path from "node:path";
import Kept from "../run/kept.mjs";
import * as Reader from "../text/reader.mjs";
import * as Replies from "../protocol/replies.mjs";
import Run from "../run/run.mjs";
import * as Program from "./program.mjs";
import { beginningOf, isNoFile, tried, writeWhole } from "./files.mjs";
import { NOT_BEGUN, NotEnded, WayBack, isWhole, textOf } from "./way_back.mjs";
import { readWords, wordsFrom, wordsOfProgram } from "../protocol/words.mjs";

const { HANDED } = Program;

// What is thrown where the console does not list the goals: one is too long to print, or memory was refused for it.
class NotTold extends Error {}

const WHY_NOT_TOLD = {
  "F6 limit: print": "a goal is longer than 1,048,576 bytes, so that no goal can be listed",
  [Replies.NO_MEMORY]: "memory was refused for the line of a goal",
};

const MOST_BYTES = 1_048_576; // of a program: ghcdb reads one byte further to see that it is longer

/** The bytes of a program, which is read once; undefined where it cannot be read, which ghcdb tells. */
const bytesOf = (file) => tried(() => beginningOf(file, MOST_BYTES + 1));

/** Has a session more than its kept steps: some that were taken back, or spied predicates? */
const holdsMore = (saved) => saved.some((line) => line.startsWith("undo ")) || Replies.spiesIn(saved).length > 0;

class Session {
  /**
   * A session for the words of a command line, which is not begun yet. `handed` may have the program's bytes and a history's text:
   * these count, whatever the files that the words name hold.
   */
  constructor(words, native = Program.nativeProgram(), handed = {}) {
    this.words = words;
    this.native = native;
    this.handed = handed;
    this.given = readWords(words);
    this.savedAt = 0; // the number of changes when the session was saved last
    this.savedInto = undefined; // the file
  }

  /** Begins anew with the files as they are now. Throws `Program.Ended` where ghcdb refuses them. */
  async begin() {
    this.bytes = this.handed.program ?? bytesOf(this.given.file);
    this.text = (this.bytes ?? "").toString("utf8");
    this.program = this.open();
    const goals = await this.program.ask("goals");
    this.clauses = Reader.readProgram(this.text);
    this.kept = new Kept();
    const list = Replies.readGoals(goals);
    if (this.isLoaded) this.kept.begin(await this.program.ask("records"));
    else list.forEach(({ name, text }) => this.kept.texts.set(name, text)); // nothing is bound yet: so they are written
    this.run = new Run(this.clauses, this.given.query, this.kept);
    this.seen = { records: -1, goals: isWhole(goals) ? 0 : -1, reply: goals, list };
    this.savedAt = 0;
    this.way = undefined; // the way back to it, where somebody may end a line
  }

  /** Begins, and ends: so what is refused is told. */
  async tryOut() {
    await this.begin();
    await this.end();
  }

  /** What may be refused, and the names of the files; a history that was handed stands in none. */
  get texts() {
    const { text, given: { file, query, load }, handed: { history } } = this;
    return { text, file, query, load: history === undefined ? load : undefined };
  }

  /** Did the session go on from a history? */
  get isLoaded() {
    return this.given.load !== undefined || this.handed.history !== undefined;
  }

  /** The program, begun with the words; a native one reads the program's file itself, where that can be read twice and nothing is handed. */
  open() {
    const { words, native, bytes, handed: { program, history } } = this, isHanded = program !== undefined || history !== undefined;
    if (!isHanded && (bytes === undefined || (native !== undefined && !isNoFile(this.given.file)))) return Program.open(words, native);
    return this.another(history);
  }

  /** A program begun with the words and the texts as they are known, which goes on from a history, where one is given. */
  another(history) {
    const { words, native, bytes } = this, files = new Map([[HANDED.program, bytes]]);
    if (history === undefined) return Program.open(wordsOfProgram(words, HANDED.program), native, files);
    return Program.open(wordsFrom(words, HANDED), native, files.set(HANDED.history, Buffer.from(history, "latin1")));
  }

  /** The names of the query's variables, as far as they are written. */
  get variables() {
    return this.run.query.variables.filter(Reader.isWritten);
  }

  get predicates() {
    return [...new Set(this.clauses.map(({ predicate }) => predicate))];
  }

  get isSaved() {
    const { steps, shelved, changes } = this.kept;
    return steps.size + shelved.size === 0 || changes === this.savedAt;
  }

  /** The lines of the reply to a line. */
  async ask(line) {
    if (this.way?.isHeavy) await this.prepareForEnding();
    const text = this.asked = String(line), reply = await this.program.ask(line);
    this.way?.note(text, reply);
    this.kept.learn(text, reply);
    return reply;
  }

  /** Are runs made by several workers, so that no run is made alike again? */
  get isByMany() {
    return this.given.workers !== undefined && this.given.workers !== "1" && this.native !== undefined;
  }

  /** May the line that was asked last have been about to change the session? */
  get isChanging() {
    return Kept.mayChange(this.asked);
  }

  /** The numbers of the clauses that say yes to a goal. */
  async clausesSayingYes(goal) {
    const reply = await this.ask(`clauses ${goal}`);
    return reply.map(Replies.readChoice).filter((choice) => choice?.says === "yes").map((choice) => choice.number);
  }

  /** The goal that a kept step took, as it was written then. */
  async goalTaken({ number, goal }) {
    const [line] = await this.ask(`goal ${number}`);
    return Replies.readTakenGoal(line)?.text ?? (await this.look()).textOf(goal);
  }

  /** The goals as they stand. Throws `NotTold` where the console lists none. */
  async goals() {
    const { seen, kept } = this;
    if (seen.goals !== kept.changes) {
      seen.reply = await this.ask("goals");
      if (!isWhole(seen.reply)) throw new NotTold(WHY_NOT_TOLD[Replies.NO_MEMORY]);
      seen.list = Replies.readGoals(seen.reply);
      seen.goals = kept.changes;
    }
    if (Replies.isRefused(seen.reply)) throw new NotTold(WHY_NOT_TOLD[seen.reply[0]] ?? `goals: ${seen.reply[0]}`);
    return seen.list;
  }

  /** The goals as they stand; undefined where the console lists none. */
  goalsTold() {
    return this.goals().catch((error) => {
      if (error instanceof NotTold) return undefined;
      throw error;
    });
  }

  /** The line that tells the value of each variable of the query, or the refusal, by the variable's name. */
  async answers() {
    const answers = new Map();
    for (const name of this.variables) answers.set(name, (await this.ask(`show ${name}`))[0]);
    return answers;
  }

  async goalNamed(name) {
    return (await this.goals()).find((goal) => goal.name === name);
  }

  /** The run with all that `records` tells of it; only what is not known yet is asked for. */
  async look() {
    if (this.seen.records === this.kept.changes) return this.run;
    const { run, kept } = this;
    run.forget(kept.takeRemoved());
    const first = kept.firstBeside(run.records);
    const since = run.records.size === 0 || first === undefined ? undefined : await this.ask(`since ${first}`);
    if (first === undefined) run.learnMore([]);
    else if (since !== undefined && !Replies.isRefused(since)) run.learnMore(since);
    else run.learn(await this.ask("records"));
    this.seen.records = kept.changes;
    return run;
  }

  /** From now on each line can be ended, and the session comes back as it stood before. */
  async keepWayBack() {
    this.way = new WayBack(this.isByMany);
    if (this.isLoaded) await this.prepareForEnding();
  }

  /** Keeps a history that brings the session back. Without memory for it, the one before and the lines since do. */
  async prepareForEnding() {
    this.asked = "save";
    const saved = await this.program.ask("save");
    if (isWhole(saved)) this.way.begin(textOf(saved), saved.length);
    else this.way.wait();
  }

  /** Another program, at which the session stands as before the line that is asked. */
  async beginAgain() {
    const program = this.beginning = this.another(this.way.history);
    try {
      await program.ask("goals");
      await this.way.play(program);
      return program;
    } catch (error) {
      await program.kill();
      throw error instanceof Program.Ended ? new NotEnded(`${NOT_BEGUN}: ${error.message}`) : error;
    }
  }

  /** Ends what `beginAgain` is at. */
  stopBeginning() {
    return this.beginning?.kill();
  }

  /** Ends the program in the midst of a line: another one goes on. Throws where none can: then the line goes on. */
  async endRun() {
    const { program } = this;
    program.hold();
    try {
      this.program = await this.beginAgain();
    } catch (error) {
      program.release();
      throw error;
    }
    await program.kill();
  }

  /** The session as a history, as it stands between two lines; undefined where none is to be had. */
  async history() {
    const { program } = this, isFree = !program.isBusy && program.ended === undefined;
    if (!isFree) program.hold();
    const saved = await (isFree ? program : await this.beginAgain()).ask("save");
    return isWhole(saved) ? textOf(saved) : this.way.history;
  }

  /**
   * Writes the session into a file, as a history; `version` is "1" for that of the kept steps alone: where there is
   * more, the session is not saved by that. The refusal, where there is one. Throws what the system says where the file
   * cannot be written.
   */
  async save(file, version = "") {
    const reply = await this.ask(`save ${version}`.trim());
    if (Replies.isRefused(reply)) return reply[0];
    if (!isWhole(reply)) return Replies.NO_MEMORY;
    if (version === "") this.way?.begin(textOf(reply), reply.length);
    writeWhole(file, Buffer.from(textOf(reply), "latin1"));
    this.savedInto = path.resolve(file);
    if (version === "" || !holdsMore(await this.ask("save"))) this.savedAt = this.kept.changes;
    return undefined;
  }

  end() {
    return this.program.end();
  }
}

export { Session, NotTold, NotEnded };
