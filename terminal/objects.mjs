// Replies as objects, for programs that read JSON. Pure.
import * as BlameLines from "../front/protocol/blame_lines.mjs";
import * as Effects from "../front/protocol/effects.mjs";
import * as Replies from "../front/protocol/replies.mjs";
import * as WhyNotLines from "../front/protocol/why_not_lines.mjs";

/** The fields that say something: not what is not told, nor an empty list. */
const given = (fields) => Object.fromEntries(Object.entries(fields).filter(([, value]) => value && value.length !== 0));

/** Does a line change the record? */
const isChange = (line) => ["adds", "takes", "orders"].includes(Effects.effectOf(line));

/** The port that a line of the reply to a change tells; `told` gets what it tells else. */
function portOrElse(line, told) {
  const port = Replies.readPort(line), numbers = Replies.readUndone(line);
  if (port !== null) return port;
  if (numbers !== null) told.undone = (told.undone ?? []).concat(numbers);
  else if (line.startsWith("stopped ")) told.stopped = line.slice("stopped ".length);
  else told.told = line;
  return undefined;
}

/** What the reply to a line that changes the session tells. */
function change(reply) {
  const told = {}, ports = reply.map((line) => portOrElse(line, told)).filter(Boolean);
  return { ports, ...told };
}

/**
 * A kept step, with the text of the goal that it consumed.
 * @param {import("../front/types").Step} record
 * @param {(goal: string) => string} textOf
 */
function step({ number, goal, act, clause, reads, binds, makes }, textOf) {
  const bound = Object.fromEntries(binds.map(({ variable, term }) => [variable, term]));
  return { step: number, goal, text: goal === null ? null : textOf(goal), act, ...(clause !== null && { clause }), reads, binds: bound, makes };
}

/** A goal and how it stands. */
const standing = (name, { status, waitsFor, refusal }) => ({ goal: name, status, ...given({ waitsFor, refusal }) });

const goal = (it) => ({ ...standing(it.name, it), text: it.text });

const cause = ({ number, kind, variable, woke }) => ({ step: number, kind, ...given({ variable, woke }) });

const told = (reply) => (reply[0] === "none" ? [] : reply);

/** What a reply is about, by its first line: a goal, or a variable and its value. */
const subjectOf = ([line]) => Replies.readGoals([line]).map((it) => ({ goal: goal(it) }))[0] ?? Replies.readValue(line);

/** What an explanation tells: what it is about; who could bind what is unbound; the steps, and of how many. */
function explanation(reply, textOf) {
  const holders = reply.map(Replies.readHolder).filter(Boolean), of = Replies.readExtent(reply.at(-1));
  const records = reply.map(Replies.readExplained).filter(Boolean);
  const steps = records.map((record) => ({ ...step(record, textOf), ...given({ others: record.others }) }));
  return { ...subjectOf(reply), holders, steps, ...(of !== undefined && { of }) };
}

/** A direct dependence: the step, and what `why` tells of it. */
function dependence(line) {
  const { number, cause: found } = Replies.readDependence(line), { step: on, ...how } = cause(found);
  return { step: number, on, ...how };
}

/**
 * The goal that a step took, as it was written then, and the line of the program at which its clause begins.
 * @param {{ number: number, goal: string | null, act: string, text: string | null, line?: number }} step
 */
const taken = ({ number, goal: name, act, text, line }) =>
  ({ step: number, goal: name, act, text, ...given({ line }) });

/** Why a variable is not bound: its value, or the goal; who reaches what is asked about, which steps let it go. */
function whyNot(reply) {
  const { lost, ...told } = WhyNotLines.read(reply);
  return { ...subjectOf(reply), ...told, lost: lost.map((step) => ({ variable: step.variable, ...taken(step) })) };
}

/** What a clause says to a goal, and the line of the program at which it begins. */
const choice = ({ number, says, waitsFor, line }) => ({ clause: number, says, ...given({ waitsFor, line }) });

/** A goal that a call's step made: what is told of it stands under the word that tells it, of an equation or a sum under `text`. */
const madeGoal = ({ goal: name, how, text }) => ({ goal: name, [how === "written" ? "text" : how]: text });

/** What `part` and `blame` tell of a call, and the question or the verdict. What is not told is not there. */
function judged(reply) {
  const { left, made, standing: stands, ask, fault, ...call } = BlameLines.read(reply);
  return given({
    given: call.given, asked: call.asked, inTurns: call.inTurns, gave: call.gave,
    left: left && standing(left.goal, left), made: made.map(madeGoal), taken: call.taken,
    stands: stands && standing(stands.goal, stands), ask: ask?.goal, of: ask?.of, fault: fault && given(fault),
  });
}

/** Kept steps, as record lines tell them. */
const keptSteps = (reply, textOf) => ({ steps: Replies.readRecords(reply).map((record) => step(record, textOf)) });

const REPLIES = {
  records: keptSteps,
  since: keptSteps,
  effects: keptSteps,
  goal: ([line]) => { const found = Replies.readTakenGoal(line); return found === null ? { lines: [line] } : taken(found); },
  clauses: (reply) => ({ clauses: reply.map(Replies.readChoice).filter(Boolean).map(choice) }),
  explain: explanation,
  whynot: whyNot,
  part: judged,
  blame: judged,
  causes: (reply) => ({ dependences: told(reply).map(dependence) }),
  goals: (reply) => ({ goals: Replies.readGoals(reply).map(goal) }),
  show: ([line]) => Replies.readValue(line),
  why: (reply) => ({ causes: told(reply).map(Replies.readCause).map(cause) }),
  who: (reply) => ({ bound: told(reply).map(Replies.readBinder).filter(Boolean).map(({ variable, number }) => ({ variable, step: number })) }),
  shelf: (reply) => ({ steps: Replies.readShelf(reply).map(({ number, goal: name, act }) => ({ step: number, goal: name, act })) }),
};

/** How many lines of a listing are not there, for memory was refused for them. */
const holesIn = (reply) => given({ holes: reply.filter((line) => line === Replies.NO_MEMORY).length });

/** The object of a line and its reply. `textOf` gives the text of a goal by its name. */
function objectOf(line, reply, textOf) {
  const word = Effects.wordOf(line), start = { command: line, ok: !Replies.isRefused(reply) };
  if (!start.ok) return { ...start, refused: reply[0] };
  if (isChange(line)) return { ...start, ...change(reply) };
  return { ...start, ...(REPLIES[word]?.(reply, textOf) ?? { lines: reply }), ...holesIn(reply) };
}

/** What is refused of a program or a query: where, why, and what helps. */
function refusal({ said, lines, cause }) {
  const [, where, refused] = /^(\w+): (.*)$/.exec(said) ?? [], told = { in: where ?? null, refused: refused ?? said };
  if (cause === undefined) return { ...told, hints: lines };
  const { line, column, length, title, hints } = cause;
  return { ...told, line, column, length, title, hints };
}

// The text of a line's object, made as the reply comes: of a change the ports are told at once, of other lines all at
// the end.
class ObjectText {
  /** `line` is null, and no goal has a text, where the program ended at no line. */
  constructor(line, textOf = undefined) {
    this.line = line;
    this.textOf = textOf;
    this.parts = []; // lines of which nothing is told before the end
    this.told = {};
    this.isOpen = this.hasPorts = false;
  }

  /** What can be told of the first lines of a reply, or of others that come after them. */
  hear(lines) {
    if (this.isOpen) return this.ports(lines);
    this.isOpen = isChange(this.line) && !Replies.isRefused(lines);
    if (!this.isOpen) {
      this.parts.push(lines);
      return "";
    }
    const start = JSON.stringify({ command: this.line, ok: true }).slice(0, -1);
    return `${start},"ports":[${this.ports(lines)}`;
  }

  ports(lines) {
    const texts = lines.map((line) => portOrElse(line, this.told)).filter(Boolean).map((it) => JSON.stringify(it));
    const start = this.hasPorts && texts.length > 0 ? "," : "";
    this.hasPorts ||= texts.length > 0;
    return start + texts.join(",");
  }

  close() {
    return `]${JSON.stringify(this.told).replace("{", Object.keys(this.told).length > 0 ? "," : "")}\n`;
  }

  /** The rest of it, with the last lines of the reply. */
  end(lines) {
    if (this.isOpen) return this.ports(lines) + this.close();
    return `${JSON.stringify(objectOf(this.line, [...this.parts.flat(), ...lines], this.textOf))}\n`;
  }

  /** The rest of it where the program has ended: what it said last, its status, and all that it refuses of its texts. */
  ended(text, status, refusals = []) {
    Object.assign(this.told, { ended: text, status, ...given({ refusals: refusals.map(refusal) }) });
    return this.isOpen ? this.close() : `${JSON.stringify({ command: this.line, ok: false, ...this.told })}\n`;
  }
}

export { objectOf, ObjectText };
