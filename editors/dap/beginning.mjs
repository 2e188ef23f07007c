// Requests with which a session begins and ends.
import fs from "node:fs";
import path from "node:path";
import * as Causes from "../../front/text/causes.mjs";
import { plural } from "../../front/run/reasons.mjs";
import { everyRefusal, whyNotRead } from "../../front/session/every_refusal.mjs";
import { isEndless } from "../../front/session/files.mjs";
import { unlessEnded } from "../../front/session/program.mjs";
import { FILTERS } from "./breakpoints.mjs";
import { Places, queryOf } from "./places.mjs";
import { requests, Refused } from "./requests.mjs";
import { EditorSession } from "./session.mjs";

const CAN = ["ConfigurationDoneRequest", "FunctionBreakpoints", "ConditionalBreakpoints", "HitConditionalBreakpoints", "LogPoints", "DataBreakpoints", "EvaluateForHovers",
  "StepBack", "RestartFrame", "RestartRequest", "GotoTargetsRequest", "StepInTargetsRequest", "CompletionsRequest", "SetVariable", "SetExpression", "LoadedSourcesRequest",
  "ExceptionInfoRequest", "TerminateRequest", "SingleThreadExecutionRequests", "BreakpointLocationsRequest",
  "CancelRequest"];

const MOST_NOTES = 6; // on a program that it tells
const NO_QUERY = "no query: give `query` in the launch configuration, or a comment `% Query: ..` in the program";

/** The words of ghcdb's command line for a launch configuration. */
function wordsOf({ load, workers }, program, query) {
  return [program, "--query", query, ...(load ? ["--load", load] : []), ...(workers ? ["--workers", String(workers)] : [])];
}

/** Refuses a name at which no file stands, but a device or a pipe. */
function refuseEndless(file) {
  if (isEndless(file)) throw new Refused(`${file}: it is a device or a pipe, and no file`);
}

/** The text of a program's file. */
function textOf(file) {
  refuseEndless(file);
  const [why] = whyNotRead(file);
  if (why !== undefined) throw new Refused(why);
  return fs.readFileSync(file, "utf8");
}

/** What a launch configuration asks for: the program's file and text, the query, the words of ghcdb's command line. */
function askedBy(given) {
  if (typeof given.program !== "string") throw new Refused("no program: give `program` in the launch configuration");
  const file = path.resolve(given.program), text = textOf(file), query = given.query || queryOf(text);
  if (query === undefined) throw new Refused(NO_QUERY);
  if (given.load) refuseEndless(given.load);
  return { given, file, text, query, words: wordsOf(given, file, query) };
}

const Beginning = requests({
  on_initialize({ linesStartAt1 = true, supportsProgressReporting = false }) {
    this.first = linesStartAt1 ? 1 : 0;
    this.hearsProgress = supportsProgressReporting;
    return { ...Object.fromEntries(CAN.map((name) => [`supports${name}`, true])), exceptionBreakpointFilters: FILTERS };
  },

  async on_launch(given) {
    await this.launch(askedBy(given));
    this.later(() => this.event("initialized"));
  },

  /** Begins anew; where that is refused, the session before stands. */
  async launch(asked) {
    await this.goOnWith(new EditorSession(asked.words, this.native), asked);
    this.breakpoints.spied = new Set();
    this.countProcesses();
  },

  /** A session takes the place of the one before, which stands where it is refused. */
  async goOnWith(session, asked) {
    const { given, text } = asked, places = new Places(asked, this.first);
    await this.accepted(session.begin().then(() => session.keepWayBack()), session, places); // any line can be ended
    await this.session?.end();
    this.show(session, places, given);
    const notes = Causes.notesOn(text, places.source().name).slice(0, MOST_NOTES);
    this.later(() => notes.forEach((cause) => this.tellCause(cause, Causes.linesOf(cause, text), places, "important")));
  },

  /** Waits for a session to begin. All that it is refused for is told, each at its place; the answer has the first. */
  accepted(beginning, { texts, native }, places) {
    return unlessEnded(beginning, async ({ errors }) => {
      const refusals = await everyRefusal({ ...texts, file: places.source().name }, native, errors.trim());
      const told = refusals.map(({ said, lines }) => [said, ...lines]), more = refusals.length - 1;
      refusals.forEach(({ cause }, at) => this.tellCause(cause, told[at], places, "stderr"));
      const words = [...told[0], ...(more > 0 ? [`and ${plural(more, "refusal")} more, in the console`] : [])];
      throw new Refused(words.join("\n"), true);
    });
  },

  /** Tells lines in the editor's console, so that they lead to the place of their cause where there is one. */
  tellCause(cause, lines, places, category) {
    if (cause === undefined) return this.tell(lines, category);
    const { source, line, column } = places.spotOfCause(cause), output = `${lines.join("\n")}\n`;
    return this.event("output", { category, output, ...(source.path && { source, line, column }) });
  },

  on_attach() {
    throw new Refused("there is nothing to attach to: use launch");
  },

  on_configurationDone() {
    this.later(() => (this.given.stopOnEntry === false ? this.forward() : this.stopped("entry", "before the first step")));
  },

  async on_disconnect() {
    await this.session?.end();
    this.later(() => this.leave());
  },

  async on_terminate() {
    await this.session?.end();
    this.later(() => this.tellEnd());
  },

  // For a picture: what the page's picture is drawn of.
  async on_ghcdb_graph() {
    const [records, goals, shelf] = [await this.session.ask("records"), await this.session.ask("goals"), await this.session.ask("shelf")];
    const run = await this.session.look(), texts = {};
    for (const { number, goal } of this.session.kept.steps.values()) texts[number] = run.textOf(goal);
    return { records, goals, shelf, texts };
  },
});

export { Beginning, askedBy };
