// Requests that look at a stop and change nothing: threads, frames, scopes, variables, texts, values.
import path from "node:path";
import * as Own from "../../front/run/own.mjs";
import { commandOf, helpLines } from "../../front/protocol/commands.mjs";
import { completionsOf } from "../../front/protocol/complete.mjs";
import { plural, whyNoClause } from "../../front/run/reasons.mjs";
import { QUERY, STEPS, SHELF } from "./places.mjs";
import { requests, Refused } from "./requests.mjs";

const MOST_THREADS = 1000, MOST_FRAMES = 200, LONGEST_NAME = 300;

const statusOf = ({ status, waitsFor, refusal }) => `${status}${waitsFor.length > 0 ? ` for ${waitsFor.join(", ")}` : ""}${refusal ? ` ${refusal}` : ""}`;

export default requests({
  async on_threads() {
    const threads = new Map();
    for (const goal of await this.look()) {
      const id = this.processes.of(goal.name);
      if (!threads.has(id) && threads.size < MOST_THREADS) threads.set(id, { id, name: `${goal.name} ${goal.text.slice(0, 60)}   ${statusOf(goal)}` });
    }
    const all = [...[...threads.values()].sort((one, other) => one.id - other.id), ...this.judgedThreads()];
    return { threads: all.length > 0 ? all : [{ id: 1, name: await this.whyNoGoal() }] };
  },

  async on_stackTrace({ threadId, startFrame = 0, levels }) {
    const isJudged = this.isJudged(threadId), goal = isJudged ? undefined : await this.goalOf(threadId);
    if (goal === undefined && !isJudged) {
      return { stackFrames: [this.frame("done", undefined, await this.whyNoGoal())], totalFrames: 1 };
    }
    const first = isJudged ? await this.judgedFrame() : this.frameOfGoal(goal), steps = this.stepsTo(isJudged ? this.judgedGoal : goal.name);
    const last = startFrame + (levels || MOST_FRAMES), shown = steps.slice(Math.max(startFrame - 1, 0), last - 1);
    for (const { number, goal: taken } of shown) if (taken !== null && this.frameText(taken) === undefined) this.frameTexts.set(taken, await this.session.goalTaken({ number, goal: taken }));
    return { stackFrames: [...(startFrame === 0 ? [first] : []), ...shown.map((step) => this.frameOfStep(step))], totalFrames: steps.length + 1 };
  },

  /** The steps that led to a goal, the last one first. */
  stepsTo(goal) {
    const { run } = this.session, steps = [];
    for (let step = run.makerOf(goal); step !== undefined; step = step.goal === null ? undefined : run.makerOf(step.goal)) steps.push(step);
    return steps;
  },

  /** Why a process has no goal, in words: it alone has ended, or all have. */
  async whyNoGoal() {
    const goals = await this.session.goalsTold();
    if (goals === undefined) return "no goal is shown: one is too long";
    return goals.length === 0 ? "all is done" : `this process has ended; others have ${plural(goals.length, "goal")}`;
  },

  /** A frame of a goal, or of a step, which can be restarted; `place` is one of Run's. */
  frame(kind, what, name, place) {
    const more = kind === "step" && { canRestart: true };
    return { id: this.inside.reference(kind, what), name, ...more, ...this.places.spotOf(place) };
  },

  frameOfGoal(goal) {
    return this.frame("goal", goal, goal.text.slice(0, LONGEST_NAME), this.session.run.placeOf(goal.name));
  },

  frameOfStep({ number, goal, act }) {
    const text = goal === null ? "" : `${this.frameText(goal) ?? goal} `;
    const place = goal === null ? undefined : this.session.run.placeOf(goal);
    return this.frame("step", number, `step ${number}: ${text.slice(0, LONGEST_NAME)}${act}`, place);
  },

  async on_scopes({ frameId }) {
    if (this.inside.references.get(frameId) === undefined) throw new Refused("this frame is of a stop that is over");
    return { scopes: this.inside.scopesOf(frameId, await this.session.goalsTold() ?? []) };
  },

  async on_variables({ variablesReference, filter, start = 0, count }) {
    const end = count ? start + count : undefined;
    const variables = await this.inside.variablesOf(variablesReference, { filter, start, end });
    if (variables === undefined) throw new Refused("this is of a stop that is over");
    return { variables };
  },

  /** The term of a variable that is shown in a scope under a name. */
  async termShown(name, reference) {
    const shown = reference === undefined ? undefined : (await this.inside.variablesOf(reference))?.find((variable) => variable.name === name);
    return shown?.evaluateName === undefined ? undefined : { variable: shown.evaluateName };
  },

  async on_exceptionInfo({ threadId }) {
    const goals = await this.session.goals(), allFailed = goals.filter(({ status }) => status === "failed");
    const failed = allFailed.find(({ name }) => this.processes.of(name) === threadId) ?? allFailed[0];
    if (failed === undefined) return { exceptionId: "stuck", description: (await Own.stuck(this.session)).join("\n"), breakMode: "always" };
    const why = failed.refusal === "F10" ? await whyNoClause(this.session, failed.name) : [];
    return { exceptionId: `failed ${failed.refusal}`, description: [`${failed.name} ${failed.text}`, ...why].join("\n"), breakMode: "always" };
  },

  async on_stepInTargets({ frameId }) {
    const { kind, what } = this.inside.references.get(frameId) ?? {}, isCall = kind === "goal" && what.sort === "call";
    const yes = isCall ? await this.session.clausesSayingYes(what.name) : [];
    const label = ({ number, text }) => `clause ${number}: ${text.replace(/\s+/g, " ").slice(0, 90)}`;
    return { targets: yes.map((number) => ({ id: number, label: label(this.session.clauses[number - 1]) })) };
  },

  async on_gotoTargets({ source, line }) {
    const isOurs = source?.path === undefined || path.resolve(source.path) === this.places.file;
    const clause = isOurs ? this.clauseAt(this.places.meant(line)) : undefined, run = await this.session.look();
    const steps = [...this.session.kept.steps.values()].filter((step) => clause !== undefined && step.clause === clause.number).reverse().slice(0, 50);
    const label = ({ number, goal }) => `before step ${number}: ${run.textOf(goal).slice(0, 80)}`;
    return { targets: steps.map((step) => ({ id: step.number, label: label(step), line: this.places.shown(clause.line) })) };
  },

  async on_completions({ text, column }) {
    const line = text.slice(0, this.places.meant(column) - 1), { words, begun } = await completionsOf(this.session, line);
    return { targets: words.slice(0, 100).map((word) => ({ label: word.trim(), start: line.length - begun.length, length: begun.length })) };
  },

  on_loadedSources() {
    return { sources: [this.places.source(), ...[QUERY, STEPS, SHELF].map((reference) => this.places.virtual(reference))] };
  },

  async on_source({ source, sourceReference = source?.sourceReference }) {
    if (sourceReference === QUERY) return { content: this.session.given.query };
    if (sourceReference === SHELF) return { content: (await this.session.ask("shelf")).map((line) => `${line}\n`).join("") };
    if (sourceReference !== STEPS) throw new Refused("no such text");
    const run = await this.session.look(), lines = [];
    for (const { number, goal, act } of this.session.kept.steps.values()) lines.push(`${String(number).padStart(5)} ${goal === null ? "" : run.textOf(goal)}   ${act}\n`);
    return { content: lines.join("") };
  },

  /** A variable's value; in the console also each line of ghcdb's, and some commands of the terminal. */
  async on_evaluate({ expression, context, frameId }) {
    const line = expression.trim(), term = /^[A-Z_]\w*$/.test(line) ? await this.inside.termNamed(line, frameId) : undefined;
    if (term !== undefined) {
      const { name, evaluateName, value, ...shown } = this.inside.variable(line, term);
      return { result: value, ...shown };
    }
    if (context === "hover" || context === "watch") throw new Refused(`${line} is no variable here`);
    return { result: (await this.consoleLine(line)).join("\n"), variablesReference: 0 };
  },

  /** The lines that a line of the editor's console is answered by. */
  async consoleLine(line) {
    const [word, ...words] = line.split(/ +/);
    if (commandOf(word) === "help") return helpLines(words);
    if (["stuck", "stat"].includes(word)) return Own[word](this.session, words);
    if (["holders", "list"].includes(word) && words.length < 2) return Own[word](this.session, words);
    const judged = await this.judge(line), version = words[0] === "1" ? "1" : "", file = words.slice(version.length).join(" ");
    if (judged !== undefined) return judged;
    if (word === "save" && file !== "") return this.session.saveInto(file, version);
    return this.typed(line, word);
  },
});
