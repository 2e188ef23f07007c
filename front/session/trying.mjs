// What the other choices of a session lead to: for each, another program of the same engine plays the kept steps, rolls
// one, takes another clause and runs on. The session itself is only asked.
import * as Replies from "../protocol/replies.mjs";
import { MOST_STEPS, choicesIn, concernedIn, eachOnce, isOpen, linesTo, outcomeTold } from "../run/other_choices.mjs";
import { isWhole, textOf } from "./way_back.mjs";

const MOST = 40; // choices that are tried
const MOST_LOOKED = 3000; // steps, of all variables of a query, among which a run's end looks for those that were free
const MOST_GOALS = 40; // whose choices are looked for where a value has unbound variables
const MOST_LOSSES = 10; // steps that let go of a variable, of which the same is asked

/**
 * The choices of the steps on which X rests, by what `explain X` told. Where that has unbound variables, also of those
 * on which the goals rest that could bind them; with the steps that let go of such a variable.
 */
async function choicesOf(session, name, explained, mostGoals = MOST_GOALS) {
  const found = choicesIn(explained);
  if (!isOpen(explained)) return { found: eachOnce(found), losses: [] };
  const { goals, losses } = concernedIn(await session.ask(`whynot ${name}`));
  const looked = goals.slice(0, Math.min(mostGoals, MOST_GOALS));
  for (const goal of looked) found.push(...choicesIn(await session.ask(`explain ${goal}`)));
  return { found: eachOnce(found), losses };
}

/**
 * Of a run that has come to its end: how many steps could have gone by another clause, and which variables of the
 * query rest on one. In a long run none is looked for.
 */
async function freeSteps(session) {
  const { variables, kept: { steps } } = session, free = new Set();
  const often = MOST_LOOKED / (steps.size * variables.length); // so many explanations of a variable may be asked for
  const names = [];
  for (const name of often < 1 ? [] : variables) {
    const { found } = await choicesOf(session, name, await session.ask(`explain ${name}`), often);
    if (found.length > 0) names.push(name);
    found.forEach(({ step }) => free.add(step));
  }
  return { count: free.size, names };
}

class Trying {
  /**
   * `saved`: the lines that `save` told. What is spied there stops no run here. `session.another(history)` gives the
   * other programs.
   */
  constructor(session, saved) {
    this.session = session;
    this.history = textOf(saved);
    this.prepared = Replies.spiesIn(saved).map((predicate) => `nospy ${predicate}`);
    this.isStopped = false;
  }

  /** What another program finds out that stands where the session stands; undefined where it ends before. */
  async inAnother(looks) {
    const program = this.program = this.session.another(this.history);
    try {
      return await looks(program);
    } catch (error) {
      if (error !== program.ended) throw error;
      return undefined;
    } finally {
      await program.kill();
    }
  }

  /** What X is after a choice, or without one, when the run has gone on; undefined where that is not found out. */
  outcome(name, choice) {
    const taking = choice === undefined ? [] : linesTo(choice);
    return this.inAnother(async (program) => {
      const told = await program.ask([...this.prepared, ...taking, `leap ${MOST_STEPS}`].join("\n"));
      const refusal = told.find(Replies.isRefusal), [shown] = await program.ask(`show ${name}`), stop = told.at(-1);
      const whole = outcomeTold(name, { shown, stop, goals: await program.ask("goals") });
      const outcome = refusal === undefined ? whole : { value: refusal, ending: "" };
      return { choice, ...outcome, isRunOn: told.length > this.prepared.length + 1 };
    });
  }

  /** The outcomes of X as it is, and of the first of some choices, one after the other, until it is stopped. */
  async* outcomes(name, choices) {
    for (const choice of [undefined, ...choices.slice(0, MOST)]) {
      const outcome = this.isStopped ? undefined : await this.outcome(name, choice);
      if (outcome !== undefined) yield outcome;
    }
  }

  /** The choices of a step that let go of a variable, and of those on which its goal rests. */
  async choicesOfLoss({ step, goal, clause }) {
    const found = await this.inAnother(async (program) => {
      await program.ask(`roll ${step}`);
      const said = (await program.ask(`clauses ${goal}`)).map(Replies.readChoice);
      const others = said.filter((choice) => choice?.says === "yes" && choice.number !== clause);
      const own = others.map(({ number }) => ({ step, goal, clause, other: number }));
      return [...choicesIn(await program.ask(`explain ${goal}`)), ...own];
    });
    return found ?? [];
  }

  /**
   * The clauses that say yes to the goal of a step once all others have gone on without it: what was rolled back with
   * the step need not have needed it.
   */
  async choicesHeld({ number: step, goal, clause, others }) {
    const found = await this.inAnother(async (program) => {
      const held = [];
      await program.ask([...this.prepared, `roll ${step}`].join("\n"));
      for (let isGoing = true; isGoing && held.length < MOST;) {
        isGoing = false;
        for (const { name, status } of Replies.readGoals(await program.ask("goals"))) {
          if (name === goal || status !== "ready") continue;
          if ((await program.ask(`skip ${name}`)).length < 2) continue;
          held.push(`skip ${name}`);
          isGoing = true;
        }
      }
      const said = held.length === 0 ? [] : (await program.ask(`clauses ${goal}`)).map(Replies.readChoice);
      const isKnown = (number) => number === clause || others.includes(number);
      const more = said.filter((choice) => choice?.says === "yes" && !isKnown(choice.number));
      return more.map(({ number }) => ({ step, goal, clause, other: number, held }));
    });
    return found ?? [];
  }

  /** All choices on which X rests, by what `explain X` told. */
  async choices(name, explained) {
    const { found, losses } = await choicesOf(this.session, name, explained), { clauses } = this.session;
    const isFree = (clause) => clauses.filter(({ predicate }) => predicate === clauses[clause - 1]?.predicate).length > 1;
    const steps = explained.map(Replies.readExplained).filter((step) => step?.clause && isFree(step.clause));
    for (const step of steps.slice(0, MOST)) if (!this.isStopped) found.push(...await this.choicesHeld(step));
    for (const loss of losses.slice(0, MOST_LOSSES)) if (!this.isStopped) found.push(...await this.choicesOfLoss(loss));
    return eachOnce(found);
  }

  /** Ends what is being tried, and begins no more. */
  stop() {
    this.isStopped = true;
    return this.program?.kill();
  }
}

/** What tries the choices of a session as it stands; undefined where memory is refused for its history. */
async function tryingOf(session) {
  const saved = await session.ask("save");
  return isWhole(saved) ? new Trying(session, saved) : undefined;
}

export { freeSteps, tryingOf };
