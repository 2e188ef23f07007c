// Requests that take steps, forwards and back.
import { requests, Refused } from "./requests.mjs";
import * as Replies from "../../front/protocol/replies.mjs";

export default requests({
  /** The process that goes on after a step: that of the goal stepped where it goes on, else of the first ready goal that was made. */
  async into(made, thread) {
    const goals = (await this.goalsTold()).filter(({ name }) => made.includes(name));
    const next = goals.find(({ name }) => this.processes.of(name) === thread) ?? goals.find(({ status }) => status === "ready") ?? goals[0];
    return next === undefined ? thread : this.processes.of(next.name);
  },

  /** The goal to be stepped; refuses where the process is done. */
  async goalToStep(thread) {
    const goal = await this.goalOf(thread);
    if (goal === undefined) throw new Refused(`${await this.whyNoGoal()}: step back, or end`);
    return goal;
  },

  async on_stepIn({ threadId, targetId }) {
    const goal = await this.goalToStep(threadId), line = `step ${goal.name}${targetId ? ` ${targetId}` : ""}`;
    const made = Replies.goalsMade(await this.change(line));
    this.later(async () => this.stopped("step", line, { thread: await this.into(made, threadId) }));
  },

  /** A step, and the unifications and sums that it made: what an editor calls a line. */
  async on_next({ threadId }) {
    const goal = await this.goalToStep(threadId), made = Replies.goalsMade(await this.change(`step ${goal.name}`));
    for (const name of made) {
      const other = await this.session.goalNamed(name);
      if (other?.status === "ready" && (other.sort === "unification" || other.sort === "assignment")) await this.change(`step ${name}`);
    }
    this.later(async () => this.stopped("step", `step ${goal.name}`, { thread: await this.into(made, threadId) }));
  },

  async on_stepOut({ threadId }) {
    const goal = await this.goalToStep(threadId);
    this.later(() => this.skip(goal.name, threadId));
  },

  on_continue({ threadId, singleThread }) {
    this.later(async () => (singleThread ? this.skip((await this.goalToStep(threadId)).name, threadId) : this.forward()));
    return { allThreadsContinued: !singleThread };
  },

  on_pause() {
    this.later(() => this.stopped("pause", "nothing was running"));
  },

  /**
   * The last step of the process is taken back: alone where nothing depends on it, else with what does. Where the process has none, it is
   * the step that made it, and where others stand on that, the last step of all.
   */
  async on_stepBack({ threadId }) {
    const steps = [...this.session.kept.steps.values()], mine = steps.findLast(({ goal }) => goal !== null && this.processes.of(goal) === threadId);
    if (steps.length === 0) throw new Refused("nothing was done yet");
    const goal = await this.goalOf(threadId), first = mine ?? (goal && this.session.run.makerOf(goal.name)) ?? steps.at(-1);
    let last = first, reply = await this.session.ask(`undo ${first.number}`);
    if (reply[0].startsWith("F17") && mine !== undefined) reply = await this.session.ask(`roll ${first.number}`);
    else if (reply[0].startsWith("F17")) {
      last = steps.at(-1);
      reply = [`this process has done nothing: the last step of all is taken back, step ${last.number}`, ...await this.session.ask(`undo ${last.number}`)];
    }
    this.tell(reply);
    const thread = mine !== undefined || last.goal === null ? threadId : this.processes.of(last.goal);
    this.later(() => this.stopped("step", reply.find((line) => line.startsWith("undone")), { thread }));
  },

  on_reverseContinue() {
    this.later(() => this.backward());
  },

  /**
   * Takes a step back with all that depends on it, and stops before it.
   * @param {number} number
   * @param {string} reason
   * @param {import("./types").Where & { text?: string }} told
   */
  async rollTo(number, reason, { hit, text = `before step ${number}` } = {}) {
    const { goal } = this.session.kept.steps.get(number);
    this.tell(await this.session.ask(`roll ${number}`));
    return this.stopped(reason, text, { hit, thread: goal === null ? undefined : this.processes.of(goal) });
  },

  on_restartFrame({ frameId }) {
    const { kind, what } = this.inside.references.get(frameId) ?? {};
    if (kind !== "step") throw new Refused("this goal was not stepped yet");
    this.later(() => this.rollTo(what, "restart"));
  },

  on_goto({ targetId }) {
    if (!this.session.kept.steps.has(targetId)) throw new Refused(`step ${targetId} is not kept`);
    this.later(() => this.rollTo(targetId, "goto"));
  },
});
