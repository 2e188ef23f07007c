// The texts of the goals that steps took, which the console tells when it is asked.
import * as Asking from "../front/protocol/asking.mjs";
import State from "./state.mjs";
import * as Talk from "./talk.mjs";

/** Hands on the text of the goal that a step took, at once or when the console has told it. */
async function withGoalText(step, does) {
  const { run } = State;
  if (run.texts.has(step.goal)) does(run.texts.get(step.goal));
  if (step.goal === null || run.texts.has(step.goal)) return;
  const reply = await Talk.ask(`goal ${step.number}`), text = reply === null ? undefined : Asking.textOfGoal(reply);
  if (text === undefined) return;
  run.texts.set(step.goal, text);
  does(text);
}

export { withGoalText };
