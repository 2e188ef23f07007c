// The run as it was after its first steps: the console of a session of these steps alone tells what goals were there.
import * as Replies from "../front/protocol/replies.mjs";
import * as Graph from "../front/run/graph.mjs";
import { NO_WAITS, arcsAmong } from "../front/run/arcs.mjs";
import { whyAtEnd } from "../front/run/waits.mjs";
import State from "./state.mjs";
import * as Talk from "./talk.mjs";

const MOST_STEPS = 3000; // of a longer run only the picture goes back

/** What a session tells beside its record: its goals, why nothing goes on where that is so, and who waits for whom. */
async function toldAt(session) {
  const reply = await session.ask("goals"), goals = Replies.readGoals(reply);
  if (Replies.isRefused(reply)) return { goals, goalsRefused: reply[0], why: [], waits: NO_WAITS };
  const why = await whyAtEnd(session, goals);
  return { goals, goalsRefused: "", why, waits: await arcsAmong(session, goals, why) };
}

/** The run after its first steps; null where the present one has to stand for it, undefined where it has changed. */
async function after(count) {
  const { run } = State, { graph, version } = run;
  if (count >= graph.count || graph.count > MOST_STEPS) return null;
  const told = await toldAt(Talk.sessionAt(count)).catch(() => null);
  if (run !== State.run || version !== run.version) return undefined;
  return told && { ...run, graph: Graph.partOf(graph, 0, count), ...told, shelf: [] };
}

export { after };
