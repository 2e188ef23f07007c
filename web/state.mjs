// What is known of the session, for all that show it: `run`, `entries`, `busy` and the rest. talk.mjs alone changes it.
import * as Effects from "../front/protocol/effects.mjs";
import * as Replies from "../front/protocol/replies.mjs";
import RunModel from "../front/run/run_model.mjs";

const known = {
  session: null, // `{ hasEnded }`, once one was begun
  given: { program: "", query: "", history: "" }, // with what it began
  run: new RunModel(""),
  entries: [], // what was typed, and the replies
  spied: new Set(), // predicates
  refusal: "", // of the program, the query or the history
  trouble: "", // a fault, and what can be done
  busy: null, // the line that is at work, since when, and how far it is
  showing: null, // done when those who listen have shown the last change
  asked: 0, // questions to the worker that are not answered yet
};

/** Is an entry of a line that may have changed the run? A line that was not taken has a note. */
const mayChange = ({ line, note }) => !note && Effects.effectOf(line) !== "looks";

const isRefused = (entry) => entry.length === 1 && Replies.isRefusal(entry.reply[0]);

const State = Object.assign(known, { mayChange, isRefused });

export default State;
