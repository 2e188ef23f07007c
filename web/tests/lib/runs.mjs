// Runs of the examples and of the rows of tests/rows on the page's engine, for tests of the graph and of the picture.
import assert from "node:assert/strict";
import fs from "node:fs";
import path from "node:path";
import { fileURLToPath } from "node:url";
import * as Asking from "../../../front/protocol/asking.mjs";
import * as Clauses from "../../../front/text/clauses.mjs";
import * as ExampleNotes from "../../example_notes.mjs";
import * as Graph from "../../../front/run/graph.mjs";
import * as SessionText from "../../../front/protocol/session_text.mjs";
import { engineOfPage } from "../../../front/session/engine_of_page.mjs";
import * as Replies from "../../../front/protocol/replies.mjs";
import * as Reader from "../../../front/text/reader.mjs";
import Run from "../../../front/run/run.mjs";

const HERE = path.dirname(fileURLToPath(import.meta.url));

const EXAMPLES = path.join(HERE, "..", "..", "..", "examples");
const ROWS = path.join(HERE, "..", "..", "..", "tests", "rows");
const MOST_STEPS = 3000; // as many as the page draws

const INPUTS = {
  counter: ["in 1 up", "leap", "in 1 show(5)", "in 1 down", "leap", "end 1", "leap"],
  merge: ["in 1 a", "in 2 b", "leap", "in 1 f(a,[b])", "leap", "end 2", "leap", "roll 1", "in 1 c", "leap"],
  sum: ["in 1 5", "leap", "in 1 7", "end 1", "leap"],
};

/** All examples, each with its query, a larger one, and one that was rolled back and is on its way. */
function plays() {
  return fs.readdirSync(EXAMPLES).filter((file) => file.endsWith(".ghc")).sort().flatMap((file) => {
    const name = file.slice(0, -".ghc".length), program = fs.readFileSync(path.join(EXAMPLES, file), "utf8");
    const { query, larger } = ExampleNotes.read({ name, program });
    const play = (words, asked, lines) => ({ name: `${name}, ${words}`, program, query: asked, lines });
    return [
      play("its query, not begun", query, []),
      play("its query", query, ["leap 1000"]),
      play("a larger query", larger, INPUTS[name] || ["leap 1000"]),
      play("with a step rolled back", larger, [...(INPUTS[name] || ["leap 1000"]).slice(0, 4), "roll 5", "leap 4", "roll 2", "leap 7"]),
    ];
  });
}

/** The rows that are sessions, each with its program, query and lines. */
function rows() {
  const exampleOf = (name) => fs.readFileSync(path.join(EXAMPLES, name), "utf8");
  return fs.readdirSync(ROWS).filter((file) => file.endsWith(".row")).sort()
    .map((file) => ({ name: file, ...SessionText.read(fs.readFileSync(path.join(ROWS, file), "utf8"), exampleOf) }))
    .filter((play) => play.lines !== undefined);
}

/** What the page would show of a run. */
function runOf(session, play) {
  const told = Asking.whereItStands(session, play.query), steps = Replies.readRecords(told.records), goals = Replies.readGoals(told.goals);
  const texts = new Map();
  Asking.completeTexts(texts, steps, session);
  return { given: play, graph: Graph.graphOf(told.records), goals, shelf: Replies.readShelf(told.shelf), why: [], texts, clauses: Clauses.clausesOf(play.program), told };
}

/** Plays all: calls `look(play, session, run)` where the lines of each are told, unless it was refused, has ended, or is too long. */
async function eachPlay(look) {
  const { engine } = await engineOfPage();
  let played = 0;
  for (const play of [...plays(), ...rows()]) {
    const session = engine.open({ program: play.program, query: play.query, history: play.history || undefined });
    session.lines(play.lines);
    if (session.hasEnded || session.line("records").length > MOST_STEPS || session.line("goals")[0].startsWith("F6 ")) continue;
    look(play, session, runOf(session, play));
    played++;
  }
  assert.ok(played > 130, `${played} runs`);
}

/** What the page would show of a run in which goals were asked for, by what the console tells of it (docs/LANGUAGE.md, "Goals asked for"). */
function askedRun() {
  const program = fs.readFileSync(path.join(EXAMPLES, "append.ghc"), "utf8");
  const steps = Replies.readRecords(["1 0.1 by 2 reads - binds - makes 1.1,1.2", "2 - ask append(_0_1,[3],_2_1), _1_1 = [7] reads - binds - makes 2.1,2.2",
    "3 1.1 eq reads - binds _0_1=[1|_1_1] makes -", "4 2.1 by 2 reads _0_1 binds - makes 4.1,4.2", "5 - ask true reads - binds - makes -",
    "6 - ask append([],_4_1,_6_1), append(_2_1,_1_1,_6_2) reads - binds - makes 6.1,6.2"]);
  const goals = Replies.readGoals(["1.2 ready append([],[2],_1_1)", "2.2 ready _1_1 = [7]", "4.1 ready _2_1 = [1|_4_1]", "4.2 waits _1_1 append(_1_1,[3],_4_1)",
    "6.1 ready append([],_4_1,_6_1)", "6.2 waits _2_1 append(_2_1,_1_1,_6_2)"]);
  const texts = new Map(goals.map((goal) => [goal.name, goal.text]));
  for (const [name, text] of [["0.1", "append([1],[2],_0_1)"], ["1.1", "_0_1 = [1|_1_1]"], ["2.1", "append(_0_1,[3],_2_1)"]]) texts.set(name, text);
  return { graph: Graph.graphOf(steps), goals, shelf: Replies.readShelf(["7 - ask append(_6_1,[],_7_1)"]), texts, clauses: Clauses.clausesOf(program) };
}

/** A goal's text as it was written, by the program's text and the record, which no line has told. */
function writtenText({ given: { program, query }, graph }, name) {
  return Run.ofSteps(Reader.readProgram(program), query, graph.steps, new Map()).textOf(name);
}

export { writtenText, askedRun, eachPlay, plays, rows, runOf };
