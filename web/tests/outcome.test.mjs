// Tests of web/outcome.mjs: in one word how a run stands, and a circle of waits as sentences of the names of its processes.
import assert from "node:assert/strict";
import fs from "node:fs";
import test from "node:test";
import { fileURLToPath } from "node:url";
import { queryOf } from "../../front/text/query_comment.mjs";
import { arcsAmong } from "../../front/run/arcs.mjs";
import { whyAtEnd } from "../../front/run/waits.mjs";
import * as Asking from "../../front/protocol/asking.mjs";
import { engineOfPage } from "../../front/session/engine_of_page.mjs";
import * as Outcome from "../outcome.mjs";
import { runOf } from "./lib/runs.mjs";

const { engine } = await engineOfPage();
const example = (name) => fs.readFileSync(fileURLToPath(new URL(`../../examples/${name}.ghc`, import.meta.url)), "utf8");

/** The run of a program after lines, with why it goes on no more, and who waits for whom. */
async function played(program, query, ...lines) {
  const session = engine.open({ program, query });
  session.lines(lines);
  const run = runOf(session, { program, query }), size = run.graph.count;
  const asked = { ask: async (line) => session.line(line), variables: [...Asking.queryVariables(query).keys()], kept: { steps: { size } } };
  const why = await whyAtEnd(asked, run.goals);
  return { ...run, why, waits: await arcsAmong(asked, run.goals, why) };
}

/** The circle's sentences, as words. */
async function sentencesOf(program, query, ...lines) {
  const run = await played(program, query, ...lines), told = Outcome.tellCircle(run, Outcome.circleIn(run));
  return told.sentences.map(({ who, holds, waitsFor }) => [who, holds, waitsFor].map((goal) => (goal === null ? "-" : told.names.get(goal))).join(" "));
}

const CHOICE = "c(1) :- true | true.\nd(X) :- true | X = 1, X = 2.\ne(_) :- true | true.\n";
const WORDS = [
  ["c(1)", [], "not begun"], ["c(1), c(X)", ["leap 1"], "stuck"], ["c(1)", ["leap"], "done"], ["c(1), c(1)", ["leap 1"], "goes on"],
  ["d(X)", ["leap"], "failed"], ["instream(S)", [], "waits for an input"], ["true", [], "done"],
  ["e(X)", ["leap"], "ended"], ["e(_X)", ["leap"], "done"], ["e(X), X = 1", ["leap"], "done"], ["X = Y", ["leap"], "done"],
];

test("how a run stands is told in one word", async () => {
  for (const [query, lines, word] of WORDS) assert.equal(Outcome.wordOf(await played(CHOICE, query, ...lines)), word, query);
});

test("philosophers hold one fork each and wait for the next one", async () => {
  const program = example("wrong/philo");
  assert.deepEqual(await sentencesOf(program, queryOf(program), "leap"),
    ["phil 3 fork 3 fork 1", "phil 1 fork 1 fork 2", "phil 2 fork 2 fork 3"]);
});

test("where all wait alike each one's wait is told, and processes of one name have numbers", async () => {
  const three = await sentencesOf(example("deadlock"), "after(A,B), after(B,C), after(C,A)", "leap");
  assert.deepEqual(three, ["after 1 - after 3", "after 3 - after 2", "after 2 - after 1"]);
  const deep = "twice(X,Y) :- true | pair(X,Y), pair(Y,X).\npair(X,Y) :- true | one(X,Y).\none(1,_) :- true | true.\n";
  assert.deepEqual(await sentencesOf(deep, "twice(X,Y)", "leap"), ["pair 1 - pair 2", "pair 2 - pair 1"]);
  const unlike = "a(X,Y) :- wait(X) | true.\nb(X,Y) :- wait(X) | true.\n";
  assert.deepEqual(await sentencesOf(unlike, "a(X,Y), b(Y,X)"), ["a - b", "b - a"]);
});

test("there is no sentence where nothing waits in a circle", async () => {
  for (const query of ["c(X)", "c(1)", "c(X), e(X)"]) assert.deepEqual(await sentencesOf(CHOICE, query, "leap"), [], query);
});
