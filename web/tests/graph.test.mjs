// Tests of front/run/graph.mjs and front/protocol/asking.mjs: what is read from the console's lines, and edges that are those of `why N`.
import assert from "node:assert/strict";
import test from "node:test";
import * as Asking from "../../front/protocol/asking.mjs";
import * as Graph from "../../front/run/graph.mjs";
import { engineOfPage } from "../../front/session/engine_of_page.mjs";
import { askedRun, eachPlay, writtenText } from "./lib/runs.mjs";
import * as Clauses from "../../front/text/clauses.mjs";
import * as Printed from "../../front/text/printed.mjs";
import * as Replies from "../../front/protocol/replies.mjs";

/** Takes the steps of a run again, one by one, in a session that has not begun: the texts that it tells are those of the run. Gives how many. */
function compareTexts(play, run, session) {
  const texts = new Map(Replies.readGoals(session.line("goals")).map((goal) => [goal.name, goal.text]));
  for (const { goal, clause } of run.graph.steps) Asking.addCalls(texts, session.line(clause === null ? `step ${goal}` : `step ${goal} ${clause}`));
  for (const { goal } of run.graph.steps) assert.equal(run.texts.get(goal), texts.get(goal), `${play.name}, goal ${goal}`);
  return run.graph.count;
}

/** The numbers of the steps that are marked. */
function numbersIn(graph, { isIn }) {
  const numbers = new Set();
  isIn.forEach((is, index) => { if (is === 1) numbers.add(graph.numbers.at(index)); });
  return numbers;
}

/** The numbers of a step and of all that it depends on, or that depends on it. */
const allCauses = (graph, number) => numbersIn(graph, Graph.causesReached(graph, graph.indexOf(number)));
const allEffects = (graph, number) => numbersIn(graph, Graph.effectsReached(graph, graph.indexOf(number)));

/** The reply to `why N` that this graph stands for. */
function whyLines(graph, number) {
  const lines = graph.causes.get(number).map((edge) =>
    (edge.kind === "made" ? `${edge.from} made` : `${edge.from} ${edge.kind} ${edge.variables[0]}${edge.woke ? " woke" : ""}`));
  return lines.length > 0 ? lines : ["none"];
}

test("record lines of docs/FORMATS.md are read", () => {
  const [step] = Replies.readRecords(["3 0.1 by 12 reads _0_1,_0_2 binds _0_1=_0_2;_0_2=[a,f(b)|_3_1];_0_3=1 makes 3.1,3.2"]);
  assert.deepEqual(step, {
    number: 3, goal: "0.1", act: "by 12", kind: "reduce", clause: 12, names: [], reads: ["_0_1", "_0_2"],
    binds: [{ variable: "_0_1", term: "_0_2" }, { variable: "_0_2", term: "[a,f(b)|_3_1]" }, { variable: "_0_3", term: "1" }], makes: ["3.1", "3.2"],
  });
  const kinds = Replies.readRecords(["1 0.1 eq reads - binds - makes -", "2 0.2 is reads - binds _0_1=1 makes -", "3 0.3 in f(a,[b]) reads - binds - makes 3.1", "4 3.1 end reads - binds - makes -"]);
  assert.deepEqual(kinds.map((one) => one.kind), ["unify", "assign", "input", "close"]);
  assert.deepEqual(Replies.readRecords(["none"]), []);
});

test("goals and what was taken back are read", () => {
  const goals = Replies.readGoals(["1.1 ready price(12,_1_1)", "1.3 waits _1_1,_1_2 _0_1 := _1_1 + _1_2", "1.4 failed F11 1 = 2", "0.1 stream instream 1 _0_1", "none"]);
  assert.deepEqual(goals.map((goal) => [goal.name, goal.status, goal.waitsFor.join(), goal.refusal, goal.sort]), [
    ["1.1", "ready", "", "", "call"], ["1.3", "waits", "_1_1,_1_2", "", "assignment"], ["1.4", "failed", "", "F11", "unification"], ["0.1", "stream", "", "", "stream"]]);
  const [shelved] = Replies.readShelf(["2 1.1 by 2"]);
  assert.deepEqual([shelved.number, shelved.goal, shelved.clause], [2, "1.1", 2]);
});

test("an ask is read as a step that consumes no goal, with what it names", () => {
  const [step, words, none] = Replies.readRecords(["2 - ask append(_0_1,[3],_2_1), _1_2 = [_1_1] reads - binds - makes 2.1,2.2",
    "3 - ask reads = binds, makes reads - binds - makes 3.1,3.2", "4 - ask true reads - binds - makes -"]);
  assert.deepEqual(step, {
    number: 2, goal: null, act: "ask append(_0_1,[3],_2_1), _1_2 = [_1_1]", kind: "ask", clause: null, names: ["_0_1", "_1_1", "_1_2"],
    reads: [], binds: [], makes: ["2.1", "2.2"],
  });
  assert.deepEqual([words.act, words.names, words.makes], ["ask reads = binds, makes", [], ["3.1", "3.2"]]);
  assert.deepEqual([none.act, none.makes], ["ask true", []]);
  const [shelved, input] = Replies.readShelf(["2 - ask append(_0_1,[3],_2_1), _1_1 = [7]", "3 0.1 in ask"]);
  assert.deepEqual([shelved.goal, shelved.kind, shelved.act], [null, "ask", "ask append(_0_1,[3],_2_1), _1_1 = [7]"]);
  assert.deepEqual([input.goal, input.kind], ["0.1", "input"]);
  assert.deepEqual([shelved, input].map(Replies.wordsOf), ["ask append(_0_1,[3],_2_1), _1_1 = [7]", "goal 0.1 in ask"]);
});

test("an ask depends on the steps that made what it names, and on no other; what it made descends from it", () => {
  const { graph } = askedRun();
  assert.deepEqual([1, 2, 3, 4, 5, 6].map((number) => whyLines(graph, number)),
    [["none"], ["1 named _1_1"], ["1 made"], ["2 made", "3 read _0_1 woke"], ["none"], ["1 named _1_1", "2 named _2_1", "4 named _4_1"]]);
  assert.deepEqual([...allEffects(graph, 1)].sort(), [1, 2, 3, 4, 6]);
  assert.deepEqual([...allEffects(graph, 2)].sort(), [2, 4, 6]);
  assert.deepEqual([1, 2, 3, 4, 5, 6].map((number) => graph.depth.get(number)), [0, 1, 1, 2, 0, 3]);
  const least = Graph.graphOf(Replies.readRecords(["10 0.1 by 1 reads - binds - makes 10.1", "11 - ask p(_10_11,_10_2) reads - binds - makes 11.1"]));
  assert.deepEqual(whyLines(least, 11), ["10 named _10_2"]);
});

test("clauses and predicates are read from a program", () => {
  const clauses = Clauses.clausesOf("% p(a). in a comment\np :- true | q([1,2],f(a,b)).\nq(_, [A|X]) :- % why\n  true.\nhalf(X");
  assert.deepEqual(clauses.map((clause) => clause.predicate), ["p/0", "q/2", "half/1"]);
  assert.deepEqual(clauses[1], { number: 2, predicate: "q/2", from: 3, to: 4, text: "q(_, [A|X]) :- true." });
  assert.equal(clauses[2].text, "half(X.");
  assert.equal(Printed.predicateOf("append([1,2],[3|_0_1],f(a,b))"), "append/3");
});

test("the causes of docs/LANGUAGE.md: woke, made before read, the present order", () => {
  const first = ["1 0.2 eq reads - binds _0_1=[_0_2|_0_3] makes -", "2 0.3 eq reads - binds _0_2=a makes -", "3 0.1 by 1 reads _0_1,_0_2 binds - makes -"];
  assert.deepEqual(whyLines(Graph.graphOf(Replies.readRecords(first)), 3), ["1 read _0_1", "2 read _0_2 woke"]);
  const turned = Graph.graphOf(Replies.readRecords([first[1], first[0], first[2]]));
  assert.deepEqual(whyLines(turned, 3), ["2 read _0_2", "1 read _0_1 woke"]);
  assert.deepEqual(whyLines(turned, 1), ["none"]);
});

test("causes, effects and depths of a run of four steps", () => {
  const graph = Graph.graphOf(Replies.readRecords(["1 0.1 by 2 reads - binds - makes 1.1,1.2", "2 1.1 eq reads - binds _0_1=[1|_1_1] makes -",
    "3 1.2 by 1 reads - binds - makes 3.1", "4 3.1 eq reads - binds _1_1=[2] makes -"]));
  assert.deepEqual([...allEffects(graph, 1)].sort(), [1, 2, 3, 4]);
  assert.deepEqual([...allEffects(graph, 3)].sort(), [3, 4]);
  assert.deepEqual([...allCauses(graph, 4)].sort(), [1, 3, 4]);
  assert.deepEqual([1, 2, 3, 4].map((number) => graph.depth.get(number)), [0, 1, 1, 2]);
});

test("on every step of the examples and of the rows the edges are those of `why N` and of `causes`, also after rolls and in a tidied order", async () => {
  let compared = 0;
  const compare = (play, session, graph) => {
    const causes = [];
    for (const step of graph.steps) {
      const why = whyLines(graph, step.number);
      assert.deepEqual(why, session.line(`why ${step.number}`), `${play.name}, step ${step.number}`);
      causes.push(...why.filter((line) => line !== "none").map((line) => `${step.number} ${line}`));
      compared++;
    }
    assert.deepEqual(session.line("causes"), causes.length > 0 ? causes : ["none"], play.name);
  };
  await eachPlay((play, session, run) => {
    compare(play, session, run.graph);
    const order = Graph.tidyOrder(run.graph, (number) => run.graph.byNumber.get(number).goal);
    assert.deepEqual(session.line(`arrange ${order.join(" ")}`), ["arranged"], play.name);
    compare(play, session, Graph.graphOf(Replies.readRecords(session.line("records"))));
  });
  assert.ok(compared > 500, `${compared} steps compared`);
});

test("the goals' texts that a run does not tell are those that single steps tell", async () => {
  const { engine } = await engineOfPage();
  let compared = 0;
  await eachPlay((play, session, run) => {
    if (play.lines.length === 1 && play.lines[0].startsWith("leap") && !play.history) compared += compareTexts(play, run, engine.open(play));
    for (const step of run.graph.steps) {
      for (const goal of [step.goal, ...step.makes]) assert.ok(goal === null || run.texts.has(goal) || run.goals.some((one) => one.name === goal), `${play.name}, goal ${goal}`);
    }
    for (const goal of run.goals) {
      const text = run.texts.get(goal.name) ?? writtenText(run, goal.name);
      assert.equal(Printed.sortOfText(text), goal.sort, `${play.name}, goal ${goal.name}`);
      if (goal.sort === "call") assert.equal(Printed.predicateOf(text), Printed.predicateOf(goal.text), `${play.name}, goal ${goal.name}`);
    }
  });
  assert.ok(compared > 300, `${compared} texts compared`);
});
