// What becomes of a run where its program has changed: clauses are paired, steps go with their clauses, and a history keeps the rest.
import assert from "node:assert";
import test from "node:test";
import * as Replies from "../protocol/replies.mjs";
import * as Graph from "../run/graph.mjs";
import * as ReloadPlan from "../run/reload_plan.mjs";
import * as Reader from "../text/reader.mjs";

const { historyOf, isRenumbered, nameAfter, planOf, shelvedAt, shelvedOf } = ReloadPlan;

const BILL = ["bill(A,B,T) :- true | price(A,P), price(B,Q), T := P + Q.", "price(N,P) :- N > 0 | P := N * 10.", "price(N,P) :- N >= 10 | P := N * 8."];
const RECORDS = Replies.readRecords([
  "1 0.1 by 1 reads - binds - makes 1.1,1.2,1.3", "2 1.1 by 2 reads - binds - makes 2.1", "3 2.1 is reads - binds _1_1=120 makes -",
  "4 1.2 by 3 reads - binds - makes 4.1", "5 4.1 is reads - binds _1_2=24 makes -", "6 1.3 is reads _1_1,_1_2 binds _0_1=144 makes -",
]);

const plan = (before, after, steps = RECORDS) => planOf({ before: Reader.readProgram(before.join("\n")), after: Reader.readProgram(after.join("\n")), steps });

/** A plan in short: the pairs, the clauses gone and come, the steps that go and stay, all by their numbers. */
function inShort({ pairs, gone, come, going, staying }) {
  const numbers = (list) => list.map(({ number }) => number).join();
  return [[...pairs].map((pair) => pair.join(">")).join(), numbers(gone), numbers(come), numbers(going), numbers(staying)];
}

test("clauses are paired by their texts, and steps go with their clauses and what rests on them", () => {
  const [one, two, three] = BILL, mended = two.replace("N > 0", "N > 0, N < 10");
  const cases = [
    ["the same", BILL, ["1>1,2>2,3>3", "", "", "", "1,2,3,4,5,6"]],
    ["other blanks and comments", [one.replaceAll(" ", "\n"), "% what it costs", `${two} % each`, three.replaceAll(",", " , ")], ["1>1,2>2,3>3", "", "", "", "1,2,3,4,5,6"]],
    ["another order", [three, two, one], ["1>3,2>2,3>1", "", "", "", "1,2,3,4,5,6"]],
    ["a clause changed", [one, mended, three], ["1>1,3>3", "2", "2", "2,3,6", "1,4,5"]],
    ["a clause more, in front", ["free(X) :- true | X = 0.", ...BILL], ["1>2,2>3,3>4", "", "1", "", "1,2,3,4,5,6"]],
    ["a clause less, which a step took", [one, two], ["1>1,2>2", "3", "", "4,5,6", "1,2,3"]],
    ["the first clause gone", [two, three], ["2>1,3>2", "1", "", "1,2,3,4,5,6", ""]],
    ["another name for a variable", [one.replaceAll("Q", "R"), two, three], ["2>2,3>3", "1", "1", "1,2,3,4,5,6", ""]],
  ];
  for (const [name, after, wanted] of cases) assert.deepStrictEqual(inShort(plan(BILL, after)), wanted, name);
});

test("of clauses that stand twice each is paired once", () => {
  const steps = Replies.readRecords(["1 0.1 by 2 reads - binds - makes -"]);
  assert.deepStrictEqual(inShort(plan(["p.", "p.", "q."], ["q.", "p."], steps)), ["1>2,3>1", "2", "", "1", ""]);
  assert.deepStrictEqual(inShort(plan(["p.", "q."], ["p.", "p.", "q."], steps)), ["1>1,2>3", "", "2", "", "1"]);
});

test("the history keeps the numbers of the steps, and names the clauses by their new ones", () => {
  const [one, two, three] = BILL;
  const found = plan(BILL, [three, one, two.replace("10", "9")]), spied = ["bill/3", "price/2"];
  assert.strictEqual(historyOf(found, { next: 7, spied, shelved: [] }), "ghc-history 2\nopening 3 7\n1 0.1 by 2\n4 1.2 by 1\n5 4.1 is\nentries 0\nspies 2\nbill/3\nprice/2\nend 7\n");
  assert.strictEqual(historyOf(plan(BILL, [two]), { next: 7, spied: [], shelved: [] }), "ghc-history 2\nopening 0 7\nentries 0\nspies 0\nend 7\n");
  assert.deepStrictEqual(["T", "_0_1", "_1_2", "_2_1", "_9_1"].map((name) => nameAfter(found, name)), ["T", "_0_1", "_1_2", undefined, undefined]);
});

test("where a step asked for goals, the steps are numbered anew, and so are the goals and variables that they name", () => {
  const steps = Replies.readRecords([
    "2 0.1 by 1 reads - binds - makes 2.1,2.2", "3 2.1 by 2 reads - binds - makes -",
    "5 - ask price(_2_1,_5_1), q(a_2_1,_0_1) reads - binds - makes 5.1,5.2", "7 0.2 in f(_3) reads - binds _0_2=[f(_3)|_7_1] makes 7.1", "9 5.1 by 3 reads _2_1 binds - makes 9.1",
  ]);
  const found = plan(BILL, [BILL[0], BILL[2]], steps);
  assert.deepStrictEqual([inShort(found)[3], isRenumbered(found)], ["3", true]);
  assert.strictEqual(historyOf(found, { next: 10, spied: [], shelved: [] }), "ghc-history 2\nopening 0 1\nentries 4\n1 0.1 by 1\n2 - ask price(_1_1,_2_1), q(a_2_1,_0_1)\n3 0.2 in f(_3)\n4 2.1 by 2\nspies 0\nend 5\n");
  assert.deepStrictEqual(["_0_2", "_2_1", "_3_1", "_5_2"].map((name) => nameAfter(found, name)), ["_0_2", "_1_1", undefined, "_2_2"]);
});

test("of a shelf those steps may stay whose clause and goal are there, and the history takes them and takes them back", () => {
  const [one, two, three] = BILL, found = plan(BILL, [three, one, two.replace("10", "9")]); // 1, 4 and 5 stay
  const shelf = Replies.readShelf(["7 1.1 by 3", "8 7.1 is", "9 1.1 by 3", "10 1.2 by 3", "11 1.3 by 2", "12 1.3 is", "13 12.1 eq", "14 3.1 eq", "15 - ask q"]);
  const shelved = shelvedOf(found, shelf), numbers = shelved.map(({ number }) => number);
  assert.deepStrictEqual(numbers, [7, 8, 12, 13]);
  assert.strictEqual(historyOf(found, { next: 16, spied: [], shelved }), [
    "ghc-history 2", "opening 7 16", "1 0.1 by 2", "4 1.2 by 1", "5 4.1 is", "7 1.1 by 1", "8 7.1 is", "12 1.3 is", "13 12.1 eq",
    "entries 4", "undo 13", "undo 12", "undo 8", "undo 7", "spies 0", "end 16", "",
  ].join("\n"));
  assert.deepStrictEqual([3, 5, 6, 8, 9, 10].map((line) => shelvedAt(found, shelved, line)?.number), [undefined, undefined, 7, 12, 13, undefined]);
  const asked = { ...found, staying: [...found.staying, ...Replies.readRecords(["6 - ask q reads - binds - makes 6.1"])] };
  assert.deepStrictEqual(shelvedOf(asked, shelf), []);
});

test("what depends on steps", () => {
  const cases = [[[2], "2,3,6"], [[4], "4,5,6"], [[6], "6"], [[1], "1,2,3,4,5,6"], [[3, 5], "3,5,6"], [[], ""]];
  const graph = Graph.graphOf(RECORDS), numberAt = (index) => graph.numbers.at(index);
  for (const [numbers, wanted] of cases) {
    const { isIn } = Graph.dependents(graph, (index) => numbers.includes(numberAt(index)));
    assert.strictEqual(RECORDS.filter((step, index) => isIn[index] === 1).map(({ number }) => number).join(), wanted);
  }
});
