// What the terminal makes of `part` and `blame`: questions, answers, trust, verdicts. The program is a quicksort that loses its pivot; what
// the console replies to `blame` is worked out by hand.
import assert from "node:assert";
import fs from "node:fs";
import os from "node:os";
import path from "node:path";
import test from "node:test";
import { Front } from "../front.mjs";
import { objectOf } from "../objects.mjs";

const QUICKSORT = `qs([],R,T) :- true | R = T.
qs([P|L],R,T) :- true | part(L,P,S,B), qs(S,R,M), qs(B,M,T).
part([],_,S,B) :- true | S = [], B = [].
part([X|L],P,S,B) :- X =< P | S = [X|S1], part(L,P,S1,B).
part([X|L],P,S,B) :- X > P | B = [X|B1], part(L,P,S,B1).
`;

const begun = [];
test.afterEach(() => Promise.all(begun.splice(0).map((program) => program.kill())));

/** Begins a session of a program; to a line of `told` it replies what stands there. `type` gives what is shown after a line. */
async function begin(program, query, told) {
  const file = path.join(fs.mkdtempSync(path.join(os.tmpdir(), "ghcdb-test-")), "program.ghc");
  fs.writeFileSync(file, program);
  let shown = [];
  const front = new Front({ words: [file, "--query", query], native: undefined, out: (line) => shown.push(line), errors: (line) => shown.push(line) });
  await front.begin();
  const { program: console_ } = front.session, ask = console_.ask.bind(console_);
  begun.push(console_);
  console_.ask = async (line) => told[String(line)] ?? ask(line);
  const type = async (line) => {
    shown = [];
    await front.answer(line);
    return shown;
  };
  return { front, type };
}

// qs([2,1],R,[]): step 1 took 0.1, and made 1.1 part([1],2,S,B), 1.2 qs(S,R,M), 1.3 qs(B,M,[]).
const FIRST = ["given qs([1],_0_1,[])", "gave qs([1],[],[])", "ask 1.2 of 5"];
const SECOND = ["given part([],1,_7_1,_7_2)", "gave part([],1,[],[])", "ask 7.1 of 2"];
const LAST = ["given qs([],_0_1,[])", "gave qs([],[],[])", "ask 7.2 of 1"];
const VERDICT = ["given qs([1],_0_1,[])", "gave qs([1],[],[])", "7.1 gave part([],1,[],[])", "7.2 gave qs([],[],[])", "7.3 gave qs([],[],[])", "fault 7 1.2 by 2"];
const BLAMED = {
  "blame R": FIRST, "blame R -1.2": SECOND, "blame R -1.2 +7.1": LAST, "blame R -1.2 +7.1 +7.2": VERDICT, "blame R +1.2": ["F7 no goal"], "blame X": ["F23 no variable"],
};

async function sorted() {
  const session = await begin(QUICKSORT, "qs([2,1],R,[])", BLAMED);
  await session.type("leap");
  return session;
}

const TAKEN = "% step 7 took 1.2 by clause 2 (line 2): qs([P|L],R,T) :- true | part(L,P,S,B), qs(S,R,M), qs(B,M,T).";
const HINT = "% y: right as given, n: wrong, u: back, trust qs/3: always right";

test("a question is told with the names of the program, and answered by a letter", async () => {
  const { type } = await sorted();
  assert.deepStrictEqual(await type("blame R"), [...FIRST, "% question 1 of about 3: qs([1],R,[]) gave R = []. Is that right?", TAKEN, HINT]);
  assert.deepStrictEqual(await type("n"), ["% sent: blame R -1.2", ...SECOND, "% question 2 of about 3: part([],1,S,B) gave S = [], B = []. Is that right?",
    "% step 8 took 7.1 by clause 3 (line 3): part([],_,S,B) :- true | S = [], B = []."]);
  assert.deepStrictEqual((await type("y")).slice(0, 2), ["% sent: blame R -1.2 +7.1", LAST[0]]);
  assert.deepStrictEqual(await type("yes"), ["% sent: blame R -1.2 +7.1 +7.2", ...VERDICT, "% found by 3 answers: qs([1],R,[]) gave R = [], which is wrong, though all that its goals gave is right",
    "% so the fault is in clause 2 (line 2): qs([P|L],R,T) :- true | part(L,P,S,B), qs(S,R,M), qs(B,M,T).",
    "% roll 7 takes it back with all that depends on it: 7,8,9,10,11,12,13,14"]);
  assert.deepStrictEqual(await type("n"), ["% nothing is asked any more; u takes the last answer back, step takes a step"]);
});

test("an answer is taken back, and a look leaves the question open", async () => {
  const { type } = await sorted();
  await type("blame R");
  assert.deepStrictEqual(await type("u"), ["% no answer was given yet; undo takes back a step"]);
  await type("n");
  assert.deepStrictEqual((await type("show R"))[0], "R = []");
  assert.deepStrictEqual((await type("blame")).slice(0, 2), ["% sent: blame R -1.2", SECOND[0]]);
  assert.deepStrictEqual((await type("u")).slice(0, 2), ["% sent: blame R", FIRST[0]]);
  assert.deepStrictEqual((await type("N")).slice(0, 2), ["% sent: blame R -1.2", SECOND[0]]);
});

test("a change of the session ends the questions", async () => {
  const { type } = await sorted();
  await type("blame R");
  await type("undo 16");
  assert.deepStrictEqual(await type("y"), ["F25 command", "% y: no such command; y and n answer a question of blame: blame X asks whose clause made X wrong"]);
  assert.deepStrictEqual((await type("n"))[0], "% sent: step 15.1");
});

test("what is asked about a predicate that is trusted is answered by itself", async () => {
  const { type } = await sorted();
  assert.deepStrictEqual(await type("trust"), ["% no predicate is trusted"]);
  assert.deepStrictEqual(await type("trust part"), ["% part/4 is trusted: blame takes its calls for right"]);
  await type("blame R");
  assert.deepStrictEqual((await type("n")).slice(0, 3), ["% right, for they are trusted: 7.1", "% sent: blame R -1.2 +7.1", LAST[0]]);
  assert.deepStrictEqual((await type("u")).slice(0, 2), ["% sent: blame R", FIRST[0]]);
  assert.deepStrictEqual(await type("trust part/4"), ["% part/4 is trusted no longer"]);
  assert.deepStrictEqual((await type("n")).slice(0, 2), ["% sent: blame R -1.2", SECOND[0]]);
  assert.deepStrictEqual((await type("trust part")).slice(0, 4), ["% part/4 is trusted: blame takes its calls for right", "% right, for they are trusted: 7.1", "% sent: blame R -1.2 +7.1", LAST[0]]);
  assert.deepStrictEqual(await type("trust quicksort"), ["% no clause of quicksort; the program's predicates: qs/3, part/4"]);
});

test("a refusal is followed by what helps", async () => {
  const { type } = await sorted();
  assert.deepStrictEqual(await type("blame X"), ["F23 no variable", "% the query's variables: R"]);
  assert.deepStrictEqual(await type("blame R +1.2"), ["F7 no goal", "% an answer names no call on which R rests: blame R asks anew"]);
});

test("what failed, what waits, asks and turns are told in words", async () => {
  const failed = ["given part([3,2],2,_2_1,_1_2)", "asked 4", "in turns", "gave part([3,2],2,_2_1,[3|_4_1])", "left 4.2 failed F10", "ask 1.1 of 2"];
  const { type } = await begin(QUICKSORT, "qs([2,1],R,[])", {
    "blame 4.2": failed, "blame 4.2 -1.1": ["given part([2],2,_2_1,_4_1)", "left 4.2 failed F10", "ask 4.2 of 1"], "blame 4.2 -1.1 -4.2": ["given part([2],2,_2_1,_4_1)", "left 4.2 waits _4_1", "fault 4.2"],
    "blame 4.2 -1.1 +4.2": ["given part([3,2],2,_2_1,_1_2)", "4.1 _1_2 = [3|_4_1]", "4.2 left part([2],2,_2_1,_4_1)", "fault 4 1.1 by 5"], "blame R": ["0.1 gave qs([2,1],[],[])", "fault 0"], "blame _0_1": ["0.1 stands qs([2,1],_0_1,[])", "fault 0"], "blame _1_1": ["0.1 stands qs([2,1],_0_1,[])", "0.2 _1_1 = a", "fault 0"],
    "show R": ["R = []"],
  });
  await type("step");
  await type("step 1.1");
  assert.deepStrictEqual((await type("blame 4.2")).slice(6, 9), [
    "% question 1 of about 2: part([3,2],2,S1,B) gave B = [3|_4_1], and led to goal 4.2, which has failed: no clause takes it (F10). Is that right?",
    "% step 4 asked for goals that reach into it: judge what it gave together with these", "% some of what it was given came only after something that it gave: judge the order too, as causes tells it"]);
  assert.deepStrictEqual((await type("n")).slice(4), ["% question 2 of about 2: part([2],2,S1,_4_1) has failed: no clause takes it (F10). Is that right?"]);
  assert.deepStrictEqual((await type("n")).slice(4), ["% found by 2 answers: 4.2, part([2],2,S1,_4_1), should not have to wait, and it waits for _4_1"]);
  assert.deepStrictEqual((await type("blame R")).slice(2), ["% found without an answer: all that the query's goals gave is right. So the query asks for something else, or R is right"]);
  assert.deepStrictEqual((await type("blame _0_1")).slice(2), ["% _0_1 is unbound: no step gave it a value. "
    + "The run has not come to its end, for 2.1 is ready: leap runs on; "
    + "does it never end, blame 2.1 asks which call should have"]);
  await type("step 2.1");
  assert.deepStrictEqual((await type("blame _1_1")).slice(3), ["% no call gave anything to _1_1: what bound it stands in the query"]);
});

test("what a call did not read is told with its value, and that it went in turns of the first question alone", async () => {
  const program = "go(R) :- true | A := 2 * 9, dot([4],[8],A,R).\ndot([X|_],[Y|_],A,R) :- true | R := X * Y.\n";
  const turns = ["given dot([4],[8],_1_1,_0_1)", "in turns", "gave dot([4],[8],_1_1,32)", "ask 1.2 of 3"];
  const { type } = await begin(program, "go(R)", { "blame R": turns, "blame R -1.2": turns });
  await type("leap");
  const beside = (lines) => lines.filter((line) => / was not read|came only after/.test(line)), A = "% A was not read; it is 18";
  const inTurns = "% some of what it was given came only after something that it gave: judge the order too, as causes tells it";
  assert.deepStrictEqual(beside(await type("blame R")), [A, inTurns]);
  assert.deepStrictEqual(beside(await type("n")), [A]);
});

test("a verdict shows its clause whole, however long it is", async () => {
  const body = Array.from({ length: 60 }, (none, at) => `S${at} = ${at}`).join(", "), clause = `p(R) :- true | R = 1, ${body}.`;
  const { type } = await begin(`${clause}\n`, "p(R)", {});
  await type("leap");
  await type("blame R");
  assert.ok((await type("n")).includes(`% so the fault is in clause 1 (line 1): ${clause}`));
});

test("lines that memory was refused for are left out of the words", async () => {
  const none = "F1 no memory";
  const { type } = await begin(QUICKSORT, "qs([2,1],R,[])", { "blame R": ["given qs([1],_0_1,[])", none, none], "blame 1.2": ["given qs([1],_0_1,[])", none, "ask 0.1 of 1"],
    "blame 1.3": ["asked 2", none, "ask 0.1 of 1"], "blame 1.1": ["in turns", none, "fault 1.1"] });
  assert.deepStrictEqual((await type("blame R")).slice(3), []);
  assert.deepStrictEqual((await type("blame 1.2")).slice(3, 4), ["% question 1 of about 1: qs([1],R,[]). Is that right?"]);
  assert.deepStrictEqual((await type("blame 1.3")).slice(3, 4), ["% question 1 of about 1: 0.1. Is that right?"]);
  assert.deepStrictEqual((await type("blame 1.1")).slice(3, 4), ["% found without an answer: a clause should answer 1.1, its call"]);
});

test("their replies as objects", () => {
  const start = (command) => ({ command, ok: true });
  assert.deepStrictEqual(objectOf("blame R", FIRST), { ...start("blame R"), given: "qs([1],_0_1,[])", gave: "qs([1],[],[])", ask: "1.2", of: 5 });
  assert.deepStrictEqual(objectOf("blame R -1.2", VERDICT), { ...start("blame R -1.2"), given: "qs([1],_0_1,[])", gave: "qs([1],[],[])",
    made: [{ goal: "7.1", gave: "part([],1,[],[])" }, { goal: "7.2", gave: "qs([],[],[])" }, { goal: "7.3", gave: "qs([],[],[])" }], fault: { step: 7, goal: "1.2", clause: 2 } });
  assert.deepStrictEqual(objectOf("blame 4.2", ["given p(_1_1)", "asked 4", "in turns", "left 4.2 waits _1_1", "4.1 _1_2 = a", "fault 4.2"]), { ...start("blame 4.2"), given: "p(_1_1)",
    asked: [4], inTurns: true, left: { goal: "4.2", status: "waits", waitsFor: ["_1_1"] }, made: [{ goal: "4.1", text: "_1_2 = a" }], fault: { goal: "4.2" } });
  assert.deepStrictEqual(objectOf("blame R", ["0.1 gave p(a)", "fault 0"]), { ...start("blame R"), made: [{ goal: "0.1", gave: "p(a)" }], fault: {} });
  assert.deepStrictEqual(objectOf("part 1.2", ["given p", "gave p", "7.1 stands q", "7 1.2 by 2"]), { ...start("part 1.2"), given: "p", gave: "p", made: [{ goal: "7.1", stands: "q" }],
    taken: { step: 7, goal: "1.2", clause: 2 } });
  assert.deepStrictEqual(objectOf("part 4.2", ["given p(b)", "4.2 failed F10"]), { ...start("part 4.2"), given: "p(b)", stands: { goal: "4.2", status: "failed", refusal: "F10" } });
  assert.deepStrictEqual(objectOf("part 9.9", ["F7 no goal"]), { command: "part 9.9", ok: false, refused: "F7 no goal" });
});
