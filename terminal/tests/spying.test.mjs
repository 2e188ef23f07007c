// What a terminal does for spied goals: patterns, going on past the goal at which a run stopped, `until`, and what is displayed.
import assert from "node:assert";
import path from "node:path";
import test from "node:test";
import { fileURLToPath } from "node:url";
import { Patterns, fits } from "../../front/run/patterns.mjs";
import * as Reader from "../../front/text/reader.mjs";
import * as Replies from "../../front/protocol/replies.mjs";
import { begin, endAll, played } from "./lib/fronts.mjs";

const BILL = path.join(path.dirname(fileURLToPath(import.meta.url)), "..", "..", "examples", "bill.ghc");
const NONE = "% nothing is spied; spy F/N stops runs at calls of F/N, spy F(T,..) at goals that fit that";
const USAGE = "% usage: spy F/N          stop runs at calls of F/N, or no longer; alone: which are spied; F(T,..): at goals that fit it";
const FREE = "% 1 step could have gone by another clause: choices T tells";
const NOTHING = "% nothing is displayed; display X shows X after each run and step";

test.afterEach(endAll);

// Of each session its lines, each with all that it shows.
const SESSIONS = {
  "a run stops at a goal that fits a pattern, and goes on past it": [
    ["spy", NONE],
    ["spy price(3, _)", "% sent: spy price/2", "spying price/2", "% runs stop at calls of price/2, at goals that fit price(3,_)"],
    ["leap", "% passed 1 goal that no pattern fits; sent: step 1.1", "REDU 1 0.1 by 1", "REDU 2 1.1 by 2", "stopped spied 1.2", "% next is price(3,_1_2): step 1.2 takes it"],
    ["c", "% sent: step 1.2", "REDU 3 1.2 by 2", "CALL 3.1 _1_2 := 3 * 10", "% sent: leap", "REDU 4 3.1 is", "REDU 5 2.1 is", "REDU 6 1.3 is", "stopped quiet", "% all is done", FREE],
  ],
  "a run of some steps counts those that pass a goal": [
    ["spy price(3,_)", "% sent: spy price/2", "spying price/2", "% runs stop at calls of price/2, at goals that fit price(3,_)"],
    ["leap 2", "% passed 1 goal that no pattern fits; sent: step 1.1", "REDU 1 0.1 by 1", "REDU 2 1.1 by 2", "stopped limit", "% leap goes on"],
    ["leap 1", "stopped spied 1.2", "% next is price(3,_1_2): step 1.2 takes it"],
    ["leap 1", "% sent: step 1.2", "REDU 3 1.2 by 2", "CALL 3.1 _1_2 := 3 * 10"],
    ["leap 0", "F25 command", "% usage: leap [K]         run on, for K steps at most"],
  ],
  "a run stops again at a goal where the session has changed since": [
    ["spy price", "% sent: spy price/2", "spying price/2"],
    ["leap", "REDU 1 0.1 by 1", "stopped spied 1.1", "% next is price(12,_1_1): step 1.1 takes it"],
    ["step 1.2", "REDU 2 1.2 by 2", "CALL 2.1 _1_2 := 3 * 10"],
    ["leap", "stopped spied 1.1", "% next is price(12,_1_1): step 1.1 takes it"],
    ["leap 2", "% sent: step 1.1", "REDU 3 1.1 by 2", "CALL 3.1 _1_1 := 12 * 10", "% sent: leap 1", "REDU 4 3.1 is", "stopped limit", "% leap goes on"],
  ],
  "what is spied is listed, with its patterns, and each goes alone": [
    ["spy price(3,_)", "% sent: spy price/2", "spying price/2", "% runs stop at calls of price/2, at goals that fit price(3,_)"],
    ["spy price(12,P).", "% sent: spy price/2", "spying price/2", "% runs stop at calls of price/2, at goals that fit price(3,_) or price(12,P)"],
    ["spy bill/3", "spying bill/3"],
    ["spy", "% bill/3", "% price/2, at goals that fit price(3,_) or price(12,P)"],
    ["nospy price(3,_)", "% runs stop at calls of price/2, at goals that fit price(12,P)"],
    ["nospy price(3,_)", "% price(3,_) is no pattern of what is spied; spy alone lists them"],
    ["nospy price(12,P)", "% sent: nospy price/2", "not spying price/2"],
    ["spy", "% bill/3"],
    ["spy price", "% sent: spy price/2", "spying price/2"],
    ["nospy", "% sent: nospy bill/3", "not spying bill/3", "% sent: nospy price/2", "not spying price/2"],
    ["nospy", NONE],
  ],
  "what is no pattern is refused": [
    ["spy price(X,X)", "% a variable of a pattern fits everything, so that X twice compares nothing"],
    ["spy price(", USAGE],
    ["spy prize(1,_)", "% sent: spy prize/2", "F5 undefined prize/2", "% price/2?"],
    ["spy", NONE],
  ],
  "a run goes on until a step is made, or a goal is there": [
    ["until 2.1", "% sent: leap 1, leap 1", "REDU 1 0.1 by 1", "REDU 2 1.2 by 2", "stopped limit", "% leap goes on", "% 2.1 is there: _1_2 := 3 * 10"],
    ["until 2.1", "% 2.1 is there: _1_2 := 3 * 10"],
    ["until 1.2", "% 1.2 was taken by step 2"],
    ["until 2", "% step 2 is kept"],
    ["until 3", "% sent: leap 1", "REDU 3 2.1 is", "stopped limit", "% leap goes on"],
    ["until 5.2", "% sent: leap 1, leap 1", "REDU 4 1.1 by 2", "REDU 5 4.1 is", "stopped limit", "% leap goes on", "% step 5 made no goal 5.2"],
    ["until 9", "% sent: leap 1", "REDU 6 1.3 is", "stopped quiet", "% all is done", FREE],
    ["until x", "% usage: until G or N     run until goal G is there, or step N is made"],
    ["undo", "% sent: undo 6", "undone 6"],
    ["until 6", "% sent: leap 1", "REDU 7 1.3 is", "stopped quiet", "% all is done", FREE, "% no step gets the number 6 any more; shelf lists what was taken back"],
    ["until 6", "% no step gets the number 6 any more; shelf lists what was taken back"],
    ["until 5.2", "% step 5 is kept, and made no such goal"],
  ],
  "until stops at a spied goal, and goes on past it": [
    ["spy price", "% sent: spy price/2", "spying price/2"],
    ["until 4", "% sent: leap 1", "REDU 1 0.1 by 1", "stopped spied 1.1", "% next is price(12,_1_1): step 1.1 takes it"],
    ["until 3", "% sent: step 1.1", "REDU 2 1.1 by 2", "CALL 2.1 _1_1 := 12 * 10", "% sent: leap 1", "stopped spied 1.2", "% next is price(3,_1_2): step 1.2 takes it"],
  ],
  "what is displayed is shown after each line that changes the run": [
    ["display", NOTHING],
    ["display T", "% sent: show T", "T = _0_1", "% _0_1 (T of the query) is unbound; held by 0.1"],
    ["step", "% sent: step 0.1", "REDU 1 0.1 by 1", "CALL 1.1 price(12,_1_1)", "CALL 1.2 price(3,_1_2)", "CALL 1.3 _0_1 := _1_1 + _1_2", "SUSP 1.3 _1_1,_1_2",
      "% 1.3 waits for _1_1 (P of step 1) and _1_2 (Q of step 1)", "% sent: show T", "T = _0_1"],
    ["display P", "% sent: show _1_1", "_1_1 = _1_1", "% _1_1 (P of step 1) is unbound; held by 1.1, 1.3"],
    ["display", "% displayed: T, _1_1"],
    ["goals", "1.1 ready price(12,_1_1)", "1.2 ready price(3,_1_2)", "1.3 waits _1_1,_1_2 _0_1 := _1_1 + _1_2", "% waited for: _1_1 (P of step 1), _1_2 (Q of step 1)"],
    ["leap", "REDU 2 1.2 by 2", "REDU 3 2.1 is", "REDU 4 1.1 by 2", "REDU 5 4.1 is", "REDU 6 1.3 is", "stopped quiet", "% all is done", FREE,
      "% sent: show T", "T = 150", "% sent: show _1_1", "_1_1 = 120"],
    ["undo 9", "F16 not a kept step", "% records lists the kept steps"],
    ["undisplay T", "% displayed: _1_1"],
    ["undisplay T", "% T is not displayed", "% displayed: _1_1"],
    ["undisplay", NOTHING],
    ["display Q7", "% sent: show Q7", "F23 no variable", "% the query's variables: T"],
    ["display", NOTHING],
  ],
};

for (const [name, rows] of Object.entries(SESSIONS)) {
  test(name, { timeout: 300_000 }, async () => {
    assert.deepStrictEqual(await played(await begin([BILL, "--query", "bill(12,3,T)"]), rows), rows);
  });
}

test("which goals fit a pattern", () => {
  const store = { _1_1: "3", _1_2: "f(a,_1_1)" }, term = Reader.readTerm;
  const run = { endOf: (given) => (store[given.variable] === undefined ? given : run.endOf(term(store[given.variable]))) };
  const cases = [
    ["p(_,_)", "p(1,_1_3)", true], ["p(3,X)", "p(_1_1,2)", true], ["p(3,_)", "p(_1_3,2)", false], ["p(f(_,3))", "p(_1_2)", true], ["p(f(b,_))", "p(_1_2)", false],
    ["p([a|_])", "p([a,b])", true], ["p([])", "p([a])", false], ["p(a)", "p(1)", false], ["p", "p", true], ["p(a)", "p", false],
  ];
  for (const [pattern, goal, wanted] of cases) assert.strictEqual(fits(term(pattern), term(goal), run), wanted, `${pattern} ${goal}`);
});

test("a predicate without patterns meets all its goals", () => {
  const patterns = new Patterns(), run = { endOf: (given) => given }, meets = (goal) => patterns.meets("p/1", Reader.readTerm(goal), run);
  assert.ok(meets("p(1)"));
  patterns.add(Reader.readTerm("p(2)"));
  assert.deepStrictEqual([meets("p(1)"), meets("p(2)"), patterns.textsOf("p/1")], [false, true, ["p(2)"]]);
  assert.deepStrictEqual([patterns.remove(Reader.readTerm("p(3)")), patterns.remove(Reader.readTerm("p(2)")), meets("p(1)")], [false, true, true]);
});

test("what a history spies", () => {
  const cases = [[["ghc-history 2", "opening 0 1", "entries 0", "spies 2", "a/0", "spies/2", "end 1"], ["a/0", "spies/2"]], [["ghc-history 2", "spies 0", "end 1"], []], [["ghc-history 1", "steps 0", "end 1"], []]];
  for (const [lines, wanted] of cases) assert.deepStrictEqual(Replies.spiesIn(lines), wanted);
});
