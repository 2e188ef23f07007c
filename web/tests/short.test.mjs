// Tests of terms that are too long to be shown: front/protocol/short.mjs, and a worker that hands no more of them over than a page can use.
import assert from "node:assert/strict";
import test from "node:test";
import * as Short from "../../front/protocol/short.mjs";
import WorkerSide from "../../front/session/worker_side.mjs";
import { engineOfPage } from "../../front/session/engine_of_page.mjs";
import * as Replies from "../../front/protocol/replies.mjs";

const MOST_HANDED = 3e6; // letters and bytes of one answer
const DOUBLES = "d(0,X,Y) :- true | Y = X.\nd(N,X,Y) :- N > 0 | M := N - 1, d(M,f(X,X),Y).\n";

test("a long term is shortened at a part of it, and its brackets are closed", () => {
  assert.equal(Short.term("f(a,g(b,c))", 11), "f(a,g(b,c))");
  assert.equal(Short.term("f(a,g(b,c))", 7), "f(a,g(…))");
  assert.equal(Short.term("f(a,g(b,c))", 5), "f(a,…)");
  assert.equal(Short.term("[1,2,3,4]", 5), "[1,2|…]");
  assert.equal(Short.term("[1,2|f(a,b)]", 9), "[1,2|f(a,…)]");
  assert.equal(Short.term("_0_1 = f(abcdef)", 12), "_0_1 = f(…)");
  assert.equal(Short.term("abcdefgh", 5), "abcde…");
});

test("a record's step, and a goal, are read from their shortened lines as from the whole ones, but for the terms", () => {
  const line = "3 0.1 by 12 reads _0_1,_0_2 binds _0_1=_0_2;_0_2=[a,f(b)|_3_1];_0_3=1 makes 3.1,3.2", short = Short.record(line, 7);
  assert.equal(short, "3 0.1 by 12 reads _0_1,_0_2 binds _0_1=_0_2;_0_2=[a,f(…)];_0_3=1 makes 3.1,3.2");
  const [whole, read] = Replies.readRecords([line, short]);
  assert.deepEqual({ ...read, binds: [] }, { ...whole, binds: [] });
  assert.equal(Short.goal("1.2 waits _1_1,_1_2 p(f(a,b,c),_1_1)", 8), "1.2 waits _1_1,_1_2 p(f(a,b,…),…)", "it has as many arguments");
  const bytes = new TextEncoder().encode(`${line}\n1 0.1 eq reads - binds - makes -\n`);
  assert.equal(Short.lines(bytes, Short.record), bytes, "the same bytes where nothing is long");
  assert.equal(new TextDecoder().decode(Short.lines(bytes, (one) => one.slice(0, 5), 40)), "3 0.1\n1 0.1 eq reads - binds - makes -\n");
});

const lettersOf = (look) => look.come.length + look.goals.length + look.shelf.length + look.texts.reduce((sum, [, text]) => sum + text.length, 0);

async function sideOn(query) {
  const { engine } = await engineOfPage(), side = new WorkerSide(engine);
  side.open({ given: { program: DOUBLES, query, history: "" } });
  return side;
}

test("of a term that doubles 22 times a worker hands over the beginning", async () => {
  const side = await sideOn("d(22,a,Y)"), { look } = side.lines({ lines: ["leap 46"] });
  assert.ok(lettersOf(look) < MOST_HANDED, `${lettersOf(look)} are handed over`);
  const steps = Replies.readRecords(new TextDecoder().decode(look.come).split("\n"));
  assert.equal(steps.length, 46);
  assert.match(steps[45].binds[0].term, /^f\(f\(.*…\)+$/);
  assert.match(side.ask({ line: "goal 46" }).reply[0], /^46 45\.1 eq _0_1 = f\(.*…\)+$/);
});

test("a goal that is long is handed over shortened; where the console refuses to tell the goals, that is handed over", async () => {
  const side = await sideOn("d(16,a,Y)"), { look } = side.lines({ lines: ["leap 33"] }), [goal] = Replies.readGoals(new TextDecoder().decode(look.goals).split("\n"));
  assert.equal(look.goalsRefused, "");
  assert.equal(goal.status, "ready");
  assert.match(goal.text, /^_0_1 = f\(f\(.*…\)+$/);
  assert.equal((await sideOn("d(20,a,Y)")).lines({ lines: ["leap 41"] }).look.goalsRefused, "F6 limit: print");
});
