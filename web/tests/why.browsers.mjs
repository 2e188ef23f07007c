// Tests of web/ghcdb.html, in a headless Chromium and a headless Firefox: programs that hang or end without their
// answer are told by their cause; a table tells what the other choices of a race lead to.
import assert from "node:assert/strict";
import fs from "node:fs";
import { inBrowsers, open } from "./lib/in_browsers.mjs";
import { begin, lines, text, until, WIDE } from "./lib/using.mjs";

const MERGE = `run(N) :- true | fast(3,A), slow(Ack,B), merge(A,B,S), serve(S,0,N,Ack).
fast(0,S) :- true | S = [].
fast(N,S) :- N > 0 | S = [add(10)|S1], M := N - 1, fast(M,S1).
slow(Ack,S) :- true | go(Ack,S).
go(done,S) :- true | S = [double].
serve([add(X)|S],N,R,Ack) :- N + X < 30 | M := N + X, serve(S,M,R,Ack).
serve([add(X)|S],N,R,Ack) :- N + X >= 30 | M := N + X, Ack = done, serve(S,M,R,_).
serve([double|S],N,R,Ack) :- true | M := N * 2, serve(S,M,R,Ack).
serve([],N,R,_) :- true | R = N.
merge([A|X],Y,Z) :- wait(Y) | Z = [A|Z1], merge(X,Y,Z1).
merge(X,[A|Y],Z) :- true | Z = [A|Z1], merge(X,Y,Z1).
merge([],Y,Z) :- true | Z = Y.
merge(X,[],Z) :- true | Z = X.
`;
const BUFFER = `go(N,Sum) :- true | slots(2,Slots,Tail), producer(1,N,Slots), consumer(Slots,Tail,0,Sum).
slots(0,S,T) :- true | S = T.
slots(N,S,T) :- N > 0 | S = [_|S1], N1 := N - 1, slots(N1,S1,T).
producer(I,N,[Slot|Slots]) :- I =< N | Slot = item(I), I1 := I + 1, producer(I1,N,Slots).
producer(I,N,[Slot|_]) :- I > N | Slot = end.
consumer([item(X),item(Y)|Slots],Tail,Acc,Sum) :- true | Tail = [_|Tail1], Acc1 := Acc + X + Y, consumer(Slots,Tail1,Acc1,Sum).
consumer([item(X),end|_],_,Acc,Sum) :- true | Sum := Acc + X.
consumer([end|_],_,Acc,Sum) :- true | Sum = Acc.
`;
const CIRCUIT = `count(T,N,Done) :- true | walk(T,S,[],done,E), cnt(S,0,M), report(E,M,N,Done).
report(done,M,N,D) :- true | N = M, D = yes.
walk(leaf,S,T,L,R) :- true | S = [one|T], L = R.
walk(tree(leaf,B),S,T,L,R) :- true | S = [one|S1], walk(B,S1,T,L,_), skip(R).
walk(tree(tree(A,C),B),S,T,L,R) :- true | walk(tree(A,C),S,S1,L,M), walk(B,S1,T,M,R).
cnt([],A,N) :- true | N = A.
cnt([one|S],A,N) :- true | B := A + 1, cnt(S,B,N).
skip(_) :- true | true.
`;
const wrong = (name) => fs.readFileSync(new URL(`../../examples/wrong/${name}.ghc`, import.meta.url), "utf8");
const TREE = "tree(tree(leaf,leaf),tree(leaf,tree(leaf,leaf)))";

// Each with its query, what the note says of its cause, and the steps that let a variable go.
const HANGING = [
  [MERGE, "run(N)", "A deadlock: merge waits for slow to bind B₁; slow waits for serve to bind Ack₁; serve waits for merge to bind S₁. ", []],
  [BUFFER, "go(5,Sum)", "consumer 16.3 and producer 19.3 wait for Tail1₁₆, which no other goal has: step 16 made it by clause 6. ", []],
  [wrong("philo"), "table(3,Done)", "A deadlock: phil 3 holds fork 3 and waits for fork 1; ", []],
  [CIRCUIT, `count(${TREE},N,Done)`, "report 1.3 waits for E₁, which no other goal has: step 17 let it go, skip(E₁) by clause 8. ", [17]],
  [wrong("habits/processes/anonymous"), "dbl([1,2,3],L), sum(L,0,S)", "12.1 waits for _1_2, which no other goal has: it is a _, and step 1 made it by clause 2. ", []],
  [wrong("habits/slips/never_bound"), "sum([1,2,3],0,S)", "S is never bound: step 7 let it go, sum([],A1₅,S) by clause 1. ", [7]],
  [wrong("habits/processes/not_closed"), "gen(3,S), count(S,0,N)", "count 15.2 waits for S1₇, which no other goal has: step 10 let it go, gen(N1₇,S1₇) by clause 1. ", [10]],
];

const crosses = '[...document.querySelectorAll("#canvas .lost")].map((one) => Number(one.dataset.lost))';
const run = async (page, program, query) => {
  await page.value(begin(program, query));
  await page.value('Talk.send("leap").then(() => true)');
  await page.idle();
};

inBrowsers("programs that hang or lose their answer are told by their cause; a cross stands where a variable was let go", async (page) => {
  await open(page, "", WIDE);
  for (const [program, query, cause, lost] of HANGING) {
    await run(page, program, query);
    const note = await page.value(text("note"));
    assert.ok(note.includes(cause) && note.includes("Why?"), `${query}: ${note}`);
    assert.deepEqual(await page.value(crosses), lost, query);
    assert.match(await page.value(text("result")), query.startsWith("sum") ? /^ended: S is never bound$/ : /^stuck: /);
  }
});

inBrowsers("the place Why? tells who waits for whom, with links; a line that changes the run closes it", async (page) => {
  await open(page, "", WIDE);
  await run(page, CIRCUIT, `count(${TREE},N,Done)`);
  await page.click('#note [data-line^="whynot"]');
  assert.equal((await page.value(lines)).at(-1), "whynot N");
  assert.ok((await page.value(text("why-not"))).startsWith("Why is N not bound? No step, and no input, can bind it any more."));
  const rows = '[...document.querySelectorAll("#why-not li")].map((one) => one.textContent)';
  assert.deepEqual(await page.value(rows), ["N: report 1.3 waits for E₁.", "E₁: report 1.3 waits for it; step 17 let it go, skip(E₁) by clause 8."]);
  await page.click('#why-not [data-goto="17"]');
  assert.deepEqual(await page.value("Canvas.chosen"), { step: 17 });
  assert.match(await page.value(text("detail")), /lets E₁ go, which nobody binds/);
  await page.click('#why-not [data-go-goal="1.3"]');
  await page.click('#menu [data-line="whynot 1.3"]');
  assert.match(await page.value(text("why-not")), /^Why does goal 1\.3 not go on\?/);
  await page.click('#store [data-variable="Done"]');
  await page.click('#menu [data-line="whynot Done"]');
  assert.match(await page.value(text("why-not")), /^Why is Done not bound\?/);
  await page.value('Talk.send("undo 29").then(() => true)');
  assert.deepEqual([await page.value(text("why-not")), await page.value(crosses)], ["", []]);
});

const table = '[...document.querySelectorAll("#choices tr")].slice(1).map((row) => [...row.cells].map((cell) => cell.textContent))';
const links = '[...document.querySelectorAll("#choices [data-outcome]")].map((one) => one.dataset.outcome)';
const beside = 'document.querySelector("#beside .result-line").textContent';
const tried = (words) => `document.getElementById("choices").textContent.includes(${JSON.stringify(words)})`;

inBrowsers("after a race a table tells what the other choices lead to; a click goes there, beside this run, and the table stays", async (page) => {
  await open(page, "", WIDE);
  await run(page, wrong("habits/prolog/order"), "kind(0,K)");
  assert.equal(await page.value(text("choices")), "1 step could have gone by another clause. What else could K be?");
  await page.click("#choices [data-choices]");
  await until(page, tried("1 of 1 other choice tried."));
  assert.deepEqual(await page.value(table), [["K = zero", "as it is"], ["K = other", "step 1 by clause 2"]]);
  assert.deepEqual(await page.value(lines), ["leap"], "the session is asked alone");
  await page.click("#choices [data-outcome]");
  await page.idle();
  assert.equal(await page.value(text("result")), "done: K = other");
  assert.equal(await page.value(beside), "above: done: K = zero");
  assert.deepEqual(await page.value(table), [["K = zero", "as it was"], ["K = other", "step 1 by clause 2"]]);
  assert.deepEqual(await page.value(links), [], "the choice that was gone to is marked");
  await page.value("Talk.send(`undo ${State.run.graph.numbers.at(State.run.graph.count - 1)}`).then(() => true)");
  await page.idle();
  assert.equal(await page.value(text("choices")), "", "another line closes it");
  await run(page, wrong("bank"), "bank(End)");
  await page.click('#store [data-variable="End"]');
  await page.click("#menu [data-choices]");
  await until(page, tried("5 of 5 other choices tried."));
  const same = "as it is, step 6 by clause 9, step 22 by clause 10, step 24 by clause 11";
  assert.deepEqual(await page.value(table), [["End = 120", same], ["End = 130", "step 8 by clause 8"], ["End = 110", "step 20 by clause 9"]]);
  await page.click("#choices-close");
  assert.match(await page.value(text("choices")), /^5 steps could have gone by another clause\./);
  await page.click("#choices [data-choices]");
  await until(page, tried("5 of 5 other choices tried."));
  for (const [outcome, value] of [["8 6.2 8", 130], ["20 8.2 9", 110]]) {
    await page.click(`#choices [data-outcome="${outcome}"]`);
    await page.idle();
    assert.deepEqual([await page.value(text("result")), await page.value(beside)], [`done: End = ${value}`, "above: done: End = 120"]);
  }
  assert.deepEqual((await page.value(lines)).slice(-4), ["leap", "roll 20", "step 8.2 9", "leap 20000"]);
  assert.deepEqual((await page.value(links)).sort(), ["22 20.2 10", "24 22.2 11", "6 1.3 9", "8 6.2 8"]);
});

/** In the page: the worker that tries choices never ends a run, but by Stop. */
const HANGS = `(Service.another = ((another) => () => {
  const side = another(), { ask, stop } = side;
  let fail = () => {};
  const hang = () => new Promise((none, failed) => { fail = failed; });
  return { ...side, ask: (what, message) => (message.line === "leap 20000" ? hang() : ask(what, message)), stop: () => { stop(); fail(Service.STOPPED); } };
})(Service.another), true)`;

inBrowsers("Stop ends what is tried, and the session stands", async (page) => {
  await open(page, "", WIDE);
  await run(page, wrong("habits/prolog/order"), "kind(0,K)");
  await page.value(HANGS);
  await page.value('(document.querySelector("#choices [data-choices]").click(), true)');
  await until(page, tried("0 of 1 other choice tried …"));
  await page.click("#choices-stop");
  await until(page, tried("0 of 1 other choice tried."));
  assert.equal(await page.value(text("result")), "done: K = zero");
  await page.value('Talk.send("undo 2").then(() => true)');
  assert.deepEqual([await page.value(lines), await page.value(text("choices"))], [["leap", "undo 2"], ""]);
});

inBrowsers("a choice that opens once the others have gone on is tried, too, and none is said to be there where none was found", async (page) => {
  await open(page, "", WIDE);
  await run(page, "g(X,O) :- true | X = 5, O = early.\ng(X,O) :- wait(X) | O = late.\n", "Y = 5, X = Y, g(X,O)");
  await page.click('#store [data-variable="O"]');
  await page.click("#menu [data-choices]");
  await until(page, tried("1 of 1 other choice tried."));
  assert.deepEqual(await page.value(table), [["O = early", "as it is"], ["O = late", "step 1 by clause 2"]]);
  await page.click("#choices [data-outcome]");
  await page.idle();
  assert.equal(await page.value('document.querySelector("#result").textContent.includes("O = late")'), true);
  await run(page, "p(X) :- true | X = 1.\n", "p(X)");
  await page.click('#store [data-variable="X"]');
  await page.click("#menu [data-choices]");
  await until(page, tried("Found no step on which it rests that could have gone by another clause."));
});
