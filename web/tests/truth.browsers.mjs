// Tests of web/ghcdb.html, in a headless Chromium and a headless Firefox: one time is on the screen, useless clauses are
// not offered, and what is said of refusals, waits and failures is what the console says.
import assert from "node:assert/strict";
import { engineOfPage } from "../../front/session/engine_of_page.mjs";
import { inBrowsers, open } from "./lib/in_browsers.mjs";
import { rows } from "./lib/runs.mjs";
import { begin, field, lines, numbers, text, until, WIDE } from "./lib/using.mjs";

/** What the panels, the lanes' names and the count say, without the buttons that do something. */
const SCREEN = `(() => {
  const textsOf = (selector) => [...document.querySelectorAll(selector)].map((one) => one.textContent);
  const goals = textsOf("#goals .row"), marks = [...document.querySelectorAll("#canvas .mark")];
  const steps = marks.map((one) => one.dataset.step);
  return {
    goals: goals.length > 0 ? goals : textsOf("#goals"), values: textsOf("#store .row"), steps,
    names: textsOf("#canvas .names text").sort(), count: document.getElementById("count").textContent,
    result: document.getElementById("result").textContent,
  };
})()`;
const slider = 'document.getElementById("until")';
const clauses = "[...document.querySelectorAll('#menu .clause')].map((one) => [one.textContent, one.disabled])";

/** Moves the slider, and waits until that is shown. */
async function slideTo(page, steps) {
  await page.value(`(${slider}.value = "${steps}", ${slider}.dispatchEvent(new Event("input")))`);
  await page.idle();
}

const MOST_STEPS = 30;
/**
 * In the page: steps a run, to its end where it has one, and compares what is said at each time then with what the
 * slider shows of it. Gives the times at which something else is said, and the results and counts that were said.
 */
const TIMES = `async ({ program, query }) => {
  const said = () => (${SCREEN}), line = document.getElementById("step"), slider = document.getElementById("until"), told = [], wrong = [];
  Page.begin({ program, query });
  await Talk.settled();
  told.push(said());
  for (; !line.disabled && told.length <= ${MOST_STEPS}; told.push(said())) await Talk.send(line.dataset.line);
  const all = told.length - 1;
  for (let at = 0; at < all; at++) {
    slider.value = String(at);
    slider.dispatchEvent(new Event("input"));
    do await new Promise((done) => setTimeout(done, 5)); while (State.busy || State.asked > 0 || OnScreen.until !== at);
    const count = told[at].count.replace(/^(\\d+) steps?/, "$1 of " + all + (all === 1 ? " step" : " steps"));
    if (JSON.stringify(said()) !== JSON.stringify({ ...told[at], count })) wrong.push([at, told[at], said()]);
    if (document.querySelectorAll("#goals [data-line^=step]").length > 0) wrong.push([at, "a step is offered"]);
  }
  document.getElementById("show-all-steps").click();
  if (JSON.stringify(said()) !== JSON.stringify(told[all])) wrong.push([all, told[all], said()]);
  return { wrong, results: told.map(({ result }) => result), counts: told.map(({ count }) => count) };
}`;

inBrowsers("the slider shows one time: all that is said is that of a session of the first steps", async (page) => {
  await open(page, "#example=quicksort", WIDE);
  const program = await page.value(field("program")), given = JSON.stringify({ program, query: "quicksort([3,1,2],R)" });
  const { wrong, results, counts } = await page.value(`(${TIMES})(${given})`);
  assert.deepEqual([wrong, results[27], results.length], [[], "done: R = [1,2,3]", 28]);
  await page.value('(document.getElementById("play").click(), true)');
  await until(page, "OnScreen.until === 3 && OnScreen.earlier.graph.count === 3");
  await page.value('Talk.send("undo 27")');
  assert.equal(await page.value(text("count")), counts[26], "a line leads back to the present");
});

const ROWS = 20, FEWEST_STEPS = 3;

/** Runs of the rows, of as many programs as there are, by their program and query: those of a few steps. */
async function runsOfRows() {
  const { engine } = await engineOfPage(), runs = new Map();
  for (const { program, query } of rows()) {
    const session = engine.open({ program, query });
    session.line("leap 100");
    const count = session.hasEnded ? 0 : session.line("records").length;
    if (count >= FEWEST_STEPS && count <= MOST_STEPS && !runs.has(program)) runs.set(program, { program, query });
  }
  return [...runs.values()].slice(0, ROWS);
}

const EXAMPLES = [
  ["bill", "bill(12,3,T)", 6], ["append", "append([1,2],[3],R)", 6], ["merge", "merge([1,2],[a],Z)", 6],
  ["deadlock", "after(A,B), after(B,C), A = done", 5], ["reverse", "reverse([1,2],R)", 10],
];

inBrowsers("for each k of 20 rows, and of some examples, the panels are those of a session of the first k steps", async (page) => {
  const runs = await runsOfRows();
  assert.equal(runs.length, ROWS);
  await open(page, "", WIDE);
  const examples = await page.value("EXAMPLES.map(({ name, program }) => [name, program])").then((all) => new Map(all));
  const known = EXAMPLES.map(([name, query, count]) => ({ program: examples.get(name), query, count }));
  for (const { program, query, count } of [...known, ...runs]) {
    const { wrong, counts } = await page.value(`(${TIMES})(${JSON.stringify({ program, query })})`), all = counts.length - 1;
    assert.deepEqual(wrong, [], query);
    assert.ok(count === undefined ? all >= FEWEST_STEPS : all === count, `${query}: ${all} steps`);
  }
});

inBrowsers("of a run of more than 3,000 steps the slider moves the picture, and the page says so", async (page) => {
  const goals = 'document.querySelectorAll("#goals .row").length';
  await open(page, "#example=primes&query=primes(400,Ps)&lines=leap 4000", WIDE);
  const before = await page.value(goals);
  await slideTo(page, 2000);
  assert.equal(await page.value(text("note")), "This is the run after 2000 steps: nothing was taken back. "
    + "Goals, values and names are those after all steps. Show all steps");
  for (const panel of ["goals", "store"]) {
    assert.ok((await page.value(text(panel))).startsWith("after all 4000 steps:"), panel);
  }
  assert.equal(await page.value(goals), before);
  assert.match(await page.value(text("count")), /^2000 of 4000 steps, longest chain \d+$/);
});

const MERGE = [
  "merge(X,[],Z) :- true | Z = X.", "merge([A|X],Y,Z) :- true | Z = [A|R], merge(X,Y,R).",
  "merge(X,[A|Y],Z) :- true | Z = [A|R], merge(X,Y,R).", "",
].join("\n");

inBrowsers("a menu asks what clauses say: one that says yes can be clicked, others tell why not", async (page) => {
  await open(page, "", WIDE);
  await page.value(begin(MERGE, "merge(X,Y,Z), Y = [b|Y1]"));
  const menu = async () => {
    await page.value("Menus.close()");
    await page.click('#canvas [data-goal="0.1"]');
    return (await page.value(clauses)).map(([words, isOff]) => [words.replace(/:.*\./, ":"), isOff]);
  };
  assert.deepEqual(await menu(),
    [["clause 1: waits for Y", true], ["clause 2: waits for X", true], ["clause 3: waits for Y", true]]);
  await page.value('Talk.send("step 0.2")');
  assert.deepEqual(await menu(), [["clause 3:", false], ["clause 2: waits for X", true], ["clause 1: says no", true]]);
  await page.value('Talk.send("step 0.1 1", "step 0.1 2")');
  const replies = await page.value("State.entries.slice(-2).map((entry) => entry.reply[0])");
  assert.deepEqual(replies, ["F10 no clause matches", "F9 waits"]);
  await menu();
  await page.click("#menu .clause");
  assert.equal((await page.value(lines)).at(-1), "step 0.1 3");
  await open(page, "#example=bill&query=bill(5,3,T)&lines=leap", WIDE);
  await page.click('#canvas [data-step="2"]');
  const says = ["clause 3:  price(N,P) :- N >= 10 | P := N * 8. says no", true];
  assert.deepEqual(await page.value(clauses), [says], "and that of a step, as it would be after a roll");
  assert.deepEqual(await page.value(numbers("#canvas .mark")), [1, 2, 3, 4, 5, 6], "nothing was taken back for that");
});

const CHOICE = "c(R) :- true | R = 1.\nc(R) :- true | w(R).\nc(R) :- true | R = 2, R = 3.\nw(X) :- wait(X) | true.\n";
const ENDS = [
  [2, "stuck: 3.1 w(R) waits", /Nothing is ready, and a goal waits\. w \d+\.1 waits for R, which no other goal has/],
  [3, "failed: R = 3; 3.1 3 = 2", /Goal \d+\.\d has failed: .* are two different things/],
];

inBrowsers("beside a run that is kept a deadlock and a failure are told, too", async (page) => {
  await open(page, "", WIDE);
  for (const [clause, result, told] of ENDS) {
    await page.value(begin(CHOICE, "c(R)"));
    await page.value('Talk.send("step 0.1 1", "leap")');
    await page.click('#canvas [data-step="1"]');
    await page.click(`#menu [data-try="1 ${clause}"]`);
    await page.value('Talk.send("leap")');
    const note = await page.value(text("note"));
    assert.match(note, /^Above is the run that you kept\./);
    assert.equal(await page.value(text("result")), result);
    assert.equal(await page.value('document.querySelector("#beside .result-line").textContent'), "above: done: R = 1");
    assert.match(note, told);
    await page.click("#drop-run");
  }
});

const CIRCLES = [
  ["p(1) :- true | true.\nr(1,2) :- true | true.\ns(2,X) :- true | true.\n", "p(X), r(X,Y), s(Y,X)", ["0.2", "0.3"],
    "A deadlock: s waits for r to bind Y; r waits for s to bind X. Show these lanes alone Why?"],
  ["p(a,_) :- true | true.\np(_,b) :- true | true.\n", "p(X,Y), p(Y,X)", ["0.1", "0.2"],
    "A deadlock: p 1 waits for p 2 to bind X; p 2 waits for p 1 to bind X. Show these lanes alone Why?"],
];

inBrowsers("`F1 = 2` is a value and no refusal; a circle is told in its order", async (page) => {
  await open(page, "#example=append&query=F1 = 2&lines=leap;show F1", WIDE);
  assert.equal(await page.value(text("answer")), "");
  assert.equal(await page.value("document.querySelectorAll('#told .refused').length"), 0);
  assert.ok((await page.value(text("told"))).endsWith("> show F1F1 = 2"));
  for (const [program, query, names, told] of CIRCLES) {
    await page.value(begin(program, query));
    await page.value('Talk.send("leap")');
    assert.equal(await page.value(text("note")), told);
    const links = await page.value('[...document.querySelectorAll("#note [data-go-goal]")].map((one) => one.dataset.goGoal)');
    assert.deepEqual([...new Set(links)].sort(), names);
    assert.deepEqual(await page.value("State.run.waits.circle.map(({ from }) => from)"), links.filter((link, at) => at % 2 === 0));
  }
});
