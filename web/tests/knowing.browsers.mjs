// Tests of web/ghcdb.html, in a headless Chromium and a headless Firefox: what a value rests on is lit, other choices are ringed and can be taken,
// a value or a goal is kept alone by one line; and the page asks the console for no more than it needs.
import assert from "node:assert/strict";
import { inBrowsers, open, pageWith } from "./lib/in_browsers.mjs";
import { begin } from "./lib/using.mjs";

const text = (id) => `document.getElementById(${JSON.stringify(id)}).textContent`;
const numbers = (selector, name = "step") => `[...document.querySelectorAll(${JSON.stringify(selector)})].map((one) => Number(one.dataset.${name}))`;
const lines = "[...document.querySelectorAll('#told > .typed')].map((one) => one.textContent.slice(2))";

/** A copy of the page in a browser that refuses workers, which notes the first word of each line that its engine is asked. */
function notingPage() {
  const noting = `window.Worker = class { constructor() { throw new Error("refused"); } };
  { const { open } = Engine.prototype; Engine.asked = [];
    Engine.prototype.open = function noted(given) { const session = open.call(this, given), { bytes } = session;
      session.bytes = (text) => { Engine.asked.push(text.trim().split(/ +/)[0]); return bytes.call(session, text); }; return session; }; }`;
  return pageWith((page) => page.replace('<script data-file="page.mjs">\n', (found) => `<script>${noting}</script>${found}`));
}

inBrowsers("what a value rests on is lit, the other choice is ringed, and a click takes it beside", async (page) => {
  await open(page, "#example=bill&query=bill(12,3,T)&lines=leap", [1440, 900]);
  await page.click('#store [data-variable="_1_1"]');
  await page.click('#menu [data-line="explain _1_1"]');
  assert.equal((await page.value(lines)).at(-1), "explain _1_1");
  assert.deepEqual(await page.value(numbers("#canvas .mark.cause")), [1, 2, 3]);
  assert.deepEqual(await page.value(numbers("#canvas .mark.or")), [2]);
  assert.match(await page.value(text("answer")), /^explain P₁ P₁ = 120, steps 3 of 6\. It rests on 2 of 3 clauses: 1, 2\. 1 step decided, for another clause was open \(ringed\): step 2 went by clause 2; try clause 3\./);
  await page.click('#answer [data-goto="2"]');
  assert.deepEqual(await page.value("Canvas.chosen"), { step: 2 });
  assert.deepEqual(await page.value(numbers("#canvas .mark.or")), []);
  await page.click('#answer [data-try="2 3"]');
  assert.deepEqual((await page.value(lines)).slice(-2), ["roll 2", "step 1.1 3"]);
  assert.deepEqual(await page.value(numbers("#beside .mark", "kept")), [1, 2, 3, 4, 5, 6]);
});

inBrowsers("an explanation has its goals as a tree, with names and the values of then, a screen of them and the others on a click", async (page) => {
  const rows = '[...document.querySelectorAll("#answer .goal-tree li")].map((one) => one.textContent)';
  await open(page, "#example=bill&query=bill(12,3,T)&lines=leap;explain _1_1", [1440, 900]);
  assert.deepEqual(await page.value(rows), ["step 1: bill(12,3,T) by clause 1", "step 2: price(12,P₁) by clause 2", "step 3: P₁ := 12 * 10"]);
  await open(page, "#example=quicksort&query=quicksort([5,2,8,1,9,3],R)&lines=leap;explain R", [1440, 900]);
  assert.equal((await page.value(rows)).length, 12);
  assert.deepEqual((await page.value(rows)).slice(3, 6), ["step 4: Small₂ = [2|Small1₃]", "step 5: part([8,1,9,3],5,Small1₃,Great₂) by clause 6 and 10 below", "step 16: sort([2,1,3],R,[5|Mid₂]) by clause 3"]);
  assert.match(await page.value(text("answer")), /12 of 55 steps\. Show all×$/);
  await page.click("#explain-all");
  assert.equal((await page.value(rows)).length, 55);
  await page.click('#answer .goal-tree [data-goto="16"]');
  assert.deepEqual(await page.value("Canvas.chosen"), { step: 16 });
  await page.value(begin("up(N,L) :- N > 0 | L = [N|L1], M := N - 1, up(M,L1).\nup(0,L) :- true | L = [].\n", "up(1500,L)"));
  await page.value('Talk.send("leap", "explain L").then(() => true)');
  await page.idle();
  assert.deepEqual((await page.value(rows)).slice(0, 4).map((row) => row.replace(/^step \d+: /, "")), ["up(1500,L) by clause 1", "L = [1500|L1₁]", "M₁ := 1500 - 1", "up(M₁,L1₁) by clause 1"]);
  assert.match(await page.value(text("answer")), /12 of 4,502 steps\. Show 1,000×$/);
  await page.click("#explain-all");
  assert.equal((await page.value(rows)).length, 1000);
});

inBrowsers("before a value is kept alone all that would go is ringed, and one line takes it back", async (page) => {
  await open(page, "#example=bill&query=bill(12,3,T)&lines=leap", [1440, 900]);
  await page.click('#store [data-variable="_1_1"]');
  await page.click('#menu [data-keep="_1_1"]');
  await page.value('new Promise((done) => { const look = () => (document.querySelector("#menu .danger") ? done(true) : setTimeout(look, 20)); look(); })');
  assert.deepEqual(await page.value(numbers("#canvas .going")), [4, 5, 6]);
  assert.equal(await page.value('document.querySelector("#menu .danger").textContent'), "Take back 3");
  await page.click("#menu .danger");
  assert.equal((await page.value(lines)).at(-1), "keep _1_1");
  assert.deepEqual(await page.value(numbers("#canvas .mark")), [1, 2, 3]);
  await page.value('(Page.begin({ program: "p(X) :- true | X = f(Y,Y), q(Y).\\nq(_) :- true | true.\\n", query: "p(X)" }), Talk.send("leap"), Talk.settled())');
  await page.value('Resting.askKeep("nothing")');
  assert.match(await page.value(text("answer")), /^explain nothing was refused: F25 command/);
  assert.ok(await page.value('document.getElementById("menu").hidden'));
});

inBrowsers("a goal that waits is explained and kept alone", async (page) => {
  await open(page, "#example=quicksort&query=quicksort([3,1,2],R)&lines=leap 6", [1440, 900]);
  const waiting = await page.value('State.run.goals.find((goal) => goal.status === "waits").name');
  await page.value(`Menus.open({ goal: "${waiting}" }, document.getElementById("canvas"))`);
  await page.click(`#menu [data-line="explain ${waiting}"]`);
  const slice = await page.value(numbers("#canvas .mark.cause"));
  assert.match(await page.value(text("answer")), new RegExp(`^explain ${waiting.replace(".", "\\.")} .* steps ${slice.length} of 6\\.`));
  await page.click("#answer [data-go-goal]");
  assert.match(await page.value(text("menu")), /^Goal \d+\.\d+/);
  await page.value(`Resting.askKeep("${waiting}")`);
  await page.click("#menu .danger");
  assert.deepEqual(await page.value("State.run.graph.steps.map((step) => step.number)"), slice);
});

inBrowsers("a step asks for no whole record and no second session, also where the page itself has the engine, and goals' texts come when one looks", async (page) => {
  const { file, remove } = notingPage();
  await open(page, "#example=quicksort&query=quicksort([3,1,2],R)&lines=leap 20", [1440, 900], file);
  await page.value("(Engine.asked.length = 0, true)");
  await page.value('Talk.send("step " + State.run.goals.find((goal) => goal.status === "ready").name)');
  const asked = await page.value("Engine.asked");
  assert.ok(asked.includes("since") && !asked.includes("records") && !asked.includes("causes"), asked.join(" "));
  assert.equal(await page.value("State.run.graph.count"), 21);
  const edges = "JSON.stringify(State.run.graph.edges.map(({ from, to, kind, woke, variables }) => [from, to, kind, woke, variables]))";
  assert.equal(await page.value(edges), await page.value(edges.replaceAll("State.run.graph", "Graph.graphOf(State.run.graph.steps)")));
  assert.equal(await page.value('State.run.texts.get("0.1")'), "quicksort([3,1,2],_0_1)");
  await page.value("(State.run.texts.clear(), Canvas.choose({ step: 1 }), new Promise((done) => setTimeout(done, 100)))");
  assert.match(await page.value(text("detail")), /^step 1: goal 0\.1 was reduced by clause 1\nquicksort\(\[3,1,2\],R\)\n/);
  remove();
});
