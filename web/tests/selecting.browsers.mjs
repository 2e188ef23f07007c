// Tests of web/ghcdb.html, in a headless Chromium and a headless Firefox: wheel and drag move and size the picture, an area is summed by predicate,
// and one goes along the steps that decided.
import assert from "node:assert/strict";
import { inBrowsers, open } from "./lib/in_browsers.mjs";
import { numbers, text, until, WIDE } from "./lib/using.mjs";

const placeOf = (page, step) => page.value(`(() => { const box = document.querySelector('#canvas [data-step="${step}"] .body').getBoundingClientRect(); return { x: box.x + box.width / 2, y: box.y + box.height / 2 }; })()`);
const ground = `(() => { const box = document.getElementById("canvas").getBoundingClientRect(); return { x: box.left + box.width / 2, y: box.bottom - 60 }; })()`;

inBrowsers("a drag with Shift selects an area of the picture, Shift and an arrow a step more; its steps are lit and summed", async (page) => {
  await open(page, "#example=bill&query=bill(12,3,T)&lines=leap", WIDE);
  const first = await placeOf(page, 1), last = await placeOf(page, 4);
  await page.drag({ x: first.x - 9, y: first.y + 160 }, { x: last.x + 9, y: first.y + 160 }, { shift: true });
  assert.equal(await page.value(text("answer")), "4 steps, from 1 to 4: price 2, := 1, bill 1.×");
  assert.deepEqual(await page.value(numbers("#canvas .mark.cause")), [1, 2, 3, 4]);
  assert.ok(await page.value('document.querySelector("#canvas .band") === null'));
  await page.value("(Canvas.choose({ step: 3 }), document.getElementById('canvas').focus(), true)");
  await page.value("(Selecting.onKey('ArrowRight'), Selecting.onKey('ArrowRight'), true)");
  assert.equal(await page.value(text("answer")), "3 steps, from 3 to 5: := 2, price 1.×");
  await page.value("(Selecting.onKey('ArrowLeft'), Selecting.onKey('ArrowLeft'), Selecting.onKey('ArrowLeft'), true)");
  assert.equal(await page.value(text("answer")), "2 steps, from 2 to 3: := 1, price 1.×");
});

inBrowsers("a drag moves the picture and is no click; Ctrl and the wheel size it; of a long run they move and size the window", async (page) => {
  await open(page, "#example=primes&query=primes(30,Ps)&lines=leap 200", [900, 600]);
  await page.value("(document.getElementById('canvas').scrollTo(0, 0), Canvas.choose({ step: 3 }), document.getElementById('canvas').scrollTo(0, 0), true)");
  const from = await page.value(ground);
  await page.drag(from, { x: from.x - 120, y: from.y - 90 });
  assert.equal(await page.value('document.getElementById("canvas").scrollLeft'), 120);
  assert.deepEqual(await page.value("Canvas.chosen"), { step: 3 }, "what was chosen stays");
  const before = await page.value("Shown.zoom");
  await page.wheel(from, -120, { ctrl: true });
  await until(page, `Shown.zoom > ${before}`);
  await open(page, "#example=primes&query=primes(400,Ps)&lines=leap 3000", WIDE);
  await page.value("(Overview.goTo(1000), new Promise((done) => setTimeout(() => done(true), 100)))");
  const size = await page.value("OnScreen.sizeNow()"), place = await page.value(ground);
  await page.drag(place, { x: place.x + 200, y: place.y });
  await until(page, "OnScreen.from < 1000");
  await page.wheel(place, 120, { ctrl: true });
  await until(page, `OnScreen.sizeNow() > ${size}`);
});

inBrowsers("an area of the strip is summed, however long it is", async (page) => {
  await open(page, "#example=primes&query=primes(400,Ps)&lines=leap 3000", WIDE);
  const box = await page.value('(() => { const box = document.getElementById("overview").getBoundingClientRect(); return { left: box.left, right: box.right, y: box.top + 30 }; })()');
  await page.drag({ x: box.left + 10, y: box.y }, { x: box.right - 10, y: box.y }, { shift: true });
  const sums = await page.value(`(() => { const { graph, clauses } = State.run, counts = {}; for (const step of graph.steps) { const name = step.clause ? clauses[step.clause - 1].predicate.split("/")[0] : { unify: "=", assign: ":=" }[step.kind]; counts[name] = (counts[name] || 0) + 1; }
    return Object.entries(counts).sort(([one, first], [other, second]) => second - first || (one < other ? -1 : 1)).map(([name, count]) => name + " " + count.toLocaleString("en")).join(", "); })()`);
  assert.equal(await page.value(text("answer")), `3,000 steps, from 1 to 3000: ${sums}.×`);
  assert.match(await page.value('document.getElementById("overview").getAttribute("aria-valuetext")'), /3000 steps are lit/);
});

inBrowsers("one goes along the steps that decided, while all that a value rests on stays lit; a step tells its causes by predicate", async (page) => {
  await open(page, "#example=merge&query=merge([1,2],[a],Z)&lines=leap;explain Z", WIDE);
  const answer = await page.value(text("answer")), lit = await page.value(numbers("#canvas .mark.cause")), ringed = await page.value(numbers("#canvas .mark.or"));
  assert.match(answer, /3 steps decided, for another clause was open \(ringed\): ◀▶ 1 of 3: step 1 went by clause 3; try clause 4\./);
  for (const at of [1, 2, 0]) {
    await page.click('#answer [aria-label="Next step"]');
    assert.deepEqual(await page.value(numbers("#canvas .mark.chosen")), [ringed[at]]);
    assert.deepEqual(await page.value(numbers("#canvas .mark.cause")), lit);
    assert.match(await page.value(text("detail")), new RegExp(`^step ${ringed[at]}: `));
  }
  await open(page, "#example=quicksort&query=quicksort([3,1,2],R)&lines=leap", WIDE);
  await page.value("(Canvas.choose({ step: 26 }), true)");
  const [, count, words] = /\n(\d+) causes: (.*)\n/.exec(await page.value(text("detail")));
  assert.equal(Number(count), (await page.value(numbers("#canvas .mark.cause"))).length);
  assert.equal(words.match(/ \d+/g).reduce((sum, one) => sum + Number(one), 0), Number(count));
});
