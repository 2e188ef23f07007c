// Tests of web/ghcdb.html, in a headless Chromium and a headless Firefox: one goes back along what was looked at, notes on steps are kept with the
// session and stand in its link, paper has all that is known, and on a phone names stand above their lanes and all can be hit by a finger.
import assert from "node:assert/strict";
import { inBrowsers, open } from "./lib/in_browsers.mjs";
import { begin, numbers, text, write, PHONE, WIDE } from "./lib/using.mjs";

const RUN = "#example=quicksort&query=quicksort([3,1,2],R)&lines=leap";
const notes = '[...document.querySelectorAll("#notes li")].map((one) => one.textContent)';

inBrowsers("one goes back along the steps and goals that were looked at", async (page) => {
  await open(page, "#example=quicksort&query=quicksort([3,1,2],R)&lines=leap 12", WIDE);
  assert.ok(await page.value('document.getElementById("trail-back").disabled'));
  const goal = await page.value("State.run.goals[0].name");
  await page.value(`(Canvas.choose({ step: 8 }), Canvas.choose({ goal: "${goal}" }), Canvas.choose({ step: 3 }), true)`);
  assert.equal(await page.value(text("trail")), `Looked at: step 8 → ${goal} → step 3`);
  await page.click("#trail-back");
  assert.deepEqual(await page.value("Canvas.chosen"), { goal });
  await page.value("(document.activeElement.blur(), true)");
  await page.key("p");
  assert.deepEqual(await page.value("Canvas.chosen"), { step: 8 });
  assert.ok(await page.value('document.getElementById("trail-back").disabled'));
  await page.value("(Canvas.choose(null), true)");
  await page.key("p");
  assert.deepEqual(await page.value("Canvas.chosen"), { step: 8 }, "from nothing it leads to the last one");
  await page.value(begin("p(1) :- true | true.\n", "p(1)"));
  assert.equal(await page.value(text("trail")), "", "another session has no trail");
});

inBrowsers("a note on a step is kept with the session and stands in its link; words are words; it is taken away", async (page) => {
  await open(page, "", WIDE);
  await page.value("(localStorage.clear(), true)");
  await page.value('Talk.send("leap").then(() => true)');
  await page.value("(Canvas.choose({ step: 8 }), Canvas.choose({ step: 26 }), true)");
  await write(page, "note-text", "<b>here</b> it ends");
  await page.key("Enter");
  assert.deepEqual(await page.value(notes), ["step 26: <b>here</b> it ends ×"]);
  await page.value("(Keeping.keep(), Keeping.makeLink())");
  const link = await page.value("location.href");
  await open(page, "", WIDE);
  await page.click("#go-on");
  await page.value("Talk.settled().then(() => new Promise((done) => setTimeout(() => done(true), 50)))");
  assert.deepEqual(await page.value(notes), ["step 26: <b>here</b> it ends ×"]);
  assert.equal(await page.value(text("trail")), "Looked at: step 8 → step 26");
  await page.value("(localStorage.clear(), true)");
  await page.go(link, 'document.body.classList.contains("started") && !State.busy && State.entries.length > 0');
  assert.deepEqual(await page.value(notes), ["step 26: <b>here</b> it ends ×"]);
  await page.click("#notes [data-goto]");
  assert.deepEqual(await page.value("Canvas.chosen"), { step: 26 });
  await page.click("#notes [data-note-away]");
  assert.deepEqual(await page.value(notes), []);
  await open(page, `${new URL(link).hash.replace(/&n=.*/, "&n=none")}`, WIDE);
  assert.deepEqual(await page.value(numbers("#canvas .mark")).then((all) => all.length), 27, "letters that are no notes do no harm");
});

inBrowsers("paper has program, query, result, values and the picture of the whole run", async (page) => {
  await open(page, "#example=primes&query=primes(80,Ps)&lines=leap 300", WIDE);
  await page.value('(window.dispatchEvent(new Event("beforeprint")), true)');
  const paper = await page.value('document.getElementById("paper").textContent'), marks = await page.value(numbers("#paper .mark"));
  assert.deepEqual(marks.sort((one, other) => one - other), Array.from({ length: 300 }, (none, at) => at + 1));
  for (const part of ["primes(Max,Ps) :- true | numbers(2,Max,Ns), sift(Ns,Ps).", "primes(80,Ps)", await page.value(text("result")), "All 300 steps"]) assert.ok(paper.includes(part), part);
  await page.value('(window.dispatchEvent(new Event("afterprint")), true)');
  assert.equal(await page.value('document.getElementById("paper").textContent'), "");
});

/** Buttons and fields that are lower or, but for parts within a line of text, narrower than 24 points. */
const SMALL = `[...document.querySelectorAll("button, select, input, textarea, summary")].filter((one) => one.getClientRects().length > 0).filter((one) => {
  const box = one.getBoundingClientRect();
  return box.height < 24 || (box.width < 24 && !one.matches(".part, .variable"));
}).map((one) => one.id || one.className + " " + one.textContent)`;

inBrowsers("on a phone the result comes first, names stand above their lanes, and no target is smaller than 24 points", async (page) => {
  await open(page, RUN, PHONE);
  assert.deepEqual(await page.value(SMALL), []);
  const tops = await page.value('["result", "step", "canvas"].map((id) => document.getElementById(id).getBoundingClientRect().top)');
  assert.deepEqual([...tops].sort((one, other) => one - other), tops);
  const above = `[...document.querySelectorAll("#canvas .names text")].map((name, at) => OnScreen.drawn.lanes[at].y - Number(name.getAttribute("y")))`;
  const lifts = await page.value(above);
  assert.ok(lifts.length === 7 && lifts.every((lift) => lift > 10), `${lifts}`);
  assert.ok((await page.value("OnScreen.drawn.left")) < 30, "steps have the width");
  for (const tab of ["program", "console"]) {
    await page.click(`.tabs [data-tab="${tab}"]`);
    assert.deepEqual(await page.value(SMALL), [], tab);
  }
});
