// Tests of web/ghcdb.html, in a headless Chromium and a headless Firefox: the result stands above the picture and above each run of two, and of a
// deadlock the lanes are shown alone.
import assert from "node:assert/strict";
import fs from "node:fs";
import { fileURLToPath } from "node:url";
import { inBrowsers, open } from "./lib/in_browsers.mjs";
import { begin, text, PHONE, WIDE } from "./lib/using.mjs";

const example = (name) => fs.readFileSync(fileURLToPath(new URL(`../../examples/${name}.ghc`, import.meta.url)), "utf8");
const names = '[...document.querySelectorAll("#canvas .names text")].map((one) => one.textContent.split(" ")[0])';

inBrowsers("the result stands above the picture: at first, on the way, where all is done, has failed, is stuck, or asks for an input", async (page) => {
  await open(page, "#example=quicksort&query=quicksort([3,1,2],R)", WIDE);
  assert.equal(await page.value(text("result")), "not begun: 1 goal ready");
  await page.value('Talk.send("leap 20").then(() => true)');
  assert.equal(await page.value(text("result")), "goes on: R = [1|Mid₁₀]; 3 goals ready");
  await page.value('Talk.send("leap").then(() => true)');
  assert.equal(await page.value(text("result")), "done: R = [1,2,3]");
  await page.click('#result [data-root="_0_1"][data-path="1.0"]');
  assert.match(await page.value(text("answer")), /^2 was given by step \d+/);
  const isAbove = (id) => `document.getElementById("${id}").getBoundingClientRect().bottom <= document.getElementById("canvas").getBoundingClientRect().top + 1`;
  assert.ok(await page.value(isAbove("result")));
  await page.value(begin("d(X) :- true | X = 1, X = 2.\n", "d(X)"));
  await page.value('Talk.send("leap").then(() => true)');
  assert.equal(await page.value(text("result")), "failed: X = 1; 1.2 1 = 2");
  await page.click("#result [data-go-goal]");
  assert.match(await page.value(text("menu")), /^Goal 1\.2 failed/);
  await open(page, "#example=sum&query=instream(S), sum(S,0,R)", PHONE);
  assert.equal(await page.value(text("result")), "waits for an input: 0.1 instream 1 S");
  await page.value(begin("p(X :- true.", "p(1)"));
  assert.equal(await page.value(text("result")), "", "there is no run");
});

inBrowsers("a deadlock is told by names, and a click shows its lanes alone, another one all", async (page) => {
  await open(page, "", WIDE);
  await page.value(begin(example("wrong/philo"), "table(3,Done)"));
  await page.value('Talk.send("leap").then(() => true)');
  assert.equal(await page.value(text("result")), "stuck: Done = [D1₁,D2₁,D3₁]; 6 goals wait");
  assert.equal(await page.value(text("note")), "A deadlock: phil 3 holds fork 3 and waits for fork 1; phil 1 holds fork 1 and waits for fork 2; phil 2 holds fork 2 and waits for fork 3. Show these lanes alone Why?");
  const all = ["1.1", "1.2", "1.3", "1.4", "1.5", "1.6", "1.7", "1.8", "0.1"];
  assert.deepEqual(await page.value(names), all);
  await page.click("#lanes-alone");
  assert.deepEqual(await page.value(names), ["1.1", "1.2", "1.3", "1.7", "1.8", "0.1"]);
  assert.equal(await page.value('document.querySelectorAll("#canvas .wait .circle").length'), 6);
  assert.ok(await page.value('(({ scrollWidth, clientWidth }) => scrollWidth <= clientWidth + 1)(document.getElementById("canvas"))'), "no arc leaves the window");
  await page.click('#canvas [data-step="21"]');
  assert.deepEqual(await page.value("Canvas.chosen"), { step: 21 });
  await page.value("(Menus.close(), true)");
  await page.click("#lanes-all");
  assert.deepEqual(await page.value(names), all);
  await page.click("#lanes-alone");
  await page.value('Talk.send("undo 34").then(() => true)');
  assert.deepEqual(await page.value(names), all, "a line shows all again");
});

inBrowsers("above each of two runs stands its result", async (page) => {
  await open(page, "", WIDE);
  await page.value(begin(example("wrong/bank"), "bank(End)"));
  await page.value('Talk.send("leap").then(() => true)');
  await page.click('#canvas [data-step="8"]');
  await page.click('#menu [data-try="8 8"]');
  await page.value('Talk.send("leap").then(() => true)');
  assert.equal(await page.value('document.querySelector("#beside .result-line").textContent'), "above: done: End = 120");
  assert.equal(await page.value(text("result")), "done: End = 130");
});

const ENDLESS = `count(N,L) :- true | L = [N|T], M := N - 1, count(M,T).
count(0,L) :- true | L = [].
`;

inBrowsers("a run that stopped at its limit says so, and by which one clause its last steps went", async (page) => {
  await open(page, "", WIDE);
  await page.value(begin(ENDLESS, "count(3,L)"));
  await page.value('Talk.send("leap 1000").then(() => true)');
  const told = "The run stopped after 1000 steps, and is not at its end: Run takes up to 1,000 more. ";
  const last = "The last 334 reductions all went by clause 1, of count/2: should another one have ended it?";
  assert.equal(await page.value(text("note")), told + last);
  await page.value('Talk.send("step").then(() => true)');
  assert.equal(await page.value(text("note")), "");
});
