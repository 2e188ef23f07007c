// Tests of web/ghcdb.html with runs of any length, in a headless Chromium and a headless Firefox: 100,000 steps are drawn while the page goes on,
// a step is lit with its causes, a line that is at work is stopped. With GHCDB_LONG=1 a run of 1,000,000 steps is tried, too.
import fs from "node:fs";
import assert from "node:assert/strict";
import { inBrowsers, open } from "./lib/in_browsers.mjs";
import { WATCH, measured, quickEnough } from "./lib/watching.mjs";

const LONGEST_FREEZE = 100, LONGEST_STEP = 100, LONGEST_LIGHT = 500; // milliseconds on a machine that does nothing else
const MOST_MEMORY = 1000; // MB of the browser with all its processes
const PRIMES = "#example=primes&query=primes(20000,Ps)";

/** The memory of a browser in MB: of each of its processes what it has alone, and its share of what several have. Nothing where the system does not tell. */
function memoryOf({ browser }) {
  const told = (pid, file, form) => { try { return (form.exec(fs.readFileSync(`/proc/${pid}/${file}`, "utf8")) || [])[1]; } catch { return undefined; } };
  if (told("self", "smaps_rollup", /^Pss: +(\d+)/m) === undefined) return 0;
  const parents = fs.readdirSync("/proc").filter((name) => /^\d+$/.test(name)).map((pid) => [pid, told(pid, "status", /^PPid:\s+(\d+)/m)]), own = new Set([String(browser.pid)]);
  for (const one of own) for (const [pid, parent] of parents) if (parent === one) own.add(pid);
  return [...own].reduce((sum, pid) => sum + Number(told(pid, "smaps_rollup", /^Pss: +(\d+)/m) || 0) / 1000, 0);
}

/** The number of a step behind step 60,000 on which no other depends. */
const LEAF = "(() => { const { graph } = State.run; let at = graph.indexOf(60000); while (graph.lastEffect.at(at) !== Graph.NONE) at++; return graph.numbers.at(at); })()";

inBrowsers("a run of 100,000 steps is drawn while the page goes on; a further step and 33,333 causes are shown quickly", async (page) => {
  await quickEnough("the run", ({ freeze, slowness }) => freeze <= LONGEST_FREEZE * slowness, async () => {
    await open(page, PRIMES, [1440, 900]);
    await page.value(WATCH);
    return measured(page, 'Talk.send("leap 100000")');
  });
  assert.equal(await page.value('document.getElementById("count").textContent'), "100000 steps, longest chain 40003");
  assert.ok(await page.value('(() => { const count = document.getElementById("count"); return count.scrollWidth <= count.clientWidth + 1; })()'), "the count is not cut");
  assert.ok(await page.value('!document.getElementById("overview").hidden && document.querySelectorAll("#canvas .mark").length > 10'));
  await quickEnough("a step", ({ took, slowness }) => took <= LONGEST_STEP * slowness, async () => {
    await new Promise((done) => setTimeout(done, 1500)); // the record of the step before is printed meanwhile
    return measured(page, 'Talk.send("step " + State.run.goals.find((goal) => goal.status === "ready").name)');
  });
  await quickEnough("an undo", ({ took, freeze, slowness }) => Math.max(took, freeze) <= LONGEST_STEP * slowness, () => measured(page, 'Talk.send(document.getElementById("undo-last").dataset.line)'));
  await page.value('Talk.send("leap 5")');
  await quickEnough("an undo of a step in the middle", ({ freeze, slowness }) => freeze <= LONGEST_FREEZE * slowness, () => measured(page, `Talk.send("undo " + ${LEAF})`));
  await quickEnough("lighting", ({ took, slowness }) => took <= LONGEST_LIGHT * slowness, () => measured(page, '(Canvas.choose(null), Canvas.choose({ step: 50000 }), Overview.settled())'));
  assert.match(await page.value('document.getElementById("overview").getAttribute("aria-valuetext")'), /step 50000: 33333 causes \(blue\), 15001 consequences/);
  const record = 'Service.ask("lines", { lines: ["records"] }).then((told) => new TextDecoder().decode(told.replies[0]).split("\\n").filter(Boolean))';
  await page.value("new Promise((done) => setTimeout(done, 2500))");
  assert.equal(await page.value(`${record}.then((lines) => lines.length === State.run.graph.count && lines.every((line, index) => line === State.run.graph.told[index]))`), true, "the page's record is the console's");
  assert.ok(memoryOf(page) < MOST_MEMORY, `${memoryOf(page)} MB`);
});

inBrowsers("a line that is at work is stopped: the run stands where it stood, the line is told and not saved, and the next one is right", async (page) => {
  await open(page, "", [1440, 900]);
  await page.value('(Page.begin({ program: "loop :- true | loop.\\n", query: "loop" }), Talk.send("leap 20"))');
  await page.value('(Talk.send("leap 1000000"), new Promise((done) => setTimeout(done, 600)))');
  await page.click("#stop");
  await page.value("Talk.settled()");
  assert.equal(await page.value('document.getElementById("count").textContent'), "20 steps, longest chain 20");
  assert.match(await page.value('document.getElementById("told").textContent'), /stopped by hand after [\d.]+ s: not taken; the run stands where it stood/);
  assert.doesNotMatch(await page.value("Files.sessionText()"), /1000000/);
  await page.value('Talk.send("leap 5")');
  assert.equal(await page.value("State.run.graph.count"), 25);
});

if (process.env.GHCDB_LONG === "1") {
  inBrowsers("a run of 1,000,000 steps is shown with true counts", async (page) => {
    await open(page, "", [1440, 900]);
    await page.value('(Page.begin({ program: "loop :- true | loop.\\n", query: "loop" }), Talk.settled())');
    await page.value(WATCH);
    await page.value('(Talk.send("leap"), new Promise((done) => { const look = () => (State.busy && State.busy.read > 100000 ? done(true) : setTimeout(look, 5)); look(); }))');
    await page.value("(Talk.stop(), Talk.settled())");
    assert.equal(await page.value('document.getElementById("count").textContent'), "0 steps, longest chain 0", "it is stopped while it is read");
    await quickEnough("the run", ({ freeze, slowness }) => freeze <= LONGEST_FREEZE * slowness, async () => {
      await page.value('(Page.begin({ program: "loop :- true | loop.\\n", query: "loop" }), Talk.settled())');
      return measured(page, 'Talk.send("leap")');
    });
    assert.equal(await page.value('document.getElementById("count").textContent'), "1000000 steps, longest chain 1000000");
    assert.match(await page.value('document.getElementById("overview").getAttribute("aria-valuetext")'), /of 1000000/);
    assert.equal(await page.value('document.getElementById("undo-last").dataset.line'), "undo 1000000");
  });
}
