// Tests of web/ghcdb.html, in a headless Chromium and a headless Firefox: variables have the program's names wherever the page shows some, one
// points at a name to see its number, and a click types the number at the console.
import assert from "node:assert/strict";
import fs from "node:fs";
import { fileURLToPath } from "node:url";
import { queryOf } from "../../front/text/query_comment.mjs";
import { inBrowsers, open } from "./lib/in_browsers.mjs";
import { begin, field, text, WIDE } from "./lib/using.mjs";

const FOLDER = fileURLToPath(new URL("../../examples/", import.meta.url));
const programsIn = (folder) => fs.readdirSync(folder).filter((name) => name.endsWith(".ghc")).sort().map((name) => fs.readFileSync(`${folder}${name}`, "utf8"));
const PROGRAMS = [...programsIn(FOLDER), ...programsIn(`${FOLDER}wrong/`)];
const AREAS = ["result", "goals", "store", "shelf", "note", "answer", "detail", "menu", "canvas", "beside", "why", "trail", "paper"];

/** The numbers of variables that are shown, though program or query gives a name. */
const NUMBERED = `${JSON.stringify(AREAS)}.flatMap((id) => [...document.getElementById(id).textContent.matchAll(/\\b_\\d+_\\d+\\b/g)]
  .filter(([variable]) => Names.now().nameOf(variable) !== undefined).map(([variable]) => id + " " + variable))`;

inBrowsers("in all examples no number of a variable is shown where the text gives it a name", async (page) => {
  await open(page, "", WIDE);
  for (const program of PROGRAMS) {
    const query = queryOf(program), words = program.split("\n")[0];
    await page.value(begin(program, query));
    for (const line of ["leap 7", "leap", "undo 1", "roll 3", "leap"]) {
      await page.value(`Talk.send("${line}").then(() => true)`);
      assert.deepEqual(await page.value(NUMBERED), [], `${words} ${line}`);
    }
    await page.value('(window.dispatchEvent(new Event("beforeprint")), true)');
    assert.deepEqual(await page.value(NUMBERED), [], `${words} on paper`);
    await page.value('(window.dispatchEvent(new Event("afterprint")), true)');
    await page.value("State.run.graph.count > 0 && (Canvas.choose({ step: State.run.graph.numbers.at(0) }), Menus.open(Shown.chosen, Canvas.elementOf(Shown.chosen)), true)");
    await page.idle();
    assert.deepEqual(await page.value(NUMBERED), [], `${words} a step's menu`);
    await page.value("(Menus.close(), Canvas.choose(null), true)");
  }
});

inBrowsers("a name tells its number where one points at it, and a click types that, wherever it stands", async (page) => {
  await open(page, "#example=bill&query=bill(12,3,T)&lines=step 0.1", WIDE);
  assert.deepEqual(await page.value('[...document.querySelectorAll("#goals .row")].map((one) => one.textContent)'),
    ["ready1.1 price(12,P₁)", "ready1.2 price(3,Q₁)", "waits1.3 T := P₁ + Q₁ waits for P₁, Q₁"]);
  assert.equal(await page.value('document.querySelector("#goals .variable").title'), "_1_1: a click types it");
  await page.click("#goals .variable");
  assert.equal(await page.value(field("line")), "_1_1");
  assert.equal(await page.value("document.activeElement.id"), "line");
  await page.click("#canvas .wait [data-types]");
  assert.equal(await page.value(field("line")), "_1_1 _1_1");
  await page.click('#canvas [data-goal="1.3"]');
  assert.match(await page.value(text("menu")), /^Goal 1\.3 waitsT := P₁ \+ Q₁It waits for P₁, Q₁\.Why\?/);
  await page.value('Talk.send("step 1.1 2", "leap", "who T").then(() => true)');
  await page.click('#store [data-variable="_1_1"]');
  assert.match(await page.value(text("menu")), /^P₁ a variable, _1_1 at the console/);
  await page.value("(document.getElementById('line').value = 'show', true)");
  await page.click('#menu [data-types]');
  assert.equal(await page.value(field("line")), "show _1_1");
  await page.key("Enter");
  assert.equal(await page.value("State.entries.at(-1).reply[0]"), "_1_1 = 120");
});

inBrowsers("steps are found by a name of the program, and a row of an earlier program keeps none of its names", async (page) => {
  await open(page, "#example=bill&query=bill(12,3,T)&lines=leap", WIDE);
  await page.value('(document.getElementById("search").value = "P₁", Looking.seek())');
  assert.deepEqual(await page.value('[...document.querySelectorAll("#canvas .hit")].map((one) => Number(one.dataset.step))'), [3]);
  const [program, query] = [await page.value("State.given.program"), "bill(12,3,T)"];
  await page.value(begin(program.replace(/\bP\b/g, "Price"), query));
  await page.value('Talk.send("leap").then(() => true)');
  assert.equal(await page.value('document.querySelector(\'#store [data-variable="_1_1"]\').textContent'), "Price₁");
});
