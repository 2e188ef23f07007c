// Tests of web/ghcdb.html, in a headless Chromium and a headless Firefox: a stranger's path, by clicks alone, from the first open to a wrong result, to the
// wrong clause, to a mended program and its right result, and to the same after a reload.
import assert from "node:assert/strict";
import { inBrowsers, open } from "./lib/in_browsers.mjs";
import { numbers, text, until, write, WIDE } from "./lib/using.mjs";

/** Quicksort that loses its pivot: clause 2 puts it nowhere. */
const WRONG = ["qs([],R,T) :- true | R = T.", "qs([P|L],R,T) :- true | part(L,P,S,B), qs(S,R,M), qs(B,M,T).", "part([],_,S,B) :- true | S = [], B = [].",
  "part([X|L],P,S,B) :- X =< P | S = [X|S1], part(L,P,S1,B).", "part([X|L],P,S,B) :- X > P | B = [X|B1], part(L,P,S,B1).", "quicksort(L,R) :- true | qs(L,R,[]).", ""].join("\n");
const MENDED = WRONG.replace("qs(S,R,M)", "qs(S,R,[P|M])");
const RELOADED = /^Reloaded: 1 of 55 steps stays\. Gone with clause 2 of the text before: step 2 \(goal 1\.1 was reduced by clause 2\), .* and \d+ more\. Go back to the run before/;
const ANSWERS = ["wrong", "wrong", "right", "right", "right"]; // to the calls 2.2, 16.2, 24.1, 24.2 and 24.3

inBrowsers("open, write, run, see the result, ask why, mend, and have the right one, also after a reload", async (page) => {
  await open(page, "", WIDE);
  await page.value("(localStorage.clear(), true)");
  await open(page, "", WIDE);
  await page.click("#welcome-own");
  await write(page, "program", WRONG);
  await write(page, "query", "quicksort([5,2,8,1,9,3],R)");
  await page.click("#start .main-button");
  await page.click("#leap");
  assert.equal(await page.value(text("result")), "done: R = []");
  await page.click('#result [data-variable="R"]');
  await page.click('#menu [data-line="explain R"]');
  assert.match(await page.value(text("answer")), /^explain R R = \[\], steps \d+ of 55\. It rests on /);
  await page.click('#answer [data-line="blame R"]');
  for (const answer of ANSWERS) await page.click(`#blame-${answer}`);
  assert.match(await page.value(text("blame")), /^Clause 2 is wrong\. Step 24 took call 16\.2 by it\. /);
  assert.deepEqual(await page.value('[...document.querySelectorAll("#program-lines .marked")].map((one) => one.textContent)'), [WRONG.split("\n")[1]]);
  await write(page, "program", MENDED);
  await until(page, '!document.getElementById("reload").hidden');
  assert.equal(await page.value(text("reload")), "Reload, keep 1 of 55 steps");
  await page.click("#reload");
  assert.match(await page.value(text("answer")), RELOADED);
  assert.deepEqual(await page.value(numbers("#canvas .mark")), [1], "the step by quicksort's own clause stays");
  await page.click("#leap");
  assert.equal(await page.value(text("result")), "done: R = [1,2,3,5,8,9]");
  await open(page, "", WIDE);
  await page.click("#go-on");
  await page.idle();
  assert.equal(await page.value(text("result")), "done: R = [1,2,3,5,8,9]");
});
