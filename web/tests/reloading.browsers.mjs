// Tests of web/ghcdb.html, in a headless Chromium and a headless Firefox: a program is edited while it runs; a button
// tells how many steps stay under the new text, and goes on with them.
import assert from "node:assert/strict";
import { inBrowsers, open } from "./lib/in_browsers.mjs";
import { begin, field, lines, numbers, text, until, write, WIDE } from "./lib/using.mjs";

const BILL = ["bill(A,B,T) :- true | price(A,P), price(B,Q), T := P + Q.", "price(N,P) :- N > 0 | P := N * 10.", "price(N,P) :- N >= 10 | P := N * 8.", ""];
const [FIRST, SECOND, THIRD] = BILL, MENDED = [FIRST, SECOND.replace("N > 0", "N > 0, N < 10"), THIRD, ""].join("\n");
const REFUSED = [FIRST, SECOND.replace(" |", ""), THIRD, ""].join("\n");
const steps = numbers("#canvas .mark"), isHidden = 'document.getElementById("reload").hidden';
const reloads = (words) => `!${isHidden} && document.getElementById("reload").textContent === "Reload, keep ${words}"`;

/** The bill with both prices by clause 2, its step 2 with a note, and price/2 spied. */
async function openBill(page) {
  await open(page, "", WIDE);
  await page.value(begin(BILL.join("\n"), "bill(12,3,T)"));
  await page.value('Talk.sendAll(["spy price/2", "step 0.1", "step 1.1 2", "step 1.2 2", "leap", "leap", "leap"])');
  await page.value("(Trail.setNote(1, \"the bill\"), true)");
}

inBrowsers("the button tells how many steps stay while one writes, and rings those that go", async (page) => {
  await openBill(page);
  assert.equal(await page.value(isHidden), true, "the text is as it runs");
  await write(page, "program", `% what it costs\n${BILL.join("\n")}`);
  await until(page, reloads("6 of 6 steps"));
  await write(page, "program", MENDED);
  await until(page, reloads("1 of 6 steps"));
  await page.value('(document.getElementById("reload").focus(), true)');
  assert.deepEqual(await page.value(numbers("#canvas .mark.going")), [2, 3, 4, 5, 6]);
  await page.value('(document.getElementById("line").focus(), true)');
  assert.deepEqual(await page.value(numbers("#canvas .mark.going")), []);
  await write(page, "query", "bill(12,4,T)");
  await until(page, isHidden);
});

inBrowsers("a click goes on with the steps that stay, tells which have gone, and leads back", async (page) => {
  await openBill(page);
  await write(page, "program", MENDED);
  await until(page, reloads("1 of 6 steps"));
  await page.click("#reload");
  await until(page, '!document.getElementById("answer").hidden');
  assert.equal(await page.value(text("answer")), "Reloaded: 1 of 6 steps stays. Gone with clause 2 of the text before: step 2 (goal 1.1 was reduced by clause 2), "
    + "step 3 (goal 1.2 was reduced by clause 2), and 3 more. Go back to the run before×");
  assert.deepEqual([await page.value(steps), await page.value(isHidden), await page.value(lines)], [[1], true, ["spy price/2"]]);
  assert.match(await page.value(text("notes")), /^step 1: the bill/);
  assert.equal(await page.value(text("note")), "");
  await page.value('Talk.sendAll(["nospy price/2", "leap"])');
  assert.equal(await page.value(text("result")), "done: T = 126");
  await open(page, "", WIDE);
  assert.match(await page.value(text("answer")), /^3 lines on bill\(12,3,T\) are kept/, "with the history, in place of the steps");
  await page.click("#go-on");
  await page.idle();
  assert.equal(await page.value(text("result")), "done: T = 126");
});

inBrowsers("the run before comes back by a click, and the text stays as it was written", async (page) => {
  await openBill(page);
  await write(page, "program", MENDED.replace("T := P + Q", "T := Q + P"));
  await until(page, reloads("0 of 6 steps"));
  await write(page, "program", `${BILL.join("\n")}free(X) :- true | X = 0.\n`);
  await until(page, reloads("6 of 6 steps"));
  await page.value('Talk.send("nospy price/2")');
  await page.click("#reload");
  await until(page, '!document.getElementById("answer").hidden');
  assert.match(await page.value(text("answer")), /^Reloaded: 6 of 6 steps stay\. Go back to the run before/);
  await page.click("#answer [data-go-on]");
  await page.idle();
  assert.deepEqual([await page.value("State.given.program"), (await page.value(lines)).length, await page.value(text("result"))], [BILL.join("\n"), 8, "done: T = 150"]);
  assert.match(await page.value(field("program")), /free\(X\)/, "the text is not lost");
  await until(page, reloads("6 of 6 steps"));
});

inBrowsers("a refused text leaves the run as it was, with the cause at its line", async (page) => {
  await openBill(page);
  await write(page, "program", REFUSED);
  await until(page, reloads("1 of 6 steps"));
  await page.click("#reload");
  await until(page, '!document.getElementById("answer").hidden');
  assert.match(await page.value(text("answer")), /^syntax: 'P' cannot follow '0'.*The run stands as it was\./s);
  assert.equal(await page.value('document.querySelector("#program-lines .wrong").textContent.startsWith("price(N,P) :- N > 0")'), true);
  assert.equal(await page.value('document.querySelectorAll("#program-lines .cause-here").length'), 1);
  assert.deepEqual([await page.value(steps), await page.value(text("result"))], [[1, 2, 3, 4, 5, 6], "done: T = 150"]);
  await page.value('Talk.send("undo 6")');
  assert.equal((await page.value(lines)).length, 8, "the same session takes the next line");
  await write(page, "program", MENDED);
  await until(page, reloads("1 of 5 steps"));
  await page.value('(Service.ask = ((ask) => (what, message) => (what === "reload" ? Promise.reject(Service.STOPPED) : ask(what, message)))(Service.ask), true)');
  await page.click("#reload");
  assert.match(await page.value(text("answer")), /^reload stopped by hand after 0(\.\d)? s: not taken; the run stands where it stood\./);
  assert.deepEqual([await page.value(steps), await page.value(isHidden)], [[1, 2, 3, 4, 5], false]);
});
