// Tests of web/ghcdb.html, in a headless Chromium and a headless Firefox: the program's field while one types.
import assert from "node:assert/strict";
import { inBrowsers, open } from "./lib/in_browsers.mjs";
import { begin, field, WIDE } from "./lib/using.mjs";

const type = (words) => `(document.execCommand("insertText", false, ${JSON.stringify(words)}), true)`;
const caretAt = (place) => `((program) => {
  program.focus();
  program.setSelectionRange(${place}, ${place});
  return true;
})(document.getElementById("program"))`;

inBrowsers("a line begins as far in as the one before it", async (page) => {
  await open(page, "", WIDE);
  const program = "p(X) :- true |\n    q(X).\nq(_).\n";
  await page.value(begin(program, "p(1)"));
  await page.value(caretAt(program.indexOf("q(X)")));
  await page.key("Enter");
  assert.equal(await page.value(field("program")), program.replace("    q", "    \n    q"));
});

inBrowsers("why a text would be refused is marked while one types, and no longer when it is mended", async (page) => {
  await open(page, "", WIDE);
  const program = "p(X) :- true | q(X).\nq(_).\n", soon = "new Promise((done) => setTimeout(() => done(true), 3000))";
  const marked = 'document.querySelector("#program-lines .wrong-word") !== null';
  await page.value(begin(program, "p(1)"));
  assert.equal(await page.value(marked), false);
  await page.value(caretAt(program.length));
  await page.value(type("r(X) :- s(X).\n"));
  await page.value(soon);
  assert.equal(await page.value(marked), true);
  await page.value(type("s(_).\n"));
  await page.value(soon);
  assert.equal(await page.value(marked), false);
});
