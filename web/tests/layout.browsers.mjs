// Tests of web/ghcdb.html, in a headless Chromium and a headless Firefox: the program is seen whole, with colours and the cause of a refusal at its
// line; a click on a clause lights its steps; two runs are seen whole; the first open offers three ways to begin.
import assert from "node:assert/strict";
import fs from "node:fs";
import { fileURLToPath } from "node:url";
import { queryOf } from "../../front/text/query_comment.mjs";
import { inBrowsers, open } from "./lib/in_browsers.mjs";
import { begin, field, lines, numbers, text, write, PHONE, WIDE } from "./lib/using.mjs";

const FOLDER = fileURLToPath(new URL("../../examples/", import.meta.url)), MOST_LINES = 22;
const programsIn = (folder) => fs.readdirSync(folder).filter((name) => name.endsWith(".ghc")).sort().map((name) => ({ name, program: fs.readFileSync(`${folder}${name}`, "utf8") }));
const PROGRAMS = [...programsIn(FOLDER), ...programsIn(`${FOLDER}wrong/`)].filter(({ program }) => program.trimEnd().split("\n").length <= MOST_LINES);

/** The lines of clauses that are not seen whole. */
const UNSEEN = `(() => { const pane = document.getElementById("program-pane").getBoundingClientRect();
  return [...document.querySelectorAll("#program-lines > div")].filter((line) => !/^(%|\\u200b)/.test(line.textContent)).filter((line) => {
    const box = line.getBoundingClientRect();
    return box.top < pane.top - 1 || box.bottom > pane.bottom + 1 || line.scrollWidth > pane.width + 1;
  }).map((line) => line.textContent); })()`;

/** Whether the letters behind the field stand where those in it do: as high, and scrolled alike. */
const FOLLOWS = `(() => { const field = document.getElementById("program"), lines = document.getElementById("program-lines");
  return Math.abs(field.scrollHeight - Math.max(field.clientHeight, lines.offsetHeight)) <= 2 && lines.style.transform.includes(-field.scrollTop + "px"); })()`;

inBrowsers("of each example of up to 22 lines all clauses are seen whole, and the colours stand behind the letters", async (page) => {
  await open(page, "#example=quicksort", WIDE);
  const [width, height] = WIDE, inner = await page.value("innerHeight"); // Firefox counts its own bars
  await page.size(width, height + height - inner);
  assert.equal(await page.value("innerHeight"), height);
  assert.ok(PROGRAMS.length >= 17);
  for (const { name, program } of PROGRAMS) {
    await page.value(begin(program, queryOf(program)));
    await page.value('Talk.send("leap").then(() => true)');
    assert.deepEqual(await page.value(UNSEEN), [], name);
    await page.value('(document.getElementById("program").focus(), true)'); // comments unfold
    assert.ok(await page.value(FOLLOWS), name);
    assert.deepEqual(await page.value(UNSEEN), [], name);
    await page.value('(document.getElementById("program").blur(), true)');
  }
});

const FOLDING = ["% one", "% two", "% three", "a :- true | b.", "", "% four", "b :- true | true.", "% five", "% six", "c(X) :- true | X = 1.", ""];
/** The lines that are seen, each with what stands for those that are folded. */
const SEEN = `[...document.querySelectorAll("#program-lines > div")].filter((line) => line.offsetHeight > 0)
  .map((line) => line.textContent.replace("\\u200b", "") + (line.classList.contains("fold") ? " (" + line.dataset.more + ")" : ""))`;
const place = '[document.activeElement.id, document.getElementById("program").selectionStart]';

/** Clicks on a line of the program, beyond its letters; 0 is the first. */
async function clickLine(page, at) {
  await page.value(`(document.querySelectorAll("#program-lines > div")[${at}].id = "line-${at}", true)`);
  await page.click(`#line-${at}`);
}

inBrowsers("a comment of some lines is one until it is clicked; one who comes to write sees all, and what he saw stays where it was", async (page) => {
  await open(page, "#example=bill", WIDE);
  await page.value(begin(FOLDING.join("\n"), "a"));
  assert.deepEqual(await page.value(SEEN), ["% one (3 lines)", "a :- true | b.", "", "% four", "b :- true | true.", "% five (2 lines)", "c(X) :- true | X = 1.", ""]);
  await clickLine(page, 0);
  assert.deepEqual(await page.value(SEEN), [...FOLDING.slice(0, 7), "% five (2 lines)", ...FOLDING.slice(9)]);
  await page.value('Talk.send("leap")');
  await clickLine(page, 3);
  assert.deepEqual(await page.value(SEEN), FOLDING);
  assert.deepEqual(await page.value(place), ["program", FOLDING.slice(0, 4).join("\n").length]);
  assert.deepEqual(await page.value(numbers("#canvas .mark.cause")), [1], "the click lights the clause's step, too");
  assert.ok(await page.value(FOLLOWS));
  const long = [...Array(60).fill("% x"), ...Array(60).fill("a :- true | true."), "b(Y) :- true | Y = 1.", "% y", "% z", ""];
  await page.value(`(document.activeElement.blur(), ${begin(long.join("\n"), "a")})`);
  await page.value('(Program.showLine(100), document.querySelectorAll("#program-lines > div")[99].id = "line-99", true)');
  const top = 'document.getElementById("line-99").getBoundingClientRect().top', before = await page.value(top);
  await clickLine(page, 99);
  assert.ok(Math.abs((await page.value(top)) - before) <= 2, "it stays where it was");
  assert.deepEqual(await page.value(place), ["program", long.slice(0, 100).join("\n").length]);
});

const marked = (name) => `[...document.querySelectorAll("#program-lines > .${name}")].map((one) => one.textContent)`;
const CLAUSES = ["bill(A,B,T) :- true | price(A,P), price(B,Q), T := P + Q.", "price(N,P) :- N > 0 | P := N * 10."];

inBrowsers("a click on a clause lights its steps; the clauses of all lit steps are marked; a changed text has no marks", async (page) => {
  await open(page, "#example=bill&query=bill(12,3,T)&lines=leap", WIDE);
  const line = '[...document.querySelectorAll("#program-lines > div")].find((one) => one.textContent.startsWith("price(N,P) :- N > 0"))';
  await page.value(`${line}.id = "clause-two"`);
  await page.press(await page.point("#clause-two"));
  assert.deepEqual(await page.value(numbers("#canvas .mark.cause")), [2, 4]);
  assert.equal(await page.value(text("answer")), "Clause 2 of price/2: 2 steps went by it (lit). ◀▶ 1 of 2: step 2×");
  assert.deepEqual(await page.value(marked("marked")), [CLAUSES[1]]);
  await page.value("(Canvas.choose({ step: 6 }), true)");
  assert.deepEqual(await page.value(marked("lit")), CLAUSES);
  await page.value("(Canvas.choose(null), true)");
  assert.deepEqual(await page.value(marked("lit")), []);
  await write(page, "program", "p(1).\n");
  await page.press(await page.point("#program-lines > div"));
  assert.deepEqual(await page.value(numbers("#canvas .mark.cause")), []);
  assert.deepEqual(await page.value('[...document.querySelectorAll("#program-lines > div")].map((one) => one.textContent)'), ["p(1).", "\u200b"]);
});

inBrowsers("the refused word is underlined in its place with the cause at its line, until the text is changed", async (page) => {
  await open(page, "#example=bill", WIDE);
  await page.value(begin("p(X) :- true | q(X).\nr(a) :- even(2) | true.\nq(1).\n", "p(1)"));
  assert.equal(await page.value('document.querySelector("#program-lines .wrong-word").textContent'), "even");
  assert.equal(await page.value('document.querySelector("#program-lines .cause-here").textContent'), "not flat, clause 2: even/1 is no test");
  const below = '(() => { const line = document.querySelector("#program-lines .wrong").getBoundingClientRect(), cause = document.querySelector(".cause-here").getBoundingClientRect(); return Math.abs(line.bottom - cause.top) < 2; })()';
  assert.ok(await page.value(below));
  await write(page, "program", "p(X) :- true | q(X).\nr(a) :- true | true.\nq(1).\n");
  assert.equal(await page.value('document.querySelectorAll("#program-lines .wrong-word, .cause-here, #program-lines .wrong").length'), 0);
});

inBrowsers("both runs of two are seen whole, in the same columns, each below its result", async (page) => {
  await open(page, "#example=bill", WIDE);
  const { program } = programsIn(`${FOLDER}wrong/`).find(({ name }) => name === "bank.ghc");
  await page.value(begin(program, "bank(End)"));
  await page.value('Talk.send("leap").then(() => true)');
  await page.click('#canvas [data-step="8"]');
  await page.click('#menu [data-try="8 8"]');
  await page.value('Talk.send("leap").then(() => true)');
  const cut = (id) => `[...document.querySelectorAll("#${id} .mark")].filter((mark) => { const box = mark.getBoundingClientRect(), area = document.getElementById("${id}").getBoundingClientRect(); return box.top < area.top || box.bottom > area.bottom || box.left < area.left || box.right > area.right; }).length`;
  assert.deepEqual([await page.value(cut("beside")), await page.value(cut("canvas"))], [0, 0]);
  const leftOf = (selector) => page.value(`document.querySelector("${selector}").getBoundingClientRect().left`);
  const [above, below] = [await leftOf('#beside [data-kept=\\"14\\"]'), await leftOf('#canvas [data-step=\\"14\\"]')];
  assert.ok(Math.abs(above - below) < 1, `step 14 stands in one column: ${above}, ${below}`);
});

/** The steps that are not seen, or stand below the names of lanes. */
const HIDDEN_STEPS = `(() => { const area = document.getElementById("canvas").getBoundingClientRect();
  const names = document.querySelector("#canvas .names rect").getBoundingClientRect();
  return [...document.querySelectorAll("#canvas .mark")].filter((mark) => {
    const box = mark.getBoundingClientRect();
    return box.left < names.right || box.right > area.right;
  }).map((mark) => Number(mark.dataset.step)); })()`;

inBrowsers("the runs of the example programs are seen from their first step to their last", async (page) => {
  await open(page, "#example=bill", WIDE);
  for (const folder of [FOLDER, `${FOLDER}wrong/`, `${FOLDER}wrong/mended/`]) {
    for (const { name, program } of programsIn(folder)) {
      await page.value(begin(program, queryOf(program)));
      await page.value('Talk.send("leap").then(() => true)');
      assert.deepEqual(await page.value(HIDDEN_STEPS), [], `${folder}${name}`);
    }
  }
});

const cards = '[...document.querySelectorAll("#welcome .card b")].map((one) => one.textContent)';
const isShown = '!document.getElementById("welcome").hidden';

inBrowsers("a long line of what is noted on a program makes nothing wider than the window", async (page) => {
  const { program } = PROGRAMS.find(({ name }) => name === "sieve.ghc");
  await open(page, "#example=quicksort", [1100, 800]);
  await page.value(begin(program, queryOf(program)));
  assert.deepEqual(await page.value('(({ scrollWidth, clientWidth }) => [document.getElementById("canvas").getBoundingClientRect().right <= innerWidth, scrollWidth > clientWidth])(document.querySelector("#answer .cause"))'), [true, true]);
});

inBrowsers("the first open offers the tour, the example and a program of one's own, and says what the language is; later ones do not", async (page) => {
  await open(page, "", WIDE);
  await page.value("(localStorage.clear(), true)");
  await open(page, "", WIDE);
  assert.deepEqual(await page.value(cards), ["The tour", "Run this example", "Write your own"]);
  assert.match(await page.value(text("welcome")), /A goal is reduced by a clause: .* the goal waits; it is woken when/s);
  await page.click("#welcome-run");
  assert.deepEqual([await page.value(isShown), await page.value(lines), await page.value(text("result"))], [false, ["leap 1000"], "done: R = [1,2,3]"]);
  await open(page, "", WIDE);
  assert.equal(await page.value(isShown), false, "what is kept is offered instead");
  for (const [card, does] of [["tour", '!document.getElementById("guide").hidden'], ["own", 'document.activeElement.id === "program" && document.activeElement.value === ""']]) {
    for (const size of [WIDE, PHONE]) {
      await page.value("(localStorage.clear(), true)");
      await open(page, "", size);
      await page.value("(localStorage.clear(), true)");
      await open(page, "", size);
      await page.click(`#welcome-${card}`);
      assert.ok(await page.value(does), card);
      assert.equal(await page.value(isShown), false);
    }
  }
  await open(page, "#example=bill", WIDE);
  assert.equal(await page.value(isShown), false, "an address asks for something");
  assert.equal(await page.value(field("query")), "bill(12,3,T)");
});

inBrowsers("the console is a drawer: it shows the last lines, and opens over the picture where one is in it", async (page) => {
  await open(page, "#example=quicksort&query=quicksort([3,1,2],R)&lines=leap", WIDE);
  const high = 'document.getElementById("told").offsetHeight', before = await page.value(high);
  const last = '(() => { const last = document.getElementById("told").lastElementChild.getBoundingClientRect(), area = document.getElementById("told").getBoundingClientRect(); return last.bottom <= area.bottom + 1; })()';
  assert.ok(before < 80 && (await page.value(last)));
  await page.key("/");
  assert.ok((await page.value(high)) > 200);
  await page.key("Escape");
  assert.equal(await page.value(high), before);
  const part = '(() => { const area = document.getElementById("canvas").getBoundingClientRect(); return area.height / innerHeight; })()';
  assert.ok((await page.value(part)) > 0.6, "the picture has the height");
});
