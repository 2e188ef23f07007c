// Tests of web/ghcdb.html with programs that users bring, in a headless Chromium and a headless Firefox, from a file: what they type is
// started, kept and told.
import assert from "node:assert/strict";
import { inBrowsers, open } from "./lib/in_browsers.mjs";
import { chooseExample, field, lines, startOwn, text, until, write, PHONE, WIDE } from "./lib/using.mjs";
import { measured, quickEnough, WATCH } from "./lib/watching.mjs";

const STACK = "stack([],_) :- true | true.\nstack([push(X)|S],T) :- true | stack(S,[X|T]).\nstack([pop(X)|S],[Y|T]) :- true | X = Y, stack(S,T).\n";

inBrowsers("a text that was changed since Start is told, and started from there; on a phone Start shows the run", async (page) => {
  await open(page, "", WIDE);
  await page.value("localStorage.clear()");
  await startOwn(page, STACK, "stack([push(1),pop(X)],[])");
  assert.equal(await page.value(text("note")), "A green ring is a goal that is ready: click it, or press Run.");
  await write(page, "program", STACK.replace("X = Y", "X = f(Y)"));
  await page.click("#leap");
  assert.equal(await page.value(text("note")), "This run is of the text before your changes. Start runs the text as it stands now.");
  await page.click("#start-anew");
  await page.click("#leap");
  assert.equal(await page.value('document.querySelector("#store .row").textContent'), "X = f(1)");
  assert.equal(await page.value(text("note")), "");
  await write(page, "query", "stack([pop(X)],[])");
  assert.match(await page.value(text("note")), /^This run is of the text before/);
  await open(page, "", PHONE);
  await page.click('[data-tab="program"]');
  await page.click("#start .main-button");
  assert.equal(await page.value("document.body.dataset.tab"), "run");
});

inBrowsers("own programs are kept: when an example is chosen, when they were refused or not started, and when one steps after a reload", async (page) => {
  await open(page, "", WIDE);
  await page.value("localStorage.clear()");
  await startOwn(page, STACK, "stack([push(1),pop(X)],[])");
  await page.click("#step");
  await write(page, "query", "stack([push(7)],[])");
  await chooseExample(page, "bill");
  await until(page, '!document.getElementById("answer").hidden');
  assert.equal(await page.value(text("answer")), "Your own program is kept. Go back to it×");
  await page.click("#answer [data-go-on]");
  await until(page, "Page.isChanged()");
  assert.equal(await page.value(field("program")), STACK);
  assert.equal(await page.value(field("query")), "stack([push(7)],[])");
  assert.deepEqual(await page.value(lines), ["step 0.1"]);
  await open(page, "", WIDE);
  assert.match(await page.value(text("answer")), /^1 line on stack\(\[push\(1\),pop\(X\)\],\[\]\) is kept from the last time\. Go on with it Forget it×$/);
  await page.click("#step");
  await open(page, "", WIDE);
  assert.match(await page.value(text("answer")), /^1 line on quicksort.* Also kept: 1 line on stack\(/);
  await startOwn(page, "p(X) :- q(X.", "p(1)");
  await open(page, "", WIDE);
  assert.match(await page.value(text("answer")), /^A program for p\(1\) is kept from the last time\./);
  await page.click("#forget");
  assert.match(await page.value(text("answer")), /^1 line on quicksort/);
  await page.click('#answer [data-go-on="1"]');
  assert.equal(await page.value(field("program")), STACK);
  for (const name of ["append", "bill", "counter", "merge", "primes"]) {
    await chooseExample(page, name);
    await page.click("#step");
  }
  assert.equal(await page.value("Object.keys(localStorage).length"), 5, "no more than five are kept");
});

inBrowsers("after a reload of a link's address the lines that came later are offered", async (page) => {
  await open(page, "#example=append&lines=step 0.1", WIDE);
  await page.value("(localStorage.clear(), Keeping.makeLink())");
  await page.value('Talk.send("step 1.1", "step 1.2")');
  const link = await page.value("location.href");
  for (const count of [3, 3]) {
    await page.go(link, 'document.body.classList.contains("started") && !State.busy && State.entries.length > 0');
    assert.match(await page.value(text("answer")), new RegExp(`^${count} lines on append\\(\\[1\\],\\[2\\],R\\) are kept from the last time\\. Go on with them Forget them×$`));
  }
  await page.click("#go-on");
  assert.deepEqual(await page.value(lines), ["step 0.1", "step 1.1", "step 1.2"]);
});

inBrowsers("a line is told not to be taken where nothing runs; a limit is told in words", async (page) => {
  await open(page, "", WIDE);
  await startOwn(page, "p(X) :- q(X.", "p(1)");
  const cause = await page.value(text("answer"));
  await page.value('Talk.send("step 0.1")');
  assert.match(await page.value(text("told")), /> step 0\.1not taken: there is no run\. Mend the program or the query, then press Start$/);
  assert.equal(await page.value(text("answer")), cause, "why it was refused stands there still");
  await open(page, "#example=append&lines=quit", WIDE);
  await page.value('Talk.send("goals")');
  assert.equal(await page.value(text("answer")), "goals not taken: the session has ended. Press Start for a new one.×");
  assert.ok(!(await page.value("Files.sessionText()")).includes("> goals"), "and is not saved");
  await startOwn(page, "n(0,L) :- true | L = [].\nn(N,L) :- N > 0 | L = [123456789|M], N1 := N - 1, n(N1,M).\n", "n(120000,L)");
  await page.value('Talk.send("leap", "show L")');
  assert.equal(await page.value(text("answer")), "show L was refused: F6 limit: printthe bytes of a printed term or goal: 1,048,576 at most. Values shows how each one begins.×");
});

inBrowsers("a file in Latin-1, with other line ends, with its query in a comment, or that is no text", async (page) => {
  await open(page, "", WIDE);
  const openBytes = (name, words, put = "") => page.value(`(() => { const bytes = Uint8Array.from(${JSON.stringify(words)}, (letter) => letter.charCodeAt(0)); ${put} return Files.openBytes("${name}", bytes).then(() => Talk.settled()).then(() => true); })()`);
  await openBytes("latin.ghc", "% Gr\u00f6\u00dfe\n%\n% Query: p(1)\np(X) :- X > 0 | q(X).\nq(1).\n");
  assert.ok((await page.value(field("program"))).startsWith("% Größe\n"));
  assert.equal(await page.value(field("query")), "p(1)");
  assert.equal(await page.value(text("answer")), "latin.ghc is not in UTF-8. It was read as Latin-1: look at its letters beyond ASCII.×");
  for (const end of ["\r\n", "\r"]) {
    await openBytes("ends.ghc", `% Query: p(2)${end}p(X) :- X > 0 | q(X).${end}q(2).${end}`);
    await page.click("#leap");
    await page.value("Canvas.choose({ step: 1 })");
    assert.equal(await page.value('document.querySelector("#program-lines .marked").textContent'), "p(X) :- X > 0 | q(X).");
    assert.equal(await page.value(text("note")), "");
  }
  await openBytes("picture.png", "\u0089PNG\r\n\u0000\u0000");
  assert.equal(await page.value(text("answer")), "picture.png was not opened: it is no text in UTF-8.×");
  assert.equal(await page.value(field("query")), "p(2)");
});

inBrowsers("a program that is too long is not pasted or opened; of a long one the place of a refusal is shown in a second", async (page) => {
  await open(page, "", WIDE);
  const before = await page.value(field("program")), told = "it has 1,200,000 letters, and ghcdb takes a program of 1,048,576 bytes at most.×";
  await page.value(`(() => { const event = new Event("paste", { bubbles: true, cancelable: true }); event.clipboardData = { getData: () => "p(1).\\n\\n\\n\\n\\n\\n\\n".repeat(100000) }; document.getElementById("program").dispatchEvent(event); return event.defaultPrevented; })()`);
  assert.equal(await page.value(text("answer")), `The text was not pasted: ${told}`);
  await page.value('Files.openText("p(1).\\n\\n\\n\\n\\n\\n\\n".repeat(100000))');
  assert.equal(await page.value(text("answer")), `This text was not opened: ${told}`);
  assert.equal(await page.value(field("program")), before);
  await page.value('(Files.openText("p(X) :- X > 0 | true.\\n".repeat(40000) + "q(1) :- r(\\n"), Talk.settled())');
  assert.equal(await page.value(text("note")), "Refused: program: F2 syntax at 40002:1. Mend it, then press Start.");
  assert.equal(await page.value(text("answer")), "The program is so long that the page does not look for the cause.×");
  await page.value(WATCH);
  const starts = '(document.getElementById("start").requestSubmit(), Talk.settled())';
  await quickEnough("Start", ({ took, slowness }) => took < 2000 * slowness, () => measured(page, starts));
});

inBrowsers("where nothing is ready, the page tells who waits for what, and what to do", async (page) => {
  await open(page, "#example=deadlock&query=after(A,B)", WIDE);
  assert.equal(await page.value(text("note")), "Nothing is ready, and a goal waits. after 0.1 waits for A, which no other goal has. Why? Add goals adds one that binds it.");
  await page.click("#ask-more");
  await page.type("A = done");
  await page.key("Enter");
  await page.click("#leap");
  assert.equal(await page.value('document.querySelector("#goals").textContent'), "none: all is done");
  await open(page, "#example=deadlock&query=after(A,B), after(B,C)", WIDE);
  assert.equal(await page.value(text("note")), "Nothing is ready, and 2 goals wait. after 0.1 waits for A, which no other goal has. Why? Add goals adds one that binds it.");
});
