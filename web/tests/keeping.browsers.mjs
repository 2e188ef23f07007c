// Tests of web/ghcdb.html, in a headless Chromium and a headless Firefox: what is kept is not written over, by Start,
// Open, examples or another tab; and what is opened: a link that comes later, a dropped file, an example by its keys.
import assert from "node:assert/strict";
import { inBrowsers, open } from "./lib/in_browsers.mjs";
import { begin, chooseExample, field, lines, startOwn, text, until, WIDE, write } from "./lib/using.mjs";

const OWN = "stack([],_) :- true | true.\nstack([push(X)|S],T) :- true | stack(S,[X|T]).\n";
const QUERY = "stack([push(1),push(2),push(3)],[])", LINES = ["step 0.1", "step 1.1", "step 2.1"];

/** Of each session that is kept: its query, and how many lines it has; sorted. */
const read = "Object.values(localStorage).map((text) => SessionText.read(JSON.parse(text).text))";
const kept = `${read}.map(({ query, lines }) => query + ": " + lines.length).sort()`;
const send = (some) => `Talk.send(...${JSON.stringify(some)})`;

async function openWithOwn(page) {
  await open(page, "", WIDE);
  await page.value("localStorage.clear()");
  await startOwn(page, OWN, QUERY);
  await page.value(send(LINES));
}

inBrowsers("Start, and a history that is opened, leave what is kept as it is", async (page) => {
  await openWithOwn(page);
  await write(page, "program", `${OWN}% a letter more\n`);
  await page.value('(document.getElementById("start").requestSubmit(), Talk.settled())');
  assert.deepEqual(await page.value(kept), [`${QUERY}: 0`, `${QUERY}: 3`]);
  await page.value(send(LINES.slice(0, 2)));
  await page.value('(Files.openText("ghc-history 1\\nsteps 1\\n7 9.9 by 2\\nend 9\\n"), Talk.settled())');
  assert.match(await page.value(text("note")), /^Refused: history: F24 /);
  const withLines = (await page.value(kept)).filter((one) => !one.endsWith(": 0"));
  assert.deepEqual(withLines, [`${QUERY}: 2`, `${QUERY}: 3`]);
  await open(page, "", WIDE);
  const offers = '[...document.querySelectorAll("#answer [data-go-on]")]';
  const place = await page.value(`${offers}.find((one) => one.textContent.startsWith("3 lines")).dataset.goOn`);
  await page.click(`#answer [data-go-on="${place}"]`);
  assert.deepEqual(await page.value(lines), LINES, "a reload brings back what was before Start");
});

inBrowsers("a text that is changed and started again and again pushes no other program out", async (page) => {
  await openWithOwn(page);
  await page.value('(Files.openText("% Query: p(1)\\np(_) :- true | true.\\n"), Talk.settled())');
  for (let round = 0; round < 7; round++) {
    await page.value('Talk.send("step 0.1")');
    await startOwn(page, `p(_) :- true | true.\n% round ${round}\n`, "p(1)");
  }
  assert.deepEqual(await page.value(kept), ["p(1): 0", "p(1): 1", "p(1): 1", `${QUERY}: 3`]);
});

inBrowsers("one's own program stays, however many examples one looks at", async (page) => {
  await openWithOwn(page);
  const names = await page.value("EXAMPLES.map(({ name }) => name)"), all = [...names, ...names].slice(0, 20);
  for (const name of all) {
    await chooseExample(page, name);
    await page.value('Talk.send("leap 2")');
  }
  const now = await page.value(kept);
  assert.ok(now.includes(`${QUERY}: 3`), now.join());
  assert.ok(now.length <= 5, `${now.length} sessions are kept`);
});

inBrowsers("two tabs that go on with one kept session do not write over each other", async (page) => {
  await openWithOwn(page);
  const back = await page.otherTab();
  await open(page, "", WIDE);
  await page.click("#go-on");
  await back();
  await open(page, "", WIDE);
  await page.click("#go-on");
  await page.value(send(["step 3.1", "goals"]));
  assert.deepEqual(await page.value(kept), [`${QUERY}: 5`], "it takes the place of what it went on from");
  const forth = await page.otherTab();
  await open(page, "", WIDE);
  await page.click("#go-on");
  await page.value(send(["undo 4"]));
  await forth();
  await page.value(send(["shelf"]));
  assert.deepEqual(await page.value(kept), [`${QUERY}: 6`, `${QUERY}: 6`]);
  assert.deepEqual(await page.value(lines), [...LINES, "step 3.1", "goals", "shelf"]);
});

/** Has the page note what it would save as a file. */
const NOTE_SAVES = `(Files.saved = [],
  HTMLAnchorElement.prototype.click = function click() { Files.saved.push(this.download); }, true)`;
const HOLE = "ghc-history 1\nsteps 2\n1 0.1 by 2\nF1 no memory\nend 3\n";
const REFUSED = "memory was refused for a line of it (F1 no memory).";

inBrowsers("a history with a hole is told and not opened; with one nothing is saved or kept", async (page) => {
  const answer = () => page.value(text("answer")), hole = JSON.stringify(HOLE);
  await openWithOwn(page);
  await page.value(NOTE_SAVES);
  await page.value(`Files.openText(${hole})`);
  assert.equal(await answer(), `This text was not opened: its history is not whole: ${REFUSED}×`);
  assert.deepEqual(await page.value(lines), LINES);
  const program = JSON.stringify(OWN);
  await page.value(`(Page.begin({ program: ${program}, query: "true", history: ${hole} }), Talk.settled())`);
  await page.value("Files.saveSession()");
  assert.equal(await answer(), `Nothing was saved: the session began with a history that is not whole: ${REFUSED}×`);
  assert.deepEqual([await page.value("Files.saved"), await page.value(kept)], [[], [`${QUERY}: 3`]]);
  await page.value(begin(OWN, QUERY));
  const told = `{ replies: [${hole}.split("\\n").slice(0, -1)], hasEnded: false, look: null }`;
  await page.value(`(Service.asked = Service.ask, Service.ask = async () => (${told}), Talk.send("save 1"))`);
  await page.value("(Service.ask = Service.asked, true)");
  assert.ok((await answer()).startsWith(`save 1 told no whole history: ${REFUSED}`));
  await page.value("Files.saveSession()");
  assert.ok((await answer()).startsWith(`The session is saved without its history: ${REFUSED}`));
  assert.deepEqual(await page.value("Files.saved"), ["session.txt"]);
  assert.equal(await page.value('Files.sessionText().includes("no memory")'), false);
});

inBrowsers("where the browser keeps nothing, one's own text goes for no example without a word", async (page) => {
  await open(page, "", WIDE);
  await page.value('(Storage.prototype.setItem = () => { throw new Error("refused"); }, true)');
  await write(page, "program", OWN);
  await chooseExample(page, "bill");
  assert.equal(await page.value(text("answer")),
    "What stands here is not kept in this browser; Save writes it as a file. Go on without it×");
  assert.deepEqual([await page.value(field("program")), await page.value(field("examples"))], [OWN, "quicksort"]);
  await page.click("#go-without");
  await until(page, '!State.busy && State.given.query === "bill(12,3,T)"');
  await chooseExample(page, "append");
  await until(page, '!State.busy && State.given.query !== "bill(12,3,T)"');
});

const DROP = `((data) => {
  data.items.add(new File(["% Query: p(7)\\np(_) :- true | true.\\n"], "own.ghc"));
  const event = new DragEvent("drop", { dataTransfer: data, bubbles: true, cancelable: true });
  return document.body.dispatchEvent(event);
})(new DataTransfer())`;

inBrowsers("a link that comes into the address of an open page is opened, and so is a dropped file", async (page) => {
  await openWithOwn(page);
  await page.value('(location.hash = "#example=bill&lines=leap", true)');
  await until(page, '!State.busy && Talk.typedLines().join() === "leap"');
  assert.equal(await page.value("State.given.query"), "bill(12,3,T)");
  assert.ok((await page.value(kept)).includes(`${QUERY}: 3`));
  await page.value("(history.back(), true)");
  await until(page, '!State.busy && State.given.query === "quicksort([3,1,2],R)"');
  assert.equal(await page.value(DROP), false, "the browser does not show it in the place of the page");
  await until(page, 'State.given.query === "p(7)"');
  assert.equal(await page.value(field("query")), "p(7)");
});

inBrowsers("arrow keys go through the examples and start none; Enter and a click start one", async (page) => {
  const list = 'document.getElementById("examples")';
  const toQuicksort = `(${list}.value = "quicksort", ${list}.focus(), true)`;
  await openWithOwn(page);
  await page.value(toQuicksort);
  for (let count = 0; count < 3; count++) await page.key("ArrowDown");
  const there = await page.value(field("examples"));
  assert.ok(there !== "quicksort" && there !== "", `the list stands at ${there}`);
  assert.deepEqual([await page.value("State.given.query"), await page.value(lines)], [QUERY, LINES]);
  await page.value("document.activeElement.blur()");
  assert.equal(await page.value(field("examples")), "", "the list tells again what stands here");
  await page.value(toQuicksort);
  await page.key("ArrowDown");
  const next = await page.value(field("examples"));
  await page.key("Enter");
  const started = `EXAMPLES.find(({ name }) => name === "${next}").program`;
  await until(page, `!State.busy && State.given.program === ${started}`);
  await chooseExample(page, "bill");
  assert.equal(await page.value("State.given.query"), "bill(12,3,T)");
});

inBrowsers("a session that the address does not tell leaves it, and is offered after a reload", async (page) => {
  await open(page, "#example=deadlock", WIDE);
  await page.value("localStorage.clear()");
  assert.equal(await page.value("location.hash"), "#example=deadlock");
  await startOwn(page, OWN, QUERY);
  await page.value(send(LINES));
  assert.equal(await page.value("location.hash"), "");
  await open(page, "", WIDE);
  const offers = '[...document.querySelectorAll("#answer [data-go-on]")].map((one) => one.textContent)';
  assert.deepEqual(await page.value(offers), ["Go on with them"]);
});
