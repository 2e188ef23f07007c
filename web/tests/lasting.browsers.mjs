// Tests of web/ghcdb.html, in a headless Chromium and a headless Firefox: the page goes on after a fault of its own,
// and nothing that a program, a link or a list of lines holds makes it stand still. With GHCDB_LONG=1 all is larger.
import assert from "node:assert/strict";
import { inBrowsers, open } from "./lib/in_browsers.mjs";
import { begin, lines, text, until, WIDE } from "./lib/using.mjs";
import { measured, quickEnough, WATCH } from "./lib/watching.mjs";

const LONGEST_FREEZE = 100; // milliseconds on a machine that does nothing else
const [REDONE, ROLLED] = process.env.GHCDB_LONG === "1" ? [500000, 1000000] : [20000, 100000];
const WAITERS = 30000;
const WAIT = "w(X) :- wait(X) | true.\nmany(0,_) :- true | true.\nmany(N,X) :- N > 0 | w(X), M := N - 1, many(M,X).\n";
const LOOP = "loop :- true | loop.\n", LEAVES = "p(N) :- true | q(N), M := N + 1, p(M).\nq(_) :- true | true.\n";
const count = "State.run.graph.count", FILE = "Open takes one from a file.";

/** Tries something until the page stands still for a short time alone; `does` prepares it, and gives the expression. */
function flows(words, page, does) {
  const isQuick = ({ freeze, slowness }) => freeze <= LONGEST_FREEZE * slowness;
  return quickEnough(words, isQuick, async () => measured(page, await does()));
}

inBrowsers("queries of 102 and of 1,000 variables run, and the next line is taken", async (page) => {
  await open(page, "", WIDE);
  for (const many of [102, 1000]) {
    const query = Array.from({ length: many }, (none, at) => `X${at} = ${at}`).join(", ");
    await page.value(begin("p(1).\n", query));
    await page.value('Talk.send("leap")');
    assert.equal(await page.value(count), many);
    assert.match(await page.value('document.querySelector("#store > div:last-child").textContent'), /^and \d+ more$/);
    await page.value('Talk.send("show X7")');
    assert.deepEqual(await page.value(lines), ["leap", "show X7"]);
    assert.equal(await page.value(text("note")), "");
  }
});

inBrowsers("a fault in what shows a change is told, all else is shown, and the next line is taken", async (page) => {
  const faults = (words) => `() => { throw new Error("${words}"); }`, told = "The page came upon a fault of its own: ";
  await open(page, "#example=append", WIDE);
  await page.value(`(Talk.plain = Looking.follow, Looking.follow = ${faults("one")}, Talk.send("step 0.1"))`);
  assert.ok((await page.value(text("note"))).startsWith(`${told}one. The lines are kept: Save writes them.`));
  assert.equal(await page.value(text("count")), "1 step, longest chain 1", "what comes after it is shown");
  await page.value('(Looking.follow = Talk.plain, Talk.send("step 1.1"))');
  assert.deepEqual(await page.value(lines), ["step 0.1", "step 1.1"]);
  assert.equal(await page.value(text("note")), "");
  await page.value(`(Talk.listen(${faults("another")}), Talk.send("step 1.2"))`);
  assert.ok((await page.value(text("note"))).startsWith(`${told}another.`));
  await page.value('Talk.send("goals")');
  assert.deepEqual(await page.value(lines), ["step 0.1", "step 1.1", "step 1.2", "goals"]);
});

inBrowsers("an address with a step and a query that is refused says why, and the page goes on", async (page) => {
  await open(page, "#example=append&query=x(&step=5", WIDE);
  assert.equal(await page.value(text("note")), "Refused: query: F2 syntax at 1:3. Mend it, then press Start.");
  await page.value("Canvas.onKey('ArrowLeft')");
  await page.value(begin("p(1).\n", "X = 1"));
  await page.value('Talk.send("leap")');
  assert.equal(await page.value(count), 1);
});

inBrowsers("30,000 goals that wait for one variable freeze nothing: a run, a click, an undo, a redo", async (page) => {
  await open(page, "", WIDE);
  await page.value(WATCH);
  await flows("the run", page, async () => {
    await page.value(begin(WAIT, `many(${WAITERS},X)`));
    return 'Talk.send("leap")';
  });
  const stuck = /^Nothing is ready, and 30000 goals wait\. Why\?/;
  assert.match(await page.value(text("note")), stuck);
  const name = await page.value('State.run.goals.find((goal) => goal.status === "waits").name');
  const opens = `Menus.open({ goal: "${name}" }, document.getElementById("canvas"))`;
  const chooses = `Canvas.choose({ goal: "${name}" })`;
  await flows("a click", page, () => `(Menus.close(), ${chooses}, ${opens}, Promise.resolve())`);
  assert.ok((await page.value(text("menu"))).startsWith(`Goal ${name} waitsw(X)It waits for X.`));
  await page.value("Menus.close()");
  const last = await page.value("State.run.graph.numbers.at(State.run.graph.count - 1)");
  await flows("an undo and a redo", page, () => `(Talk.send("undo ${last}"), Talk.send("redo ${last}"))`);
});

inBrowsers("`redo all` of many steps freezes nothing, is told in short, and can be stopped", async (page) => {
  const redo = 'document.getElementById("redo-all").click()';
  await open(page, "", WIDE);
  await page.value(WATCH);
  await page.value(begin(LOOP, "loop"));
  await page.value(`Talk.send("leap ${REDONE}", "roll 1")`);
  await page.value(`(${redo}, true)`);
  await until(page, "State.busy && State.busy.played > 1000");
  await page.value("(Talk.stop(), Talk.settled())");
  assert.equal(await page.value(count), 0, "the run stands where it stood");
  const stopped = new RegExp(`^redo 1 \\(and ${REDONE - 1} more\\) stopped by hand after [\\d.]+ s: not taken`);
  assert.match(await page.value(text("answer")), stopped);
  await flows("redo all", page, async () => {
    if (await page.value(`${count} > 0`)) await page.value('Talk.send("roll 1")');
    return `(${redo}, Talk.settled())`;
  });
  assert.equal(await page.value(count), REDONE);
  const shown = await page.value("document.querySelectorAll('#told > .typed').length");
  assert.ok(shown <= 1000, "the last of them are shown");
  assert.ok(await page.value("Talk.typedLines().length") >= REDONE + 2, "all of them are lines of the session");
});

inBrowsers("a roll of the middle of a long run freezes nothing, and is stopped while it is followed", async (page) => {
  await open(page, "", WIDE);
  await page.value(WATCH);
  await page.value(begin(LOOP, "loop"));
  await page.value(`Talk.send("leap ${ROLLED}")`);
  await page.value(`(Talk.send("roll ${ROLLED / 2}"), true)`);
  await until(page, "!State.busy || !State.run.isWhole");
  await page.value("(Talk.stop(), Talk.settled())");
  assert.equal(await page.value(count), ROLLED, "the run stands where it stood");
  for (const [program, query] of [[LOOP, "loop"], [LEAVES, "p(0)"]]) {
    await flows(`the roll of ${query}`, page, async () => {
      await page.value(begin(program, query));
      await page.value(`Talk.send("leap ${ROLLED}")`);
      return `Talk.send("roll ${ROLLED / 2}")`;
    });
    assert.equal(await page.value("State.run.graph.count + State.run.shelf.length"), ROLLED);
  }
});

inBrowsers("a link is read up to 3,000,000 bytes and 20,000 lines; a longer one is told", async (page) => {
  const entries = (many) => `Array(${many}).fill({ line: "goals", reply: [] })`;
  const session = (program, many) => `{ program: ${program}, query: "true", entries: ${entries(many)} }`;
  const openLink = async (one) => open(page, `#s=${await page.value(`Links.pack(SessionText.write(${one}))`)}`, WIDE);
  const longer = (most) => `The session in the address is not read: it has more than ${most}. ${FILE}×`;
  await open(page, "", WIDE);
  await openLink(session('"p(1).\\n".repeat(600000)', 0));
  assert.equal(await page.value(text("answer")), longer("3,000,000 bytes"));
  await openLink(session('"p(1).\\n"', 20001));
  assert.equal(await page.value(text("answer")), longer("20,000 lines"));
  assert.equal(await page.value("State.given.query"), "quicksort([3,1,2],R)");
  await page.value('Talk.send("leap")');
  assert.equal(await page.value(count), 27);
  await openLink(session('"p(1).\\n"', 300));
  assert.equal(await page.value("State.entries.length"), 300, "a shorter one is read");
});
