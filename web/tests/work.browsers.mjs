// Tests of web/ghcdb.html for real work, in a headless Chromium and a headless Firefox, from a file: what is told and where, values explained,
// lines that are kept, two runs side by side, the program's pane, what is saved, and what one looks for.
import assert from "node:assert/strict";
import { inBrowsers, open, pageWith } from "./lib/in_browsers.mjs";

const PHONE = [390, 800], WIDE = [1440, 900];
const text = (id) => `document.getElementById(${JSON.stringify(id)}).textContent`;
const isSeen = (id) => `(() => { const box = document.getElementById(${JSON.stringify(id)}).getBoundingClientRect(); return box.height > 0 && box.top >= 0 && box.bottom <= innerHeight; })()`;
const numbers = (selector, name = "step") => `[...document.querySelectorAll(${JSON.stringify(selector)})].map((one) => Number(one.dataset.${name}))`;
const lines = "[...document.querySelectorAll('#told > .typed')].map((one) => one.textContent.slice(2))";
const first = (page, script) => page.replace("<script data-file=", () => `<script>${script}</script>\n<script data-file=`);
const FAILED = "#example=append&query=append([1],[2],R)&lines=step 0.1;ask _1_1 = [7];step 2.1;step 1.2";

inBrowsers("a refusal stands above the picture, also on a phone, and its step is a link", async (page) => {
  for (const size of [WIDE, PHONE]) {
    await open(page, "#example=bill&query=bill(12,3,T)&lines=leap;undo 2", size);
    assert.equal(await page.value(text("answer")), "undo 2 was refused: F17 step 3 depends on it×");
    assert.ok(await page.value(isSeen("answer")));
    await page.click("#answer [data-goto]");
    assert.deepEqual(await page.value("Canvas.chosen"), { step: 3 });
    await page.click("#close-answer");
    assert.ok(await page.value('document.getElementById("answer").hidden'));
    await page.value('(document.getElementById("run").scrollTop = 9999, Talk.send("undo 4"))');
    assert.ok(await page.value(isSeen("answer")), "also where one has scrolled down");
  }
});

inBrowsers("a failed goal tells what clashed and which step bound it; an error in the program is scrolled into sight with its line", async (page) => {
  await open(page, FAILED, WIDE);
  assert.match(await page.value(text("note")), /^Goal 4\.1 has failed: its two sides are different things \(F11\)\. \[7\] and \[2\S*\] are two different things ?Z1₁ was bound by step 3; explain Z1₁ tells why ?Take back/);
  await page.click("#note [data-goto]");
  assert.deepEqual(await page.value("Canvas.chosen"), { step: 3 });
  const program = `${"p(a) :- true | true.\n".repeat(40)}p(b) :- true | q(.\n`;
  await page.value(`(Files.openText(${JSON.stringify(program)}), Talk.settled())`);
  assert.equal(await page.value(text("note")), "Refused: program: F2 syntax at 41:18. Mend it, then press Start.");
  assert.equal(await page.value(text("answer")), ["syntax: '(' of line 41, column 17 is not closed  --> program:41:18", "   |", "41 | p(b) :- true | q(.", "   |                  ^= missing: )×"].join("\n"));
  assert.ok(await page.value('(() => { const line = document.querySelector("#program-lines .wrong").getBoundingClientRect(), pane = document.getElementById("program-pane").getBoundingClientRect(); return line.top >= pane.top && line.bottom <= pane.bottom; })()'), "the line is in sight");
});

inBrowsers("of a goal that no clause takes it is told why each says no", async (page) => {
  await open(page, "#example=bill&query=price(0,T)&lines=leap", WIDE);
  const note = await page.value(text("note"));
  const why = ["clause 2: N > 0 says no (N = 0)", "clause 3: N >= 10 says no (N = 0)"];
  for (const one of why) assert.ok(note.includes(one), note);
});

inBrowsers("a refused program, query and line are told with their cause, and the place is selected; a variable that stands once is noted", async (page) => {
  const start = (program, query) => page.value(`(Page.begin(${JSON.stringify({ program, query })}), Talk.settled())`);
  const selected = (id) => page.value(`(() => { const field = document.getElementById("${id}"); return [field.selectionStart, field.selectionEnd, document.activeElement === field].join(); })()`);
  const answer = () => page.value(text("answer"));
  await open(page, "", WIDE);
  await start("% größe\np(X) :- even(X) | true.\neven(0).\n", "p(0)");
  assert.match(await answer(), /^not flat, clause 1: even\/1 is no test --> program:2:9[^]*2 \| p\(X\) :- even\(X\) \| true\.\n {2}\| {9}\^\^\^\^= the tests are true, wait\(X\)/);
  assert.equal(await selected("program"), "16,20,true");
  await start("p(1).\n", "p(ä)");
  assert.match(await answer(), /^syntax: this letter is not of the language --> query:1:3/);
  assert.equal(await selected("query"), "2,3,true");
  await start("p(1).\n", "q(1)");
  assert.match(await answer(), /^undefined: no clause has the head q with 1 argument[^]*= defined are: p\/1×$/);
  await start(`p(${"f(".repeat(70)}1${")".repeat(70)}).\n`, "true");
  assert.equal(await answer(), "the brackets that are open at one place: 64 at most; the most operators that may stand inside one another in what is asked for: 1,000×");
  const panels = async () => [await page.value(text("store")), await page.value('document.getElementById("keep-run").disabled')];
  await start("p(1).\n", "q(X)");
  assert.deepEqual(await panels(), ["nothing is bound", true], "there is no run");
  await start("p(1).\n", "p(1)");
  assert.deepEqual(await panels(), ["nothing is bound", false]);
  assert.ok(await page.value('document.getElementById("answer").hidden'), "nothing is told of a program that is right");
  await page.value('Talk.send("ask Y is 1")');
  assert.match(await answer(), /^ask Y is 1 was refused: F2 syntax at 1:3syntax: `is` is written := --> ask:1:3[^]*= Y := 1×$/);
  await start("p(Tail) :- true | q(Tai1).\nq(_).\n", "p(1)");
  assert.match(await answer(), /^note: Tail stands once in clause 1[^]*1 more: Tai1 stands once in clause 1×$/);
  assert.equal(await page.value('document.getElementById("answer").classList.contains("refused")'), false);
});

inBrowsers("a bad session, no WebAssembly, refused workers and an engine that stopped are told, and the lines are kept", async (page) => {
  await open(page, "#example=append&lines=step 0.1", WIDE);
  await page.value('Files.openText("example: none.ghc\\nsession:\\n| > goals\\n")');
  assert.equal(await page.value(text("answer")), "This text was not opened: the session names the example none.ghc, which is not here.×");
  await page.value('(Service.asked = Service.ask, Service.ask = async () => ({ replies: [["the engine stopped: a stand-in"]], hasEnded: true, look: null }), Talk.send("goals"))');
  assert.match(await page.value(text("note")), /^the engine stopped: a stand-in\. The lines are kept: Save writes them\. Go on without the last line$/);
  assert.deepEqual(await page.value(lines), ["step 0.1", "goals"]);
  await page.value("(Service.ask = Service.asked, true)");
  await page.click("#again");
  assert.deepEqual(await page.value(lines), ["step 0.1"]);
  assert.deepEqual(await page.value(numbers("#canvas .mark")), [1]);
  const without = pageWith((page) => first(page, "delete window.WebAssembly;"));
  await page.go(without.file, 'document.getElementById("note").textContent !== ""');
  assert.match(await page.value(text("note")), /could not start in this browser: it has no WebAssembly/);
  without.remove();
  const refused = pageWith((page) => first(page, 'window.Worker = class { constructor() { throw new Error("refused"); } };'));
  await open(page, "#example=append&lines=leap", WIDE, refused.file);
  assert.deepEqual(await page.value(numbers("#canvas .mark")), [1, 2, 3, 4]);
  refused.remove();
});

inBrowsers("the focus stays where a row is made anew; the menu has a name, and Tab goes round in it", async (page) => {
  await open(page, "#example=buffer&query=produce(1,6,[A,B|E]), consume([A,B|E],E,Out)", WIDE);
  await page.value(`document.querySelector('#goals [data-line="step 0.1"]').focus()`);
  await page.key("Enter");
  assert.deepEqual(await page.value(lines), ["step 0.1"]);
  assert.equal(await page.value('Boolean(document.activeElement.closest("#goals"))'), true);
  await page.click('#canvas [data-step="1"]');
  assert.match(await page.value('document.getElementById("menu").getAttribute("aria-label")'), /^Step 1 goal 0\.1/);
  const count = await page.value('document.querySelectorAll("#menu button:not([disabled]), #menu input").length');
  for (let at = 0; at < count + 2; at++) {
    await page.key("Tab");
    assert.ok(await page.value('Boolean(document.activeElement.closest("#menu"))'));
  }
});

/** The lines of all buttons that are there, with the menus of all goals, two steps and a variable. */
const OFFERED = `(async () => {
  const offered = new Set();
  for (const one of [...State.run.goals.map(({ name }) => ({ goal: name })), { step: 1 }, { step: 2 }, { variable: "R" }]) {
    Menus.open(one, document.getElementById("canvas"));
    await Talk.settled();
    for (const { dataset } of document.querySelectorAll("[data-line]")) offered.add(dataset.line);
  }
  return [...offered];
})()`;

inBrowsers("each line that stands in a button is a command, and a goal runs with what comes of it", async (page) => {
  for (const begun of [FAILED, "#example=quicksort&query=quicksort([3,1,2],R)&lines=leap 3;undo 3"]) {
    await open(page, begun, WIDE);
    const offered = await page.value(OFFERED);
    for (const word of ["step", "why", "who", "blame"]) assert.ok(offered.some((line) => line.startsWith(word)), word);
    await page.value(`Talk.sendAll(${JSON.stringify(offered)})`);
    assert.deepEqual(await page.value('State.entries.filter(({ reply }) => reply.some((line) => line.startsWith("F25"))).map(({ line }) => line)'), []);
  }
  await open(page, "#example=quicksort&query=quicksort([3,1,2],R)", WIDE);
  await page.click('#canvas [data-goal="0.1"]');
  await page.click('#menu [data-line^="skip"]');
  assert.equal(await page.value("State.run.graph.count"), 27);
});

inBrowsers("a part of a value is explained by a click, who and why light up, a value is kept alone after a ring", async (page) => {
  await open(page, "#example=quicksort&query=quicksort([5,2,8,1,9,3],R)&lines=leap", WIDE);
  assert.equal(await page.value('document.querySelector("#store .row").textContent'), "R = [1,2,3,5,8,9]");
  await page.click('#store [data-root="_0_1"][data-path="1.1.1.1.0"]');
  assert.equal(await page.value(text("answer")), "8 was given by step 47. On the way to it: step 29, 31, 37, 39. Its causes are lit. Find the wrong clause×");
  assert.deepEqual(await page.value(numbers("#canvas .chosen")), [47]);
  assert.deepEqual(await page.value(numbers("#canvas .way")), [29, 31, 37, 39]);
  await page.value('Talk.send("who R")');
  assert.equal(await page.value(text("answer")), "who R R by 29×");
  assert.deepEqual(await page.value(numbers("#canvas .chosen")), [29]);
  await page.click('#store [data-variable="_2_3"]');
  await page.click('#menu [data-keep="_2_3"]');
  await page.value('new Promise((done) => { const look = () => (document.querySelector("#menu .danger") ? done(true) : setTimeout(look, 20)); look(); })');
  const ringed = await page.value(numbers("#canvas .going")), told = await page.value('document.querySelector("#menu .danger").textContent');
  assert.equal(told, `Take back ${ringed.length}`);
  await page.click("#menu .danger");
  assert.equal(await page.value("State.run.graph.count"), 55 - ringed.length);
  assert.equal(await page.value('Service.ask("lines", { lines: ["show _2_3"] }).then((told) => told.replies[0][0])'), "_2_3 = [8,9]");
});

inBrowsers("after a reload the page offers to go on; Open tells the first reply that is another; a link holds all; nothing gets out", async (page) => {
  await open(page, "", WIDE);
  await page.value('Talk.send("step 0.1", "step 1.1")');
  await open(page, "", WIDE);
  assert.match(await page.value(text("answer")), /^2 lines on quicksort\(\[3,1,2\],R\) are kept from the last time/);
  await page.click("#go-on");
  assert.deepEqual(await page.value(numbers("#canvas .mark")), [1, 2]);
  const saved = await page.value("Files.sessionText()");
  await page.value(`(Files.openText(${JSON.stringify(saved.replace("quicksort([3,1,2],R)", "quicksort([3,1],R)"))}), Talk.settled().then(() => new Promise((done) => setTimeout(done, 50))))`);
  assert.match(await page.value(text("answer")), /^Line 1, step 0\.1, is answered otherwise than in the text: there /);
  await page.value("Keeping.makeLink()");
  const link = await page.value("location.href"), entries = await page.value(lines);
  assert.ok(link.includes("#s=") && link.length < 8400);
  await page.go(link, 'document.body.classList.contains("started") && !State.busy && State.entries.length > 0');
  assert.deepEqual(await page.value(lines), entries);
  assert.equal(await page.value("State.given.query"), "quicksort([3,1],R)");
  await open(page, "#s=none", WIDE);
  assert.equal(await page.value(text("answer")), "The address holds no session that can be read.×");
  const out = `(async () => {
    const told = [];
    document.addEventListener("securitypolicyviolation", (event) => told.push(event.effectiveDirective));
    await fetch("https://example.org/").catch(() => 0);
    const image = new Image();
    image.src = "https://example.org/a.png";
    await new Promise((done) => setTimeout(done, 300));
    return told.sort();
  })()`;
  assert.deepEqual(await page.value(out), ["connect-src", "img-src"]);
});

inBrowsers("two choices of a clause stand side by side, with what differs ringed and told", async (page) => {
  await open(page, "#example=bill&query=bill(12,3,T)&lines=leap", WIDE);
  await page.click('#canvas [data-step="2"]');
  await page.click('#menu [data-try="2 3"]');
  await page.value('Talk.send("leap")');
  assert.deepEqual((await page.value(lines)).slice(-3), ["roll 2", "step 1.1 3", "leap"]);
  assert.deepEqual(await page.value(numbers("#beside .mark", "kept")), [1, 2, 3, 4, 5, 6]);
  assert.deepEqual(await page.value(numbers("#beside .alone", "kept")), [2, 3]);
  assert.deepEqual(await page.value(numbers("#canvas .alone")), [7, 8]);
  assert.match(await page.value(text("note")), /4 steps in both, 2 in that one alone, 2 in this one \(ringed\)\. The first that differs: step 2 above \(goal 1\.1 was reduced by clause 2\), here step 7 \(goal 1\.1 was reduced by clause 3\)/);
  await page.click("#swap-runs");
  await page.value("Talk.settled()");
  assert.deepEqual(await page.value(numbers("#canvas .alone")), [2, 3]);
  await page.click("#drop-run");
  assert.ok(await page.value('document.getElementById("beside").hidden'));
});

inBrowsers("the chosen step's clause is marked in the program, as long as the text, the divider moves", async (page) => {
  await open(page, "#example=bill&query=bill(12,3,T)&lines=leap", WIDE);
  await page.click('#canvas [data-step="2"]');
  const marked = '[...document.querySelectorAll("#program-lines .marked")].map((one) => one.textContent)';
  assert.deepEqual(await page.value(marked), ["price(N,P) :- N > 0 | P := N * 10."]);
  await page.value('Canvas.choose({ step: 3 })');
  assert.deepEqual(await page.value(marked), []);
  await page.value('document.getElementById("program").focus()'); // so that no comment is folded
  assert.equal(await page.value('document.getElementById("program").scrollHeight - document.getElementById("program-lines").offsetHeight < 30 || document.getElementById("program").scrollHeight === document.getElementById("program").clientHeight'), true);
  const wide = 'document.getElementById("source").offsetWidth', narrow = await page.value(wide);
  await page.value('document.getElementById("divider").focus()');
  await page.key("ArrowRight");
  assert.equal(await page.value(wide), narrow + 24);
});

inBrowsers("the record is shown up to a step, steps are found, a lane folds to a bar, a part of a picture is saved", async (page) => {
  await open(page, "#example=quicksort&query=quicksort([3,1,2],R)&lines=leap", WIDE);
  await page.value('(document.getElementById("until").value = "5", document.getElementById("until").dispatchEvent(new Event("input")))');
  await page.idle();
  assert.deepEqual(await page.value(numbers("#canvas .mark")), [1, 2, 3, 4, 5]);
  assert.match(await page.value(text("note")), /^This is the run after 5 steps: nothing was taken back/);
  assert.deepEqual(await page.value('[...document.querySelectorAll("#canvas .goal")].map((one) => one.dataset.goal).sort()'), ["2.2", "2.3", "5.1", "5.2"]);
  await page.click("#show-all-steps");
  assert.equal(await page.value('document.querySelectorAll("#canvas .mark").length'), 27);
  await page.value('(document.getElementById("search").value = "part", Looking.seek())');
  const hits = await page.value(numbers("#canvas .hit"));
  assert.deepEqual(hits, await page.value('State.run.graph.steps.filter((step) => step.clause >= 4).map((step) => step.number)'));
  assert.equal(await page.value(text("hits")), `1 of ${hits.length}`);
  const under = await page.value('OnScreen.stepsUnder(OnScreen.laneOf({ goal: "2.1", step: 3 }))');
  await page.value('Looking.fold("2.1", true)');
  assert.equal((await page.value('document.querySelector("#canvas .bar").textContent')).startsWith(`${under} steps`), true);
  assert.equal(await page.value('document.querySelectorAll("#canvas .mark").length'), 27 - under);
  await page.click('#canvas .bar rect');
  assert.equal(await page.value('document.querySelectorAll("#canvas .mark").length'), 27);
  assert.deepEqual(await page.value('[...Files.pictureText({ theme: "dark", from: 2, to: 5 }).matchAll(/data-step="(\\d+)"/g)].map(([, step]) => Number(step))'), [2, 3, 4, 5]);
  assert.deepEqual(await page.value('Files.pngOf(Files.pictureText({ theme: "dark" })).then((blob) => [blob.type, blob.size > 10000])'), ["image/png", true]);
});

inBrowsers("above 3,000 steps the counts, the last step, the store and the chosen step are true", async (page) => {
  await open(page, "#example=primes&query=primes(400,Ps)&lines=leap 5000", WIDE);
  const told = await page.value('Service.ask("lines", { lines: ["records", "show Ps"] }).then(({ replies }) => replies.map((one) => (Array.isArray(one) ? one : new TextDecoder().decode(one).split("\\n").filter(Boolean))))');
  const [records, [value]] = told, last = records[4999].split(" ")[0], binding = records.filter((line) => !line.includes(" binds - ")).at(-1);
  assert.equal(records.length, 5000);
  assert.match(await page.value(text("count")), /^5000 steps, longest chain \d+$/);
  assert.equal(await page.value('document.getElementById("undo-last").dataset.line'), `undo ${last}`);
  assert.ok(!(await page.value(text("note"))).includes("`"));
  const rows = await page.value('[...document.querySelectorAll("#store .row")].map((row) => row.textContent)');
  assert.equal(rows[0].slice(0, 20), value.slice(0, 20));
  const [, number, variable, term] = /^(\d+) .* binds (_\d+_\d+)=(.*) makes .*$/.exec(binding);
  assert.equal(rows[1], await page.value(`Names.shown(${JSON.stringify(`${variable} = ${term}  by ${number}`)})`));
  assert.equal(await page.value('document.querySelectorAll("#store .row .name")[1].dataset.variable'), variable);
  await page.value("Canvas.choose({ step: 2500 })");
  assert.match(await page.value(text("detail")), /^step 2500: goal /);
});

inBrowsers("arrows from outside the window end at their steps, tell where they come from, and a click goes there", async (page) => {
  await open(page, "#example=primes&query=primes(80,Ps)&lines=leap 300", WIDE);
  const coming = await page.value('[...document.querySelectorAll("#canvas .coming")].map((one) => [Number(one.dataset.from), Number(one.dataset.to)])');
  const shown = new Set(await page.value(numbers("#canvas .mark")));
  assert.ok(coming.length > 3);
  for (const [from, to] of coming) {
    assert.ok(!shown.has(from) && shown.has(to), `${from} to ${to}`);
    assert.ok(await page.value(`State.run.graph.causes.get(${to}).some((cause) => cause.from === ${from})`));
  }
  await page.value('document.querySelector("#canvas .coming path").dispatchEvent(new MouseEvent("click", { bubbles: true }))');
  assert.deepEqual(await page.value("Canvas.chosen"), { step: coming[0][0] });
  assert.ok(await page.value(`Boolean(document.querySelector('#canvas .mark.chosen[data-step="${coming[0][0]}"]'))`));
});

inBrowsers("every number of a step and every name of a goal that a reply tells is a link", async (page) => {
  await open(page, "#example=bill&query=bill(12,3,T)&lines=step 0.1;step 1.1;goals;records;why 2", WIDE);
  const links = "[...document.querySelectorAll('#told > .typed')].map((one) => [...one.nextElementSibling.querySelectorAll('.link')].map((link) => link.textContent).join())";
  assert.deepEqual(await page.value(links), ["1,1.1,1.2,1.3,1.3", "2,2.1", "1.2,1.3,2.1", "1,2", "1"]);
  await page.click('#told [data-goto="2"]');
  assert.deepEqual(await page.value("Canvas.chosen"), { step: 2 });
  await page.click('#told [data-go-goal="1.2"]');
  assert.match(await page.value(text("menu")), /^Goal 1\.2/);
  await page.click('#told [data-go-goal="1.1"]');
  assert.deepEqual(await page.value("Canvas.chosen"), { step: 2 }, "a goal that is gone leads to the step that took it");
});

inBrowsers("a window that changes its size, a strip that is dragged and a step that is chosen while a run is read do no harm", async (page) => {
  await open(page, "#example=primes&query=primes(3000,Ps)&lines=leap 30000", WIDE);
  const fiddle = `(async () => {
    let isDone = false, looks = 0;
    Talk.send("leap 30000").then(() => { isDone = true; });
    while (!isDone) {
      window.dispatchEvent(new Event("resize"));
      Canvas.choose({ step: 1 + looks % 20000 });
      Overview.draw();
      looks += 1;
      await new Promise((done) => setTimeout(done, 5));
    }
    return looks;
  })()`;
  assert.ok(await page.value(fiddle) > 3);
  await page.value("Overview.settled()");
  assert.match(await page.value(text("count")), /^60000 steps/);
  assert.match(await page.value('document.getElementById("overview").getAttribute("aria-valuetext")'), /of 60000/);
});
