// Tests of web/ghcdb.html, in a headless Chromium and a headless Firefox: from a wrong value by clicks and keys to the clause that is wrong,
// its step rolled back, its call tried alone.
import assert from "node:assert/strict";
import { inBrowsers, open } from "./lib/in_browsers.mjs";
import { begin, field, lines, numbers, text, until, PHONE, WIDE } from "./lib/using.mjs";
import { measured, quickEnough, WATCH } from "./lib/watching.mjs";

/** Quicksort that loses its pivot: clause 2 puts it nowhere. */
const QUICKSORT = ["qs([],R,T) :- true | R = T.", "qs([P|L],R,T) :- true | part(L,P,S,B), qs(S,R,M), qs(B,M,T).", "part([],_,S,B) :- true | S = [], B = [].",
  "part([X|L],P,S,B) :- X =< P | S = [X|S1], part(L,P,S1,B).", "part([X|L],P,S,B) :- X > P | B = [X|B1], part(L,P,S,B1).", "quicksort(L,R) :- true | qs(L,R,[]).", ""].join("\n");
const QUERY = "quicksort([5,2,8,1,9,3],R)", ALL_ANSWERS = "blame R -2.2 -16.2 +24.1 +24.2 +24.3";
const LONGEST_FREEZE = 100, LONGEST_LIGHT = 500; // milliseconds on a machine that does nothing else

const sides = "[...document.querySelectorAll('#blame .call')].map((one) => one.textContent)";
const others = "[...document.querySelectorAll('#blame mark')].map((one) => one.textContent)";
const title = "document.querySelector('#blame .blame-title').textContent";
const marked = '[...document.querySelectorAll("#program-lines .marked")].map((one) => one.textContent)';
const focus = "document.activeElement.id";
const isEnabled = (id) => `document.getElementById("${id}").disabled === false`;

/** Begins the wrong quicksort, and runs it to its end. */
async function play(page, size = WIDE) {
  await open(page, "", size);
  await page.value("(localStorage.clear(), true)");
  await page.value(begin(QUICKSORT, QUERY));
  await page.value('Talk.send("leap").then(() => true)');
}

/** Waits until the part of the call that is asked about is lit, and gives its steps. */
async function litPart(page, goal) {
  await until(page, `Shown.asked !== null && Shown.asked.goal === "${goal}"`);
  return page.value(numbers("#canvas .mark.asked"));
}

inBrowsers("from a wrong value five answers lead to the wrong clause, and its step is rolled back alone", async (page) => {
  await play(page);
  await page.click('#store [data-variable="R"]');
  await page.click('#menu [data-line="blame R"]');
  assert.equal(await page.value(title), "Is this right? Question 1 of about 5: call 2.2, which step 16 took by clause 2. Of 28 calls it is not known yet.×");
  assert.deepEqual(await page.value(sides), ["qs([2,1,3],R,[])", "qs([2,1,3],[],[])"]);
  assert.deepEqual(await page.value(others), ["R", "[]"], "what is another on both sides stands out");
  assert.deepEqual(await litPart(page, "2.2"), Array.from({ length: 24 }, (none, at) => at + 16));
  assert.deepEqual(await page.value(marked), [QUICKSORT.split("\n")[1]]);
  assert.equal(await page.value(isEnabled("blame-back")), false);
  await page.click("#blame-wrong");
  assert.deepEqual(await page.value(sides), ["qs([1],R,[])", "qs([1],[],[])"]);
  await page.key("n");
  assert.deepEqual(await page.value(sides), ["part([],1,S₂₄,B₂₄)", "part([],1,[],[])"]);
  await page.key("b");
  assert.equal((await page.value(lines)).at(-1), "blame R -2.2");
  await page.click("#blame-wrong");
  await page.key("y");
  assert.deepEqual(await litPart(page, "24.2"), [28, 29]);
  assert.deepEqual(await page.value(numbers("#canvas .mark.right")), [25, 26, 27], "what was told right is dimmed");
  await page.click("#blame-right");
  await page.click("#blame-right");
  assert.equal((await page.value(lines)).at(-1), ALL_ANSWERS);
  assert.match(await page.value(title), /^Clause 2 is wrong\. Step 24 took call 16\.2 by it\. /);
  assert.deepEqual(await page.value('[...document.querySelectorAll("#blame .made li")].map((one) => one.textContent)'), ["24.1 gave part([],1,[],[])", "24.2 gave qs([],[],[])", "24.3 gave qs([],[],[])"]);
  assert.deepEqual(await page.value(marked), [QUICKSORT.split("\n")[1]]);
  assert.deepEqual(await page.value("Canvas.chosen"), { step: 24 });
  await page.point("#blame-roll");
  const going = [24, 25, 26, 27, 28, 29, 30, 31];
  assert.deepEqual((await page.value(numbers("#canvas .going"))).sort((one, other) => one - other), going);
  await page.click("#blame-roll");
  assert.equal((await page.value(lines)).at(-1), "roll 24");
  assert.equal(await page.value("State.run.graph.count"), 55 - going.length);
  assert.match(await page.value(title), /^Step 24 is taken back, .* Call 16\.2 is there again: /);
  await page.click("#blame [data-go-goal]");
  assert.match(await page.value(text("menu")), /^Goal 16\.2 /);
  await page.value('Talk.send("step 16.2 2").then(() => true)');
  assert.equal(await page.value(text("blame")), "", "a line that changes the run closes it");
});

inBrowsers("a call is tried alone, and one click leads back to the verdict; a question that is closed comes back by its line", async (page) => {
  await play(page);
  await page.value(`Talk.send("${ALL_ANSWERS}").then(() => true)`);
  await page.click("#blame-alone");
  assert.equal(await page.value("State.given.query"), "qs([1],R,[])");
  assert.equal(await page.value(field("program")), QUICKSORT);
  assert.match(await page.value(title), /^This is that call alone, with what it was given: qs\(\[1\],R,\[\]\)\. /);
  await page.click("#leap");
  assert.equal(await page.value('document.querySelector("#store .row").textContent'), "R = []");
  await page.click("#blame-return");
  await until(page, 'document.getElementById("blame-roll") !== null');
  assert.equal(await page.value("State.given.query"), QUERY);
  assert.deepEqual(await page.value(lines), ["leap", ALL_ANSWERS]);
  await page.click("#blame-back");
  assert.deepEqual(await page.value(sides), ["qs([],M₂₄,[])", "qs([],[],[])"]);
  await page.click('#canvas [data-step="3"]');
  assert.deepEqual(await page.value(numbers("#canvas .mark.asked")), []);
  await page.click("#blame-light");
  assert.deepEqual(await litPart(page, "24.3"), [30, 31]);
  await page.click("#blame-close");
  assert.deepEqual([await page.value(text("blame")), await page.value("Shown.asked")], ["", null]);
});

inBrowsers("the keyboard alone answers, the focus stays, a refused line leaves the question, and a goal that has failed begins one", async (page) => {
  await play(page);
  await page.value('Talk.send("blame R").then(() => true)');
  await page.value('(document.getElementById("blame-wrong").focus(), true)');
  await page.key("Enter");
  assert.equal(await page.value(focus), "blame-wrong");
  await page.value('Talk.send("blame Q").then(() => true)');
  assert.match(await page.value(text("answer")), /^blame Q was refused: F23 /);
  assert.deepEqual(await page.value(sides), ["qs([1],R,[])", "qs([1],[],[])"]);
  await page.value('Talk.send("show R").then(() => true)');
  assert.deepEqual(await page.value(sides), ["qs([1],R,[])", "qs([1],[],[])"]);
  await page.value(begin(QUICKSORT, "qs([2,1,3,2],R,[2])"));
  assert.equal(await page.value(text("blame")), "");
  await page.value(begin("p(X) :- true | q(X).\nq(1) :- true | true.\n", "p(2)"));
  await page.value('Talk.send("leap").then(() => true)');
  await page.click('#note [data-line="blame 1.1"]');
  assert.deepEqual(await page.value(sides), ["p(2)", "p(2)"]);
  assert.match(await page.value(text("blame")), /Goal 1\.1 came of it, and it has failed \(F10\)\./);
  await page.key("n");
  assert.deepEqual(await page.value(sides), ["q(2)", "it has failed (F10)"]);
  await page.key("n");
  assert.match(await page.value(title), /^A clause is missing or says no wrongly\. Call 1\.1 is answered by no clause/);
  assert.deepEqual(await page.value(marked), ["q(1) :- true | true."]);
});

inBrowsers("a part of a value begins a question about that place, and on a phone all of it is within the window", async (page) => {
  await open(page, "#example=quicksort&query=quicksort([3,1,2],R)&lines=leap", PHONE);
  await page.click('#store [data-root="_0_1"][data-path="1.0"]');
  const place = await page.value("State.run.graph.termOf('_0_1').split('|')[1].slice(0, -1)");
  await page.click(`#answer [data-line^="blame R "]`);
  assert.equal((await page.value(lines)).at(-1), `blame R ${place}`);
  const wrong = '[...document.querySelectorAll("#blame *")].filter((one) => one.getBoundingClientRect().right > innerWidth + 1).map((one) => one.textContent)';
  assert.deepEqual(await page.value(wrong), []);
});

inBrowsers("with 100,000 steps a question is shown and its part lit while the page goes on", async (page) => {
  await open(page, "#example=primes&query=primes(20000,Ps)&lines=leap 100000", WIDE);
  await page.value(WATCH);
  await quickEnough("the part", ({ took, freeze, slowness }) => freeze <= LONGEST_FREEZE * slowness && took <= LONGEST_LIGHT * slowness, async () => {
    await page.value("(Deeds.choose(null), Overview.settled())");
    return measured(page, 'Blaming.lightPart("0.1", []).then(() => Overview.settled())');
  });
  assert.match(await page.value('document.getElementById("overview").getAttribute("aria-valuetext")'), /100000 steps are lit/);
});

inBrowsers("a predicate that is trusted is asked about no more, and an answer by hand is taken back", async (page) => {
  await play(page);
  await page.value('Talk.send("blame R -2.2 -16.2").then(() => true)');
  assert.equal(await page.value("document.getElementById('blame-trust').textContent"), "Always right: part/4");
  await page.click("#blame-trust");
  await page.value("Talk.settled().then(() => true)");
  assert.equal((await page.value(lines)).at(-1), "blame R -2.2 -16.2 +24.1");
  assert.equal(await page.value("document.getElementById('blame-back').dataset.line"), "blame R -2.2");
  await page.click("#blame-trust");
  await until(page, "document.querySelector('#blame .blame-title').textContent.startsWith('Clause 2 is wrong')");
  assert.equal((await page.value(lines)).at(-1), ALL_ANSWERS);
});
