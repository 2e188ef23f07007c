// Tests of web/ghcdb.html, in a headless Chromium and a headless Firefox, for those who use it without a mouse or without seeing it: in each state all
// has a name, roles have what they need, headings stand alone and in order, texts have contrast, the log says nothing by itself, and Tab comes to all.
import assert from "node:assert/strict";
import { CONTRAST } from "./lib/contrast.mjs";
import { inBrowsers, open } from "./lib/in_browsers.mjs";
import { begin, text, until, PHONE, WIDE } from "./lib/using.mjs";

/** What is wrong for those who hear the page, or use it by keys. */
const WRONG = `(() => {
  const wrong = [], isShown = (one) => one.getClientRects().length > 0 && getComputedStyle(one).visibility !== "hidden", all = (selector) => [...document.querySelectorAll(selector)];
  const words = (one) => (one.textContent || "").trim(), told = (one) => one.tagName + "#" + one.id + "." + one.className + " " + words(one).slice(0, 30);
  const labels = (one) => [one.getAttribute("aria-label"), ...(one.getAttribute("aria-labelledby") || "").split(" ").filter(Boolean).map((id) => words(document.getElementById(id) || document.body))].filter(Boolean).join(" ");
  const nameOf = (one) => labels(one) || (one.labels ? [...one.labels].map(words).join(" ") : "") || (one.matches("button, summary, a") ? words(one) : "") || one.getAttribute("title") || "";
  const controls = all("button, input:not([type=hidden]), select, textarea, summary, a[href], [tabindex]").filter(isShown);
  for (const one of controls) if (nameOf(one) === "") wrong.push("no name: " + told(one));
  for (const one of all("[role=slider], [role=separator][tabindex]").filter(isShown)) {
    for (const need of ["aria-valuenow", "aria-valuemin", "aria-valuemax"]) if (!/^-?\\d+$/.test(one.getAttribute(need) || "")) wrong.push(need + " lacks: " + told(one));
    const [least, now, most] = ["aria-valuemin", "aria-valuenow", "aria-valuemax"].map((name) => Number(one.getAttribute(name)));
    if (!(least <= now && now <= most)) wrong.push("a value beyond its bounds: " + told(one));
  }
  for (const one of all("[role=dialog], dialog[open], [role=group], [role=log], [role=application], nav, svg[role=img]").filter(isShown)) if (labels(one) === "") wrong.push("no label: " + told(one));
  for (const one of all("button button, a button, button a, button input, button select, label button")) wrong.push("one control within another: " + told(one));
  for (const one of all("[aria-hidden=true]")) if ([...one.querySelectorAll("button, input, select, textarea, [tabindex='0']")].some(isShown)) wrong.push("hidden from readers, but with a control: " + told(one));
  for (const one of all("[aria-labelledby], [aria-describedby], [aria-controls], label[for]")) {
    const ids = ["aria-labelledby", "aria-describedby", "aria-controls", "for"].flatMap((name) => (one.getAttribute(name) || "").split(" ").filter(Boolean));
    for (const id of ids) if (document.getElementById(id) === null) wrong.push("names what is not there: " + told(one));
  }
  const ids = all("body [id]:not(svg *)").map((one) => one.id), twice = ids.filter((id, at) => ids.indexOf(id) !== at);
  for (const id of twice) wrong.push("an id that stands twice: " + id);
  if (all("[tabindex]").some((one) => one.tabIndex > 0)) wrong.push("a tabindex above 0");
  const headings = all("h1, h2, h3, h4").filter(isShown), levels = headings.map((one) => Number(one.tagName[1]));
  if (levels.filter((level) => level === 1).length !== 1 || levels[0] !== 1) wrong.push("not one first heading: " + levels);
  levels.forEach((level, at) => { if (at > 0 && level > levels[at - 1] + 1) wrong.push("a heading's level is passed: " + told(headings[at])); });
  for (const one of headings) if (words(one) === "" || one.querySelector("button, input")) wrong.push("a heading that does not stand alone: " + told(one));
  for (const one of all("ul, ol")) if ([...one.children].some((child) => child.tagName !== "LI")) wrong.push("a list with something else: " + told(one));
  for (const one of all("li")) if (!one.parentElement.matches("ul, ol")) wrong.push("a row of no list: " + told(one));
  for (const one of all("[aria-pressed], [aria-expanded]")) for (const name of ["aria-pressed", "aria-expanded"]) if (!["true", "false", null].includes(one.getAttribute(name))) wrong.push(name + ": " + told(one));
  if (document.documentElement.lang === "" || document.title === "" || all("main").length !== 1) wrong.push("the page has no language, title or main part");
  return wrong;
})()`;

const QUICKSORT = "#example=quicksort&query=quicksort([3,1,2],R)&lines=";
const does = (expression) => async (page) => { await page.value(`(${expression}, true)`); await page.idle(); };

/** The states: an address, what is done there, and the size of the window. */
const STATES = {
  "the first open": ["", async (page) => { await page.value("(localStorage.clear(), true)"); await open(page, ""); }],
  "not begun": [QUICKSORT, null],
  "on the way": [`${QUICKSORT}leap 12`, null],
  done: [`${QUICKSORT}leap`, null],
  "a step's menu": [`${QUICKSORT}leap`, (page) => page.click('#canvas [data-step="10"]')],
  "a goal's menu": [`${QUICKSORT}leap 12`, does("Menus.open({ goal: State.run.goals[0].name }, document.getElementById('goals'))")],
  "a value's menu": [`${QUICKSORT}leap`, (page) => page.click('#store [data-variable="R"]')],
  "a step with a note": [`${QUICKSORT}leap`, does("Canvas.choose({ step: 5 }), Canvas.choose({ step: 8 }), Trail.setNote(8, 'here')")],
  "an explanation": [`${QUICKSORT}leap;explain R`, null],
  "a question": [`${QUICKSORT}leap;blame R`, null],
  "two runs": ["#example=bill&query=bill(12,3,T)&lines=leap", does("Beside.tryClause(2, 3)")],
  "an earlier time": [`${QUICKSORT}leap`, does("Looking.showUntil(9)")],
  "a deadlock": ["#example=deadlock&lines=leap", null],
  "what is not bound": ["#example=deadlock&query=after(A,B)&lines=leap;whynot A", null],
  "other choices": ["#example=bill&query=bill(12,3,T)&lines=leap", async (page) => {
    await page.click("#choices [data-choices]");
    await until(page, 'document.getElementById("choices").textContent.includes("1 of 1 other choice tried.")');
  }],
  "a failure": ["#example=append&query=append([1],[2],R)&lines=step 0.1;ask _1_1 = [7];step 2.1;step 1.2", null],
  "a refusal": ["#example=bill", (page) => page.value(begin("p(X) :- even(X) | true.\n", "p(1)"))],
  "a stream": ["#example=sum&query=instream(S), sum(S,0,R)", (page) => page.click('#canvas [data-goal="0.1"]')],
  "the help": [QUICKSORT, async (page) => {
    await page.click("#open-help");
    await until(page, 'document.querySelector("#open-help:hover") === null'); // what opens stands over it
  }],
  "a long run": ["#example=primes&query=primes(80,Ps)&lines=leap 300", null],
  "the tour": ["", (page) => page.click("#begin-tour")],
  "a phone": [`${QUICKSORT}leap;explain R`, null, PHONE],
};

inBrowsers("in each state all has a name, roles have what they need, headings and lists are whole, and texts have contrast", async (page) => {
  for (const [name, [address, then, size = WIDE]] of Object.entries(STATES)) {
    await open(page, address, size);
    if (then !== null) await then(page);
    assert.deepEqual(await page.value(WRONG), [], name);
    assert.deepEqual(await page.value(CONTRAST), [], name);
  }
});

const BAD = [["<button></button>", "no name: "], ["<h2>a<button>b</button></h2>", "a heading that does not stand alone: "], ["<h4>a</h4>", "a heading's level is passed: "],
  ["<div role='slider' aria-label='a' tabindex='0'>a</div>", "aria-valuenow lacks: "], ["<div id='told'>a</div>", "an id that stands twice: "], ["<div aria-hidden='true'><button>a</button></div>", "hidden from readers"],
  ["<ul><b>a</b></ul>", "a list with something else: "], ["<span tabindex='3' title='a'>a</span>", "a tabindex above 0"]];

inBrowsers("what this test looks for it finds", async (page) => {
  await open(page, QUICKSORT, WIDE);
  for (const [html, told] of BAD) {
    await page.value(`(document.querySelector("main").insertAdjacentHTML("beforeend", ${JSON.stringify(`<div id="bad">${html}</div>`)}), true)`);
    const wrong = await page.value(WRONG);
    assert.ok(wrong.some((one) => one.startsWith(told)), `${html}: ${wrong}`);
    await page.value('(document.getElementById("bad").remove(), true)');
  }
});

inBrowsers("the log says nothing by itself; the result, the answer and the step are said in one piece", async (page) => {
  await open(page, `${QUICKSORT}leap`, WIDE);
  const live = (id, name) => page.value(`document.getElementById("${id}").getAttribute("${name}")`);
  assert.deepEqual([await live("told", "aria-live"), await live("told", "role")], ["off", "log"]);
  for (const id of ["result", "answer", "note"]) assert.equal(await live(id, "role"), "status", id);
  assert.deepEqual([await live("detail", "aria-live"), await live("detail", "aria-atomic")], ["polite", "true"]);
  const said = await page.value('[...document.querySelectorAll("[role=status], [aria-live=polite]")].filter((one) => !one.hidden).map((one) => one.textContent).join(" ")');
  assert.doesNotMatch(said, /REDU|CALL|SUSP|RESU/);
});

inBrowsers("a step is said once, by names", async (page) => {
  await open(page, `${QUICKSORT}leap`, WIDE);
  await page.value(`(() => {
    globalThis.said = [];
    const wordsOf = ({ addedNodes }) => [...addedNodes].map((one) => one.textContent);
    const take = (changes) => said.push(...changes.flatMap(wordsOf));
    new MutationObserver(take).observe(document.getElementById("detail"), { childList: true, subtree: true });
    return true;
  })()`);
  await page.value("(Canvas.choose({ step: 5 }), new Promise((done) => setTimeout(() => done(true), 100)))");
  const said = await page.value("said");
  assert.ok(said.length > 0);
  assert.deepEqual(said.filter((words) => /_\d+_\d+/.test(words)), []);
});

/** All that Tab has to come to, by a number that each is given. */
const STOPS = `(() => { const all = [...document.querySelectorAll("button:not([disabled]), input:not([disabled]), select, textarea, [tabindex='0']")].filter((one) => one.getClientRects().length > 0 && one.tabIndex === 0 && !one.closest("[hidden]"));
  all.forEach((one, at) => { one.dataset.stop = String(at); }); return all.length; })()`;

inBrowsers("Tab comes to all that can be clicked", async (page) => {
  await open(page, `${QUICKSORT}leap`, WIDE);
  const stops = await page.value(STOPS), reached = new Set();
  await page.value("(document.body.tabIndex = -1, document.body.focus(), document.body.removeAttribute('tabindex'), true)");
  for (let at = 0; at < stops + 12; at++) {
    await page.key("Tab");
    const stop = await page.value("document.activeElement.dataset.stop ?? null");
    if (stop !== null) reached.add(Number(stop));
  }
  const missed = await page.value(`[...document.querySelectorAll("[data-stop]")].filter((one) => !${JSON.stringify([...reached])}.includes(Number(one.dataset.stop))).map((one) => one.id || one.textContent)`);
  assert.deepEqual(missed, []);
});

inBrowsers("keys alone lead from a wrong value to a note on its step", async (page) => {
  await open(page, `${QUICKSORT}leap`, WIDE);
  await page.value('(document.querySelector(\'#store [data-variable="R"]\').focus(), true)');
  await page.key("Enter");
  await until(page, '!document.getElementById("menu").hidden');
  assert.ok(await page.value('Boolean(document.activeElement.closest("#menu"))'));
  await page.key("Escape");
  await page.value('(document.getElementById("canvas").focus(), true)');
  for (const key of ["ArrowRight", "ArrowRight"]) await page.key(key);
  await page.value('(document.getElementById("note-text").focus(), true)');
  for (const key of ["h", "i", "Enter"]) await page.key(key);
  assert.equal(await page.value(text("notes")), "step 2: hi ×");
});

inBrowsers("keys reach the language's example, which scrolls", async (page) => {
  await open(page, "", WIDE);
  assert.equal(await page.value('document.getElementById("language").content.querySelector("pre").tabIndex'), 0);
});
