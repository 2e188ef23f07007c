// Tests of how web/ghcdb.html looks, in a headless Chromium and a headless Firefox: no text of the picture beyond its edge or over another
// one, no part of the page beyond the window, and enough contrast, on wide and narrow windows, light and dark.
import assert from "node:assert/strict";
import { inBrowsers, open } from "./lib/in_browsers.mjs";
import { CONTRAST } from "./lib/contrast.mjs";
import { begin, until } from "./lib/using.mjs";

const SIZES = { wide: [1440, 900], phone: [390, 800] };
const RUNS = [
  "#example=bill&query=bill(12,3,T)&lines=leap 3", "#example=quicksort&query=quicksort([3,1,2],R)&lines=leap", "#example=deadlock&lines=leap",
  "#example=buffer&query=produce(1,6,[A,B|E]), consume([A,B|E],E,Out)&lines=leap 20", "#example=merge&query=instream(X), instream(Y), merge(X,Y,Z)&lines=in 1 a;in 2 b;leap;in 1 f(a,[b])",
  "#example=append&query=append([1],[2],R)&lines=step 0.1;ask _1_1 = [7];step 2.1;step 1.2", "#example=primes&query=primes(80,Ps)&lines=leap 300", "#example=primes&query=primes(30,Ps)&lines=leap 50",
  "#example=quicksort&query=quicksort([3,1,2],R)&lines=leap;explain R", "#example=quicksort&query=quicksort([3,1,2],R)&lines=leap;blame R",
];

/** The texts of the picture that stand beyond its edge, and the pairs of them that stand over each other. */
const TEXTS = `(() => {
  const svg = document.querySelector("#canvas svg"), edge = svg.getBoundingClientRect(), wrong = [];
  const names = svg.querySelector(".names rect").getBoundingClientRect(), axis = svg.querySelector(".axis rect").getBoundingClientRect();
  const isScrolled = document.getElementById("canvas").scrollTop > 0, isBehindNames = (one, box) => !one.closest(".names") && box.left < names.right && box.top < names.bottom;
  const isBehindAxis = (one, box) => (isScrolled || !one.closest(".names")) && box.top < axis.bottom;
  const isHidden = (one, box) => !one.closest(".axis") && (isBehindNames(one, box) || isBehindAxis(one, box)); // it was scrolled behind them
  const texts = [...svg.querySelectorAll("text")].filter((one) => one.textContent.trim() !== "" && one.getClientRects().length > 0 && !isHidden(one, one.getBoundingClientRect()));
  const boxes = texts.map((one) => ({ words: one.textContent, kind: one.getAttribute("class") || one.parentNode.getAttribute("class"), box: one.getBoundingClientRect() }));
  for (const { words, box } of boxes) if (box.left < edge.left - 1 || box.right > edge.right + 1 || box.top < edge.top - 1 || box.bottom > edge.bottom + 1) wrong.push("beyond the edge: " + words);
  for (let at = 0; at < boxes.length; at++) for (let other = at + 1; other < boxes.length; other++) {
    const one = boxes[at].box, two = boxes[other].box, across = Math.min(one.right, two.right) - Math.max(one.left, two.left), down = Math.min(one.bottom, two.bottom) - Math.max(one.top, two.top);
    if (across > 3 && down > 4) wrong.push(boxes[at].words + " over " + boxes[other].words);
  }
  return wrong;
})()`;

/** The parts of the page that reach beyond the window's width, and labels of buttons that are cut. */
const PARTS = `(() => {
  const wrong = [];
  for (const element of document.querySelectorAll("header *, .tools *, #answer *, #why *, #note *, #panels .heading *")) {
    const box = element.getBoundingClientRect();
    if (box.width === 0 || element.closest("option, select, [hidden]")) continue;
    if (box.right > innerWidth + 1) wrong.push("beyond the window: " + (element.id || element.textContent));
    if ((element.tagName === "BUTTON" || element.id === "count") && element.scrollWidth > element.clientWidth + 1) wrong.push("cut: " + element.textContent);
  }
  return wrong;
})()`;

inBrowsers("no text is cut or over another one, nothing reaches beyond the window, and texts have a contrast of 4.5", async (page) => {
  for (const [name, size] of Object.entries(SIZES)) {
    for (const run of RUNS) {
      for (const theme of ["light", "dark"]) {
        await open(page, `${run}&theme=${theme}`, size);
        const words = `${run} on a ${name} window, ${theme}`;
        assert.deepEqual(await page.value(CONTRAST), [], words);
        if (theme === "dark") continue;
        assert.deepEqual(await page.value(TEXTS), [], words);
        assert.deepEqual(await page.value(PARTS), [], words);
      }
    }
  }
});

inBrowsers("a cause with a long line stays within the window, and can be read", async (page) => {
  const refused = { program: `p(X) :- true | ${"X = aaaaaaaaaaaaaa, ".repeat(20)}X == 2.\n`, query: "p(1)" }, noted = { program: `p(Tail) :- true | q(Tai1,${"a,".repeat(90)}b).\nq(${"_,".repeat(91)}_).\n`, query: "p(1)" };
  for (const [name, size] of Object.entries(SIZES)) {
    for (const theme of ["light", "dark"]) {
      await open(page, `#example=bill&theme=${theme}`, size);
      for (const given of [refused, noted]) {
        await page.value(`(Page.begin(${JSON.stringify(given)}), Talk.settled())`);
        const words = `${given === refused ? "refused" : "noted"} on a ${name} window, ${theme}`;
        assert.equal(await page.value('document.querySelectorAll("#answer .cause").length'), 1, words);
        assert.deepEqual(await page.value(PARTS), [], words);
        assert.deepEqual(await page.value(CONTRAST), [], words);
      }
    }
  }
});

inBrowsers("all of a run fits where that is asked for, and after a run one looks at what is there now", async (page) => {
  await open(page, "#example=tree&query=empty([insert(5),insert(2),insert(8),has(3,A),has(8,B),has(2,C)])&lines=leap", [900, 600]);
  const fits = '(() => { const area = document.getElementById("canvas"); return [area.scrollWidth <= area.clientWidth + 1, area.scrollHeight <= area.clientHeight + 1]; })()';
  await page.click("#fit");
  assert.deepEqual(await page.value(fits), [true, true]);
  await page.click("#fit");
  await open(page, "#example=primes&query=primes(80,Ps)&lines=leap 200", [900, 600]);
  const isThere = '(() => { const goal = document.querySelector("#canvas .goal .body").getBoundingClientRect(), area = document.getElementById("canvas").getBoundingClientRect(); return goal.left > area.left && goal.right < area.right && goal.top > area.top && goal.bottom < area.bottom; })()';
  assert.ok(await page.value(isThere), "the first goal that is there is in sight");
});

/** The steps of those that a selector finds which are not seen whole beside the names and below the axis. */
const unseen = (selector) => `(() => {
  const boxOf = (selector) => document.querySelector(selector).getBoundingClientRect();
  const area = boxOf("#canvas"), left = boxOf("#canvas .names rect").right - 1, top = boxOf("#canvas .axis rect").bottom - 1;
  const isSeen = ({ left: from, right, top: high, bottom }) => from >= left && right <= area.right + 1 && high >= top && bottom <= area.bottom + 1;
  const lit = [...document.querySelectorAll("${selector} .body")].map((one) => [one.parentNode, one.getBoundingClientRect()]);
  return lit.filter(([, box]) => !isSeen(box)).map(([mark]) => mark.dataset.step);
})()`;
const LIT = 'document.querySelectorAll("#canvas .mark.cause").length', FITS = 'document.getElementById("fit").getAttribute("aria-pressed") === "true"';
const BESIDE_A_LOOP = "append([],Y,Z) :- true | Z = Y.\nappend([A|X],Y,Z) :- true | Z = [A|Z1], append(X,Y,Z1).\nloop(0) :- true | true.\nloop(N) :- N > 0 | M := N - 1, loop(M).\n";
const upTo = (most) => Array.from({ length: most }, (none, at) => at + 1).join();

// Each query with how many steps its R rests on, two for each of a list's elements and two for its end, and whether it has room without a fit.
const RESTING = [["append([1,2],[x],R), loop(60)", 6, true], [`append([${upTo(90)}],[x],R), loop(20)`, 182, false], [`append([${upTo(40)}],[x],R), loop(200)`, 82, false]];

inBrowsers("where all is done, and the steps have room, all of them are seen", async (page) => {
  await open(page, "#example=quicksort&query=quicksort([3,1,2],R)&lines=leap", SIZES.wide);
  await page.idle();
  assert.equal(await page.value('document.querySelectorAll("#canvas .mark").length'), 27);
  assert.deepEqual(await page.value(unseen("#canvas .mark")), []);
});

inBrowsers("what a value rests on is brought into sight, all at once where a picture can show it, until the next line", async (page) => {
  await open(page, "", SIZES.wide);
  for (const [query, count, hasRoom] of RESTING) {
    await page.value(begin(BESIDE_A_LOOP, query));
    await page.value('Talk.send("leap", "explain R").then(() => true)');
    await page.idle();
    assert.deepEqual([await page.value(LIT), await page.value(unseen("#canvas .mark.cause")), await page.value(FITS)], [count, [], !hasRoom], query);
    await page.value('Talk.send("show R").then(() => true)');
    assert.deepEqual([await page.value(LIT), await page.value(FITS)], [0, false], query);
  }
  await page.click("#fit");
  await page.value('Talk.send("explain R", "show R").then(() => true)');
  assert.equal(await page.value(FITS), true, "one's own wish stays");
});

inBrowsers("where as much is shown as a picture can, no name of a lane is over another one", async (page) => {
  const numbers = Array.from({ length: 100 }, (none, at) => (at * 37) % 101);
  for (const size of Object.values(SIZES)) {
    await open(page, `#example=quicksort&query=quicksort([${numbers}],R)&lines=leap 3000`, size);
    await page.click("#fit");
    assert.deepEqual(await page.value(TEXTS), []);
    assert.ok(await page.value('document.querySelectorAll("#canvas .names text").length') > 3, "some have a name");
  }
});

inBrowsers("at 50 steps on a wide window the numbers of the steps are written where they have room, and no room is left unused", async (page) => {
  for (const wide of [SIZES.wide, [2400, 900]]) {
    await open(page, "#example=primes&query=primes(30,Ps)&lines=leap 50", wide);
    const written = await page.value('[...document.querySelectorAll("#canvas .number, #canvas .small")].map((one) => Number(one.textContent)).sort((one, other) => one - other)');
    assert.deepEqual(written, await page.value('State.run.graph.steps.filter((step) => step.kind === "reduce").map((step) => step.number)'));
    assert.ok(await page.value('document.getElementById("canvas").clientWidth - document.querySelector("#canvas svg").getBoundingClientRect().width') < 250);
  }
  const computed = await page.value('State.run.graph.steps.filter((step) => step.kind === "assign").map((step) => step.binds[0].term)'), bound = await page.value('[...document.querySelectorAll("#canvas .bound")].map((one) => one.textContent.split("=").pop())');
  assert.ok(computed.length > 10 && computed.every((value) => bound.includes(value)), `where there is room for large marks, what was computed is written, too: ${bound}`);
});

inBrowsers("what all stands for is in sight wherever one has scrolled, and a label is not cut twice", async (page) => {
  await open(page, "#example=primes&query=primes(60,Ps)&lines=leap 90", SIZES.phone); // which is wider than the least window of each browser
  assert.ok(await page.value('document.getElementById("canvas").scrollLeft') > 20);
  const legend = '[...document.querySelectorAll("#canvas .legend text")].every((one) => { const box = one.getBoundingClientRect(); return box.left >= 0 && box.right <= innerWidth; })';
  await until(page, legend); // the browser tells of the scroll with its next frame
  assert.ok(!(await page.value('document.querySelector("#canvas .names").textContent')).includes("……"));
});

inBrowsers("of a run of 12,000 steps the numbers can be read, and the arrows from outside are whole, with labels where no other arrow is", async (page) => {
  for (const [name, size] of Object.entries(SIZES)) {
    await open(page, "#example=primes&query=primes(3000,Ps)&lines=leap 12000", size);
    const fonts = await page.value('[...document.querySelectorAll("#canvas .number")].map((one) => parseFloat(getComputedStyle(one).fontSize))');
    assert.ok(fonts.every((font) => font >= 6.5) && (name === "phone" || fonts.length > 5), `${name}: ${fonts}`);
    const axis = '(() => { const axis = document.querySelector("#canvas .axis rect").getBoundingClientRect().bottom; return [...document.querySelectorAll("#canvas .coming .read")].map((one) => Math.round(one.getBoundingClientRect().top - axis)); })()', tops = await page.value(axis);
    assert.ok(tops.length > 3 && tops.every((top) => top >= 0), `${name}: ${tops}`);
    const over = await page.value(`[...document.querySelectorAll("#canvas .coming text")].filter((one) => { const box = one.getBoundingClientRect();
      return [...document.querySelectorAll("#canvas .coming path")].some((path) => { const other = path.getBoundingClientRect(); return path.parentNode !== one.parentNode && path.parentNode.dataset.to !== one.parentNode.dataset.to && other.left < box.right && other.right > box.left && other.top < box.bottom && other.bottom > box.top; }); }).map((one) => one.textContent)`);
    assert.deepEqual(over, [], name);
    assert.deepEqual(await page.value(TEXTS), [], name);
  }
});

inBrowsers("where the picture is scrolled, the axis has no number above the names of lanes, and its name stays", async (page) => {
  await open(page, "#example=primes&query=primes(80,Ps)&lines=leap 200", SIZES.wide);
  await page.value("(Canvas.choose(null), document.getElementById('canvas').scrollTo(200, 0), new Promise((done) => setTimeout(() => done(true), 100)))");
  const told = await page.value(`(() => { const names = document.querySelector("#canvas .names rect").getBoundingClientRect().right, words = [...document.querySelectorAll("#canvas .axis text")].filter((one) => one.getClientRects().length > 0);
    return words.map((one) => { const box = one.getBoundingClientRect(); return [one.textContent, (box.left + box.right) / 2 >= names - 1, box.left >= 0]; }); })()`);
  assert.deepEqual(told.filter(([, isBeyond]) => !isBeyond), [["recorded order", false, true]]);
  assert.ok(told.length > 4);
});
