// Figures of web/ghcdb.html, in a headless Chromium and a headless Firefox: how long each thing takes until it is seen,
// beside what it took when the page was designed. GHCDB_LONG=1 tries runs of up to 999,000 steps, too.
import assert from "node:assert/strict";
import { sleep } from "./lib/browser.mjs";
import { FirefoxPage } from "./lib/firefox.mjs";
import { inBrowsers, open } from "./lib/in_browsers.mjs";
import { begin, WIDE } from "./lib/using.mjs";
import { measured, WATCH } from "./lib/watching.mjs";

const UNSEEN = 100; // milliseconds: for what takes less, nobody waits
const SHORTEST = 50, FEW = 3000; // steps of the run that is always tried; up to which there are many rounds
const MOST_ROUNDS = 8, MOST_LONG_ROUNDS = 2; // of which the quickest counts
const TIMES = 3; // that a thing is done in a round, but for those that change the whole run
const ONCE = ["run", "reload", "roll", "redo all"];
const PRINTED = 1500; // milliseconds after a line in which the worker prints the record of a long run

const READY = 'State.run.goals.find((goal) => goal.status === "ready").name';
// Programs, each with its query and with what is asked about.
const PROGRAMS = {
  primes: { text: 'EXAMPLES.find((one) => one.name === "primes").program', query: "primes(20000,Ps)", subject: '"Ps"' },
  loop: { text: '"loop :- true | loop.\\n"', query: "loop", subject: READY },
};
const THINGS = ["run", "step", "undo", "undo within", "redo", "light", "explain", "roll"];

/** Milliseconds that each of THINGS took when the page was designed; a dash where that was not measured. */
const DESIGNED = [
  { name: "primes", steps: 50,
    Chromium: "51 52 39 50 35 33 58 52",
    Firefox: "533 236 279 158 220 65 207 189" },
  { name: "primes", steps: 300,
    Chromium: "85 59 88 126 85 30 146 427",
    Firefox: "262 167 120 540 224 75 - 189" },
  { name: "primes", steps: 3000,
    Chromium: "258 35 33 51 34 33 75 83",
    Firefox: "386 156 129 162 119 64 273 497" },
  { name: "primes", steps: 100000,
    Chromium: "1555 53 46 220 44 336 102 709",
    Firefox: "3173 249 161 397 128 304 200 956" },
  { name: "primes", steps: 999000,
    Chromium: "15977 - 55 514 60 185 348 2500",
    Firefox: "" },
  { name: "loop", steps: 999000,
    Chromium: "6890 - 96 - 130 1261 - 17764",
    Firefox: "24723 - 311 - 263 2501 - 22516" },
];

const MIDDLE = "State.run.graph.numbers.at(State.run.graph.count >> 1)";
const LAST = "State.run.graph.numbers.at(State.run.graph.count - 1)";
/** The number of a step in the middle, or behind it, on which no other depends. */
const LEAF = `(() => {
  const { graph } = State.run;
  let at = graph.count >> 1;
  while (at + 1 < graph.count && graph.lastEffect.at(at) !== Graph.NONE) at++;
  return graph.numbers.at(at);
})()`;
const FRAMES = "new Promise((done) => requestAnimationFrame(() => requestAnimationFrame(done)))";

/** What is done one after the other: each with what goes before it, which is not measured. */
const deedsOf = (steps, subject) => [
  ["run", "", `Talk.send("leap ${steps}")`],
  ["step", "", `Talk.send("step " + ${READY})`],
  ["undo", "", `Talk.send("undo " + ${LAST})`],
  ["undo within", `window.leaf = ${LEAF}`, 'Talk.send("undo " + window.leaf)'],
  ["redo", "", 'Talk.send("redo " + State.run.shelf[0].number)'],
  ["light", "Canvas.choose(null)", `(Canvas.choose({ step: ${MIDDLE} }), Overview.settled())`],
  ["explain", "", `Talk.send("explain " + ${subject})`],
  ["why", "", `Talk.send("whynot " + ${subject})`],
  ["reload, told", 'Program.setText(State.given.program + "% it\\n")', "(Reloading.follow(), Promise.resolve())"],
  ["reload", "", "Reloading.reload()"],
  ["roll", "", `Talk.send("roll " + ${MIDDLE})`],
  ["redo all", "", '(document.getElementById("redo-all").click(), Talk.settled())'],
];

/** Begins a session, and does all in it: a list of things, each with what was measured until two frames were drawn. */
async function roundOf(page, name, steps) {
  const { text, query, subject } = PROGRAMS[name], told = [];
  await page.value(begin(await page.value(text), query));
  const deeds = deedsOf(steps, subject).flatMap((deed) => Array(ONCE.includes(deed[0]) ? 1 : TIMES).fill(deed));
  for (const [thing, before, does] of deeds) {
    if (before !== "") await page.value(`(${before}, true)`);
    if (steps > FEW) await sleep(PRINTED);
    await page.value("Overview.settled().then(() => true)");
    told.push([thing, await measured(page, `${does}.then(() => ${FRAMES})`)]);
  }
  assert.ok(await page.value("State.run.graph.count") >= steps, "all is there again");
  return told;
}

/** Takes up a round where it was quicker; gives the things that were never as quick as when the page was designed. */
function takeUp(quickest, round, designed) {
  for (const [thing, told] of round) {
    if (!quickest.has(thing) || told.took < quickest.get(thing).took) quickest.set(thing, told);
  }
  const most = (thing) => Math.max(UNSEEN, Number(designed.get(thing))) * quickest.get(thing).slowness;
  return [...designed].filter(([thing, took]) => took !== "-" && quickest.get(thing).took > most(thing));
}

const TRIED = DESIGNED.filter(({ steps }) => steps === SHORTEST || process.env.GHCDB_LONG === "1");

for (const { name, steps, ...figures } of TRIED) {
  inBrowsers(`in ${steps} steps of ${name} no thing takes longer than when the page was designed`, async (page) => {
    const browser = page instanceof FirefoxPage ? "Firefox" : "Chromium", words = figures[browser].split(" ");
    const designed = new Map(words.filter(Boolean).map((took, at) => [THINGS[at], took])), quickest = new Map();
    let slow = null;
    await open(page, "", WIDE);
    await page.value(WATCH);
    for (let round = 0; slow?.length !== 0 && round < (steps > FEW ? MOST_LONG_ROUNDS : MOST_ROUNDS); round++) {
      slow = takeUp(quickest, await roundOf(page, name, steps), designed);
    }
    for (const [thing, { took, freeze, slowness }] of quickest) {
      const row = `${browser}, ${name} ${steps}, ${thing}: ${took} ms, designed ${designed.get(thing) ?? "-"}`;
      console.log(`${row}; longest freeze ${freeze}, slowness ${slowness.toFixed(1)}`);
    }
    assert.deepEqual(slow, []);
  });
}
