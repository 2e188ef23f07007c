// Tests of front/run/lanes.mjs and web/picture.mjs: each kept step once, no two marks on one place, every arrow goes right, well-formed SVG.
import { workOf } from "./lib/work.mjs"; // before what it counts
import assert from "node:assert/strict";
import fs from "node:fs";
import path from "node:path";
import test from "node:test";
import { fileURLToPath } from "node:url";
import { spawnSync } from "node:child_process";
import * as Graph from "../../front/run/graph.mjs";
import * as Lanes from "../../front/run/lanes.mjs";
import * as Picture from "../picture.mjs";
import * as Terms from "../../front/run/terms.mjs";
import { engineOfPage } from "../../front/session/engine_of_page.mjs";
import { askedRun, eachPlay, runOf, plays } from "./lib/runs.mjs";

const HERE = path.dirname(fileURLToPath(import.meta.url));

const VIEWS = [{ by: "record", room: 1100 }, { by: "depth", room: 1100 }, { by: "record", room: 340 }, { by: "depth", room: 340 }, { by: "record", room: 9000 }];

function checkPlaces(name, run, view) {
  assert.deepEqual([...view.marks.keys()], run.graph.steps.map((step) => step.number), `${name}: each kept step once`);
  assert.deepEqual([...view.goals.keys()].sort(), run.goals.map((goal) => goal.name).sort(), `${name}: each goal once`);
  const places = [...view.marks.values(), ...view.goals.values(), ...view.taken].map(({ x, y }) => `${x.toFixed(2)} ${y.toFixed(2)}`);
  assert.equal(new Set(places).size, places.length, `${name}: two marks share a place`);
  for (const edge of run.graph.edges) assert.ok(view.marks.get(edge.from).x < view.marks.get(edge.to).x, `${name}: ${edge.from} to ${edge.to} goes right`);
  for (const place of [...view.marks.values(), ...view.goals.values()]) assert.ok(place.x > view.left && place.x < view.width && place.y < view.bottom, `${name}: all in sight`);
}

test("each kept step has one place, no two marks share one, and every arrow goes right", async () => {
  const check = (name, run) => VIEWS.forEach((view) => checkPlaces(`${name} by ${view.by} in ${view.room}`, run, Lanes.layout(run, { ...view, top: 34 })));
  check("a run with asks", askedRun());
  await eachPlay((play, session, run) => check(play.name, run));
});

/** Reads an XML text: gives its elements, or throws where it is not well-formed. */
function elementsOf(text) {
  const open = [], found = [];
  const token = /<(\/?)([a-z]+)((?:\s+[a-zA-Z0-9:-]+="[^"<]*")*)\s*(\/?)>|([^<]+)/gy;
  while (token.lastIndex < text.length) {
    const at = token.lastIndex, part = token.exec(text);
    assert.ok(part, `not well-formed at ${text.slice(at, at + 80)}`);
    const [, isEnd, name, attributes = "", isEmpty, words = ""] = part;
    assert.ok(!/&(?!(amp|lt|gt|quot);)/.test(attributes + words), `a bare ampersand in ${part[0].slice(0, 80)}`);
    if (isEnd) assert.equal(open.pop(), name);
    else if (name) {
      const values = [...attributes.matchAll(/([a-zA-Z:-]+)="([^"]*)"/g)].map(([, key, value]) => [key, value]);
      assert.equal(new Set(values.map(([key]) => key)).size, values.length, `an attribute stands twice in ${part[0]}`);
      found.push({ name, attributes: Object.fromEntries(values) });
      if (!isEmpty) open.push(name);
    }
  }
  assert.deepEqual(open, []);
  return found;
}

test("the SVG of each example is well-formed, has no number that is none, and each kept step once", async () => {
  await eachPlay((play, session, run) => {
    for (const by of ["record", "depth"]) {
      const { svg } = Picture.draw(run, { by, theme: by === "depth" ? "dark" : "light", title: `${play.query} & <more>`, legend: true });
      assert.ok(!/NaN|undefined|Infinity/.test(svg), play.name);
      const steps = elementsOf(svg).map((element) => element.attributes["data-step"]).filter(Boolean).map(Number);
      assert.deepEqual(steps, run.graph.steps.map((step) => step.number), play.name);
    }
  });
});

test("an ask is a step in a lane of its own, which goes on in the last call that it made; its calls and small goals stand beside it", () => {
  const run = askedRun(), { lanes, laneOf } = Lanes.lanesOf(run);
  assert.deepEqual(lanes.map((lane) => lane.name), ["0.1", "2", "5", "6.1", "6"]);
  assert.deepEqual(lanes.map((lane) => (lane.asked ? lane.asked.number : null)), [null, 2, 5, null, 6]);
  assert.deepEqual(["2.1", "2.2", "4.1", "4.2", "6.1", "6.2"].map((goal) => laneOf.get(goal).name), ["2", "2", "2", "2", "6.1", "6"]);
  const view = Lanes.layout(run, { by: "record", room: 1100, top: 34 });
  assert.deepEqual(view.lanes.map((lane) => lane.text), ["append([1],[2],[1|·])", "ask append([1|·],[3],·), …", "ask true", "append([],·,·)", "ask append([],·,·), …"]);
});

test("the picture shows an ask with no goal before it, arrows from what it names in a look of their own, and says so", () => {
  const run = askedRun(), { svg, view } = Picture.draw(run, { legend: true });
  assert.deepEqual(elementsOf(svg).map((element) => element.attributes["data-step"]).filter(Boolean).map(Number), [1, 2, 3, 4, 5, 6]);
  const arrows = [...svg.matchAll(/data-from="(\d+)" data-to="(\d+)"><path class="read named[ a-z]*"[^>]*marker-end="url\(#head-named\)"\/><title>([^<]*)</g)];
  assert.deepEqual(arrows.map(([, from, to]) => `${from} ${to}`), ["1 2", "1 6", "2 6", "4 6"]);
  assert.equal(arrows[0][3], "step 2 named _1_1, which step 1 made");
  const [lane] = view.lanes.filter((one) => one.name === "2"), { x } = view.marks.get(2);
  const parts = [...svg.matchAll(/<line class="lane" x1="([\d.]+)" x2="[\d.]+" y1="([\d.]+)"/g)].filter(([, , y]) => Math.abs(Number(y) - lane.y) < 0.1);
  assert.ok(parts.length > 0 && parts.every(([, from]) => Number(from) > x - 0.1), "nothing of the lane stands before the ask");
  assert.ok(Picture.tellStep(run, run.graph.byNumber.get(2)).startsWith("step 2: goals were added: append(_0_1,[3],_2_1), _1_1 = [7]\n"));
  assert.match(svg, /class="legend">.*>ask<.*>named</);
  const without = Picture.draw({ ...run, graph: Graph.graphOf(run.graph.steps.slice(0, 1)), goals: [], shelf: [] }, { legend: true }).svg;
  assert.doesNotMatch(without, /class="legend">.*>(ask|named)</);
});

test("arcs lead from goals that wait to others that are shown; how many goals lack theirs is told", () => {
  const arc = (from, to, variable) => ({ from, to, variable }), shown = [arc("4.2", "2.2", "_1_1"), arc("6.2", "4.1", "_2_1")];
  const waits = { arcs: [...shown, arc("6.2", "7.1", "_2_1"), arc("2.2", "4.2", "_1_1")], circle: [], left: 3 };
  const { svg } = Picture.draw({ ...askedRun(), waits }, { legend: true });
  const drawn = [...svg.matchAll(/class="wait" data-from-goal="([^"]*)" data-to-goal="([^"]*)"/g)].map(([, from, to]) => [from, to]);
  assert.deepEqual(drawn, shown.map(({ from, to }) => [from, to]));
  assert.match(svg, />waits; arcs of 3 goals are left out</);
});

test("a text that is no SVG is refused by this test's reader", () => {
  assert.throws(() => elementsOf("<svg><g></svg>"));
  assert.throws(() => elementsOf("<svg a=1></svg>"));
  assert.throws(() => elementsOf("<svg>a & b</svg>"));
});

test("the lanes of quicksort: the partition above the two sorts that it feeds, the great numbers' sort goes on", async () => {
  const { engine } = await engineOfPage(), [play] = plays().filter((one) => one.name === "quicksort, its query");
  const session = engine.open(play);
  session.lines(["step 0.1", "step 1.1"]);
  const { lanes } = Lanes.lanesOf(runOf(session, play));
  assert.deepEqual(lanes.map((lane) => lane.name), ["2.1", "2.2", "0.1"]);
  assert.deepEqual(lanes[2].predicates, ["quicksort/2", "sort/3"]);
});

test("terms in few letters", () => {
  const store = new Map([["_0_1", "[1|_1_1]"], ["_1_1", "[2,3|_2_1]"], ["_0_2", "_0_3"], ["_0_3", "f(a,b)"]]);
  assert.equal(Terms.brief("_0_1", store), "[1,2,3|·]");
  assert.equal(Terms.brief("_0_2", store), "f(…)");
  assert.equal(Terms.brief("_9_9", store), "·");
  assert.equal(Terms.briefCall("filter(_0_1,[],_5_1)", store), "filter([1,2,3|·],[],·)");
});

test("a label of a list of 10,000 elements looks at each letter few times", () => {
  const list = `[${Array.from({ length: 10000 }, (none, at) => at).join(",")}]`;
  const work = workOf(() => assert.equal(Terms.briefCall(`filter(${list},5,_0_1)`, new Map()), "filter([0,1,2,3,4,5,…],5,·)"));
  assert.ok(work < 20 * list.length, `${work} for ${list.length} letters`);
});

test("the pictures of the manuals are those that web/picture draws", () => {
  const pictures = path.join(HERE, "..", "..", "docs", "pictures");
  for (const [name, room] of [["quicksort", "900"], ["bill", "700"]]) {
    const drawn = spawnSync(process.execPath, [path.join(HERE, "..", "picture"), "--room", room, path.join(pictures, `${name}.row`)], { encoding: "utf8" });
    assert.equal(drawn.stdout, fs.readFileSync(path.join(pictures, `${name}.svg`), "utf8"), `${name}${drawn.stderr}`);
  }
});

test("what drawing a step takes is bounded, and grows little with the run", async () => {
  const { engine } = await engineOfPage(), [play] = plays().filter((one) => one.name === "primes, its query");
  const workOfSteps = (number, by) => {
    const query = `primes(${number},Ps)`, session = engine.open({ ...play, query });
    session.line("leap");
    const run = runOf(session, { ...play, query }), { length } = run.graph.steps;
    return { length, work: workOf(() => Picture.draw(run, { by })) / length };
  };
  for (const by of ["record", "depth"]) {
    const small = workOfSteps(20, by), large = workOfSteps(80, by);
    assert.deepEqual([small.length, large.length], [165, 901]);
    assert.ok(large.work < 1000, `${large.work} for each of 901 steps by ${by}`);
    assert.ok(large.work < 2 * small.work, `${small.work} for each of 165 steps by ${by}, ${large.work} of 901`);
  }
});

/** A run of a program of examples/ to its end. */
async function endedRun(name, query) {
  const program = fs.readFileSync(path.join(HERE, "..", "..", "examples", `${name}.ghc`), "utf8");
  const { engine } = await engineOfPage(), session = engine.open({ program, query });
  session.line("leap 1000");
  return runOf(session, { program, query });
}

test("names stand above the lanes where marks are larger so and the height allows", async () => {
  const run = await endedRun("wrong/bank", "bank(End)"), view = { by: "record", room: 979, top: 34 };
  const beside = Lanes.layout(run, view), above = Lanes.layout(run, { ...view, tall: 600 });
  assert.deepEqual([beside.isAbove, above.isAbove], [false, true]);
  assert.ok(above.sizes.radius > beside.sizes.radius && above.bottom <= 600);
  assert.equal(Lanes.layout(run, { ...view, tall: beside.bottom }).isAbove, false, "there is no height to spare");
});

test("the key tells what a faint arrow is, and how many arrows are left out", async () => {
  const run = await endedRun("primes", "primes(12,Ps)");
  const keys = [9000, 340].map((room) => Picture.draw(run, { by: "record", theme: "light", room, legend: true }).svg);
  assert.match(keys[0], />read, as other lines tell, too</);
  assert.match(keys[1], />\d+ arrows? left out, which other lines tell</);
});

test("where lanes are squeezed into a height, marks stay within their rows", async () => {
  const run = await endedRun("wrong/bank", "bank(End)");
  for (const high of [120, 180, 240]) {
    const { sizes } = Lanes.layout(run, { by: "record", room: 979, top: 34, high });
    assert.ok(sizes.leaf <= sizes.leafRow * 0.45 + 0.01, `${high}: ${sizes.leaf} in rows of ${sizes.leafRow}`);
    assert.equal(sizes.kind === "roomy", sizes.radius >= 8, `${high}: ${sizes.kind} with ${sizes.radius}`);
  }
});
