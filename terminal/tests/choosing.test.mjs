// `choices X`: what X would be, had a step gone by another clause; and the line behind a run that tells of such steps.
import assert from "node:assert";
import fs from "node:fs";
import os from "node:os";
import path from "node:path";
import test from "node:test";
import { fileURLToPath } from "node:url";
import { choicesIn, concernedIn, eachOnce, linesOf, outcomeTold } from "../../front/run/other_choices.mjs";
import { begin, endAll, played } from "./lib/fronts.mjs";
import { until } from "./lib/waiting.mjs";

const EXAMPLES = fileURLToPath(new URL("../../examples/", import.meta.url));
const RACE = fileURLToPath(new URL("../../docs/RACE.md", import.meta.url));
const folder = fs.mkdtempSync(path.join(os.tmpdir(), "ghcdb-test-"));
process.env.GHCDB ??= "page";
process.env.FAULTS = path.join(folder, "faults"); // of a native program that hangs at lines of its own
const FAULTY = fileURLToPath(new URL("lib/faulty_ghcdb", import.meta.url));
const AT_MOST = { timeout: 300_000 };
test.afterEach(endAll);
test.after(() => fs.rmSync(folder, { recursive: true }));

const BILL = [path.join(EXAMPLES, "bill.ghc"), "--query", "bill(12,3,T)"];
const TO_126 = [
  "% to go there: roll 2, step 1.1 3, leap",
  "% step 2 took 1.1 by clause 2 (line 7): price(N,P) :- N > 0 | P := N * 10.",
  "% it could have gone by clause 3 (line 8): price(N,P) :- N >= 10 | P := N * 8.",
];
const OF_BILL = ["% T = 150 as it is", "% T = 126 <- step 2 by 3 instead of 2", ...TO_126];
const free = (steps, name) => `% ${steps} could have gone by another clause: choices ${name} tells`;

/** A session on a text. */
function onText(name, text, query, ...more) {
  const file = path.join(folder, name);
  fs.writeFileSync(file, text);
  return begin([file, "--query", query, ...more]);
}

/** What a session tells of where it stands. */
async function standing({ type }) {
  const told = [];
  for (const line of ["records", "goals", "shelf", "spy", "save"]) told.push(await type(line));
  return told;
}

test("the price that both clauses allow has two outcomes, and the session stands as before", AT_MOST, async () => {
  const session = await begin([BILL[0], "--query", "Z = 1, bill(12,3,T)"]), { type } = session;
  assert.deepStrictEqual((await type("leap")).slice(-2), ["% all is done", free("1 step", "T")]);
  assert.deepStrictEqual([await type("choices T"), await type("undo 7")], [OF_BILL, ["undone 7"]]);
  await type("spy price");
  const before = await standing(session);
  assert.deepStrictEqual(await type("choices T"), ["% T = 150 as it is, run on", ...OF_BILL.slice(1)]);
  assert.deepStrictEqual(await standing(session), before);
  const ofP = ["% _1_1 = 120 as it is, run on", "% _1_1 = 96 <- step 2 by 3 instead of 2", ...TO_126];
  assert.deepStrictEqual(await type("choices P"), ["% _1_1 (P of step 1)", ...ofP]);
});

test("the way that is told goes there", AT_MOST, async () => {
  const { type } = await begin(BILL);
  for (const line of ["leap", "roll 2", "step 1.1 3", "leap"]) await type(line);
  assert.deepStrictEqual(await type("show T"), ["T = 126"]);
});

test("a race: outcomes that are alike stand in one line, as docs/RACE.md shows them", AT_MOST, async () => {
  const session = await begin([path.join(EXAMPLES, "wrong/bank.ghc"), "--query", "bank(End)"]);
  assert.strictEqual((await session.type("leap")).at(-1), free("5 steps", "End"));
  const same = "step 6 by 9 instead of 8, step 22 by 10 instead of 9, step 24 by 11 instead of 10";
  const told = [
    `% End = 120 as it is, also <- 3 choices: ${same}`, "% End = 130 <- step 8 by 8 instead of 9",
    "% End = 110 <- step 20 by 9 instead of 8", "% to go there: roll 8, step 6.2 8, leap",
    "% step 8 took 6.2 by clause 9 (line 15): merge(X,[A|Y],Z) :- true | Z = [A|Z1], merge(X,Y,Z1).",
    "% it could have gone by clause 8 (line 14): merge([A|X],Y,Z) :- true | Z = [A|Z1], merge(X,Y,Z1).",
  ];
  assert.deepStrictEqual(await session.type("choices End"), told);
  const shown = told.slice(0, -2).map((line) => `    ${line}\n`).join(""); // without the texts of both clauses
  assert.ok(fs.readFileSync(RACE, "utf8").includes(shown));
});

test("what fails, waits or does not end says so", AT_MOST, async () => {
  const text = "p(N,R) :- true | R = N.\np(N,R) :- true | q(N), R = N.\np(N,R) :- true | loop(N), R = N.\n"
    + "p(N,R) :- true | R = [X|Y], q(X).\nq(0).\nloop(N) :- true | M := N + 1, loop(M).\n";
  const { type } = await onText("ends.ghc", text, "p(9,R)");
  await type("leap");
  assert.deepStrictEqual(await type("choices R"), [
    "% R = 9 as it is", "% R = _0_1, failed 3.1 F10 <- step 1 by 2 instead of 1",
    "% R = 9, still running after 20,000 steps <- step 1 by 3 instead of 1",
    "% R = [_3_1|_3_2], stuck <- step 1 by 4 instead of 1",
    "% to go there: roll 1, step 0.1 2, leap", "% step 1 took 0.1 by clause 1 (line 1): p(N,R) :- true | R = N.",
    "% it could have gone by clause 2 (line 2): p(N,R) :- true | q(N), R = N.",
  ]);
});

test("where there is no other choice that is told; what is refused is refused as by explain", AT_MOST, async () => {
  const session = await begin([path.join(EXAMPLES, "append.ghc"), "--query", "append([1],[2],R)"]);
  assert.strictEqual((await session.type("leap")).at(-1), "% all is done");
  const rows = [
    ["choices R", "% R = [1,2] as it is", "% found no step on which it rests that could have gone by another clause"],
    ["choices Q", "F23 no variable", "% the query's variables: R"],
    ["choices 1.1", "% usage: choices X        tell what X is had a step gone by another clause: each is tried"],
  ];
  assert.deepStrictEqual(await played(session, rows), rows);
});

test("40 choices are tried, and the others are counted", AT_MOST, async () => {
  const down = "p(N,R) :- N > 0 | M := N - 1, p(M,R).\n", text = `p(0,R) :- true | R = 0.\n${down}${down}`;
  const { type } = await onText("many.ghc", text, "p(43,R)");
  await type("leap");
  const shown = await type("choices R");
  assert.match(shown[0], /^% R = 0 as it is, also <- 40 choices: step 1 by 3 instead of 2, .*, \.\.$/);
  assert.deepStrictEqual(shown.slice(1), ["% .. 3 choices more not tried .."]);
});

test("^C ends it, and what was found is told", AT_MOST, async () => {
  fs.writeFileSync(process.env.FAULTS, "{}");
  const session = await begin(BILL, FAULTY), { front, type } = session;
  await type("leap");
  const before = await standing(session);
  fs.writeFileSync(process.env.FAULTS, JSON.stringify({ hangs: ["step 1.1 3"] }));
  const shown = type("choices T");
  await until(() => fs.existsSync(`${process.env.FAULTS}.hung`), { line: shown });
  front.interrupt();
  assert.deepStrictEqual(await shown, [OF_BILL[0], "% ended by ^C: 0 of 1 choice tried; the session stands"]);
  fs.writeFileSync(process.env.FAULTS, "{}");
  assert.deepStrictEqual(await standing(session), before);
  assert.deepStrictEqual(await type("choices T"), OF_BILL);
});

test("the goals that could bind a variable, and the steps that let go of it, are found", () => {
  const held = "_0_1 in 2.1 ready", told = ["R = _0_1", held, held, "_0_1 lost by 1 0.1 by 1 p(9,_0_1)", "stays unbound"];
  assert.deepStrictEqual(concernedIn(told), { goals: ["2.1"], losses: [{ step: 1, goal: "0.1", clause: 1 }] });
  const line = "2 1.1 by 2 reads - binds - makes 2.1 or 3,4", [first, second] = choicesIn([line, "steps 1 of 6"]);
  assert.deepStrictEqual(first, { step: 2, goal: "1.1", clause: 2, other: 3 });
  assert.deepStrictEqual(eachOnce([second, first, second]), [first, second]);
});

test("outcomes are alike where only the numbers of variables differ, and not where a long value does", () => {
  const quiet = { stop: "stopped quiet", goals: ["none"] }, choice = { step: 2, goal: "1.1", clause: 2, other: 3 };
  const outcome = (shown) => outcomeTold("R", { shown, ...quiet }), ones = "1,".repeat(400);
  const first = outcome("R = f(_4_1,_4_2)"), two = [first, { ...outcome("R = f(_5_1,_5_2)"), choice }];
  const others = [first, { ...outcome("R = f(_5_1,_5_1)"), choice }];
  assert.deepStrictEqual(linesOf(two), ["R = f(_4_1,_4_2) as it is, also <- step 2 by 3 instead of 2"]);
  assert.strictEqual(linesOf(others).length, 3);
  assert.strictEqual(linesOf([outcome(`R = [${ones}2]`), { ...outcome(`R = [${ones}3]`), choice }]).length, 3);
  assert.deepStrictEqual(outcome("F23 no variable"), { value: "R is not made", ending: "" });
});

test("of a variable that a step let go of, the other choices of that step are tried", AT_MOST, async () => {
  const text = "p(N,R) :- N > 0 | true.\np(N,R) :- N > 5 | R = N.\n", { front, type } = await onText("lost.ghc", text, "p(9,R)");
  await type("leap");
  const { program } = front.session, ask = program.ask.bind(program);
  const told = ["R = _0_1", "_0_1 lost by 1 0.1 by 1 p(9,_0_1)", "stays unbound"];
  program.ask = (line, hear) => (line === "whynot R" ? Promise.resolve(told) : ask(line, hear)); // whatever engine runs it
  const outcomes = [
    "% R = _0_1 as it is", "% R = 9 <- step 1 by 2 instead of 1", "% to go there: roll 1, step 0.1 2, leap",
    "% step 1 took 0.1 by clause 1 (line 1): p(N,R) :- N > 0 | true.",
    "% it could have gone by clause 2 (line 2): p(N,R) :- N > 5 | R = N.",
  ];
  assert.deepStrictEqual(await type("choices R"), outcomes);
});

// By hand: X gets its value by the other goals too, but they read what step 1's body bound, and go with it.
test("a choice that stands open only once the others have gone on", AT_MOST, async () => {
  const clauses = ["g(X,O) :- true | X = 5, O = early.", "g(X,O) :- wait(X) | O = late."];
  const { type } = await onText("late.ghc", `${clauses.join("\n")}\n`, "Y = 5, X = Y, g(X,O)");
  await type("leap");
  const way = "% to go there: roll 1, skip 0.1, skip 0.2, step 0.3 2, leap";
  assert.deepStrictEqual(await type("choices O"), [
    "% O = early as it is", "% O = late <- step 1 by 2 instead of 1", way,
    `% step 1 took 0.3 by clause 1 (line 1): ${clauses[0]}`, `% it could have gone by clause 2 (line 2): ${clauses[1]}`,
  ]);
  for (const line of way.slice("% to go there: ".length).split(", ")) await type(line);
  assert.deepStrictEqual(await type("show O"), ["O = late"]);
});
