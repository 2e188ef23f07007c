// Which step let go of a variable: what the lines of `whynot` tell, and what is told of it at the end of a run. The
// console's lines are played.
import assert from "node:assert";
import test from "node:test";
import * as Replies from "../protocol/replies.mjs";
import * as Short from "../protocol/short.mjs";
import * as WhyNotLines from "../protocol/why_not_lines.mjs";
import { isLetGo, linesAtEnd, whoLetGo, whyAtEnd } from "../run/waits.mjs";
import { OPENED, TURNED, played } from "./lib/played.mjs";

const LOST = {
  "show D": ["D = _0_1"], "whynot D": ["D = _0_1", `_0_1 ${OPENED}`, "stays unbound"],
  "show K": ["K = _0_2"],
  "whynot K": ["K = _0_2", `_0_2 ${TURNED}`, "_0_2 lost by 30 7.1 by 2 turn(_0_2)", "stays unbound"],
};

test("a reply to whynot is read in its parts", () => {
  const told = WhyNotLines.read(["D = f(_0_1)", "_0_1 in 0.2 waits _0_1", `_0_1 ${OPENED}`, "stays unbound"]);
  assert.deepStrictEqual(told, {
    holders: [{ variable: "_0_1", goal: "0.2", status: "waits _0_1" }],
    lost: [{ variable: "_0_1", number: 1, goal: "0.1", act: "by 1", text: "open(_0_1,_0_2)" }],
    staysUnbound: true,
  });
  const NOTHING = { holders: [], lost: [], staysUnbound: undefined };
  for (const line of ["D = stays", "F23 no variable", "F25 command", "stays unbound"]) {
    assert.deepStrictEqual(WhyNotLines.read([line]), NOTHING, line);
  }
  assert.strictEqual(WhyNotLines.read(["0.1 ready p(_0_1)", "_0_1 in 0.1 ready", "may be bound"]).staysUnbound, false);
});

test("the line of a step that let go names the step, and is cut within its goal", () => {
  const line = `_0_1 lost by 12 3.4 by 2 open(${"a,".repeat(50)}_0_1)`;
  const before = "_0_1 lost by ";
  assert.deepStrictEqual(Replies.namedIn(line), { before, step: 12, after: line.slice(`${before}12`.length) });
  assert.strictEqual(Short.line(line, 40), "_0_1 lost by 12 3.4 by 2 open(a,a,a,a,a,a,a,a,a,a,a,a,a,a,a,a,a,…)");
});

test("where no goal is left, it is told which step let go of a variable of the query", async () => {
  const session = played("open(D,K)", LOST);
  assert.deepStrictEqual(await linesAtEnd(session), [
    "D is never bound: step 1 let it go, open(D,K) by clause 1 (line 2); whynot D tells more",
    "K is never bound: step 2 let it go, turn(K) by clause 2 (line 3), and 1 more step; whynot K tells more",
  ]);
  assert.strictEqual(await isLetGo(session), true);
});

test("all is done where a variable is bound, may be bound, was lost by nobody, or need not be bound", async () => {
  const isDone = async (query, replies) => {
    const session = played(query, replies);
    assert.deepStrictEqual([await linesAtEnd(session), await isLetGo(session)], [["all is done"], false], query);
    return session.asked;
  };
  assert.deepStrictEqual(await isDone("open(D,_)", { "show D": ["D = [1|_2_1]"] }), ["show D", "show D"]);
  await isDone("D = K", { "show D": ["D = _0_2"], "show K": ["K = _0_2"], "whynot D": ["D = _0_2", "stays unbound"] });
  const mayBe = ["D = _0_1", "_0_1 in 0.2 ready", `_0_1 ${OPENED}`, "may be bound"];
  await isDone("open(D,_)", { "show D": ["D = _0_1"], "whynot D": mayBe });
  await isDone("open(D,_)", { "show D": ["D = _0_1"] });
  assert.deepStrictEqual(await isDone("open(_D,_)", {}), []);
});

test("of many variables the first are told, and of a long run none is asked about", async () => {
  const names = [..."ABCDEFG"], replies = {};
  names.forEach((name, place) => {
    replies[`show ${name}`] = [`${name} = _0_${place + 1}`];
    replies[`whynot ${name}`] = [...replies[`show ${name}`], `_0_${place + 1} ${OPENED}`, "stays unbound"];
  });
  const lines = await linesAtEnd(played(`p(${names.join(",")})`, replies));
  assert.deepStrictEqual([lines.length, lines.at(-1)], [6, "show tells whether others are unbound"]);
  const long = played("open(D,K)", LOST, 10_001);
  const lost = ["D is never bound: whynot D tells why", "K is never bound: whynot K tells why"];
  assert.deepStrictEqual(await linesAtEnd(long), lost);
  assert.deepStrictEqual(long.asked, ["show D", "show K"]);
  assert.strictEqual(await isLetGo(long), true);
  assert.strictEqual(await whoLetGo(played("open(D,K)", { "whynot K": ["K = a"] }), "K"), "");
});

/** What is told where a run goes on no more, by subjects, of goals as `goals` lists them. */
async function subjectsAtEnd(query, replies, goals, length) {
  const session = played(query, replies, length);
  const found = await whyAtEnd(session, Replies.readGoals(goals));
  return [found.map(({ subject, told }) => [subject, told?.staysUnbound]), session.asked];
}

test("where a run goes on no more, what stays unbound is told: of the query, else of a goal that waits", async () => {
  const waits = "0.2 waits _0_1 pass(_0_1)", held = ["_0_1 in 0.2 waits _0_1", "stays unbound"];
  const replies = { ...LOST, "whynot D": ["D = _0_1", ...held], "whynot 0.2": [waits, ...held] };
  assert.deepStrictEqual(await subjectsAtEnd("pass(D)", replies, [waits]), [[["D", true]], ["show D", "whynot D"]]);
  const bound = { ...replies, "show D": ["D = a"] };
  assert.deepStrictEqual(await subjectsAtEnd("pass(D)", bound, [waits]), [[["0.2", true]], ["show D", "whynot 0.2"]]);
  assert.deepStrictEqual((await subjectsAtEnd("pass(D)", { ...replies, "show D": ["D = f(_0_1)"] }, [waits]))[0], [["D", true]]);
  const mayBe = { "show D": ["D = _0_1"], "whynot D": ["D = _0_1", "_0_1 in 0.1 stream", "may be bound"], "whynot 0.2": [waits, "_0_1 in 0.1 stream", "may be bound"] };
  assert.deepStrictEqual((await subjectsAtEnd("pass(D)", mayBe, ["0.1 stream instream 1 _0_1", waits]))[0], []);
});

test("nothing is told where a goal is ready or has failed; of a long run the first goal that waits, which is not asked about", async () => {
  const waits = "0.2 waits _0_1 pass(_0_1)";
  for (const goals of [[waits, "0.1 ready open(_0_1,_0_2)"], [waits, "0.1 failed F10 turn(a)"], ["0.1 stream instream 1 _0_1"]]) {
    assert.deepStrictEqual(await subjectsAtEnd("pass(D)", LOST, goals), [[], []], goals.join());
  }
  assert.deepStrictEqual(await subjectsAtEnd("pass(D)", LOST, [waits], 10_001), [[["0.2", undefined]], []]);
  assert.deepStrictEqual(await subjectsAtEnd("pass(D)", LOST, [waits, "0.1 stream instream 1 _0_1"], 10_001), [[], []]);
  assert.deepStrictEqual((await subjectsAtEnd("open(D,K)", LOST, []))[0], [["D", true], ["K", true]]);
});
