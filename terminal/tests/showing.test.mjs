// How much a terminal shows: long runs and listings are cut to a screen, and so are long terms; `all` shows them whole.
import assert from "node:assert";
import fs from "node:fs";
import os from "node:os";
import path from "node:path";
import test from "node:test";
import * as Short from "../../front/protocol/short.mjs";
import { begin, endAll, played } from "./lib/fronts.mjs";

const folder = fs.mkdtempSync(path.join(os.tmpdir(), "ghcdb-test-"));
test.after(() => fs.rmSync(folder, { recursive: true }));
test.afterEach(endAll);

// A list of N ones, by two steps an element and two for its end.
const ONES = "ones(0,L) :- true | L = [].\nones(N,L) :- N > 0 | L = [1|M], K := N - 1, ones(K,M).\n";
const AT_MOST = { timeout: 300_000 };

/** A session on a program whose list has so many ones, run to its end. */
async function ran(count) {
  const file = path.join(folder, "ones.ghc");
  fs.writeFileSync(file, ONES);
  const session = await begin([file, "--query", `ones(${count},L)`]);
  return { session, shown: await session.type("leap") };
}

const values = (count, last = "]") => `L = [${Array(count).fill("1").join(",")}${last}`;

test("of a run and of listings of more than 40 lines 30 are shown, and all by a word", AT_MOST, async () => {
  const { session, shown } = await ran(13), steps = 41; // three an element, two at the end
  assert.deepStrictEqual([shown.length, shown[20], shown.at(-2)], [33, `% .. ${steps - 30} steps more (records all shows all) ..`, "stopped quiet"]);
  const lines = async (line) => (await session.type(line)).length;
  const counted = { records: 31, "records all": steps + 1, "records ones": 14, "list": 2, "since 30": 12, "since 1": 31, "since 1 all": steps + 1, "effects 1": steps - 1, "effects 1 all": steps };
  for (const [line, count] of Object.entries(counted)) assert.strictEqual(await lines(line), count, line);
  assert.deepStrictEqual((await session.type("records"))[20], "% .. 11 lines more (records all shows all) ..");
  assert.deepStrictEqual((await session.type("records all"))[0], "% sent: records");
  const causes = await session.type("causes"), all = await session.type("causes all");
  assert.deepStrictEqual([causes.length, causes.slice(0, 20), causes.slice(-10)], [31, all.slice(1, 21), all.slice(-10)]);
  assert.strictEqual(causes[20], `% .. ${all.length - 1 - 30} lines more (causes all shows all) ..`);
});

test("a run of 40 lines is shown whole", AT_MOST, async () => {
  const { shown } = await ran(12); // 38 steps
  assert.deepStrictEqual([shown.length, shown.some((line) => line.startsWith("% .."))], [40, false]);
});

test("a long value is cut, and shown whole by a word", AT_MOST, async () => {
  const { session } = await ran(900), cut = "… stands for what is left out; show L all shows it";
  // 1,600 letters of the term end within it, so that it is cut after the comma before: [1,1,..|…]
  const rows = [
    ["show L", values(799, "|…]"), `% ${cut}`],
    ["show L all", "% sent: show L", values(900)],
    ["show", "% sent: show L", values(799, "|…]"), `% ${cut}`],
    ["show all", "% sent: show L", values(900)],
    ["display L", "% sent: show L", values(799, "|…]"), `% ${cut}`],
  ];
  assert.deepStrictEqual(await played(session, rows), rows);
  assert.deepStrictEqual((await session.type("records")).slice(0, 1), ["1 0.1 by 2 reads - binds - makes 1.1,1.2,1.3"]);
});

test("which lines are cut, and how", () => {
  const list = `[${Array(20).fill("ab").join(",")}]`; // of 61 letters
  const cases = [
    ["R = [1,2]", "R = [1,2]"],
    [`R = ${list}`, "R = [ab,ab,ab|…]"],
    [`0.1 ready p(${list})`, "0.1 ready p([ab,ab,ab|…])"],
    [`1.2 waits _1_1,_1_2 p(${list})`, "1.2 waits _1_1,_1_2 p([ab,ab,ab|…])"],
    [`CALL 1.1 p(x,${list})`, "CALL 1.1 p(x,[ab,ab|…])"],
    [`given p(${list})`, "given p([ab,ab,ab|…])"],
    [`2.1 gave p(${list})`, "2.1 gave p([ab,ab,ab|…])"],
    [`2 1.1 by 2 p(${list})`, "2 1.1 by 2 p([ab,ab,ab|…])"],
    [`2 1.1 eq reads - binds _0_1=${list};_0_2=a makes - or 3`, "2 1.1 eq reads - binds _0_1=[ab,ab,ab|…];_0_2=a makes - or 3"],
    [`undone ${list}`, `undone ${list}`],
    ["undone 1,2,3,4,5,6,7,8,9,10", "undone 1,2,3,4,5,6,7,8,9,10"],
  ];
  for (const [line, wanted] of cases) assert.strictEqual(Short.line(line, 12), wanted, line);
});
