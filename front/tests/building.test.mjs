// Where a goal waits since a head would have to build: `stuck` and a refused step say so, and no others.
import assert from "node:assert";
import fs from "node:fs";
import os from "node:os";
import path from "node:path";
import test from "node:test";
import { fileURLToPath } from "node:url";
import * as Own from "../run/own.mjs";
import { whyWaits } from "../run/reasons.mjs";
import { Session } from "../session/session.mjs";

const EXAMPLES = fileURLToPath(new URL("../../examples/", import.meta.url));
const START = "a head reads and does not build: ";
const SUM = ["sum([],S) :- true | S = 0.", "sum([X|L],S) :- true | sum(L,S1), S := S1 + X."];

// Programs and queries, each with the lines that are told of heads after a run.
const WAITING = [
  ["results in all heads, one bound in the body",
    ["from(N,M,[N1|L]) :- N =< M | N1 = N, N2 := N + 1, from(N2,M,L).", "from(N,M,[]) :- N > M | true.", ...SUM],
    "from(1,3,L), sum(L,S)",
    [`${START}clause 1 of from/3 wants [N1|L] as argument 3: write A for argument 3, and A = [N1|L] in the body; so also in clause 2`]],
  ["a result that another clause binds",
    ["append([],L,L1) :- L1 = L.", "append([H|T],L,[H1|R]) :- H1 = H, append(T,L,R)."], "append([1,2],[3],R)",
    [`${START}clause 2 of append/3 wants [H1|R] as argument 3: write A for argument 3, and A = [H1|R] in the body`]],
  ["a fact of Prolog", ["color(apple,red).", "color(banana,yellow)."], "color(apple,C)",
    [`${START}clause 1 of color/2 wants red as argument 2, and no goal makes it: give it in the query, or bind it in a body by =`]],
  ["a list that the query does not give", SUM, "sum(L,S)",
    [`${START}clause 1 of sum/2 wants [] as argument 1, and no goal makes it: give it in the query, or bind it in a body by =`]],
  ["a variable of a body that is handed to readers alone", ["go(S) :- true | sum(L,S).", ...SUM], "go(S)",
    [`${START}clause 2 of sum/2 wants [] as argument 1, and no goal makes it`]],
  ["a stream that is not closed",
    ["gen(0,_) :- true | true.", "gen(N,S) :- N > 0 | S = [N|S1], N1 := N - 1, gen(N1,S1).", ...SUM], "gen(1,L), sum(L,S)", []],
  ["an answer in a message that nobody gives", ["ask(Q) :- true | Q = [get(X)], use(X).", "use(1) :- true | true.", "srv([get(_)]) :- true | true."],
    "ask(Q), srv(Q)", []],
  ["a circle", ["after(go,B) :- true | B = go."], "after(A,B), after(B,A)", []],
  ["an input stream", SUM, "instream(L), sum(L,S)", []],
];

/** A session on a program's text, in which a run was made. */
async function ran(folder, program, query) {
  const file = path.join(folder, "text.ghc");
  fs.writeFileSync(file, `${program.join("\n")}\n`);
  const session = new Session([file, "--query", query], undefined);
  await session.begin();
  await session.ask("leap");
  return session;
}

const aboutHeads = (lines) => lines.filter((line) => line.startsWith(START));

test("a goal that waits for what a head would have to build is told so", async () => {
  const folder = fs.mkdtempSync(path.join(os.tmpdir(), "ghcdb-test-"));
  try {
    for (const [what, program, query, lines] of WAITING) {
      const session = await ran(folder, program, query);
      assert.deepStrictEqual(aboutHeads(await Own.stuck(session)), lines, what);
      const [first] = await session.goals(), told = aboutHeads(await whyWaits(session, first.name));
      assert.deepStrictEqual(told, lines, what);
      await session.end();
    }
  } finally {
    fs.rmSync(folder, { recursive: true });
  }
});

test("of the six wrong programs it is told of the sieve alone, whose requests nobody makes", async () => {
  const queries = { philo: "table(3,Done)", buffer: "go(5,Sum)", sieve: "first(5,Ps)" }, told = {};
  for (const [name, query] of Object.entries(queries)) {
    const session = new Session([path.join(EXAMPLES, "wrong", `${name}.ghc`), "--query", query], undefined);
    await session.begin();
    await session.ask("leap");
    told[name] = aboutHeads(await Own.stuck(session));
    await session.end();
  }
  const sieve = [`${START}clause 6 of filter/3 wants [num(X)|Out] as argument 2, and no goal makes it`];
  assert.deepStrictEqual(told, { philo: [], buffer: [], sieve });
});
