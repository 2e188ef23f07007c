// Sessions that take another's place: with another query, and under the program as its file has it now.
import assert from "node:assert";
import fs from "node:fs";
import os from "node:os";
import path from "node:path";
import test from "node:test";
import { wordsOfQuery } from "../../front/protocol/words.mjs";

const home = fs.mkdtempSync(path.join(os.tmpdir(), "ghcdb-test-"));
process.env.HOME = home; // before the modules look for what was left there
const { begin, endAll, played } = await import("./lib/fronts.mjs");

test.after(() => fs.rmSync(home, { recursive: true }));
test.afterEach(endAll);

const PROGRAM = "price(N,P) :- N > 0 | P := N * 10.\n";
const GREETING = "% Flat GHC. help lists the commands; step alone takes a step, leap runs, back goes back.";
const ASKS = "% 2 steps kept and not saved: save FILE keeps them; query again begins anew";

/** A file of a name with a text. */
function fileWith(text, name = "price.ghc") {
  fs.writeFileSync(path.join(home, name), text);
  return path.join(home, name);
}

test("another query begins anew on the same program, and what is not saved is asked about once", async () => {
  const file = fileWith(PROGRAM), session = await begin([file, "--query", "price(2,P)"]);
  fileWith("other(1).\n"); // the program is the one that was read
  const rows = [
    ["query", "% the query is price(2,P)", "% usage: query GOALS      begin anew with another query, on the same program"],
    ["query price(3, Q), true", "% begun anew with the query price(3, Q), true"],
    ["undo", "% no step is kept"],
    ["goals", "0.1 ready price(3,_0_1)"],
    ["leap 2", "REDU 1 0.1 by 1", "REDU 2 1.1 is", "stopped quiet", "% all is done"],
    ["query price(5,R).", ASKS],
    ["query price(5,R).", "% begun anew with the query price(5,R)."],
    ["show", "% sent: show R", "R = _0_1", "% _0_1 (R of the query) is unbound; held by 0.1"],
    ["leap 2", "REDU 1 0.1 by 1", "REDU 2 1.1 is", "stopped quiet", "% all is done"],
    ["query price(6,P)", ASKS],
  ];
  assert.deepStrictEqual(await played(session, rows), rows);
});

test("where a query is refused the session before stands", async () => {
  const session = await begin([fileWith(PROGRAM), "--query", "price(2,P)"]);
  const rows = [
    ["query prize(1,P)", "query: F5 undefined prize/2", "% undefined: no clause has the head prize with 2 arguments", "%  --> query:1:1", "%   |",
      "% 1 | prize(1,P)", "%   | ^^^^^", "%   = there is price/2: is it that?", "% the session before stands"],
    ["goals", "0.1 ready price(2,_0_1)"],
    ["restart", GREETING],
  ];
  assert.deepStrictEqual(await played(session, rows), rows);
});

const BILL = ["bill(A,B,T) :- true | price(A,P), price(B,Q), T := P + Q.", "price(N,P) :- N > 0, N < 10 | P := N * 10.", "price(N,P) :- N >= 10 | P := N * 80."];
const MENDED = [BILL[0], BILL[1], BILL[2].replace("80", "8")], text = (clauses) => clauses.map((clause) => `${clause}\n`).join("");

/** A session on the program, run to its end, and its file. */
async function billed(...words) {
  const file = fileWith(text(BILL), "bill.ghc"), session = await begin([file, "--query", "bill(12,3,T)", ...words]);
  await session.type("leap");
  return { file, session };
}

const PROPOSED = [
  "% gone: clause 3 (line 3) price(N,P) :- N >= 10 | P := N * 80.", "% new: clause 3 (line 3) price(N,P) :- N >= 10 | P := N * 8.",
  "% goes: step 2, goal 1.1 by 3", "% goes: step 3, goal 2.1 is", "% goes: step 6, goal 1.3 is", "% y reloads and keeps 3 of 6 steps; any other line leaves the session as it is",
];
const RELOADED = "% reloaded: 3 of 6 steps stay, and nothing is on the shelf";

test("a mended program is taken, and the steps by clauses that are still there stay", async () => {
  const { session } = await billed();
  fileWith(text(MENDED), "bill.ghc");
  const rows = [
    ["T", "% sent: show T", "T = 990"],
    ["spy bill/3", "spying bill/3"],
    ["spy bill(1,_,_)", "% sent: spy bill/3", "spying bill/3", "% runs stop at calls of bill/3, at goals that fit bill(1,_,_)"],
    ["reload", ...PROPOSED],
    ["n", "% the session stands"],
    ["show T", "T = 990"],
    ["reload", ...PROPOSED],
    ["y", RELOADED],
    ["records", "1 0.1 by 1 reads - binds - makes 1.1,1.2,1.3", "4 1.2 by 2 reads - binds - makes 4.1", "5 4.1 is reads - binds _1_2=30 makes -"],
    ["spy", "% bill/3, at goals that fit bill(1,_,_)"],
    ["leap", "REDU 7 1.1 by 3", "REDU 8 7.1 is", "REDU 9 1.3 is", "stopped quiet", "% all is done"],
    ["show T", "T = 126"],
    ["reload", "% the program's file is as it was; the session stands"],
    ["quit", "% 6 steps kept and not saved: save FILE keeps them; quit again ends"],
  ];
  assert.deepStrictEqual(await played(session, rows), rows);
});

test("y says quit again", async () => {
  const { session } = await billed();
  await session.type("quit");
  assert.deepStrictEqual(await session.type("y"), []);
  assert.strictEqual(session.front.hasEnded, true);
});

test("where no step goes nothing is asked, and clauses have their new numbers", async () => {
  const { session } = await billed();
  fileWith(`free(0).\n${text(BILL)}% a comment\n`, "bill.ghc");
  const rows = [
    ["reload", "% new: clause 1 (line 1) free(0).", "% reloaded: 6 of 6 steps stay, and nothing is on the shelf"],
    ["goal 2", "2 1.1 by 4 price(12,_1_1) line 4", "% by clause 4: price(N,P) :- N >= 10 | P := N * 80.", "% with N = 12, P = 960"],
    ["undo", "% sent: undo 6", "undone 6"],
    ["step", "% sent: step 1.3", "REDU 7 1.3 is"],
  ];
  assert.deepStrictEqual(await played(session, rows), rows);
});

test("the steps of the shelf stay that the console can take after the others", async () => {
  const { session } = await billed();
  for (const line of ["roll 4", "undo 3", "ask T = 5", "undo 7"]) await session.type(line);
  fileWith(text(MENDED), "bill.ghc");
  const rows = [
    ["shelf", "3 2.1 is", "4 1.2 by 2", "5 4.1 is", "6 1.3 is", "7 - ask _0_1 = 5"],
    ["reload", ...PROPOSED.slice(0, 3),
      "% goes from the shelf: step 3, goal 2.1 is", "% goes from the shelf: step 6, goal 1.3 is", "% goes from the shelf: step 7, ask _0_1 = 5",
      "% y reloads and keeps 1 of 2 steps; any other line leaves the session as it is"],
    ["y", "% reloaded: 1 of 2 steps stay, and 2 are on the shelf"],
    ["shelf", "4 1.2 by 2", "5 4.1 is"],
    ["redo 4", "REDU 4 1.2 by 2", "CALL 4.1 _1_2 := 3 * 10"],
    ["step 1.1", "REDU 8 1.1 by 3", "CALL 8.1 _1_1 := 12 * 8"],
    ["save", "ghc-history 2", "opening 3 8", "1 0.1 by 1", "4 1.2 by 2", "5 4.1 is", "entries 4", "undo 5", "undo 4", "redo 4", "8 1.1 by 3", "spies 0", "end 9"],
  ];
  assert.deepStrictEqual(await played(session, rows), rows);
});

test("where a step asked for goals the steps are numbered anew", async () => {
  const { session } = await billed();
  for (const line of ["ask bill(1,T,Q)", "display _7_1", "display T"]) await session.type(line);
  fileWith(text(MENDED), "bill.ghc");
  const shown = await session.type("reload");
  assert.deepStrictEqual(shown.slice(-1), ["% y reloads and keeps 4 of 7 steps; any other line leaves the session as it is"]);
  const rows = [
    ["y", "% reloaded: 4 of 7 steps stay, and nothing is on the shelf", "% one of them asked for goals, so they are numbered anew, from 1 on"],
    ["records", "1 0.1 by 1 reads - binds - makes 1.1,1.2,1.3", "2 1.2 by 2 reads - binds - makes 2.1", "3 2.1 is reads - binds _1_2=30 makes -", "4 - ask bill(1,_0_1,_4_1) reads - binds - makes 4.1"],
    ["display", "% displayed: _4_1, T"],
  ];
  assert.deepStrictEqual(await played(session, rows), rows);
});

test("a refused text leaves the session as it was", async () => {
  const { session, file } = await billed(), before = await session.type("records");
  fileWith("bill(A,B,T) :- true | cost(A,T).\n", "bill.ghc");
  const refused = ["program: F5 undefined cost/2", "% undefined: no clause has the head cost with 2 arguments", `%  --> ${file}:1:23`, "%   |", "% 1 | bill(A,B,T) :- true | cost(A,T).", "%   |                       ^^^^"];
  assert.deepStrictEqual((await session.type("reload")).slice(0, 6), refused);
  fs.rmSync(file);
  assert.deepStrictEqual(await session.type("reload"), ["program: F26 device", `% ${file}: no such file`, "% the session before stands"]);
  assert.deepStrictEqual([await session.type("records"), await session.type("y")], [before, ["F25 command", "% y: no such command; y and n answer a question of blame: blame X asks whose clause made X wrong"]]);
});

test("a history that does not load leaves the session as it was", async () => {
  const { session } = await billed(), before = await session.type("records"), { program } = session.front.session, { ask } = program;
  fileWith(text(MENDED), "bill.ghc");
  program.ask = async (line) => (line === "records" ? ["1 0.1 by 1 reads - binds - makes 1.1", "2 9.9 by 1 reads - binds - makes -"] : ask.call(program, line));
  const lines = await session.type("reload");
  assert.deepStrictEqual(lines.slice(-2), ["history: F24 history line 4", "% the session before stands"]);
  program.ask = ask;
  assert.deepStrictEqual(await session.type("records"), before);
});

test("a session that went on from a history is reloaded as another one is", async () => {
  const { session, file } = await billed(), saved = path.join(home, "saved");
  await session.type(`save ${saved}`);
  const again = await begin([file, "--query", "bill(12,3,T)", "--load", saved]);
  fileWith(text(MENDED), "bill.ghc");
  const rows = [["reload", ...PROPOSED], ["y", RELOADED], ["leap 1", "REDU 7 1.1 by 3", "stopped limit", "% leap goes on"]];
  assert.deepStrictEqual(await played(again, rows), rows);
});

test("the words of another query have no history of the query before", () => {
  const cases = [
    [["a.ghc", "--query", "p(X)"], ["a.ghc", "--query=q"]],
    [["--query=p(X)", "--load", "h", "a.ghc", "--workers", "2"], ["a.ghc", "--workers", "2", "--query=q"]],
    [["a.ghc", "--load=h", "--query", "--load"], ["a.ghc", "--query=q"]],
  ];
  for (const [words, wanted] of cases) assert.deepStrictEqual(wordsOfQuery(words, "q"), wanted);
});
