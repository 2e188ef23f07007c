// Texts with many blanks are read in time of their length: with the square of it none of these would come to its end.
import assert from "node:assert";
import test from "node:test";
import { clausesOf, inOneLine } from "../text/clauses.mjs";
import { queryOf } from "../text/query_comment.mjs";
import { notesOn } from "../text/causes.mjs";

const LIMIT = { timeout: 60_000 }, BLANKS = " ".repeat(1_000_000);

test("the query of a comment has the blanks between its words, and none about it", LIMIT, () => {
  assert.strictEqual(queryOf(`% Query: p(1)${BLANKS}b${BLANKS}\n`), `p(1)${BLANKS}b`);
  assert.strictEqual(queryOf("%Query:\tp(1), q(2) \t\r\np(1).\n"), "p(1), q(2)");
  assert.strictEqual(queryOf("% Query:   \np(1).\n"), "");
  assert.strictEqual(queryOf("p(1).\n"), undefined);
});

test("a clause in one line has a blank for each line feed and the blanks about it", LIMIT, () => {
  assert.strictEqual(inOneLine(`p(X)${BLANKS}:-\n${BLANKS}\n  true.`), `p(X)${BLANKS}:- true.`);
  assert.strictEqual(inOneLine(clausesOf("p(X) :- true |\n    q(X).\n")[0].text), "p(X) :- true | q(X).");
});

test("two long names of a clause, and many that stand once", LIMIT, () => {
  const digits = "1".repeat(200_000), many = Array.from({ length: 8000 }, (none, at) => `V${at}`).join(",");
  assert.strictEqual(notesOn(`p(A${digits}b) :- true | q(A${digits}c).\nq(_).\n`).length, 2);
  assert.ok(notesOn(`p(${many}) :- true | true.\n`).length > 0);
});
