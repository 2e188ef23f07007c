// Where the query stands in the program's comment.
import assert from "node:assert";
import test from "node:test";
import { Places } from "../dap/places.mjs";

test("a query is found behind the word Query, also where its letters stand in that", () => {
  const of = (comment, query) => new Places({ file: "p.ghc", text: `% a text\n${comment}\np.\n`, query }, 1).query;
  assert.deepStrictEqual(of("% Query: e", "e"), { line: 2, letter: 10 });
  assert.deepStrictEqual(of("%Query:p(1), q  ", "p(1), q"), { line: 2, letter: 8 });
  assert.strictEqual(of("% Query: p", "q"), undefined);
});
