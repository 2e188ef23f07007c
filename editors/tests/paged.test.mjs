// Long lists and many goals in an editor: it asks for a page of them, by its first place and how many.
import assert from "node:assert";
import fs from "node:fs";
import os from "node:os";
import path from "node:path";
import test from "node:test";
import { Client } from "./lib/client.mjs";

test.afterEach(Client.endAll);

const PROGRAM = "p(_) :- true | true.\n", LENGTH = 25_000;
const numbers = (count) => Array.from({ length: count }, (one, place) => place + 1);

/** A client with a session of the program at its first stop, and its frame's scopes by name. */
async function begun(query) {
  const file = path.join(fs.mkdtempSync(path.join(os.tmpdir(), "ghcdb-test-")), "p.ghc");
  fs.writeFileSync(file, PROGRAM);
  const client = new Client();
  await client.begin(file, { query });
  const [frame] = await client.frames(), { scopes } = await client.ask("scopes", { frameId: frame.id });
  return { client, scopes: new Map(scopes.map((scope) => [scope.name, scope])) };
}

/** The variables inside of what has some, or a page of them. */
async function inside(client, { variablesReference }, page = {}) {
  return (await client.ask("variables", { variablesReference, ...page })).variables;
}

/** The same, each as `name=value`. */
async function told(client, outer, page) {
  return (await inside(client, outer, page)).map(({ name, value }) => `${name}=${value}`);
}

const countsOf = ({ name, indexedVariables, namedVariables }) => [name, indexedVariables, namedVariables];

test("a list is told with its length, and a page of it is what was asked for", async () => {
  const { client, scopes } = await begun("p([7,8,9|T])"), [list] = await inside(client, scopes.get("Goal"));
  assert.deepStrictEqual([list.value, list.indexedVariables, list.namedVariables], ["[7,8,9|_0_1]", 3, 1]);
  const pages = [
    [{}, ["1=7", "2=8", "3=9", "| tail=_0_1"]],
    [{ filter: "indexed" }, ["1=7", "2=8", "3=9"]],
    [{ filter: "named" }, ["| tail=_0_1"]],
    [{ filter: "indexed", start: 1, count: 1 }, ["2=8"]],
    [{ filter: "indexed", start: 2, count: 5 }, ["3=9"]],
    [{ filter: "indexed", start: 3, count: 1 }, []],
    [{ start: 3, count: 1 }, ["| tail=_0_1"]],
    [{ start: 1, count: 0 }, ["2=8", "3=9", "| tail=_0_1"]],
  ];
  for (const [page, wanted] of pages) assert.deepStrictEqual(await told(client, list, page), wanted, JSON.stringify(page));
  await client.end();
});

test("a term that is no list has no count, nor has a list without an element", async () => {
  const { client, scopes } = await begun("p(f(1,[])), p([])"), [term] = await inside(client, scopes.get("Goal"));
  assert.deepStrictEqual([term.value, term.indexedVariables, term.namedVariables], ["f(1,[])", undefined, undefined]);
  const [first, second] = await inside(client, term);
  assert.deepStrictEqual([countsOf(first), countsOf(second)], [["1", undefined, undefined], ["2", undefined, undefined]]);
  assert.deepStrictEqual(await told(client, term, { start: 1, count: 1 }), ["2=[]"]);
  await client.end();
});

test("of a long list 10,000 elements are told at once, and the rest unfolds", { timeout: 120000 }, async () => {
  const { client } = await begun(`X = [${numbers(LENGTH).map((number) => number % 10)}]`);
  await client.go("continue");
  const list = await client.ask("evaluate", { expression: "X", context: "watch" });
  assert.deepStrictEqual([list.indexedVariables, list.namedVariables], [10_000, 1]);
  const end = await told(client, list, { filter: "indexed", start: 9_998, count: 100 });
  assert.deepStrictEqual(end, ["9999=9", "10000=0"]);
  const [rest] = await inside(client, list, { filter: "named" });
  assert.deepStrictEqual(countsOf(rest), ["| after 10000", 10_000, 1]);
  assert.deepStrictEqual(await told(client, rest, { start: 0, count: 2 }), ["10001=1", "10002=2"]);
  const [last] = await inside(client, rest, { filter: "named" });
  assert.deepStrictEqual(countsOf(last), ["| after 20000", 5_000, 0]);
  assert.deepStrictEqual(await told(client, last, { start: 4_999 }), ["25000=0"]);
  await client.end();
});

test("the goals are told with how many they are, and by pages", async () => {
  const { client, scopes } = await begun(numbers(300).map((number) => `p(${number})`).join(", "));
  const goals = scopes.get("Goals"), lastPage = { filter: "indexed", start: 299, count: 100 };
  assert.strictEqual(goals.indexedVariables, 300);
  assert.deepStrictEqual(await told(client, goals, lastPage), ["0.300=ready   p(300)"]);
  assert.deepStrictEqual(await told(client, goals, { filter: "named" }), []);
  assert.strictEqual((await told(client, goals)).length, 300);
  await client.end();
});
