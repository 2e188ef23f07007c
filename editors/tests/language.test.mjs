// The language server: sessions of messages as an editor sends them.
import assert from "node:assert";
import fs from "node:fs";
import os from "node:os";
import path from "node:path";
import test from "node:test";
import { execFileSync } from "node:child_process";
import { fileURLToPath } from "node:url";
import { LanguageClient } from "./lib/language_client.mjs";
import { lacks, lacksInEmacs } from "./lib/there.mjs";
import { aboutOf, clausesIn } from "../lsp/outline.mjs";

const ROOT = path.join(path.dirname(fileURLToPath(import.meta.url)), "..", "..");
const URI = "file:///a.ghc", LIMIT = { timeout: 180000 };
const NOT_BEGUN = -32002, INVALID = -32600, UNKNOWN = -32601, WRONG_WORDS = -32602;

const APPEND = "append([],Y,Z) :- true | Z = Y.\nappend([A|X],Y,Z) :- true |\n  Z = [A|Z1], append(X,Y,Z1).\n";

const range = (line, from, to, endLine = line) => ({ start: { line, character: from }, end: { line: endLine, character: to } });

/** A client that has begun, with a text open. */
async function opened(text, capabilities) {
  const client = new LanguageClient();
  await client.begin(capabilities);
  client.open(URI, text);
  return client;
}

/** What is told of a text: of each diagnostic its range, severity, code and the first line of its message. */
async function told(client) {
  const { diagnostics } = await client.diagnostics(URI);
  return diagnostics.map(({ range: at, severity, code, message, source }) => {
    assert.strictEqual(source, "ghcdb");
    return [at, severity, code, message.split("\n")[0]];
  });
}

test.afterEach(LanguageClient.endAll);

test("it tells what it can, answers nothing before that, and ends with status 0 after shutdown alone", LIMIT, async () => {
  const client = new LanguageClient();
  assert.strictEqual(await client.errorOf("textDocument/hover", {}), NOT_BEGUN);
  const { capabilities } = await client.begin();
  assert.deepStrictEqual(capabilities, {
    textDocumentSync: { openClose: true, change: 1 }, documentSymbolProvider: true, hoverProvider: true,
    definitionProvider: true, referencesProvider: true, documentHighlightProvider: true,
    renameProvider: { prepareProvider: true }, completionProvider: {},
  });
  assert.strictEqual(await client.errorOf("textDocument/formatting", {}), UNKNOWN);
  assert.strictEqual(await client.errorOf("toString", {}), UNKNOWN);
  assert.strictEqual(await client.errorOf("textDocument/hover", { textDocument: { uri: URI }, position: { line: 0, character: 0 } }), WRONG_WORDS);
  client.tell("$/anything", {});
  assert.strictEqual(await client.ask("shutdown"), null);
  assert.strictEqual(await client.errorOf("textDocument/hover", {}), INVALID);
  client.tell("exit");
  assert.strictEqual(await client.ended, 0);
  const other = new LanguageClient();
  await other.begin();
  other.tell("exit");
  assert.strictEqual(await other.ended, 1);
});

test("a predicate and a variable are found everywhere, renamed, and completed", LIMIT, async () => {
  const client = await opened(APPEND), textDocument = { uri: URI };
  const at = (line, character, more) => ({ textDocument, position: { line, character }, ...more });
  const places = [range(0, 0, 6), range(1, 0, 6), range(2, 14, 20)];
  const found = async (what, where) => (await client.ask(`textDocument/${what}`, where)).map((one) => one.range);
  const calls = { context: { includeDeclaration: false } };
  assert.deepStrictEqual(await found("references", at(2, 15)), places);
  assert.deepStrictEqual(await found("references", at(2, 15, calls)), [places[2]]);
  assert.deepStrictEqual(await found("documentHighlight", at(1, 8)), [range(1, 8, 9), range(2, 7, 8)]);
  assert.strictEqual((await client.ask("textDocument/prepareRename", at(0, 2))).placeholder, "append");
  const { changes } = await client.ask("textDocument/rename", at(0, 2, { newName: "app" }));
  assert.deepStrictEqual(changes, { [URI]: places.map((one) => ({ range: one, newText: "app" })) });
  for (const newName of ["X", "app", "_", "_1_1", "a b", ""]) {
    assert.strictEqual(await client.errorOf("textDocument/rename", at(1, 8, { newName })), WRONG_WORDS);
  }
  const labels = (await client.ask("textDocument/completion", at(2, 2))).map(({ label }) => label);
  assert.deepStrictEqual(labels, ["A", "X", "Y", "Z", "Z1", "append", "true", "wait(", "integer(", "atom(", "list("]);
});

test("a refusal comes with its cause while one types, and goes when the text is right", LIMIT, async () => {
  const client = await opened("p(X,Y) :- true | Y is X + 1.\n");
  assert.deepStrictEqual(await told(client), [[range(0, 19, 21), 1, "F2", "syntax: `is` is written :="]]);
  client.change(URI, 2, "p(X,Y) :- true | Y := X + 1.\n");
  const { diagnostics, version } = await client.diagnostics(URI);
  assert.deepStrictEqual([diagnostics, version], [[], 2]);
  client.change(URI, 3, "p(X,Y) :- true | q(X,Y).\n");
  assert.deepStrictEqual(await told(client), [[range(0, 17, 18), 1, "F5", "undefined: no clause has the head q with 2 arguments"]]);
  client.tell("textDocument/didClose", { textDocument: { uri: URI } });
  assert.deepStrictEqual(await told(client), []);
  assert.strictEqual(await client.end(), 0);
});

test("all refusals of a text are told, each at its place", LIMIT, async () => {
  const client = await opened("% Query: p(1), r(2)\np(X) :- X == 1 | true.\n% ä\nq(X,X) :- true | p(X).\n");
  assert.deepStrictEqual(await told(client), [
    [range(1, 11, 12), 1, "F2", "syntax: == is not of the language"],
    [range(3, 4, 5), 1, "F4", "not linear, clause 2: X stands twice in the head"],
    [range(0, 15, 16), 1, "F5", "query: undefined: no clause has the head r with 1 argument"],
  ]);
});

test("letters count as an editor counts them, after letters that are long and pairs of surrogates", LIMIT, async () => {
  const client = await opened("% größer 😀\np(X) :- true | q(X). % 😀\r\n");
  assert.deepStrictEqual(await told(client), [[range(1, 15, 16), 1, "F5", "undefined: no clause has the head q with 1 argument"]]);
  client.change(URI, 2, "p(X) :- true | true. % 😀\nq(X) :- X = 'é' | true.\n");
  assert.deepStrictEqual((await told(client)).map(([at, severity]) => [at.start, severity]), [[{ line: 1, character: 12 }, 1]]);
});

test("the query of the comment is read too, and a refusal of it stands there", LIMIT, async () => {
  const client = await opened("% Query:  p(1), r(2)\np(_) :- true | true.\n");
  assert.deepStrictEqual(await told(client), [[range(0, 16, 17), 1, "F5", "query: undefined: no clause has the head r with 1 argument"]]);
});

test("an accepted program has notes, which are warnings", LIMIT, async () => {
  const client = await opened("p(Value,Y) :- true | Y = a.\n");
  assert.deepStrictEqual(await told(client), [[range(0, 2, 7), 2, undefined, "Value stands once in clause 1"]]);
});

test("of texts that come one after the other the last one counts", LIMIT, async () => {
  const client = await opened("p(");
  for (let version = 2; version < 40; version += 1) client.change(URI, version, "p(".repeat(version));
  client.change(URI, 40, APPEND);
  const { diagnostics, version } = await client.diagnostics(URI);
  assert.deepStrictEqual([diagnostics, version], [[], 40]);
});

test("what no program can be is told at its beginning, and the server lives on", LIMIT, async () => {
  const client = await opened(`p :- true | true.\n${"%".repeat(1_048_576)}`);
  assert.deepStrictEqual((await told(client)).map(([at, severity, code]) => [at, severity, code]), [[range(0, 0, 1), 1, "F6"]]);
  client.change(URI, 2, APPEND);
  assert.deepStrictEqual(await told(client), []);
});

test("the predicates are told with their clauses, also of a text that is half typed", LIMIT, async () => {
  const client = await opened(`${APPEND}go(R) :- append([1],[2`), uri = URI;
  const symbols = await client.ask("textDocument/documentSymbol", { textDocument: { uri } });
  assert.deepStrictEqual(symbols, [
    {
      name: "append/3", detail: "2 clauses", kind: 12, range: range(0, 0, 29, 2), selectionRange: range(0, 0, 6),
      children: [
        { name: "append([],Y,Z)", kind: 6, range: range(0, 0, 31), selectionRange: range(0, 0, 6) },
        { name: "append([A|X],Y,Z)", kind: 6, range: range(1, 0, 29, 2), selectionRange: range(1, 0, 6) },
      ],
    },
    { name: "go/1", detail: "1 clause", kind: 12, range: range(3, 0, 22), selectionRange: range(3, 0, 2), children: [{ name: "go(R)", kind: 6, range: range(3, 0, 22), selectionRange: range(3, 0, 2) }] },
  ]);
});

test("a goal leads to the first clause of its predicate, a variable to its first place", LIMIT, async () => {
  const client = await opened(`go(R) :- true | append(R,[append],R), append(R).\n${APPEND}`), definition = (line, character) => client.at("definition", URI, line, character);
  assert.deepStrictEqual(await definition(0, 18), { uri: URI, range: range(1, 0, 6) });
  assert.deepStrictEqual(await definition(3, 14), { uri: URI, range: range(1, 0, 6) });
  assert.deepStrictEqual(await definition(0, 34), { uri: URI, range: range(0, 3, 4) });
  assert.strictEqual(await definition(0, 27), null, "an atom is no goal");
  assert.strictEqual(await definition(0, 40), null, "there is no append/1");
  assert.strictEqual(await definition(9, 0), null);
});

test("who points at a goal sees the clauses of its predicate", LIMIT, async () => {
  const client = await opened(APPEND), clauses = "% clause 1\nappend([],Y,Z) :- true | Z = Y.\n% clause 2\nappend([A|X],Y,Z) :- true |\n  Z = [A|Z1], append(X,Y,Z1).";
  assert.deepStrictEqual(await client.at("hover", URI, 2, 16), { contents: { kind: "plaintext", value: clauses }, range: range(2, 14, 20) });
  assert.strictEqual(await client.at("hover", URI, 2, 2), null, "a variable has no clauses");
  const other = await opened("p(1).\n".repeat(22), { textDocument: { hover: { contentFormat: ["markdown", "plaintext"] } } });
  const { contents: { kind, value } } = await other.at("hover", URI, 0, 0);
  assert.deepStrictEqual([kind, value.split("\n").slice(0, 3), value.split("\n").slice(-2)], ["markdown", ["```fghc", "% clause 1", "p(1)."], ["% and 2 more", "```"]]);
  const hostile = await opened("p(\u001b[31m) :-\n```\n| true.\n", { textDocument: { hover: { contentFormat: ["markdown"] } } });
  const { contents } = await hostile.at("hover", URI, 0, 0);
  assert.strictEqual(contents.value, "````fghc\n% clause 1\np(\ufffd[31m) :-\n```\n| true.\n````", "no escape, and within the fence");
});

test("each example is accepted, and none of its goals is without a clause", LIMIT, async () => {
  const client = new LanguageClient();
  await client.begin();
  for (const name of fs.readdirSync(path.join(ROOT, "examples")).filter((file) => file.endsWith(".ghc"))) {
    const text = fs.readFileSync(path.join(ROOT, "examples", name), "utf8"), clauses = clausesIn(text);
    client.open(`file:///${name}`, text);
    const { diagnostics } = await client.diagnostics(`file:///${name}`);
    assert.deepStrictEqual(diagnostics.filter(({ severity }) => severity === 1), [], name);
    for (const { nameRange, predicate } of clauses) assert.strictEqual(aboutOf(clauses, nameRange.start).predicate, predicate);
  }
});

// A wrong program: `is` of clause 1 is refused, and the goal of clause 2 leads to clause 1.
const WRONG = "p(X,Y) :- true | Y is X + 1.\nq(X,Y) :- p(X,Y).\n", PLACE = ["2", "10"], LEADS_TO = "1:0";

/** A folder with the wrong program. */
function wrongFile() {
  const file = path.join(fs.mkdtempSync(path.join(os.tmpdir(), "ghcdb-test-")), "wrong.ghc");
  fs.writeFileSync(file, WRONG);
  return file;
}

test("Neovim's own client shows what is wrong, and goes to a definition", { skip: lacks("nvim", "Neovim"), ...LIMIT }, () => {
  const file = wrongFile(), out = `${file}.told`, words = ["--headless", "-u", "NONE", "-c", "luafile editors/neovim/try-language.lua", "-c", "quitall!"];
  execFileSync("nvim", words, { stdio: "ignore", cwd: ROOT, env: { ...process.env, FGHC_PLACE: [file, ...PLACE].join(" "), FGHC_TOLD: out } });
  assert.deepStrictEqual(fs.readFileSync(out, "utf8").trim().split("\n"), ["1:19 syntax: `is` is written :=", LEADS_TO]);
});

test("Emacs shows by eglot what is wrong, and goes to a definition", { skip: lacksInEmacs("eglot"), ...LIMIT }, () => {
  const words = ["-q", "--batch", "-l", path.join(ROOT, "editors", "emacs", "try-language.el"), wrongFile(), ...PLACE];
  const told = execFileSync("emacs", words, { encoding: "utf8", stdio: ["ignore", "pipe", "ignore"] }).trim().split("\n");
  assert.match(told[0], /^1:19 .*syntax: `is` is written :=$/);
  assert.strictEqual(told.at(-1), LEADS_TO);
});
