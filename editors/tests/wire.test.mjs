// Messages that come in many pieces are read in time of their length; what is no message's beginning is an end.
import assert from "node:assert";
import test from "node:test";
import { once } from "node:events";
import { PassThrough } from "node:stream";
import { setTimeout as after } from "node:timers/promises";
import { spawn, spawnSync } from "node:child_process";
import { fileURLToPath } from "node:url";
import { Decoder, Wire, encode } from "../dap/wire.mjs";

const LIMIT = { timeout: 60_000 }, PIECE = 4096;

function* piecesOf(bytes) {
  for (let at = 0; at < bytes.length; at += PIECE) yield bytes.subarray(at, at + PIECE);
}

test("a message of 64 MB in pieces, others before and behind it, and what is no JSON", LIMIT, () => {
  const heard = [], decoder = new Decoder((message) => heard.push(message)), long = { text: "a".repeat(67_108_864) };
  const none = Buffer.from("Content-Length: 2\r\n\r\n{]");
  const all = Buffer.concat([encode({ one: 1 }), none, encode(long), encode({ two: 2 })]);
  for (const piece of piecesOf(all)) decoder.take(piece);
  assert.deepStrictEqual(heard, [{ one: 1 }, long, { two: 2 }]);
});

test("a head without an end, and a length that no editor sends, end who reads them", LIMIT, () => {
  const decoder = () => new Decoder(() => assert.fail("nothing was sent"));
  assert.throws(() => decoder().take(Buffer.alloc(65_537, "a")), RangeError);
  assert.throws(() => decoder().take(Buffer.from("Content-Length: 999999999\r\n\r\n")), RangeError);
  for (const adapter of ["../ghcdb-adapter", "../ghcdb-lsp"]) {
    const place = fileURLToPath(new URL(adapter, import.meta.url));
    const { stderr, status } = spawnSync(process.execPath, [place], { input: "a".repeat(70_000), encoding: "utf8" });
    assert.deepStrictEqual([stderr, status], ["ghcdb: a head of more than 65536 bytes\n", 1], adapter);
  }
});

const PROGRAM = fileURLToPath(new URL("../../examples/primes.ghc", import.meta.url));

/** The messages that a client reads who begins late, long after it has sent all of its own. */
async function readLate(place, messages) {
  const child = spawn(process.execPath, [fileURLToPath(new URL(place, import.meta.url))], { stdio: "pipe" });
  const heard = [], decoder = new Decoder((message) => heard.push(message)), ended = once(child, "close");
  child.stdin.write(Buffer.concat(messages.map(encode)));
  await after(700); // milliseconds, in which the pipe is full
  child.stdout.on("data", (piece) => decoder.take(piece));
  const [status] = await ended;
  return { heard, status };
}

test("an editor that reads late gets all that was answered before the end", LIMIT, async () => {
  const text = Array.from({ length: 3000 }, (none, at) => `p${at}(X) :- true | X = ${at}.\n`).join(""), uri = "file:///p.ghc";
  const asked = ["initialize", "textDocument/documentSymbol", "textDocument/documentSymbol", "shutdown"].map((method, at) =>
    ({ jsonrpc: "2.0", id: at, method, params: { textDocument: { uri }, capabilities: {} } }));
  const opens = { textDocument: { uri, languageId: "ghc", version: 1, text } };
  const opened = { jsonrpc: "2.0", method: "textDocument/didOpen", params: opens };
  const lsp = await readLate("../ghcdb-lsp", [asked[0], opened, ...asked.slice(1), { jsonrpc: "2.0", method: "exit" }]);
  assert.deepStrictEqual(lsp.heard.filter(({ id }) => id !== undefined).map(({ id }) => id), [0, 1, 2, 3]);
  assert.deepStrictEqual([lsp.heard.find(({ id }) => id === 2).result.length, lsp.status], [3000, 0]);

  const request = (command, words) => ({ seq: 1, type: "request", command, arguments: words });
  const evaluate = (expression) => request("evaluate", { expression, context: "repl" });
  const dap = await readLate("../ghcdb-adapter", [request("initialize", { adapterID: "ghcdb" }),
    request("launch", { program: PROGRAM, query: "primes(200,Ps)" }), request("configurationDone"),
    evaluate("leap 4000"), evaluate("records"), request("disconnect")]);
  const told = dap.heard.filter(({ type }) => type === "response");
  assert.deepStrictEqual([told.at(-1).command, dap.status], ["disconnect", 0]);
  assert.ok(JSON.stringify(told).length > 100_000, `${JSON.stringify(told).length} letters`);
});

test("nothing more is read while the editor takes nothing", LIMIT, async () => {
  const input = new PassThrough(), output = new PassThrough({ highWaterMark: 100 }), heard = [];
  const wire = new Wire(input, output, { hear: (message) => heard.push(message), gone: 1 });
  wire.send({ long: "a".repeat(200) });
  input.write(encode({ one: 1 }));
  await after(20);
  assert.deepStrictEqual(heard, []);
  output.resume();
  await after(20);
  assert.deepStrictEqual(heard, [{ one: 1 }]);
});
