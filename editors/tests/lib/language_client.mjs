// A client of the language server for tests: it sends messages, and gathers what is told.
import assert from "node:assert";
import path from "node:path";
import { fileURLToPath } from "node:url";
import { spawn } from "node:child_process";
import { Decoder, encode } from "../../dap/wire.mjs";

const HERE = path.dirname(fileURLToPath(import.meta.url));

const SERVER = [path.join(HERE, "..", "..", "ghcdb-lsp")];

class LanguageClient {
  /** Starts the server, that of the repository where no other words of a command line are given. */
  constructor({ server = SERVER, env = {} } = {}) {
    this.child = spawn(process.execPath, server, { stdio: ["pipe", "pipe", "inherit"], env: { ...process.env, ...env } });
    LanguageClient.begun.push(this.child);
    this.sent = 0;
    this.answers = new Map();
    this.told = [];
    this.waiting = [];
    const decoder = new Decoder((message) => this.hear(message));
    this.child.stdout.on("data", (piece) => decoder.take(piece));
    this.ended = new Promise((resolve) => { this.child.on("close", resolve); });
  }

  hear(message) {
    assert.strictEqual(message.jsonrpc, "2.0");
    if (message.method === undefined) this.answers.get(message.id)(message);
    else this.told.push(message);
    this.waiting.splice(0).forEach((wake) => wake());
  }

  tell(method, params) {
    this.child.stdin.write(encode({ jsonrpc: "2.0", method, params }));
  }

  put(method, params) {
    this.sent += 1;
    this.child.stdin.write(encode({ jsonrpc: "2.0", id: this.sent, method, params }));
    return new Promise((resolve) => { this.answers.set(this.sent, resolve); });
  }

  /** The result of a request that has to be answered. */
  async ask(method, params) {
    const { result, error } = await this.put(method, params);
    assert.strictEqual(error, undefined, `${method}: ${error?.message}`);
    return result;
  }

  /** The code of the error that a request has to be answered with. */
  async errorOf(method, params) {
    const { error } = await this.put(method, params);
    assert.ok(error, `${method} is answered`);
    return error.code;
  }

  async begin(capabilities = {}) {
    const told = await this.ask("initialize", { processId: process.pid, rootUri: null, capabilities });
    this.tell("initialized", {});
    return told;
  }

  open(uri, text) {
    this.tell("textDocument/didOpen", { textDocument: { uri, languageId: "fghc", version: 1, text } });
  }

  change(uri, version, text) {
    this.tell("textDocument/didChange", { textDocument: { uri, version }, contentChanges: [{ text }] });
  }

  /** What is told of a text next; what was told before is dropped. */
  async diagnostics(uri) {
    for (;;) {
      const at = this.told.findIndex(({ method, params }) => method === "textDocument/publishDiagnostics" && params.uri === uri);
      if (at >= 0) return this.told.splice(0, at + 1).at(-1).params;
      await new Promise((resolve) => { this.waiting.push(resolve); });
    }
  }

  /** Asks about a place in a text: line and letter from 0. */
  at(method, uri, line, character) {
    return this.ask(`textDocument/${method}`, { textDocument: { uri }, position: { line, character } });
  }

  /** Ends the server: its status. */
  async end() {
    await this.ask("shutdown");
    this.tell("exit");
    return this.ended;
  }
}

LanguageClient.begun = []; // the servers that were started

/** Ends the servers that were started: after a test that failed nothing is left that waits. */
LanguageClient.endAll = () => LanguageClient.begun.splice(0).forEach((child) => child.kill());

export { LanguageClient };
