// The language server's client for VS Code: it tells the server of the programs that are open, and shows what the server tells.
"use strict";

const { spawn } = require("node:child_process");
const vscode = require("vscode");

const KIND = "fghc";

const rangeOf = ({ start, end }) => new vscode.Range(start.line, start.character, end.line, end.character);

// The protocol numbers severities and kinds of symbols from 1, the editor from 0.
const shown = (number) => number - 1;

function diagnosticOf({ range, message, severity, code, source }) {
  return Object.assign(new vscode.Diagnostic(rangeOf(range), message, shown(severity)), { code, source });
}

function symbolOf({ name, detail = "", kind, range, selectionRange, children = [] }) {
  const symbol = new vscode.DocumentSymbol(name, detail, shown(kind), rangeOf(range), rangeOf(selectionRange));
  return Object.assign(symbol, { children: children.map(symbolOf) });
}

// The server, which runs beside the editor, and what was asked of it.
class Server {
  /** `wire` encodes and decodes messages; `start` has the server's program, words and environment. */
  constructor({ Decoder, encode }, { program, words, env }) {
    this.encode = encode;
    this.last = 0;
    this.asked = new Map();
    this.diagnostics = vscode.languages.createDiagnosticCollection(KIND);
    this.child = spawn(program, words, { env, stdio: ["pipe", "pipe", "ignore"] });
    const decoder = new Decoder((message) => this.hear(message));
    this.child.stdout.on("data", (piece) => decoder.take(piece));
    this.child.stdin.on("error", () => {}); // told by its end
    for (const end of ["error", "close"]) this.child.on(end, () => this.hearEnd());
  }

  hear({ id, method, params, result }) {
    if (method === "textDocument/publishDiagnostics") this.diagnostics.set(vscode.Uri.parse(params.uri), params.diagnostics.map(diagnosticOf));
    if (method !== undefined) return;
    this.asked.get(id)?.(result);
    this.asked.delete(id);
  }

  /** When the server has ended, what was asked is answered by nothing, and what it told of programs counts no more. */
  hearEnd() {
    for (const answer of this.asked.values()) answer(undefined);
    this.asked.clear();
    if (this.hasEnded) return;
    this.hasEnded = true;
    this.diagnostics.clear();
    vscode.window.showWarningMessage("Flat GHC: the language server has ended. `Developer: Reload Window` starts it again.");
  }

  tell(method, params, id) {
    if (this.hasEnded) return;
    this.child.stdin.write(this.encode({ jsonrpc: "2.0", ...(id && { id }), method, params }));
  }

  /** The result of a request; undefined where there is none. */
  ask(method, params) {
    if (this.hasEnded) return Promise.resolve(undefined);
    this.last += 1;
    this.tell(method, params, this.last);
    return new Promise((resolve) => { this.asked.set(this.last, resolve); });
  }

  async begin() {
    const hover = { contentFormat: ["markdown"] };
    await this.ask("initialize", { processId: process.pid, rootUri: null, capabilities: { textDocument: { hover } } });
    this.tell("initialized", {});
  }

  // ---- the programs that are open

  /** Tells that a program is opened, changed or closed: `didOpen`, `didChange` or `didClose`. */
  tellOf(method, document) {
    const { languageId, version } = document, uri = document.uri.toString(), text = document.getText();
    const told = {
      didOpen: { textDocument: { uri, languageId, version, text } },
      didChange: { textDocument: { uri, version }, contentChanges: [{ text }] },
      didClose: { textDocument: { uri } },
    };
    if (languageId === KIND) this.tell(`textDocument/${method}`, told[method]);
  }

  // ---- what the editor asks

  at(method, { uri }, { line, character } = {}) {
    const position = line === undefined ? undefined : { line, character };
    return this.ask(`textDocument/${method}`, { textDocument: { uri: uri.toString() }, position });
  }

  async provideDocumentSymbols(document) {
    return (await this.at("documentSymbol", document))?.map(symbolOf);
  }

  async provideDefinition(document, position) {
    const found = await this.at("definition", document, position);
    return found && new vscode.Location(vscode.Uri.parse(found.uri), rangeOf(found.range));
  }

  async provideHover(document, position) {
    const found = await this.at("hover", document, position);
    return found && new vscode.Hover(new vscode.MarkdownString(found.contents.value), rangeOf(found.range));
  }

  dispose() {
    this.hasEnded = true;
    this.diagnostics.dispose();
    this.child.kill();
  }
}

/** Starts the server, and lets the editor ask it. What is registered is in `subscriptions`. */
async function begin(wire, start, subscriptions) {
  const server = new Server(wire, start), { languages, workspace } = vscode;
  subscriptions.push(server);
  await server.begin();
  workspace.textDocuments.forEach((document) => server.tellOf("didOpen", document));
  subscriptions.push(
    workspace.onDidOpenTextDocument((document) => server.tellOf("didOpen", document)),
    workspace.onDidChangeTextDocument(({ document }) => server.tellOf("didChange", document)),
    workspace.onDidCloseTextDocument((document) => server.tellOf("didClose", document)),
    languages.registerDocumentSymbolProvider({ language: KIND }, server),
    languages.registerDefinitionProvider({ language: KIND }, server),
    languages.registerHoverProvider({ language: KIND }, server),
  );
}

module.exports = { begin };
