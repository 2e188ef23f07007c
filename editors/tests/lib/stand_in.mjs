// A stand-in for VS Code, with as much of it as the extension uses: programs are open in it, and what it is told is kept.
import Module, { createRequire } from "node:module";

const list = (...fields) => class { constructor(...values) { fields.forEach((field, at) => { this[field] = values[at]; }); } };

// The editor's own types, as far as they are looked at; a range is just its numbers.
const TYPES = {
  DebugAdapterExecutable: list("program", "words", "options"), Diagnostic: list("range", "message", "severity"), Hover: list("contents", "range"),
  DocumentSymbol: list("name", "detail", "kind", "range", "selectionRange"), Location: list("uri", "range"), MarkdownString: list("value"),
  Range: function Range(...numbers) { return numbers; },
  Uri: { parse: (text) => new URL(text) },
};

class Editor {
  /** `texts` are those of the programs that are open from the beginning. */
  constructor(texts) {
    this.documents = texts.map((text, at) => ({ uri: new URL(`file:///open${at}.ghc`), languageId: "fghc", version: 1, text, getText() { return this.text; } }));
    this.providers = {};
    this.diagnostics = new Map(); // that were told and not asked for yet, by the address
    this.warnings = [];
    this.waiting = [];
  }

  /** What is told of a program next. */
  async told(uri) {
    while (!this.diagnostics.has(String(uri))) await new Promise((resolve) => { this.waiting.push(resolve); });
    const told = this.diagnostics.get(String(uri));
    this.diagnostics.delete(String(uri));
    return told;
  }

  /** Puts another text into a program, as who types does. */
  type(document, text) {
    Object.assign(document, { text, version: document.version + 1 });
    this.changed({ document });
  }

  /** The part of the editor's interface that is about languages. */
  get languages() {
    const set = (uri, told) => {
      this.diagnostics.set(String(uri), told);
      this.waiting.splice(0).forEach((wake) => wake());
    };
    const clear = () => this.documents.forEach(({ uri }) => set(uri, []));
    const register = (name) => (selector, provider) => { this.providers[name] = provider; return { dispose() {} }; };
    return {
      createDiagnosticCollection: () => ({ set, clear, dispose() {} }),
      registerDocumentSymbolProvider: register("DocumentSymbol"),
      registerDefinitionProvider: register("Definition"), registerHoverProvider: register("Hover"),
    };
  }

  /** The part that is about open texts. */
  get workspace() {
    const nothing = { dispose() {} };
    return { textDocuments: this.documents, onDidOpenTextDocument: () => nothing, onDidCloseTextDocument: () => nothing, onDidChangeTextDocument: (hear) => { this.changed = hear; return nothing; } };
  }
}

/** What `require` gives for a while where the editor is asked for. */
function withEditor(vscode, call) {
  const load = Module._load;
  Module._load = (name, ...rest) => (name === "vscode" ? vscode : load(name, ...rest));
  try {
    return call();
  } finally {
    Module._load = load;
  }
}

/** What an extension registers: how the adapter is started, how a configuration is completed, the commands; the editor, and what ends it. */
async function activated(file, texts = []) {
  const told = { commands: [], editor: new Editor(texts) }, subscriptions = [];
  const vscode = {
    ...TYPES, languages: told.editor.languages, workspace: told.editor.workspace,
    window: {
      activeTextEditor: { document: { languageId: "fghc", fileName: "/a.ghc" } },
      showErrorMessage: (text) => { throw new Error(text); },
      showWarningMessage: (text) => told.editor.warnings.push(text),
    },
    commands: { registerCommand: (name) => told.commands.push(name) },
    debug: {
      registerDebugAdapterDescriptorFactory: (type, made) => Object.assign(told, { type, started: made.createDebugAdapterDescriptor({ configuration: {} }) }),
      registerDebugConfigurationProvider: (type, made) => { told.completed = made.resolveDebugConfiguration(undefined, {}); },
    },
  };
  await withEditor(vscode, () => createRequire(import.meta.url)(file)).activate({ subscriptions });
  return { ...told, end: () => subscriptions.forEach((one) => one?.dispose?.()) };
}

export { activated };
