// The language server: it answers an editor's messages, in the Language Server Protocol, about the programs that are open there.
import { diagnosticsOf } from "./diagnosing.mjs";
import { aboutOf, clauseAt, clausesIn, groupsOf, rangeOf, sameAs, variablesOf } from "./outline.mjs";
import { plural } from "../../front/text/plural.mjs";

const NOT_BEGUN = -32002, INVALID = -32600, UNKNOWN = -32601, WRONG_WORDS = -32602, BROKEN = -32603; // of the protocol's errors
const WHOLE_TEXTS = 1, FUNCTION = 12, CLAUSE = 6; // how texts are sent; kinds of symbols
const CALL = 3, VARIABLE = 6, TEST = 14; // kinds of what is completed
const TESTS = ["true", "wait(", "integer(", "atom(", "list("];
const NAME = { name: /^[a-z]\w*$/u, variable: /^[A-Z_]\w*$/u };
const RESERVED = /^(_\d+_\d+|_|mod|true|wait|integer|atom|list|instream)$/;
const PAUSE = 150; // milliseconds without a key, before a text is read
const LONGEST = 1_048_576; // letters: a longer text is no program, and is not taken apart
const MOST_SHOWN = 20; // clauses, when one points at a predicate

const CONTROL = /[\u0000-\u0008\u000b-\u001f\u007f-\u009f]/g; // but tabs and line feeds

/** A text of Markdown that is shown as it is: its fence is longer than any row of back quotes in it. */
function fenced(text) {
  const longest = (text.match(/`+/g) ?? []).reduce((most, { length }) => Math.max(most, length), 0);
  const fence = "`".repeat(Math.max(3, longest + 1));
  return `${fence}fghc\n${text}\n${fence}`;
}

/** An error that the editor hears of. */
const told = (code, message) => Object.assign(new Error(message), { code });

class Server {
  /** `send` takes messages; `leave` ends the server with a status; `native` is the program to use, or undefined for the page's engine. */
  constructor({ send, leave, native, pause = PAUSE }) {
    this.sendMessage = send;
    this.leave = leave;
    this.native = native;
    this.pause = pause;
    this.programs = new Map(); // that are open, by their addresses
    this.isBegun = this.isEnding = false;
    this.reading = Promise.resolve(); // the last text that is read, or was
  }

  send(message) {
    this.sendMessage({ jsonrpc: "2.0", ...message });
  }

  /** Takes a message. One that asks has a number, and is answered; others just tell. */
  hear(message) {
    const { id, method, params } = message ?? {};
    if (typeof method !== "string") return;
    if (id === undefined) {
      this.tried(() => this[`told_${method}`]?.(params));
      return;
    }
    const answer = this.tried(() => this.answer(method, params));
    this.send({ id, ...answer });
  }

  /** What a call gives, or the error that it throws. */
  tried(call) {
    try {
      return { result: call() ?? null };
    } catch (error) {
      return { error: { code: error.code ?? BROKEN, message: error.message } };
    }
  }

  answer(method, params) {
    if (!this.isBegun && method !== "initialize") throw told(NOT_BEGUN, "initialize comes first");
    if (this.isEnding) throw told(INVALID, "after shutdown nothing is answered");
    if (!(`asked_${method}` in this)) throw told(UNKNOWN, `${method} is not known`);
    return this[`asked_${method}`](params);
  }

  programOf({ textDocument }) {
    const program = this.programs.get(textDocument?.uri);
    if (program === undefined) throw told(WRONG_WORDS, `${textDocument?.uri} is not open`);
    return program;
  }

  // ---- beginning and end

  /** @param {{ capabilities?: { textDocument?: { hover?: { contentFormat?: string[] } } } }} about */
  asked_initialize({ capabilities = {} } = {}) {
    this.isBegun = true;
    this.format = capabilities.textDocument?.hover?.contentFormat?.includes("markdown") ? "markdown" : "plaintext";
    const can = {
      textDocumentSync: { openClose: true, change: WHOLE_TEXTS }, documentSymbolProvider: true, hoverProvider: true,
      definitionProvider: true, referencesProvider: true, documentHighlightProvider: true,
      renameProvider: { prepareProvider: true }, completionProvider: {},
    };
    return { capabilities: can, serverInfo: { name: "ghcdb" } };
  }

  asked_shutdown() {
    this.isEnding = true;
  }

  told_exit() {
    this.leave(this.isEnding ? 0 : 1);
  }

  // ---- texts

  "told_textDocument/didOpen"({ textDocument: { uri, text, version } }) {
    this.take(uri, text, version);
  }

  "told_textDocument/didChange"({ textDocument: { uri, version }, contentChanges }) {
    if (this.programs.has(uri) && contentChanges.length > 0) this.take(uri, contentChanges.at(-1).text, version);
  }

  "told_textDocument/didClose"({ textDocument: { uri } }) {
    clearTimeout(this.programs.get(uri)?.timer);
    this.programs.delete(uri);
    this.tellDiagnostics(uri, []);
  }

  /** Takes a text, which is read when no key comes for a while. */
  take(uri, text, version) {
    clearTimeout(this.programs.get(uri)?.timer);
    const program = { text, version, clauses: text.length > LONGEST ? [] : clausesIn(text) };
    program.timer = setTimeout(() => this.readLater(uri, program), this.pause);
    this.programs.set(uri, program);
  }

  /** Reads a text after those before it, if no other one has taken its place by then. */
  readLater(uri, program) {
    this.reading = this.reading.then(async () => {
      if (this.programs.get(uri) !== program) return;
      const diagnostics = await diagnosticsOf(program.text, this.native);
      if (this.programs.get(uri) === program) this.tellDiagnostics(uri, diagnostics, program.version);
    }).catch((error) => this.send({ method: "window/logMessage", params: { type: 1, message: `ghcdb: ${error.message}` } }));
  }

  tellDiagnostics(uri, diagnostics, version) {
    this.send({ method: "textDocument/publishDiagnostics", params: { uri, diagnostics, ...(version !== undefined && { version }) } });
  }

  // ---- what is asked about a text

  /** The predicates in their order, each with its clauses. */
  "asked_textDocument/documentSymbol"(given) {
    return groupsOf(this.programOf(given).clauses).map((group) => ({
      name: group[0].predicate, detail: plural(group.length, "clause"), kind: FUNCTION,
      range: { start: group[0].range.start, end: group.at(-1).range.end }, selectionRange: group[0].nameRange,
      children: group.map(({ head, range, nameRange }) => ({ name: head, kind: CLAUSE, range, selectionRange: nameRange })),
    }));
  }

  /** The clauses of the predicate that a place is about, with what stands there; undefined where it is about none. */
  clausesAt(given) {
    const { clauses } = this.programOf(given), about = aboutOf(clauses, given.position);
    if (about === undefined) return undefined;
    return { about, clauses: clauses.filter(({ predicate }) => predicate === about.predicate) };
  }

  /** Where a predicate's first clause stands, or the first place of a variable in its clause. */
  "asked_textDocument/definition"(given) {
    const { about, clauses = [] } = this.clausesAt(given) ?? {}, { uri } = given.textDocument;
    if (about?.first !== undefined) return { uri, range: rangeOf(about.first) };
    return clauses.length === 0 ? null : { uri, range: clauses[0].nameRange };
  }

  /** Where the predicate stands as a head or a goal, or the variable in its clause. */
  "asked_textDocument/references"(given) {
    const { textDocument: { uri }, context } = given, { clauses } = this.programOf(given);
    const all = sameAs(clauses, given.position), heads = new Set(clauses.map(({ tokens }) => tokens[0]));
    const wanted = context?.includeDeclaration === false ? all.filter((token) => !heads.has(token)) : all;
    return wanted.map((token) => ({ uri, range: rangeOf(token) }));
  }

  "asked_textDocument/documentHighlight"(given) {
    return sameAs(this.programOf(given).clauses, given.position).map((token) => ({ range: rangeOf(token) }));
  }

  "asked_textDocument/prepareRename"(given) {
    const { clauses } = this.programOf(given), about = aboutOf(clauses, given.position);
    if (sameAs(clauses, given.position).length === 0) return null;
    return { range: rangeOf(about.token), placeholder: about.token.text };
  }

  /** Another name for a predicate in the whole text, or a variable in its clause; one that is taken is refused. */
  "asked_textDocument/rename"(given) {
    const { newName, textDocument: { uri } } = given, { clauses } = this.programOf(given);
    const about = aboutOf(clauses, given.position), all = sameAs(clauses, given.position);
    if (all.length === 0) throw told(WRONG_WORDS, "no predicate or variable stands there");
    const { kind, text } = about.token, clause = clauses.find(({ tokens }) => tokens.includes(about.token));
    const isOne = NAME[kind].test(newName) && !RESERVED.test(newName), isVariable = about.predicate === undefined;
    if (!isOne) throw told(WRONG_WORDS, `${newName} is no name of a ${isVariable ? "variable" : "predicate"}`);
    const others = isVariable ? variablesOf(clause) : clauses.map(({ predicate }) => predicate);
    const renamed = isVariable ? newName : `${newName}${about.predicate.slice(text.length)}`;
    const isTaken = newName !== text && others.includes(renamed);
    if (isTaken) throw told(WRONG_WORDS, `${renamed} stands for something else already`);
    return { changes: { [uri]: all.map((token) => ({ range: rangeOf(token), newText: newName })) } };
  }

  /** The predicates of the text, the variables of the clause, and the tests of guards. */
  "asked_textDocument/completion"(given) {
    const { clauses } = this.programOf(given), clause = clauseAt(clauses, given.position);
    const heads = new Map();
    for (const { predicate, tokens: [{ text: label }], head: detail } of clauses) {
      if (!heads.has(predicate)) heads.set(predicate, { label, kind: CALL, detail });
    }
    const variables = clause === undefined ? [] : variablesOf(clause).map((label) => ({ label, kind: VARIABLE }));
    const tests = TESTS.map((label) => ({ label, kind: TEST, detail: "a test of a guard" }));
    return [...variables, ...heads.values(), ...tests];
  }

  /** The clauses of a predicate, with their numbers. */
  "asked_textDocument/hover"(given) {
    const { about, clauses = [] } = this.clausesAt(given) ?? {}, left = clauses.length - MOST_SHOWN;
    if (clauses.length === 0) return null;
    const lines = [...clauses.slice(0, MOST_SHOWN).map(({ number, text }) => `% clause ${number}\n${text}`), ...(left > 0 ? [`% and ${left} more`] : [])];
    const shown = lines.join("\n").replace(CONTROL, "\ufffd"), value = this.format === "markdown" ? fenced(shown) : shown;
    return { contents: { kind: this.format, value }, range: rangeOf(about.token) };
  }
}

export { Server };
