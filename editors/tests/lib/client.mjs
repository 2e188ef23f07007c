// A client of the debug adapter for tests: it sends requests, gathers events, and looks that each message is of the protocol's form.
import assert from "node:assert";
import path from "node:path";
import { fileURLToPath } from "node:url";
import { spawn } from "node:child_process";
import { Decoder, encode } from "../../dap/wire.mjs";

const HERE = path.dirname(fileURLToPath(import.meta.url));

const ADAPTER = path.join(HERE, "..", "..", "ghcdb-adapter");

// What a message's body must have: fields with their types; `[..]` is a list of such; a `?` marks what may be left out.
const SOURCE = { "name?": "string", "path?": "string", "sourceReference?": "number" };
const BREAKPOINT = { "id?": "number", verified: "boolean", "message?": "string", "line?": "number", "source?": SOURCE };
const COUNTS = { "indexedVariables?": "number", "namedVariables?": "number" };
const VARIABLE = { name: "string", value: "string", variablesReference: "number", "evaluateName?": "string", "type?": "string", ...COUNTS };
const FORMS = {
  threads: { threads: [{ id: "number", name: "string" }] },
  stackTrace: { stackFrames: [{ id: "number", name: "string", line: "number", column: "number", "source?": SOURCE, "endLine?": "number", "endColumn?": "number" }], "totalFrames?": "number" },
  scopes: { scopes: [{ name: "string", variablesReference: "number", expensive: "boolean", "presentationHint?": "string", ...COUNTS }] },
  variables: { variables: [VARIABLE] },
  evaluate: { result: "string", variablesReference: "number", "type?": "string", ...COUNTS },
  setVariable: { value: "string" }, setExpression: { value: "string" },
  setBreakpoints: { breakpoints: [BREAKPOINT] }, setFunctionBreakpoints: { breakpoints: [BREAKPOINT] }, setDataBreakpoints: { breakpoints: [BREAKPOINT] },
  setExceptionBreakpoints: { "breakpoints?": [BREAKPOINT] }, breakpointLocations: { breakpoints: [{ line: "number" }] },
  dataBreakpointInfo: { description: "string", "accessTypes?": ["string"], "canPersist?": "boolean" },
  stepInTargets: { targets: [{ id: "number", label: "string" }] }, gotoTargets: { targets: [{ id: "number", label: "string", line: "number" }] },
  completions: { targets: [{ label: "string", "start?": "number", "length?": "number" }] },
  loadedSources: { sources: [SOURCE] }, source: { content: "string" }, exceptionInfo: { exceptionId: "string", "description?": "string", breakMode: "string" },
  continue: { "allThreadsContinued?": "boolean" },
  stopped: { reason: "string", "description?": "string", "text?": "string", "threadId?": "number", "allThreadsStopped?": "boolean", "hitBreakpointIds?": ["number"] },
  progressStart: { progressId: "string", title: "string", "requestId?": "number", "cancellable?": "boolean" }, progressEnd: { progressId: "string" },
  output: { output: "string", "category?": "string", "line?": "number", "source?": SOURCE }, thread: { reason: "string", threadId: "number" },
};

function check(value, form, where) {
  if (typeof form === "string") return assert.strictEqual(typeof value, form, where);
  if (Array.isArray(form)) {
    assert.ok(Array.isArray(value), `${where} is no list`);
    return value.forEach((one, place) => check(one, form[0], `${where}[${place}]`));
  }
  for (const [key, inner] of Object.entries(form)) {
    const name = key.replace("?", ""), isThere = value[name] !== undefined;
    assert.ok(isThere || key.endsWith("?"), `${where} lacks ${name}`);
    if (isThere) check(value[name], inner, `${where}.${name}`);
  }
  return undefined;
}

class Client {
  /** Starts the adapter, that of the repository where no other is named. */
  constructor({ adapter = ADAPTER, env = {}, cwd } = {}) {
    this.child = spawn(process.execPath, [adapter], { stdio: ["pipe", "pipe", "inherit"], env: { ...process.env, ...env }, cwd });
    Client.begun.push(this.child);
    this.sent = 0;
    this.answers = new Map();
    this.events = [];
    this.waiting = [];
    this.last = 0;
    this.tried = new Set();
    const decoder = new Decoder((message) => this.hear(message));
    this.child.stdout.on("data", (piece) => decoder.take(piece));
    this.ended = new Promise((resolve) => { this.child.on("close", resolve); });
  }

  hear(message) {
    assert.ok(message.seq > this.last, "the numbers of messages do not rise");
    this.last = message.seq;
    Client.heard.push(message);
    const form = FORMS[message.event ?? message.command];
    if (form !== undefined && message.success !== false) check(message.body, form, message.event ?? message.command);
    if (message.type === "response") return this.answers.get(message.request_seq)(message);
    this.events.push(message);
    return this.waiting.splice(0).forEach((wake) => wake());
  }

  put(command, given) {
    this.sent += 1;
    this.tried.add(command);
    this.child.stdin.write(encode({ seq: this.sent, type: "request", command, arguments: given }));
    return new Promise((resolve) => { this.answers.set(this.sent, resolve); });
  }

  /** The body of the answer to a request that has to be accepted. */
  async ask(command, given) {
    const answer = await this.put(command, given);
    assert.ok(answer.success, `${command}: ${answer.body?.error?.format}`);
    return answer.body;
  }

  /** What a request is refused with. */
  async refusal(command, given) {
    const answer = await this.put(command, given);
    assert.strictEqual(answer.success, false, `${command} is accepted`);
    return answer.body.error.format;
  }

  /** The next event of a name; those before it are dropped. */
  async event(name) {
    for (;;) {
      const place = this.events.findIndex((message) => message.event === name);
      if (place >= 0) return this.events.splice(0, place + 1).at(-1).body;
      await new Promise((resolve) => { this.waiting.push(resolve); });
    }
  }

  /** Begins a session, up to its first stop. `breakpoints` are set as an editor does; `wants` is what it can do. */
  async begin(program, given = {}, breakpoints = async () => {}, wants = {}) {
    this.can = await this.ask("initialize", { adapterID: "ghcdb", linesStartAt1: true, columnsStartAt1: true, ...wants });
    await this.ask("launch", { program, ...given });
    await this.event("initialized");
    await breakpoints();
    await this.ask("configurationDone");
    return this.stop();
  }

  /** The next stop; its process is the one that is asked about from then on. */
  async stop() {
    const body = await this.event("stopped");
    this.thread = body.threadId;
    return body;
  }

  /** A request that goes on, and the stop to which it leads. */
  async go(command, given = {}) {
    await this.ask(command, { threadId: this.thread, ...given });
    return this.stop();
  }

  async frames() {
    return (await this.ask("stackTrace", { threadId: this.thread })).stackFrames;
  }

  /** The variables of a scope of a frame, as texts by name. */
  async scope(frame, name) {
    const { scopes } = await this.ask("scopes", { frameId: frame.id });
    const { variables } = await this.ask("variables", { variablesReference: scopes.find((scope) => scope.name === name).variablesReference });
    return Object.fromEntries(variables.map((variable) => [variable.name, variable.value]));
  }

  /** What a line typed in the editor's console is answered by. */
  async type(expression) {
    return (await this.ask("evaluate", { expression, context: "repl" })).result;
  }

  async end() {
    await this.ask("disconnect");
    return this.ended;
  }
}

Client.heard = []; // all messages of all clients
Client.begun = []; // the adapters that were started

/** Ends the adapters that were started: after a test that failed nothing is left that waits. */
Client.endAll = () => Client.begun.splice(0).forEach((child) => child.kill());

export { Client };
