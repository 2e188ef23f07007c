// Where a release begins: its first word says what is wanted. packaging/release.mjs puts CARRIED before the modules.
//
//     ghcdb FILE [--query GOALS] [OPTION ..]   a session: at a terminal with its help, else the console alone
//     ghcdb FILE --run [--expect 'X = TERM']   the answers alone (terminal/run)
//     ghcdb --check .. | --json ..             a session of a script (terminal/check, terminal/json)
//     ghcdb --lesson FILE.md                   a lesson with its replies and pictures (terminal/lesson)
//     ghcdb --dap                              the debug adapter of editors, on standard input and output
//     ghcdb --lsp                              their language server
//     ghcdb --picture ..                       a run as an SVG (web/picture)
//     ghcdb --example [NAME]                   an example's text; without NAME the names of all
//     ghcdb --version                          the version, the sum of the sources (tools/sources-sum), and the kit
import tty from "node:tty";
import { isMainThread } from "node:worker_threads";
import { readRun, readWords, isSession } from "../front/protocol/words.mjs";
import { namesFileAlone, withQuery } from "../front/session/words_with_query.mjs";

const STREAMS = [0, 1, 2];
const COMMAND_LINE = 2, DEVICE = 3; // statuses

/** Writes a text to standard output. */
function tell(text) {
  process.stdout.on("error", () => process.exit(DEVICE));
  process.stdout.write(text);
}

/** Tells an example, or the names of all. */
function tellExample(name) {
  const { examples } = CARRIED, names = Object.keys(examples);
  if (name === undefined) return tell(`${names.join("\n")}\n`);
  if (names.includes(name)) return tell(examples[name]);
  process.stderr.write(`ghcdb: there is no example ${name}; there are ${names.join(", ")}\n`);
  process.exitCode = COMMAND_LINE;
  return undefined;
}

/** What runs after a first word; without any of these, ghcdb's own command line does. */
const AFTER = new Map(Object.entries({
  "--check": () => import("../terminal/check.mjs"),
  "--json": () => import("../terminal/json.mjs"),
  "--lesson": () => import("../terminal/lesson.mjs"),
  "--dap": () => import("../editors/dap/main.mjs"),
  "--lsp": () => import("../editors/lsp/main.mjs"),
  "--picture": () => import("../web/draw.mjs"),
  "--example": () => tellExample(process.argv[2]),
}));

/** Is it typed at a terminal? A stream is asked by its number, for Node changes a pipe that is asked itself. */
function isTyped(words) {
  const asks = isSession(readWords(withQuery(words))) || namesFileAlone(words);
  return asks && STREAMS.every((stream) => tty.isatty(stream));
}

/** Runs ghcdb's own command line. */
async function runConsole(words) {
  if (readRun(words).isRun) return import("../terminal/run.mjs");
  if (isTyped(words)) return import("../terminal/ghcdb.mjs");
  await import("../web/console.mjs");
  const { help, madeWith: { sources, kit } } = CARRIED;
  if (words.join() === "--version" && process.exitCode === 0) tell(`sources ${sources}\nkit ${kit}\n`);
  if (["--help", "-h"].includes(words.join()) && process.exitCode === 0) tell(help);
  return undefined;
}

/** Runs what the words ask for. */
function main() {
  const run = AFTER.get(process.argv[2]);
  if (run === undefined) return runConsole(process.argv.slice(2));
  process.argv.splice(2, 1);
  return run();
}

if (isMainThread) main();
else import("../front/session/engine_thread.mjs");
