// What terminal/lesson does; how it is called stands there.
import fs from "node:fs";
import path from "node:path";
import { fileURLToPath } from "node:url";
import { spawnSync } from "node:child_process";
import { nativeProgram } from "../front/session/program.mjs";
import { plain } from "./plain.mjs";
import { Lesson } from "./lesson_played.mjs";

const WRONG = 1, COMMAND_LINE = 2, DEVICE = 3; // statuses
const DRAWER = path.join(path.dirname(fileURLToPath(import.meta.url)), "..", "web", "picture");

/** A picture of a history: by web/picture, or in a release by the file that runs here. */
function draw(history, program, query) {
  const start = fs.existsSync(DRAWER) ? [DRAWER] : [process.argv[1], "--picture"];
  const words = [...start, history, "--program", program, "--query", query];
  const { stdout, stderr, status } = spawnSync(process.execPath, words, { encoding: "utf8", maxBuffer: 2 ** 28 });
  if (status !== 0) throw new Error(`no picture: ${stderr}`);
  return stdout;
}

/** Ends with a status, and says why. */
function fail(why, status) {
  process.stderr.write(`ghcdb --lesson: ${why}\n`);
  process.exitCode = status;
}

/** The text of a file; undefined, with a word why, where it cannot be read. */
function textOf(file) {
  try {
    return fs.readFileSync(file, "utf8");
  } catch (error) {
    return fail(error.message, DEVICE);
  }
}

async function main() {
  const [file, ...more] = process.argv.slice(2);
  if (file === undefined || more.length > 0) return fail("name one lesson, a text in Markdown", COMMAND_LINE);
  const text = textOf(file);
  if (text === undefined) return undefined;
  const lesson = new Lesson({ folder: path.dirname(file), draw, native: nativeProgram() });
  const end = (signal) => { lesson.forget(); process.kill(process.pid, signal); }; // which ends it now as it ends others
  for (const signal of ["SIGINT", "SIGTERM", "SIGHUP"]) process.once(signal, end);
  try {
    const filled = await lesson.fill(text);
    process.stdout.write(process.stdout.isTTY ? filled.split("\n").map(plain).join("\n") : filled);
  } catch (error) {
    fail(`${file}: ${error.message}`, WRONG);
  }
}

main();
