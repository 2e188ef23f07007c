// Plays all rows of tests/rows, and the examples of the manuals, on the engine of the page:
//
//     node web/tests/rows.mjs [WORD ..]     the rows of the files whose names hold one of the words; without words, all
//
// tests/run_rows.py, which plays them on the native program, tells the rows. Output, errors and exit status have to be exactly
// those of a row. The last line is `N passed, M failed`; the exit status is 1 where a row failed, or where there is none.
import path from "node:path";
import { execFileSync } from "node:child_process";
import { fileURLToPath } from "node:url";
import { engineOfPage } from "../../front/session/engine_of_page.mjs";

const HERE = path.dirname(fileURLToPath(import.meta.url));

const RUN_ROWS = path.join(HERE, "..", "..", "tests", "run_rows.py");
const FULL_DEVICE = "/dev/full";

const bytesOf = (letters) => Uint8Array.from(letters, (letter) => letter.charCodeAt(0));
const lettersOf = (bytes) => Buffer.from(bytes).toString("latin1");

function rowsOf(words) {
  const told = execFileSync("python3", [RUN_ROWS, "--tell", ...words], { encoding: "utf8", maxBuffer: 2 ** 28 });
  return told.split("\n").filter(Boolean).map((line) => JSON.parse(line));
}

// The streams of a row that go to a device without room. There is no other place where a row's stream can go to here.
function fullStreams(row) {
  for (const [, file] of row.to) if (file !== FULL_DEVICE) throw new Error(`a stream goes to ${file}`);
  return row.to.map(([stream]) => stream);
}

// Gives the lines of a row one by one, each when the reply to those above it was written.
function giveInTurns(run, turns) {
  let output = "";
  for (const [given, written] of turns) {
    run.give(bytesOf(given));
    const reply = lettersOf(run.takeOutput());
    output += reply;
    if (reply !== written) break;
  }
  return output;
}

// What the engine does with a row.
function play(engine, row) {
  const files = new Map(Object.entries(row.files).map(([name, text]) => [name, bytesOf(text)]));
  const run = engine.start({ words: row.words.map(bytesOf), files, full: fullStreams(row) });
  let output = "";
  if (row.turns) output = giveInTurns(run, row.turns);
  else run.give(bytesOf(row.input));
  if (!row["left open"]) run.end();
  if (run.broken !== undefined) throw new Error(`the engine stopped: ${run.broken}`);
  return { output: output + lettersOf(run.takeOutput()), errors: lettersOf(run.takeErrors()), status: run.status };
}

// What is wrong with a stream.
function differences(name, wanted, parts, got) {
  if (parts.length > 0) {
    return parts.filter((part) => !got.includes(part)).map((part) => `  ${name} lacks ${JSON.stringify(part)}`);
  }
  if (wanted === got) return [];
  return [`  ${name} is to be ${JSON.stringify(wanted)}`, `  ${name} is       ${JSON.stringify(got)}`];
}

// What is wrong with a row, as lines.
function judge(engine, row) {
  if (row.bad !== undefined) return [`  ${row.bad}`];
  try {
    const got = play(engine, row);
    return [
      ...differences("output", row.output, row["output contains"], got.output),
      ...differences("errors", row.errors, row["errors contain"], got.errors),
      ...(got.status === row.status ? [] : [`  status is to be ${row.status} and is ${got.status}`]),
    ];
  } catch (error) {
    return [`  ${error.message}`];
  }
}

async function main() {
  const { engine, madeWith } = await engineOfPage();
  const rows = rowsOf(process.argv.slice(2));
  let failed = 0;
  for (const row of rows) {
    const wrong = judge(engine, row);
    if (wrong.length === 0) continue;
    failed += 1;
    console.log([`failed: ${row.name}`, ...wrong].join("\n"));
  }
  if (!madeWith.proved) console.log("the page is of a program that was built without a proof: it is for work on the page");
  console.log(`${rows.length - failed} passed, ${failed} failed`);
  process.exitCode = failed > 0 || rows.length === 0 ? 1 : 0;
}

main();
