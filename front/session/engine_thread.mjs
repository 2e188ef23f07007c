// The thread in which the engine of web/ghcdb.html runs, for program.mjs: it takes lines, and gives their replies.
import fs from "node:fs";
import { parentPort, workerData } from "node:worker_threads";
import { readWords } from "../protocol/words.mjs";
import { encode } from "../text/bytes.mjs";
import Engine from "./engine.mjs";
import { tried } from "./files.mjs";

const decode = (bytes) => Buffer.from(bytes).toString("latin1");

// Of a device nobody knows whether it ends.
const bytesOf = (name) => (fs.statSync(name).isCharacterDevice() ? Buffer.alloc(0) : fs.readFileSync(name));

/** The files that the words name, where they can be read; the engine tells which cannot. `handed` are those known. */
function filesOf(words, handed) {
  const { file, load } = readWords(words), files = new Map(handed);
  for (const name of [file, load].filter((one) => one !== undefined && !files.has(one))) {
    const bytes = tried(() => bytesOf(name));
    if (bytes !== undefined) files.set(name, bytes);
  }
  return files;
}

function main() {
  const { words, files, compiled } = workerData;
  const run = new Engine(compiled).start({ words: words.map(encode), files: filesOf(words, files) });
  const tellEnd = () => {
    parentPort.postMessage({ errors: decode(run.takeErrors()), status: run.status ?? 70 });
    parentPort.close();
  };
  if (!run.waits) return tellEnd();
  parentPort.on("message", (line) => {
    run.give(Buffer.concat([Buffer.from(line), Buffer.from("\n")]));
    if (!run.waits) return tellEnd();
    return parentPort.postMessage({ reply: decode(run.takeOutput()).split("\n").slice(0, -1) });
  });
}

main();
