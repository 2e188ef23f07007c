// Makes archives of files by tools that others keep. The same files give the same bytes.
import fs from "node:fs";
import os from "node:os";
import path from "node:path";
import { execFileSync } from "node:child_process";
import { fileURLToPath } from "node:url";

const MAKE_ZIP = fileURLToPath(new URL("../../tools/make-zip", import.meta.url));
const TIME = 499162500; // of packed files, in seconds, as `npm pack` has it: nobody asks when they were made
const ARCHIVE = "../made.archive"; // where a tool writes it, from the folder of the files
const PACKAGES = { "dpkg-deb": "dpkg" }; // of Debian, that have another name than the tool

/** What a tool tells. Where it is not there, an error says which package has it. */
function run(tool, words, options) {
  try {
    return execFileSync(tool, words, { maxBuffer: Infinity, ...options });
  } catch (error) {
    if (error.code !== "ENOENT") throw error;
    throw new Error(`there is no ${tool} here: install Debian's package ${PACKAGES[tool] ?? tool}`);
  }
}

/** Writes a file: one that names its interpreter can be run. */
function put(file, bytes) {
  fs.mkdirSync(path.dirname(file), { recursive: true });
  fs.writeFileSync(file, bytes, { mode: bytes.toString("latin1", 0, 2) === "#!" ? 0o755 : 0o644 });
}

/** The archive that a tool makes of files, by the name of each its bytes: in their folder it writes ARCHIVE. */
function packed(files, tool, words) {
  const room = fs.mkdtempSync(path.join(os.tmpdir(), "ghcdb-packed-")), cwd = path.join(room, "files");
  process.umask(0o022); // no mode is that of who packs
  try {
    for (const [name, bytes] of files) put(path.join(cwd, name), bytes);
    run(tool, words, { cwd, env: { ...process.env, SOURCE_DATE_EPOCH: String(TIME) } });
    return fs.readFileSync(path.join(cwd, ARCHIVE));
  } finally {
    fs.rmSync(room, { recursive: true });
  }
}

/** A zip archive of files. */
const zip = (files) => packed(files, "python3", [MAKE_ZIP, ARCHIVE, ...files.keys()]);

export { ARCHIVE, TIME, packed, put, run, zip };
