// Files: written whole or not at all, and read no further than is asked for; and why one is not written.
import fs from "node:fs";
import os from "node:os";
import path from "node:path";

const PIECE = 65_536; // bytes that are read at once
const NOWHERE = "/dev/null"; // no file stands below it: nothing is read, and nothing can be written

/** What a call gives; `otherwise` where the system refuses it. */
function tried(call, otherwise) {
  try {
    return call();
  } catch {
    return otherwise;
  }
}

const isFile = (file) => tried(() => fs.statSync(file).isFile(), false);

/** Is there something that is no file, as a pipe? Then it may be read but once. */
const isNoFile = (file) => tried(() => !fs.statSync(file).isFile(), false);

/** Is it a device or a pipe, which might be read without end? */
const isEndless = (file) => isNoFile(file) && !fs.statSync(file).isDirectory();

/** The place of a file in the home folder. Where HOME is empty it is nowhere, and not in the folder one stands in. */
const inHome = (name) => path.join(os.homedir() || NOWHERE, name);

/** The bytes of a file, piece by piece. */
function* piecesOf(file) {
  const from = fs.openSync(file, "r");
  try {
    for (;;) {
      const piece = Buffer.alloc(PIECE), count = fs.readSync(from, piece);
      if (count === 0) return;
      yield piece.subarray(0, count);
    }
  } finally {
    fs.closeSync(from);
  }
}

/** The first bytes of a file, `most` at most. Throws where it cannot be read. */
function beginningOf(file, most) {
  const pieces = [];
  let count = 0;
  for (const piece of piecesOf(file)) {
    pieces.push(piece);
    count += piece.length;
    if (count >= most) break;
  }
  return Buffer.concat(pieces).subarray(0, most);
}

/** The first `most` letters of a line of a file; undefined where the file ends before it. */
function lineOf(file, number, most) {
  let begun = "", left = number - 1; // how the line begins that no piece has ended yet, and how many lines come before
  for (const piece of piecesOf(file)) {
    const lines = (begun + piece.toString("latin1")).split("\n"), line = lines[left];
    if (left < lines.length - 1 || line?.length >= most) return line.slice(0, most);
    left -= lines.length - 1;
    begun = lines.at(-1).slice(0, most);
  }
  return left === 0 && begun !== "" ? begun : undefined;
}

/** Does a process of that number run, other than this one? */
function isAlive(number) {
  if (number === process.pid) return false;
  try {
    return process.kill(number, 0);
  } catch (error) {
    return error.code === "EPERM";
  }
}

/** Takes away what others left beside a file who were ended while they wrote it. */
function takeAwayLeftovers(place) {
  const folder = path.dirname(place), begun = `${path.basename(place)}.`;
  for (const name of tried(() => fs.readdirSync(folder), [])) {
    const [, number] = name.startsWith(begun) ? /^(\d+)\.new$/.exec(name.slice(begun.length)) ?? [] : [];
    if (number !== undefined && !isAlive(Number(number))) tried(() => fs.rmSync(path.join(folder, name)));
  }
}

/** Makes a file that is on the disk when this returns; owner and mode are those of `old`, where there is one. */
function makeFile(made, text, mode, old) {
  const to = fs.openSync(made, "wx", mode);
  try {
    if (old !== undefined) {
      tried(() => fs.fchownSync(to, old.uid, old.gid));
      fs.fchmodSync(to, old.mode & 0o7777);
    }
    fs.writeFileSync(to, text);
    fs.fsyncSync(to);
  } finally {
    fs.closeSync(to);
  }
}

/** Has the system write down which files a folder has, where it can. */
function syncFolder(folder) {
  const to = tried(() => fs.openSync(folder, "r"));
  if (to === undefined) return;
  tried(() => fs.fsyncSync(to));
  fs.closeSync(to);
}

/**
 * Writes a text into a file, whole or not at all: into another file beside it, which then takes its place. So the old
 * file stands until the new one is on the disk. A symbolic link is followed. `mode` is for a file that is not there
 * yet. Throws what the system says.
 */
function writeWhole(file, text, mode = 0o666) {
  const place = tried(() => fs.realpathSync(file), file), old = fs.statSync(place, { throwIfNoEntry: false });
  if (old !== undefined && !old.isFile()) {
    throw Object.assign(new Error("it is no file"), { code: old.isDirectory() ? "EISDIR" : "ENOTFILE" });
  }
  if (old !== undefined) fs.accessSync(place, fs.constants.W_OK);
  takeAwayLeftovers(place);
  const made = `${place}.${process.pid}.new`;
  try {
    makeFile(made, text, mode, old);
    fs.renameSync(made, place);
  } catch (error) {
    tried(() => fs.rmSync(made, { force: true }));
    throw error;
  }
  syncFolder(path.dirname(place));
}

const NO_VERSION = "is no version: save tells the whole session, save 1 the kept steps; a file of that name is";

/** Why a word names no file to save into: a number is taken for a version. Undefined where it names one. */
const whyNoName = (word) => (/^\d+$/.test(word) ? `${word} ${NO_VERSION} ./${word}` : undefined);

const HEADING = "ghc-history ";

const headOf = (file) => (isFile(file) ? tried(() => beginningOf(file, HEADING.length).toString("latin1"), "") : "");
const isHistory = (file) => headOf(file) === HEADING;

/** Why nothing is saved into a file that is no history. Undefined where it may be saved; of a folder writing tells. */
function whyOtherFile(file) {
  const head = headOf(file);
  const isOther = isEndless(file) || (head !== "" && head !== HEADING);
  return isOther ? `${file} is there and is no history: name another file` : undefined;
}

const FULL = "the disk is full", NOT_ALLOWED = "writing it is not allowed", NO_FOLDER = "its folder is not there";
const NOT_WRITTEN = {
  ENOENT: NO_FOLDER, ENOTDIR: NO_FOLDER, EACCES: NOT_ALLOWED, EPERM: NOT_ALLOWED, EROFS: NOT_ALLOWED,
  EISDIR: "it is a folder", ENOTFILE: "it is no file", ENOSPC: FULL, EDQUOT: FULL, EFBIG: "no file may be so large",
};

/** Why a file was not written, by the error that was thrown. */
const whyNotWritten = (file, error) => `${file}: ${NOT_WRITTEN[error.code] ?? error.message}; nothing was saved`;

export {
  beginningOf, inHome, isEndless, isFile, isHistory, isNoFile, lineOf, tried, whyNoName, whyNotWritten, whyOtherFile, writeWhole,
};
