// Sessions that were not saved when their terminal was closed: each is left as a history in the home folder, and told
// at the next start. Beside a history stands a file that says of which program and query it is.
import fs from "node:fs";
import path from "node:path";
import { inHome, tried, writeWhole } from "../front/session/files.mjs";

const BEGINNING = inHome(".ghcdb_unsaved.");
const MOST = 64; // sessions that are kept so: the oldest goes once a further one is on the disk
const OWN = 0o600; // nobody else may read them

const aboutOf = (place) => `${place}.of`;

/** The histories that were left, the oldest one first. */
function places() {
  const folder = path.dirname(BEGINNING), begun = path.basename(BEGINNING);
  const isOne = (name) => name.startsWith(begun) && /^\d+$/.test(name.slice(begun.length));
  const all = tried(() => fs.readdirSync(folder), []).filter(isOne).map((name) => path.join(folder, name));
  const times = new Map(all.map((place) => [place, tried(() => fs.statSync(place).mtimeMs, 0)]));
  return all.sort((one, other) => times.get(one) - times.get(other));
}

function forget(place) {
  for (const file of [place, aboutOf(place)]) tried(() => fs.rmSync(file, { force: true }));
}

/** A place that nobody else takes. */
function freePlace() {
  for (let number = 1; ; number += 1) {
    try {
      fs.closeSync(fs.openSync(`${BEGINNING}${number}`, "wx", OWN));
      return `${BEGINNING}${number}`;
    } catch (error) {
      if (error.code !== "EEXIST") throw error;
    }
  }
}

/**
 * Leaves the history of a program's file and a query. Where it stands now; undefined where none can be written.
 * @param {import("../front/types").WordsRead} words
 * @param {string} history
 */
function leave({ file, query }, history) {
  let place;
  try {
    place = freePlace();
    writeWhole(place, history, OWN);
    writeWhole(aboutOf(place), JSON.stringify({ file: path.resolve(file), query }), OWN);
    places().slice(0, -MOST).forEach(forget);
    return place;
  } catch {
    if (place !== undefined) forget(place);
    return undefined;
  }
}

/** The sessions that were left, but for the one that is loaded: where each stands, of which file and query it is. */
function left(loaded = "") {
  const told = places().filter((place) => place !== path.resolve(loaded));
  const abouts = told.map((place) => ({ place, ...tried(() => JSON.parse(fs.readFileSync(aboutOf(place), "utf8"))) }));
  return abouts.filter(({ file }) => file !== undefined);
}

/** Is a file one of the histories that were left? */
const isLeft = (file) => file !== undefined && places().includes(path.resolve(file));

export { forget, isLeft, leave, left };
