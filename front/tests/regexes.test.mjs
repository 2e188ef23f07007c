// Every regular expression of the fronts meets texts of a million letters. One that takes the square of their length
// would need minutes for each, one that takes their length some milliseconds.
import assert from "node:assert";
import { execFileSync } from "node:child_process";
import fs from "node:fs";
import test from "node:test";
import { Worker, isMainThread, parentPort, workerData } from "node:worker_threads";
import { fileURLToPath } from "node:url";
import { regexesIn } from "./lib/regexes.mjs";

const ROOT = new URL("../../", import.meta.url), LATE = 60_000; // milliseconds for all texts of an expression
const FOLDERS = ["front", "terminal", "web", "editors", "packaging"];
const UNITS = [" ", "\t", "\n", "a", "A", "1", "(", ")", ",", "{", "\"", "'", ".", "_", "- ", "a,", "a\n", "%"];
const ABOUT = [["", ""], ["", "b"], ["", "\n!"], ["% Query: p(1)", "b"], ["p(", " )x"]];
const LETTERS = 1_000_000;

/** The files of JavaScript that are no tests. */
function filesHere() {
  const listed = execFileSync("git", ["ls-files", "--", ...FOLDERS], { cwd: ROOT }).toString().split("\n");
  const isOurs = (file) => /\.(mjs|js)$/.test(file) && !file.includes("/tests/") && fs.existsSync(new URL(file, ROOT));
  return listed.filter(isOurs);
}

/** The expressions that repeat something, each once, with the places where they stand. */
function repeating() {
  const places = new Map();
  for (const file of filesHere()) {
    for (const { source, flags, line } of regexesIn(fs.readFileSync(new URL(file, ROOT), "utf8"))) {
      const name = `/${source}/${flags}`;
      if (!/[*+]|\{\d+,\}/.test(source)) continue;
      if (!places.has(name)) places.set(name, { source, flags, at: [] });
      places.get(name).at.push(`${file}:${line}`);
    }
  }
  return [...places.values()];
}

/** In a thread of its own, which can be ended: meets the texts with each expression, and tells when it begins with one. */
function meetAll(all) {
  const texts = UNITS.flatMap((unit) => {
    const long = unit.repeat(LETTERS / unit.length);
    return ABOUT.map(([before, after]) => Buffer.from(before + long + after, "latin1").toString("latin1"));
  });
  all.forEach(({ source, flags }, index) => {
    parentPort.postMessage(index);
    texts.forEach((text) => new RegExp(source, flags).exec(text));
  });
  parentPort.postMessage(all.length);
}

/** The places of those that did not come to their end. */
async function slowAmong(all) {
  const slow = [];
  for (let first = 0; first < all.length;) {
    const worker = new Worker(fileURLToPath(import.meta.url), { workerData: all.slice(first) });
    const reached = await new Promise((resolve, reject) => {
      let late, last = 0;
      worker.on("error", reject);
      worker.on("message", (index) => {
        clearTimeout(late);
        last = index;
        if (first + index === all.length) resolve(last);
        else late = setTimeout(() => resolve(last), LATE);
      });
    });
    await worker.terminate();
    if (first + reached < all.length) slow.push(all[first + reached].at.join(" "));
    first += reached + 1;
  }
  return slow;
}

if (isMainThread) {
  test("a regular expression is found between divisions, strings and templates", () => {
    const text = "const a = b / c / d; // /no/\nx(/[/]\\//g, `${y / z} /no/`, '/no/', \"/no/\");\nreturn /e+/.test(f);";
    assert.deepStrictEqual(regexesIn(text), [{ source: "[/]\\/", flags: "g", line: 2 }, { source: "e+", flags: "", line: 3 }]);
  });

  test("each regular expression takes time of the length of its text", async () => {
    const all = repeating();
    assert.ok(all.length > 80, `${all.length} were found`);
    assert.deepStrictEqual(await slowAmong(all), []);
  });
} else meetAll(workerData);
