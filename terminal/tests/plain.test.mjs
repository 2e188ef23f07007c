// Nothing from a file, its name or a typed line steers the terminal: no line that is shown has a control, or turns the
// direction of a text.
import assert from "node:assert";
import fs from "node:fs";
import os from "node:os";
import path from "node:path";
import test from "node:test";

const home = fs.mkdtempSync(path.join(os.tmpdir(), "ghcdb-test-"));
process.env.HOME = home; // before the modules look for what was left there
const { Front } = await import("../front.mjs");

const STEERING = /[\u0000-\u0009\u000b-\u001f\u007f-\u009f\u200e\u200f\u202a-\u202e\u2066-\u2069]/;
const BAD = ["\x1b]0;title\x07", "\x1b[2J", "\x9b31m", "\r", "\b", "\x7f", "\t", "\x00", "\u0085", "\u202e", "\u2066"];
const PLAIN = ["a", "B", "1", " ", "(", ")", "%", ".", ",", "'", "é"];
const CASES = 16;

test.after(() => fs.rmSync(home, { recursive: true }));

/** Numbers below a bound that are the same at each run. */
function numbers(seed) {
  let state = seed;
  return (bound) => {
    state = (Math.imul(state, 1_103_515_245) + 12_345) & 0x7fffffff;
    return (state >> 8) % bound;
  };
}

function textFrom(next) {
  const letters = Array.from({ length: 1 + next(6) }, () => PLAIN[next(PLAIN.length)]);
  letters.splice(next(letters.length), 0, BAD[next(BAD.length)], BAD[next(BAD.length)]);
  return letters.join("");
}

/** Bytes of a text; letters below 256 may stand as single bytes, which are no UTF-8 then. */
const bytesFrom = (text, next) => Buffer.from(text, next(2) === 0 && !/[\u0100-\uffff]/.test(text) ? "latin1" : "utf8");

async function shownBy(words, typed) {
  const shown = [], show = (line) => shown.push(line);
  const front = new Front({ words, native: undefined, out: show, errors: show });
  await front.begin();
  for (const line of typed) if (!front.hasEnded) await front.answer(line);
  if (!front.hasEnded) await front.session.program.kill();
  return shown;
}

function file(name, ...parts) {
  fs.writeFileSync(path.join(home, name), Buffer.concat(parts.map((part) => Buffer.from(part))));
  return path.join(home, name);
}

/** Sessions with texts of somebody else: a program, its name, a history, what was left, and lines that name them. */
async function tryOne(seed) {
  const next = numbers(seed), text = () => textFrom(next), bytes = () => bytesFrom(text(), next);
  const word = () => text().replaceAll("\0", ""), name = word(), mark = next(2) === 0 ? "" : "\n%";
  const program = file("p.ghc", "p(X) :- true |", mark, bytes(), "\nX = a.\nq(Yy) :- true | true.\n");
  const history = file("h", "ghc-history 1\nsteps 1\n", bytes(), "\nend 2\n");
  file(".ghcdb_unsaved.1", "ghc-history 1\nsteps 0\nend 1\n");
  file(".ghcdb_unsaved.1.of", JSON.stringify({ file: text(), query: text() }));
  const named = ["list", "help", "holders", `save ${home}/none/`, "ask"].map((line) => `${line} ${name}`);
  return [
    ...await shownBy([program, "--query", "p(X)"], ["list", ...named, name, "leap"]),
    ...await shownBy([program, "--query", `p(X${word()})`], []),
    ...await shownBy([program, "--query", "p(X)", "--load", history], []),
    ...await shownBy([name, "--query", "true"], []),
  ];
}

test("whatever files and lines hold, what is shown is plain", { timeout: 300_000 }, async () => {
  for (let seed = 1; seed <= CASES; seed += 1) {
    const shown = await tryOne(seed);
    assert.ok(shown.some((line) => line.startsWith("% ")), `seed ${seed}`);
    for (const line of shown) assert.doesNotMatch(line, STEERING, `seed ${seed}`);
  }
});

test("a sign stands in place of what would steer", async () => {
  const program = file("title.ghc", "p(X) :- true |% \x1b]0;PWNED\x07\nX = a.\n");
  const shown = await shownBy([program, "--query", "p(X)"], ["list"]);
  assert.strictEqual(shown.at(-1), "% 1 (line 1) p(X) :- true |% \ufffd]0;PWNED\ufffd X = a.");
});
