// Files of the terminal: a history is written whole or not at all; what is no file is not read or written without end.
import assert from "node:assert";
import fs from "node:fs";
import os from "node:os";
import path from "node:path";
import test from "node:test";
import { execFileSync, spawn, spawnSync } from "node:child_process";
import { fileURLToPath } from "node:url";
import * as Program from "../../front/session/program.mjs";
import { beginningOf, lineOf, writeWhole } from "../../front/session/files.mjs";
import { Session } from "../../front/session/session.mjs";

const HERE = path.dirname(fileURLToPath(import.meta.url));

const BILL = path.join(HERE, "..", "..", "examples", "bill.ghc");
process.env.GHCDB = "page"; // where a test names no other
const AT_MOST = { timeout: 300_000 };
const folder = fs.mkdtempSync(path.join(os.tmpdir(), "ghcdb-test-"));
const place = (name) => path.join(folder, name);
const read = (file) => fs.readFileSync(file, "utf8");
test.after(() => fs.rmSync(folder, { recursive: true }));

const pipe = (name) => {
  execFileSync("mkfifo", [place(name)]);
  return place(name);
};

/** Runs a script in another process, where `limits` hold. */
function run(limits, script, ...given) {
  const command = [process.execPath, "-e", script, ...given];
  return spawnSync("sh", ["-c", `${limits} exec "$@"`, "sh", ...command], { encoding: "utf8" });
}

const SESSIONS = path.join(HERE, "..", "..", "front", "session");

const SAVES = `
  import { Session } from ${JSON.stringify(path.join(SESSIONS, "session.mjs"))};
  const session = new Session([${JSON.stringify(BILL)}, "--query", "bill(12,3,T)"], undefined);
  session.begin().then(() => session.ask("leap")).then(() => session.save(process.argv[1])).then(() => 0, (error) => {
    process.stdout.write(error.code);
    return 1;
  }).then((status) => process.exit(status));
`;

const WRITES = `
  import { writeWhole } from ${JSON.stringify(path.join(SESSIONS, "files.mjs"))};
  for (let turn = 0; ; turn += 1) {
    writeWhole(process.argv[1], String(turn % 10).repeat(300_000));
    if (turn === 0) process.stdout.write("begun");
  }
`;

test("where a file may not grow, the older history stands", AT_MOST, () => {
  const file = place("older.history");
  fs.writeFileSync(file, "ghc-history 1\nsteps 0\nend 1\n".padEnd(2000, "\n"));
  const before = read(file), { status, stdout } = run("ulimit -f 0;", SAVES, file);
  assert.deepStrictEqual([status, stdout, read(file)], [1, "EFBIG", before]);
  assert.deepStrictEqual(fs.readdirSync(folder).filter((name) => name.endsWith(".new")), []);
  assert.deepStrictEqual([run("", SAVES, file).status, read(file).split("\n")[0]], [0, "ghc-history 2"]);
});

test("whenever a process is killed, one of its texts is there whole", AT_MOST, async () => {
  const file = place("killed");
  for (let turn = 0; turn < 5; turn += 1) {
    const child = spawn(process.execPath, ["-e", WRITES, file], { stdio: ["ignore", "pipe", "inherit"] });
    await new Promise((resolve) => { child.stdout.once("data", resolve); });
    await new Promise((resolve) => { setTimeout(resolve, turn * 7); });
    child.kill("SIGKILL");
    await new Promise((resolve) => { child.on("close", resolve); });
    assert.match(read(file), /^(\d)\1{299999}$/);
  }
  fs.writeFileSync(`${file}.${process.pid}.new`, "left by one of the same number");
  fs.writeFileSync(`${file}.1.new`, "still being written by a process that runs");
  writeWhole(file, "whole");
  const beside = fs.readdirSync(folder).filter((name) => name.startsWith("killed."));
  assert.deepStrictEqual([read(file), beside], ["whole", ["killed.1.new"]]);
});

test("a link is followed, and the mode is kept", AT_MOST, () => {
  const file = place("linked"), link = place("link");
  fs.writeFileSync(file, "old");
  fs.chmodSync(file, 0o640);
  fs.symlinkSync(file, link);
  writeWhole(link, "new");
  assert.ok(fs.lstatSync(link).isSymbolicLink());
  assert.deepStrictEqual([read(file), fs.statSync(file).mode & 0o777], ["new", 0o640]);
});

test("nothing is written to what is no file", AT_MOST, () => {
  for (const file of [pipe("pipe"), "/dev/full", "/dev/zero"]) {
    assert.throws(() => writeWhole(file, "text"), { code: "ENOTFILE" }, file);
  }
  assert.throws(() => writeWhole(folder, "text"), { code: "EISDIR" });
});

test("a line is found, wherever the pieces of a file end", AT_MOST, () => {
  const file = place("lines"), long = "x".repeat(70_000);
  fs.writeFileSync(file, `a\n\n${long}\nlast`);
  assert.deepStrictEqual([1, 2, 4, 5].map((number) => lineOf(file, number, 9)), ["a", "", "last", undefined]);
  assert.deepStrictEqual([lineOf(file, 3, 100_000).length, lineOf(file, 3, 9)], [70_000, "xxxxxxxxx"]);
  fs.appendFileSync(file, "\n");
  assert.deepStrictEqual([lineOf(file, 4, 9), lineOf(file, 5, 9)], ["last", undefined]);
});

test("a program is read no further than to its limit", AT_MOST, async () => {
  assert.strictEqual(beginningOf("/dev/zero", 1_048_577).length, 1_048_577);
  const session = new Session(["/dev/zero", "--query", "true"], undefined);
  await assert.rejects(session.begin(), { errors: "program: F6 limit: text\n", status: 1 });
});

test("a program from a pipe is read once", AT_MOST, async () => {
  for (const native of [undefined, path.join(HERE, "lib", "faulty_ghcdb")]) {
    const file = pipe(`program.${native === undefined}`);
    const session = new Session([file, "--query", "bill(12,3,T)"], native);
    process.env.FAULTS = place("none");
    fs.writeFileSync(process.env.FAULTS, "{}");
    spawn("cp", [BILL, file]);
    await session.begin();
    assert.deepStrictEqual([session.text, (await session.ask("leap")).at(-1)], [read(BILL), "stopped quiet"]);
    await session.end();
  }
});

// A program that tells how long the files are that its third and first word name, and ends with status 9 at the next
// line.
const COUNTS = `#!/bin/sh
read -r line
wc -c < "$3"
wc -c < "$1"
read -r line
printf "F23 no variable\\n"
read -r line
exit 9
`;

test("texts are handed over, however long they are", AT_MOST, async () => {
  const shows = place("shows");
  fs.writeFileSync(shows, COUNTS, { mode: 0o755 });
  const { HANDED } = Program, texts = new Map();
  texts.set(HANDED.program, Buffer.alloc(1_000_000, 65)).set(HANDED.history, Buffer.alloc(300_000, 66));
  const session = Program.open([HANDED.history, "--load", HANDED.program], shows, texts);
  assert.deepStrictEqual((await session.ask("count")).map(Number), [1_000_000, 300_000]);
  await assert.rejects(session.ask("end"), { status: 9 });
});
