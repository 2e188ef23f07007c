// Where memory is refused for the line behind a reply, by which its end is seen, another one is sent; where that is
// refused, too, the program is ended. The program here is a stand-in that refuses as it is told.
import assert from "node:assert";
import fs from "node:fs";
import os from "node:os";
import path from "node:path";
import test from "node:test";
import * as Program from "../../front/session/program.mjs";

const folder = fs.mkdtempSync(path.join(os.tmpdir(), "ghcdb-test-")), LIMIT = { timeout: 20_000 };
test.after(() => fs.rmSync(folder, { recursive: true }));

/** A program that refuses memory for so many lines after the first one. */
function refusing(count) {
  const place = path.join(folder, `refuses_${count}`);
  fs.writeFileSync(place, `#!/usr/bin/env node
    let left = ${count}, lines = 0;
    const told = { show: "F23 no variable", why: "F16 not a kept step" };
    require("node:readline").createInterface({ input: process.stdin }).on("line", (line) => {
      lines += 1;
      if (lines > 1 && left-- > 0) return console.log("F1 no memory");
      return console.log(told[line.split(" ")[0]] ?? "a reply");
    });\n`);
  fs.chmodSync(place, 0o755);
  return Program.open(["p.ghc", "--query", "true"], place);
}

test("one refusal of the mark is no line of the reply", LIMIT, async () => {
  const program = refusing(1);
  assert.deepStrictEqual(await program.ask("goals"), ["a reply"]);
  assert.deepStrictEqual(await program.ask("goals"), ["a reply"]);
  await program.kill();
});

test("two refusals end the program", LIMIT, async () => {
  await assert.rejects(refusing(2).ask("goals"), Program.Ended);
});
