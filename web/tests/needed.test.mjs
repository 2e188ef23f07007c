// Tests of web/test itself: without Node, or without a browser that cannot be installed, it fails and says so.
import assert from "node:assert/strict";
import fs from "node:fs";
import os from "node:os";
import path from "node:path";
import test from "node:test";
import { execFileSync, spawnSync } from "node:child_process";
import { fileURLToPath } from "node:url";

const HERE = path.dirname(fileURLToPath(import.meta.url));

const TEST = path.join(HERE, "..", "test");
const TOOLS = ["bash", "env", "dirname", "sed", "tail", "grep", "sort", "timeout", "chmod"];

const placeOf = (tool) => execFileSync("bash", ["-c", `command -v ${tool}`], { encoding: "utf8" }).trim();

/**
 * Runs web/test where the tools above and some scripts are all programs.
 * Gives its status, its lines, and what apt-get was asked.
 */
function run(scripts) {
  const folder = fs.mkdtempSync(path.join(os.tmpdir(), "ghcdb-needed-")), log = path.join(folder, "asked");
  for (const tool of TOOLS) fs.symlinkSync(placeOf(tool), path.join(folder, tool));
  for (const [name, text] of Object.entries(scripts)) {
    fs.writeFileSync(path.join(folder, name), `#!/usr/bin/env bash\n${text}\n`, { mode: 0o755 });
  }
  const how = { encoding: "utf8", env: { PATH: folder, FOLDER: folder } };
  const { status, stdout } = spawnSync(path.join(folder, "bash"), [TEST], how);
  const asked = fs.existsSync(log) ? fs.readFileSync(log, "utf8").split("\n").filter(Boolean) : [];
  fs.rmSync(folder, { recursive: true });
  return { status, lines: stdout.split("\n").filter(Boolean), asked };
}

const NODE = 'if [ "$1" = rows.mjs ]; then echo "1 passed, 0 failed"; else echo "# pass 1"; fi';
const CHROMIUM = 'printf "#!/usr/bin/env bash\\n" > "$FOLDER/chromium"; chmod +x "$FOLDER/chromium"';
const CASES = `case "$*" in *install*chromium) ${CHROMIUM};; *firefox*) exit 100;; esac`;
const INSTALLS = `echo "$*" >> "$FOLDER/asked"\n${CASES}`, INSTALL = "install -y --no-install-recommends";
const NO_NODE = "web/test: there is no Node here, so nothing of the page was tried";
const NOT_TRIED = "and it could not be installed: the page was not tried in it";
const noBrowser = (name) => `web/test: there is no ${name} here, ${NOT_TRIED}`;

test("without Node web/test fails", () => {
  assert.deepEqual(run({}), { status: 1, lines: [NO_NODE, "0 passed, 1 failed"], asked: [] });
});

test("a browser that is missing is installed by root; one that cannot be is told and counts as failed", () => {
  const { status, lines, asked } = run({ node: NODE, id: "echo 0", "apt-get": INSTALLS });
  assert.deepEqual([status, lines[0], lines.length], [1, noBrowser("firefox-esr"), 2]);
  assert.match(lines[1], /^\d+ passed, 1 failed$/);
  assert.deepEqual(asked, ["update", `${INSTALL} chromium`, "update", `${INSTALL} firefox-esr`]);
});

test("who is not root installs nothing; with both browsers nothing is installed, and all is tried", () => {
  const { status, lines, asked } = run({ node: NODE, id: "echo 1000", "apt-get": INSTALLS });
  assert.deepEqual([status, lines.slice(0, 2), asked], [1, ["chromium", "firefox-esr"].map(noBrowser), []]);
  const whole = run({ node: NODE, id: "echo 0", "apt-get": INSTALLS, "google-chrome": "true", firefox: "true" });
  assert.deepEqual([whole.status, whole.lines.length, whole.asked], [0, 1, []]);
  assert.match(whole.lines[0], /^\d+ passed, 0 failed$/);
});
