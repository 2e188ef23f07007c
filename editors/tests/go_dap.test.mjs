// The adapter's sessions by go-dap, the client that Debian has for Go, as they were recorded.
import assert from "node:assert";
import fs from "node:fs";
import path from "node:path";
import test from "node:test";
import { execFileSync } from "node:child_process";
import { fileURLToPath } from "node:url";
import { GO_PATH, lacksInGo } from "./lib/there.mjs";

const ROOT = path.join(path.dirname(fileURLToPath(import.meta.url)), "..", "..");
const skip = lacksInGo("github.com/google/go-dap");

test("go-dap reads all messages, and its sessions are as they were recorded", { skip, timeout: 600000 }, () => {
  const folder = path.join(ROOT, "editors", "go-dap");
  const files = ["client.go", "try.go"].map((name) => path.join(folder, name));
  const env = { ...process.env, GO111MODULE: "off", GOPATH: GO_PATH };
  const told = execFileSync("go", ["run", ...files], { encoding: "utf8", cwd: ROOT, env });
  assert.strictEqual(told, fs.readFileSync(path.join(folder, "session.txt"), "utf8"));
});
