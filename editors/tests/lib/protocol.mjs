// Holds messages of the adapter against the types of the Debug Adapter Protocol, as Debian's node-vscode-debugprotocol has them, by its
// node-typescript.
import fs from "node:fs";
import os from "node:os";
import path from "node:path";
import { spawnSync } from "node:child_process";

const TYPES = ["/usr/share/nodejs/@vscode/debugprotocol/lib/debugProtocol", "/usr/share/nodejs/vscode-debugprotocol/lib/debugProtocol"].find((file) => fs.existsSync(`${file}.d.ts`));
const MOST = 40; // messages of a kind
const isThere = TYPES !== undefined && spawnSync("tsc", ["--version"]).status === 0;

const capital = (name) => name[0].toUpperCase() + name.slice(1);
const typeOf = ({ type, event, success, command }) => (type === "event" ? `${capital(event)}Event` : success ? `${capital(command)}Response` : "ErrorResponse");

/** What is wrong with the types of messages, as the compiler tells it; and how many were held against them. Own requests have no type. */
function wrongTypes(messages) {
  const known = fs.readFileSync(`${TYPES}.d.ts`, "utf8"), counts = new Map(), lines = [`import { DebugProtocol } from "${TYPES}";`];
  for (const message of messages) {
    const type = typeOf(message), count = counts.get(type) ?? 0;
    if (count === MOST || !known.includes(`interface ${type} `)) continue;
    counts.set(type, count + 1);
    lines.push(`export const m${lines.length}: DebugProtocol.${type} = ${JSON.stringify(message)};`);
  }
  const file = path.join(fs.mkdtempSync(path.join(os.tmpdir(), "ghcdb-test-")), "messages.ts");
  fs.writeFileSync(file, `${lines.join("\n")}\n`);
  return { told: spawnSync("tsc", ["--noEmit", "--strict", "--skipLibCheck", file], { encoding: "utf8" }).stdout, count: lines.length - 1, kinds: counts.size };
}

export { isThere, wrongTypes };
