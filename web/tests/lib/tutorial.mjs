// The sessions of docs/TUTORIAL.md: what is typed there, and what is told. For tests that compare the page with them.
import fs from "node:fs";
import path from "node:path";
import { fileURLToPath } from "node:url";

const HERE = path.dirname(fileURLToPath(import.meta.url));

const TUTORIAL = path.join(HERE, "..", "..", "..", "docs", "TUTORIAL.md");

/** The lines of a block, each with its reply. */
function entriesOf(block) {
  const entries = [];
  for (const line of block.split("\n")) {
    if (line.startsWith("> ")) entries.push({ line: line.slice(2), reply: [] });
    else if (entries.length > 0 && line !== "") entries[entries.length - 1].reply.push(line);
  }
  return entries;
}

/** The page's sessions, in order: one that begins with a program, or goes on from the first run, has what follows as `continued` in it. */
function tutorialSessions() {
  const blocks = fs.readFileSync(TUTORIAL, "utf8").split(/^```$/m).filter((text, index) => index % 2 === 1).map((text) => text.slice(1));
  const sessions = [];
  for (const block of blocks) {
    if (block.startsWith("continued")) sessions[sessions.length - 1].push(...entriesOf(block));
    else if (block.startsWith("after the first run")) sessions.push([...entriesOf(blocks[0]).slice(0, -1), ...entriesOf(block)]);
    else if (block.startsWith("program")) sessions.push(entriesOf(block));
  }
  return sessions;
}

export { tutorialSessions };
