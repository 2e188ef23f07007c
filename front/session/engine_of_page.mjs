// The engine that stands in web/ghcdb.html, for Node: the module that the page carries, and what it says of it. A release
// has packaging/engine_of_release.mjs in its place, for there is no page beside it.
import fs from "node:fs";
import path from "node:path";
import { fileURLToPath } from "node:url";
import zlib from "node:zlib";
import Engine from "./engine.mjs";

const HERE = path.dirname(fileURLToPath(import.meta.url));

const PAGE = path.join(HERE, "..", "..", "web", "ghcdb.html");
const THREAD = path.join(HERE, "engine_thread.mjs"); // the script of the thread in which an engine runs

// The text of a script that `web/build` put into a page.
function scriptOf(page, name) {
  const open = `<script data-file="${name}">\n`;
  const start = page.indexOf(open);
  if (start < 0) throw new Error(`the page has no script ${name}`);
  return page.slice(start + open.length, page.indexOf("</script>", start));
}

/** What a script of the page says of a constant: `const NAME = VALUE;`, where the value is JSON. */
const constantIn = (script) => JSON.parse(script.slice(script.indexOf("=") + 1, script.lastIndexOf(";")));

const pageText = () => fs.readFileSync(PAGE, "utf8");

/** The bytes of the module that web/ghcdb.html carries. */
const moduleOfPage = () => zlib.inflateSync(Buffer.from(constantIn(scriptOf(pageText(), "module.js")), "base64"));

/** The engine, and with what it was made. */
async function engineOfPage() {
  return { engine: await Engine.load(moduleOfPage()), madeWith: constantIn(scriptOf(pageText(), "made_with.js")) };
}

export { engineOfPage, moduleOfPage, scriptOf, PAGE, THREAD };
