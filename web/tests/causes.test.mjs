// The page tells why a text was refused by front/text/causes.mjs: on each text of the table the page's own scripts, run as a browser runs them,
// say what the module says.
import assert from "node:assert/strict";
import fs from "node:fs";
import test from "node:test";
import * as Module from "../../front/text/causes.mjs";
import MISTAKES from "../../front/tests/lib/mistakes.mjs";
import { scriptOf, PAGE } from "../../front/session/engine_of_page.mjs";

const SCRIPTS = ["../front/session/worker_side.mjs", "page.mjs"]; // what both need stands in the first
const TEXTS = ["plural", "tokens", "clauses", "habits", "cures", "own_words", "nearest", "reader", "syntax_causes",
  "checker_causes", "causes"];

/** The text of a module as `web/build` put it into the script of a page. */
function moduleIn(script, name) {
  const start = script.indexOf(`// ${name}\n`);
  assert.ok(start >= 0, name);
  return script.slice(start, script.indexOf("\n// ", script.indexOf("\n})();\n", start)));
}

test("the page's scripts say of each mistake what the module says", () => {
  const page = fs.readFileSync(PAGE, "utf8"), script = SCRIPTS.map((name) => scriptOf(page, name)).join("");
  const texts = TEXTS.map((name) => moduleIn(script, `front/text/${name}.mjs`));
  const { Causes } = new Function(`${texts.join("\n")}\nreturn { Causes };`)();
  for (const [what, program, query, said] of MISTAKES) {
    const [, which, refusal] = /^(program|query): (.*)$/.exec(said) ?? [], isQuery = which === "query", text = isQuery ? query : program;
    const tell = (causes) => (which === undefined ? causes.notesOn(program, "program") : [causes.causeOf(refusal, { text, which, isQuery, program })]).flatMap((cause) => causes.linesOf(cause, text));
    assert.deepEqual(tell(Causes), tell(Module), what);
    assert.ok(tell(Causes).length > 0, what);
  }
  assert.ok(MISTAKES.length >= 66);
});
