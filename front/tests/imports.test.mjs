// Which module imports which: each all that it names, an arrow goes down only, none goes in a circle, and no product imports a test.
import assert from "node:assert";
import fs from "node:fs";
import path from "node:path";
import test from "node:test";
import { fileURLToPath } from "node:url";

const ROOT = fileURLToPath(new URL("../../", import.meta.url));
const LAYERS = ["front/text", "front/protocol", "front/run", "front/session", "terminal", "editors", "web", "packaging"]; // the three before the last stand side by side
const VIEWS = LAYERS.slice(4, 7);

const filesBelow = (folder) => fs.readdirSync(path.join(ROOT, folder), { withFileTypes: true }).flatMap((entry) => {
  const name = path.posix.join(folder, entry.name);
  return entry.isDirectory() ? filesBelow(name) : [name];
});
const files = ["front", ...VIEWS, "packaging"].flatMap(filesBelow).filter((name) => name.endsWith(".mjs"));

/** The modules that a module imports, but for those of Node. */
function importsOf(file) {
  const text = fs.readFileSync(path.join(ROOT, file), "utf8");
  return [...text.matchAll(/(?:^|[\s(])(?:from|import\(?) *"(\.[^"]+)"/g)].map(([, name]) => path.posix.join(path.posix.dirname(file), name));
}

/** What a module says besides its comments and texts. */
const codeOf = (file) => fs.readFileSync(path.join(ROOT, file), "utf8").replace(/\/\/.*|\/\*[^]*?\*\/|"(?:[^"\\\n]|\\.)*"/g, "");

const arrows = new Map(files.map((file) => [file, importsOf(file)]));
const isTest = (file) => file.includes("/tests/");
const layerOf = (file) => LAYERS.findIndex((layer) => file.startsWith(`${layer}/`));
const products = files.filter((file) => !isTest(file));

test("each import names a module that is there", () => {
  assert.ok(files.length > 100);
  for (const [file, others] of arrows) for (const other of others) assert.ok(arrows.has(other), `${file} imports ${other}`);
});

test("each module imports the modules that it names", () => {
  const exported = (code) => /^export default (\w+);/m.exec(code)?.[1];
  const wholes = (file) => [...codeOf(file).matchAll(/^import (?:\* as )?([A-Z]\w*) from/gm)].map(([, name]) => name);
  const names = new Set(products.flatMap((file) => [exported(codeOf(file)), ...wholes(file)]).filter(Boolean));
  assert.ok(names.size > 50);
  for (const file of products) {
    const code = codeOf(file), known = new Set([...code.matchAll(/^import (?:\* as )?(\w+)|\b(?:const|class) (\w+)/gm)].map(([, imported, own]) => imported ?? own));
    const lacking = [...code.matchAll(/(?<!\w|[\w)\]]\.)([A-Z]\w+)\.\w/g)].map(([, name]) => name).filter((name) => names.has(name) && !known.has(name));
    assert.deepStrictEqual(lacking, [], file);
  }
});

test("no product imports a test", () => {
  assert.deepStrictEqual(products.flatMap((file) => arrows.get(file).filter(isTest).map((other) => `${file} imports ${other}`)), []);
});

test("an arrow goes down, and no view knows another", () => {
  const isLawful = (file, other) => layerOf(other) <= layerOf(file) && (!VIEWS.includes(LAYERS[layerOf(other)]) || layerOf(other) === layerOf(file) || file.startsWith("packaging/"));
  assert.deepStrictEqual(products.flatMap((file) => arrows.get(file).filter((other) => !isLawful(file, other)).map((other) => `${file} imports ${other}`)), []);
});

test("of the page's views none knows another: page.mjs alone knows them", () => {
  const common = ["deeds", "elements", "example_notes", "links", "on_screen", "pausing", "shown", "state", "talk", "walking"].map((name) => `web/${name}.mjs`);
  const page = "web/page.mjs", views = arrows.get(page).filter((file) => file.startsWith("web/") && !common.includes(file));
  assert.ok(views.length > 15);
  assert.deepStrictEqual(products.filter((file) => file !== page).flatMap((file) => arrows.get(file).filter((other) => views.includes(other)).map((other) => `${file} imports ${other}`)), []);
});

test("no modules go in a circle", () => {
  const seen = new Set();
  const visit = (file, way) => {
    assert.ok(!way.includes(file), [...way.slice(way.indexOf(file)), file].join(" imports "));
    if (seen.has(file)) return;
    for (const other of arrows.get(file)) visit(other, [...way, file]);
    seen.add(file);
  };
  for (const file of files) visit(file, []);
});
