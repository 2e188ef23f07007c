// The extension for VS Code as it is packed, the colours of Vim, and the recorded sessions of Emacs and Neovim.
import assert from "node:assert";
import fs from "node:fs";
import os from "node:os";
import path from "node:path";
import test from "node:test";
import { execFileSync, spawnSync } from "node:child_process";
import { fileURLToPath } from "node:url";
import { Client } from "./lib/client.mjs";
import { activated } from "./lib/stand_in.mjs";
import { lacks, lacksInEmacs } from "./lib/there.mjs";
import { zip } from "../vscode/archive.mjs";
import { packedFiles, vsixFiles } from "../vscode/packing.mjs";

const HERE = path.dirname(fileURLToPath(import.meta.url));

const ROOT = path.join(HERE, "..", "..");
const room = () => fs.mkdtempSync(path.join(os.tmpdir(), "ghcdb-test-"));

/** Writes the files of the packed extension into a folder. */
function unpacked() {
  const folder = room();
  for (const [name, bytes] of packedFiles()) {
    fs.mkdirSync(path.dirname(path.join(folder, name)), { recursive: true });
    fs.writeFileSync(path.join(folder, name), bytes);
  }
  return folder;
}

test.afterEach(Client.endAll);

test("the packed extension starts its own adapter, and debugs with nothing but itself", { timeout: 60000 }, async () => {
  const folder = unpacked(), { started, completed, end } = await activated(path.join(folder, "extension.js"));
  assert.strictEqual(started.program, process.execPath);
  assert.ok(started.words[0].startsWith(folder), "the adapter is not the packed one");
  const client = new Client({ adapter: started.words[0], env: { ...started.options.env, PATH: "", GHCDB: "" }, cwd: folder });
  await client.begin(path.join(ROOT, "examples", "bill.ghc"), { ...completed, program: path.join(ROOT, "examples", "bill.ghc"), stopOnEntry: false });
  assert.strictEqual(await client.type("T"), "150");
  assert.match((await client.go("stepBack")).text, /^undone/);
  await client.end();
  end();
});

test("the packed extension tells what is wrong with a program, and what stands in it", { timeout: 60000 }, async () => {
  const text = "p(X) :- true | q(X).\nr(X) :- p(X).\n", folder = unpacked(), { editor, end } = await activated(path.join(folder, "extension.js"), [text]);
  const [document] = editor.documents, [wrong] = await editor.told(document.uri);
  assert.deepStrictEqual([wrong.range, wrong.severity, wrong.code, wrong.source], [[0, 15, 0, 16], 0, "F5", "ghcdb"]);
  const symbols = await editor.providers.DocumentSymbol.provideDocumentSymbols(document);
  assert.deepStrictEqual(symbols.map(({ name, kind, children }) => [name, kind, children.map((child) => child.name)]), [["p/1", 11, ["p(X)"]], ["r/1", 11, ["r(X)"]]]);
  const there = { line: 1, character: 8 }, { uri, range } = await editor.providers.Definition.provideDefinition(document, there);
  assert.deepStrictEqual([String(uri), range], [String(document.uri), [0, 0, 0, 1]]);
  const { contents } = await editor.providers.Hover.provideHover(document, there);
  assert.strictEqual(contents.value, "```fghc\n% clause 1\np(X) :- true | q(X).\n```");
  editor.type(document, `${text}q(_) :- true | true.\n`);
  assert.deepStrictEqual(await editor.told(document.uri), []);
  end();
});

test("when the language server ends, what it told goes, and the editor says so once", { timeout: 60000 }, async () => {
  const { editor, end } = await activated(path.join(unpacked(), "extension.js"), ["p(X) :- true | q(X).\n"]);
  const [document] = editor.documents, { Hover: server } = editor.providers;
  assert.strictEqual((await editor.told(document.uri)).length, 1);
  server.child.kill();
  assert.deepStrictEqual(await editor.told(document.uri), []);
  editor.type(document, "p(1).\n");
  assert.strictEqual(await server.provideHover(document, { line: 0, character: 0 }), undefined);
  const words = "Flat GHC: the language server has ended. `Developer: Reload Window` starts it again.";
  assert.deepStrictEqual(editor.warnings, [words]);
  end();
});

// What VS Code's documentation of package.json asks for, of the parts that are here: each with a test of its value.
const isText = (value) => typeof value === "string" && value !== "";
const isFile = (value) => isText(value) && value.startsWith("./") && fs.existsSync(path.join(ROOT, "editors", "vscode", value));
const isList = (of) => (value) => Array.isArray(value) && value.length > 0 && value.every(of);
const KNOWN_CATEGORIES = ["Debuggers", "Programming Languages"];
const TYPES = ["string", "number", "boolean"];

const typesOf = (value) => [value.type].flat();
const isProperty = (value) => typesOf(value).every((type) => TYPES.includes(type)) && isText(value.description) && (value.default === undefined || typesOf(value).includes(typeof value.default));
const isAttributes = (value) => Object.keys(value).join() === "launch" && value.launch.required.every((name) => value.launch.properties[name]) && Object.values(value.launch.properties).every(isProperty);
const has = (form) => (value) => Object.keys(value).every((key) => form[key.replace("?", "")] || form[`${key}?`]) && Object.entries(form).every(([key, isRight]) => (value[key.replace("?", "")] === undefined ? key.endsWith("?") : isRight(value[key.replace("?", "")])));

const PACKAGE = {
  name: (value) => /^[a-z][a-z0-9-]*$/.test(value), displayName: isText, description: isText, version: (value) => /^\d+\.\d+\.\d+$/.test(value), publisher: (value) => /^[a-z][a-z0-9-]*$/i.test(value),
  engines: ({ vscode }) => /^\^1\.\d+\.0$/.test(vscode), categories: isList((value) => KNOWN_CATEGORIES.includes(value)), main: isFile,
  activationEvents: isList((value) => /^(onDebug|onLanguage:fghc)$/.test(value)),
  contributes: has({
    languages: isList(has({ id: isText, aliases: isList(isText), extensions: isList((value) => value === ".ghc"), configuration: isFile })),
    grammars: isList(has({ language: isText, scopeName: (value) => /^source\./.test(value), path: isFile })),
    breakpoints: isList(has({ language: isText })),
    commands: isList(has({ command: (value) => value.startsWith("ghcdb."), title: isText, category: isText, "enablement?": isText })),
    debuggers: isList(has({ type: isText, label: isText, languages: isList(isText), configurationAttributes: isAttributes, initialConfigurations: isList(({ type, request, name }) => type === "ghcdb" && request === "launch" && isText(name)) })),
  }),
};

test("the extension's package is of the form that VS Code documents, and its parts fit one another", () => {
  const about = JSON.parse(fs.readFileSync(path.join(ROOT, "editors/vscode/package.json"))), { contributes } = about;
  for (const [key, isRight] of Object.entries(PACKAGE)) assert.ok(isRight(about[key]), key);
  assert.deepStrictEqual(Object.keys(about).filter((key) => PACKAGE[key] === undefined), []);
  const [{ id }] = contributes.languages, grammar = JSON.parse(fs.readFileSync(path.join(ROOT, "editors/vscode", contributes.grammars[0].path)));
  assert.deepStrictEqual([contributes.grammars[0].language, contributes.breakpoints[0].language, contributes.debuggers[0].languages[0]], [id, id, id]);
  assert.strictEqual(grammar.scopeName, contributes.grammars[0].scopeName);
  const given = Object.keys(contributes.debuggers[0].configurationAttributes.launch.properties), [first] = contributes.debuggers[0].initialConfigurations;
  assert.deepStrictEqual(Object.keys(first).filter((key) => !given.includes(key)), ["type", "request", "name"]);
});

test("the adapter's launch takes what the package says that it takes", () => {
  const { launch } = JSON.parse(fs.readFileSync(path.join(ROOT, "editors/vscode/package.json"))).contributes.debuggers[0].configurationAttributes;
  const code = ["dap/beginning.mjs", "vscode/extension.js"].map((file) => fs.readFileSync(path.join(ROOT, "editors", file), "utf8")).join("\n");
  for (const name of Object.keys(launch.properties)) assert.match(code, new RegExp(`\\b${name}\\b`), name);
});

test("the archive's manifest is XML that names the package, and each kind of file has a type", { skip: lacks("python3", "Python") }, () => {
  const files = vsixFiles(packedFiles()), folder = room(), about = JSON.parse(files.get("extension/package.json"));
  for (const name of ["extension.vsixmanifest", "[Content_Types].xml"]) fs.writeFileSync(path.join(folder, name), files.get(name));
  const script = "import sys, xml.dom.minidom as x; m, t = (x.parse(f) for f in sys.argv[1:]); i = m.getElementsByTagName('Identity')[0]; print(i.getAttribute('Id'), i.getAttribute('Version'), i.getAttribute('Publisher')); print(*(d.getAttribute('Extension') for d in t.getElementsByTagName('Default')))";
  const told = execFileSync("python3", ["-c", script, path.join(folder, "extension.vsixmanifest"), path.join(folder, "[Content_Types].xml")], { encoding: "utf8" }).trim().split("\n");
  assert.strictEqual(told[0], `${about.name} ${about.version} ${about.publisher}`);
  const kinds = new Set([...files.keys()].map((name) => path.extname(name).slice(1)).filter((kind) => kind !== "" && kind !== "xml"));
  assert.deepStrictEqual([...kinds].filter((kind) => !told[1].split(" ").includes(kind)), []);
});

test("the archive is one that others read", { skip: lacks("python3", "Python") }, () => {
  const file = path.join(room(), "ghcdb.vsix"), files = vsixFiles(packedFiles());
  fs.writeFileSync(file, zip(files));
  const told = execFileSync("python3", ["-c", "import sys, zipfile; it = zipfile.ZipFile(sys.argv[1]); print(it.testzip()); print(*it.namelist(), sep='\\n')", file], { encoding: "utf8" });
  assert.deepStrictEqual(told.trim().split("\n"), ["None", ...files.keys()]);
});

test("the extension registers what its package tells", { timeout: 60000 }, async () => {
  const about = JSON.parse(fs.readFileSync(path.join(ROOT, "editors", "vscode", "package.json")));
  const { type, completed, commands, started, end } = await activated(path.join(ROOT, "editors", "vscode", "extension.js"));
  assert.deepStrictEqual([type, completed.type, completed.program], ["ghcdb", "ghcdb", "/a.ghc"]);
  assert.deepStrictEqual(commands, about.contributes.commands.map(({ command }) => command));
  assert.ok(fs.existsSync(started.words[0]));
  assert.strictEqual(started.options.env.ELECTRON_RUN_AS_NODE, "1");
  end();
});

test("the colours of VS Code are patterns that a line matches", () => {
  const { patterns } = JSON.parse(fs.readFileSync(path.join(ROOT, "editors/vscode/syntaxes/fghc.tmLanguage.json")));
  const line = "price(N,P) :- N =< 9, integer(N) | P := N * 10. % a price";
  const named = patterns.map(({ name, match }) => [name.split(".").slice(0, 2).join("."), new RegExp(match).exec(line)?.[0]]);
  assert.deepStrictEqual(named, [["comment.line", "% a price"], ["entity.name", "price"], ["keyword.operator", "=<"], ["keyword.control", ":-"], ["keyword.operator", "-"],
    ["support.function", "integer"], ["variable.other", "N"], ["constant.numeric", "9"]]);
});

test("Vim knows the files and colours them", { skip: lacks("vim", "Vim") }, () => {
  const out = path.join(room(), "told"), vim = path.join(ROOT, "editors", "vim");
  const ask = (line, column) => `synIDattr(synID(${line}, ${column}, 1), 'name')`;
  execFileSync("vim", ["-es", "-N", "-u", "NONE", "-c", `set runtimepath^=${vim}`, "-c", "filetype plugin on | syntax on", "-c", `edit ${path.join(ROOT, "examples/bill.ghc")}`,
    "-c", `call writefile([&filetype, &commentstring, ${ask(1, 1)}, ${ask(7, 1)}, ${ask(7, 7)}, ${ask(7, 12)}], '${out}')`, "-c", "quitall!"], { stdio: "ignore" });
  assert.deepStrictEqual(fs.readFileSync(out, "utf8").trim().split("\n"), ["fghc", "% %s", "fghcComment", "fghcHead", "fghcVariable", "fghcCommit"]);
});

test("Neovim knows the files, and nvim-dap is told the adapter", { skip: lacks("nvim", "Neovim") }, () => {
  const out = path.join(room(), "told"), at = (name) => path.join(ROOT, name);
  const stub = "lua package.preload.dap = function() return { adapters = {}, configurations = {}, step_back = print, reverse_continue = print } end";
  const tell = `lua local dap = require("dap"); vim.fn.writefile({ vim.bo.filetype, dap.configurations.fghc[1].type, vim.fn.resolve(dap.adapters.ghcdb.args[1]) }, "${out}")`;
  const words = ["-c", stub, "-c", `luafile ${at("editors/neovim/ghcdb.lua")}`, "-c", "filetype on", "-c", `edit ${at("examples/bill.ghc")}`, "-c", tell, "-c", "quitall!"];
  execFileSync("nvim", ["--headless", "-u", "NONE", ...words], { stdio: "ignore" });
  const [kind, type, adapter] = fs.readFileSync(out, "utf8").trim().split("\n");
  assert.deepStrictEqual([kind, type, fs.realpathSync(adapter)], ["fghc", "ghcdb", fs.realpathSync(at("editors/ghcdb-adapter"))]);
});

test("Neovim maps the keys that go back in programs alone", { skip: lacks("nvim", "Neovim") }, () => {
  const out = path.join(room(), "told"), at = (name) => path.join(ROOT, name);
  const note = `lua local keys = {}
    for _, maps in ipairs({ vim.api.nvim_buf_get_keymap(0, "n"), vim.api.nvim_get_keymap("n") }) do
      for _, map in ipairs(maps) do if map.lhs:sub(1, 1) == "," then table.insert(keys, map.lhs) end end
    end
    table.sort(keys)
    vim.fn.writefile({ table.concat(keys, " ") }, "${out}", "a")`.replace(/\n\s*/g, " ");
  const commands = [
    "lua vim.g.mapleader = ','",
    "lua local dap = { adapters = {}, configurations = {}, step_back = print, reverse_continue = print }; package.preload.dap = function() return dap end",
    `luafile ${at("editors/neovim/ghcdb.lua")}`,
    "filetype on",
    `edit ${at("examples/bill.ghc")}`,
    note,
    `edit ${at("README.md")}`,
    note,
    "quitall!",
  ];
  const words = commands.flatMap((command) => ["-c", command]);
  execFileSync("nvim", ["--headless", "-u", "NONE", ...words], { stdio: "ignore" });
  assert.deepStrictEqual(fs.readFileSync(out, "utf8").split("\n"), [",b ,r", "", ""]);
});

test("Neovim steps forwards and back through bill.ghc as it was recorded", { skip: lacks("nvim", "Neovim"), timeout: 60000 }, () => {
  const out = path.join(room(), "told");
  execFileSync("nvim", ["--headless", "-u", "NONE", "-c", "luafile editors/neovim/try.lua", "-c", "quitall!"], { stdio: "ignore", cwd: ROOT, env: { ...process.env, FGHC_TOLD: out } });
  assert.strictEqual(fs.readFileSync(out, "utf8"), fs.readFileSync(path.join(ROOT, "editors/neovim/session.txt"), "utf8"));
});

for (const [library, script, record] of [["dap-mode", "try.el", "session.txt"], ["dape", "try-dape.el", "session-dape.txt"]]) {
  test(`Emacs steps forwards and back through bill.ghc by ${library} as it was recorded`, { skip: lacksInEmacs(library), timeout: 60000 }, () => {
    const told = execFileSync("emacs", ["-q", "--batch", "-l", path.join(ROOT, "editors/emacs", script)], { encoding: "utf8", stdio: ["ignore", "pipe", "ignore"], cwd: ROOT });
    assert.strictEqual(told, fs.readFileSync(path.join(ROOT, "editors/emacs", record), "utf8"));
  });
}

test("Emacs compiles the mode without a word, and colours a program", { skip: lacks("emacs", "Emacs") }, () => {
  const folder = room(), file = path.join(folder, "fghc-mode.el");
  fs.copyFileSync(path.join(ROOT, "editors/emacs/fghc-mode.el"), file);
  const compiled = spawnSync("emacs", ["-Q", "--batch", "-f", "batch-byte-compile", file], { encoding: "utf8" });
  assert.deepStrictEqual([compiled.status, compiled.stderr.replace(/^Loading .*\n/gm, "")], [0, ""]);
  const faces = '(with-temp-buffer (insert "price(N,P) :- N > 0 | P := N * 10. % a price") (fghc-mode) (font-lock-ensure) (dolist (at (list 1 7 12 23 41)) (princ (format "%s\\n" (get-text-property at (quote face))))))';
  const told = execFileSync("emacs", ["-Q", "--batch", "-l", file, "--eval", faces], { encoding: "utf8", stdio: ["ignore", "pipe", "ignore"] });
  assert.deepStrictEqual(told.trim().split("\n").map((face) => face.replace(/^font-lock-|-face$/g, "")), ["function-name", "variable-name", "keyword", "variable-name", "comment"]);
});

test("Emacs indents a clause that goes on, and lists each predicate once", { skip: lacks("emacs", "Emacs") }, () => {
  const program = "% p\np(X) :- true |\nq(X), % one.\n    r(X).\n  q(_).\np(1).\n";
  const script = `(with-temp-buffer (insert ${JSON.stringify(program)}) (fghc-mode) (indent-region (point-min) (point-max)) (princ (buffer-string)) (princ (format "%S" (funcall imenu-create-index-function))))`;
  const told = execFileSync("emacs", ["-Q", "--batch", "-l", path.join(ROOT, "editors/emacs/fghc-mode.el"), "--eval", script], { encoding: "utf8", stdio: ["ignore", "pipe", "ignore"] });
  assert.strictEqual(told, '% p\np(X) :- true |\n    q(X), % one.\n    r(X).\nq(_).\np(1).\n(("p" . 5) ("q" . 47))');
});
