// What tools/make-release does; how it is called stands there.
import crypto from "node:crypto";
import fs from "node:fs";
import path from "node:path";
import zlib from "node:zlib";
import { fileURLToPath } from "node:url";
import { ARCHIVE, TIME, packed, put, run, zip } from "../editors/vscode/archive.mjs";
import { packedFiles, vsixFiles } from "../editors/vscode/packing.mjs";
import { engineOfPage, moduleOfPage } from "../front/session/engine_of_page.mjs";

const ROOT = path.join(path.dirname(fileURLToPath(import.meta.url)), "..");
const KILOBYTE = 1024;
const QUALITY = 9; // of what Brotli packs: more takes seconds, and saves a twentieth
const DESCRIPTION = "Runs programs of Flat GHC step by step, tells what each step depends on, and takes steps back";
const NODE = 18; // the first version of Node that runs it
// What tools/bundle.py is to join: the engine of the release stands in the place of the page's.
const MODULES = ["packaging/start.mjs", "front/session/engine_of_page.mjs=packaging/engine_of_release.mjs"];
const README = "packaging/README.md", MANUAL = "packaging/ghcdb.1";

// What stands beside the program: of each file its place in a package of npm, and its places in Debian.
const OF_SHELLS = [
  ["packaging/ghcdb.bash", "completions/ghcdb.bash", "usr/share/bash-completion/completions/ghcdb"],
  ["packaging/ghcdb.zsh", "completions/_ghcdb", "usr/share/zsh/vendor-completions/_ghcdb"],
  ["packaging/ghcdb.fish", "completions/ghcdb.fish", "usr/share/fish/vendor_completions.d/ghcdb.fish"],
];
const OF_EDITORS = [
  ["editors/emacs/fghc-mode.el", "editors/emacs/fghc-mode.el", "usr/share/emacs/site-lisp/fghc-mode.el"],
  ["editors/neovim/ghcdb.lua", "editors/neovim/ghcdb.lua", "usr/share/nvim/site/lua/ghcdb.lua"],
];
const OF_VIM = ["ftdetect", "ftplugin", "syntax"].map((folder) => {
  const name = `editors/vim/${folder}/fghc.vim`, inside = `${folder}/fghc.vim`;
  return [name, name, `usr/share/vim/vimfiles/${inside}`, `usr/share/nvim/site/${inside}`];
});
const BESIDE = [...OF_SHELLS, ...OF_EDITORS, ...OF_VIM];

const read = (name) => fs.readFileSync(path.join(ROOT, name));

const versionOf = () => JSON.parse(read("editors/vscode/package.json")).version;

/** The examples by their names. */
function examples() {
  const names = fs.readdirSync(path.join(ROOT, "examples")).filter((name) => name.endsWith(".ghc")).sort();
  return Object.fromEntries(names.map((name) => [path.basename(name, ".ghc"), read(`examples/${name}`).toString()]));
}

function packedModule() {
  const { BROTLI_PARAM_QUALITY, BROTLI_PARAM_LGWIN, BROTLI_MAX_WINDOW_BITS } = zlib.constants;
  const params = { [BROTLI_PARAM_QUALITY]: QUALITY, [BROTLI_PARAM_LGWIN]: BROTLI_MAX_WINDOW_BITS };
  return zlib.brotliCompressSync(moduleOfPage(), { params }).toString("base64");
}

/** What a release carries beside its modules, which know it by the name CARRIED. */
const carried = (madeWith) => ({
  help: read("packaging/help.txt").toString(), // what --help tells after the console's own
  module: packedModule(), // the program's module, packed by Brotli, in base64
  madeWith, // what the page says of its program
  examples: examples(),
});

/**
 * How the one file starts: by sh, which says what is missing where Node is, or is too old; Node reads the second line
 * as a text and a comment. npm makes its own start of a file that says it is Node's.
 */
const WANTED = `ghcdb needs Node ${NODE} or newer (https://nodejs.org, or apt-get install nodejs)`;
const START = ["#!/bin/sh", [
  '":" //', "v=$(node --version 2> /dev/null) || v=", "n=${v#v}",
  `[ "\${n%%.*}" -ge ${NODE} ] 2> /dev/null && exec node "$0" "$@"`,
  `echo "${WANTED}; \${v:-none} is on the PATH" >&2`, "exit 127",
].join("; ")];
const NODES_START = Buffer.from("#!/usr/bin/env node\n");

/** The one file, as a program of Node's: for npm, which makes a start of it for each system. */
const startedByNode = (ghcdb) => Buffer.concat([NODES_START, ghcdb.subarray(START.join("\n").length + 1)]);

// What stands about the modules: a folder above the file may have a package.json by which it is an ES module, and such
// a one has neither of the two names.
const BEFORE = "const $begin = (require, __filename) => {\n", AFTER = `};
if (typeof require === "function") $begin(require, __filename);
else {
  const place = process.argv[1];
  import("node:module").then(({ createRequire }) => $begin(createRequire(place), createRequire(place)("node:fs").realpathSync(place)));
}
`;

/** The one file that is ghcdb. */
function program(version, madeWith) {
  const kind = madeWith.proved ? "the proved program" : "a program WITHOUT PROOF";
  const made = `of the sources of sum ${madeWith.sources}, by ${madeWith.kit}`;
  const about = `// ghcdb ${version} in one file: ${kind} ${made}, and all that stands before it`;
  const constant = `const CARRIED = ${JSON.stringify(carried(madeWith))};`;
  const head = [...START, about, '"use strict";', "", constant, "", BEFORE].join("\n");
  return Buffer.concat([Buffer.from(head), run("python3", ["tools/bundle.py", ...MODULES], { cwd: ROOT }), Buffer.from(AFTER)]);
}

/** What npm reads of the package. */
function npmFields(version) {
  const fields = { name: "ghcdb", version, description: DESCRIPTION, license: "UNLICENSED", bin: { ghcdb: "ghcdb" }, man: ["./ghcdb.1"], engines: { node: `>=${NODE}` } };
  return Buffer.from(`${JSON.stringify(fields, null, 2)}\n`);
}

/** The files of a package, by their places in it: what is no file yet is the name of one in the repository. */
const filled = (files) => new Map(files.map(([place, file]) => [place, typeof file === "string" ? read(file) : file]));

/** The files of the package of npm. */
function npmFiles(ghcdb, version) {
  const made = [["package.json", npmFields(version)], ["ghcdb", startedByNode(ghcdb)]];
  const own = [...made, ["ghcdb.1", MANUAL], ["README.md", README]];
  const all = [...own, ...BESIDE.map(([name, place]) => [place, name])];
  return filled(all.map(([place, file]) => [`package/${place}`, file]));
}

/** The files of the package of Debian. */
function debianFiles(ghcdb) {
  const manual = zlib.gzipSync(read(MANUAL), { level: 9 });
  const own = [["bin/ghcdb", ghcdb], ["share/man/man1/ghcdb.1.gz", manual], ["share/doc/ghcdb/README.md", README]];
  const beside = BESIDE.flatMap(([name, , ...debian]) => debian.map((place) => [place, name]));
  return filled([...own.map(([place, file]) => [`usr/${place}`, file]), ...beside]);
}

/** The package of npm. */
function tgz(files) {
  const about = ["--format=ustar", "--owner=root:0", "--group=root:0", `--mtime=@${TIME}`, `--file=${ARCHIVE}`];
  return zlib.gzipSync(packed(files, "tar", ["--create", ...about, ...files.keys()]), { level: 9 });
}

/** The package of Debian, with what Debian reads of it. */
function deb(version, files) {
  const size = [...files.values()].reduce((all, { length }) => all + length, 0);
  const fields = {
    Package: "ghcdb", Version: version, Architecture: "all", Maintainer: "ghcdb <ghcdb@localhost>",
    Depends: `nodejs (>= ${NODE})`, Section: "devel", Priority: "optional", Description: DESCRIPTION,
    "Installed-Size": Math.ceil(size / KILOBYTE),
  };
  const control = Buffer.from(Object.entries(fields).map(([name, value]) => `${name}: ${value}\n`).join(""));
  const all = new Map([["DEBIAN/control", control], ["DEBIAN/md5sums", sumsOf("md5", files)], ...files]);
  return packed(all, "dpkg-deb", ["--build", "--root-owner-group", "-Zgzip", ".", ARCHIVE]);
}

/** The files of a release by their names. */
function release(version, madeWith) {
  const ghcdb = program(version, madeWith);
  return new Map([
    ["ghcdb", ghcdb],
    [`ghcdb-${version}.tgz`, tgz(npmFiles(ghcdb, version))],
    [`ghcdb_${version}_all.deb`, deb(version, debianFiles(ghcdb))],
    [`ghcdb-${version}.vsix`, zip(vsixFiles(packedFiles()))],
  ]);
}

/** A line for each file, as `md5sum --check` and `sha256sum --check` read it. */
function sumsOf(algorithm, files) {
  const sum = (bytes) => crypto.createHash(algorithm).update(bytes).digest("hex");
  return Buffer.from([...files].map(([name, bytes]) => `${sum(bytes)}  ${name}\n`).join(""));
}

function write(folder, files) {
  const all = [...files, ["SHA256SUMS", sumsOf("sha256", files)]];
  for (const [name, bytes] of all) put(path.join(folder, name), bytes);
  process.stdout.write(all.map(([name, bytes]) => `${path.join(folder, name)}: ${bytes.length} bytes\n`).join(""));
}

async function main(words) {
  const [folder] = words.filter((word) => word !== "--unproved");
  if (folder === undefined) throw new Error("name a folder");
  const { madeWith } = await engineOfPage();
  if (!madeWith.proved && !words.includes("--unproved")) throw new Error("the page carries a program without a proof: --unproved makes a release of it");
  write(folder, release(versionOf(), madeWith));
}

main(process.argv.slice(2)).catch((error) => {
  process.stderr.write(`tools/make-release: ${error.message}\n`);
  process.exitCode = 1;
});
