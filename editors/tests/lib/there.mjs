// Which programs of others are here, by which the editors' parts are tried. A test that lacks one is skipped with a
// word that says which.
import fs from "node:fs";
import { spawnSync } from "node:child_process";

const GO_PATH = "/usr/share/gocode"; // where Debian puts Go's libraries

const isThere = (program) => spawnSync("sh", ["-c", `command -v ${program}`]).status === 0;

function hasInEmacs(library) {
  const found = `(progn (package-initialize) (kill-emacs (if (locate-library "${library}") 0 1)))`;
  return isThere("emacs") && spawnSync("emacs", ["-q", "--batch", "--eval", found]).status === 0;
}

/** What a test says that needs a program: what is not there, or false. */
const lacks = (program, name = program) => (isThere(program) ? false : `there is no ${name}`);

const lacksInEmacs = (library) => (hasInEmacs(library) ? false : `there is no Emacs with ${library}`);

function lacksInGo(library) {
  const isHere = isThere("go") && fs.existsSync(`${GO_PATH}/src/${library}`);
  return isHere ? false : `there is no Go with Debian's ${library}`;
}

export { GO_PATH, lacks, lacksInEmacs, lacksInGo };
