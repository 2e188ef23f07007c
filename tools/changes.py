"""What a change touches of each crate, by texts alone: functions by their bodies or their proofs, what the crate alone
reads, or its face, which crates above read. For tools/changed.

A function's proof rests on its own body and on the contracts, definitions and lemmas of others. So changed bodies, and
the answers that prove them, want those functions proved and nothing above: no crate above reads a body. A changed
contract of a private function wants its crate proved. A changed face (another contract, a type, a file of specs/ or of
lemmas) wants each crate above checked over what `rt` kept, too. In doubt a text counts as face.
"""
import re
import subprocess
from pathlib import Path
from typing import NamedTuple

from functions import function_at

ROOT = Path(__file__).resolve().parent.parent
HEAD = re.compile(r"^( *)(pub(?:\([a-z]+\))? )?(?:final )?(?:const )?fn (\w+)", re.M)
IMPL = re.compile(r"^impl\b.*", re.M)
NOT_SEEN = re.compile(r"(ghost )?use |#\[inline|(pub\(\w+\) )?mod ")  # what no crate above reads of a file
ANSWERS = ("Answers.antt", "Invariants.antt", "Proof.antt")


def git(*words):
    return subprocess.run(["git", *words], cwd=ROOT, stdout=subprocess.PIPE, check=True, text=True).stdout


def text_here(path):
    return (ROOT / path).read_text(encoding="utf-8") if (ROOT / path).exists() else ""


def text_at(base, path):
    """The text of a file at a commit, empty where it has none."""
    told = subprocess.run(["git", "show", f"{base}:{path}"], cwd=ROOT, capture_output=True, text=True)
    return told.stdout if told.returncode == 0 else ""


def changed_paths(base):
    """The files that differ from a commit, new ones among them."""
    new = git("ls-files", "--others", "--exclude-standard").split("\n")
    return sorted({*git("diff", "--name-only", base).split("\n"), *new} - {""})


def plain(text):
    """The text without comments and blank lines, which no proof reads."""
    return "\n".join(line for line in text.split("\n") if line.strip() and not line.lstrip().startswith("//"))


class Parts(NamedTuple):
    """A file's functions by their names, each with its body and its place; the contracts and all else that no other crate
    reads; its face."""

    bodies: dict[str, str]
    places: dict[str, int]
    inside: str
    face: str


def body_of(text, head):
    """Where the body of a function begins and ends, or None. It begins with a brace alone on its line where the function
    has a clause, and else at the end of the head's last line: so `rt fmt` puts them."""
    opens = re.compile(rf"^{head[1]}\{{$", re.M).search(text, head.start())
    closes = text.find(f"\n{head[1]}}}", head.start())
    begins = opens.start() if opens and opens.start() < closes else text.find(" {\n", head.start(), closes)
    return None if closes < 0 or begins < 0 else (begins, closes + len(head[1]) + 2)


def parts_of(text):
    """A file of src/ taken apart."""
    bodies: dict[str, str] = {}
    places: dict[str, int] = {}
    face, inside, end = [], [], 0
    for head in HEAD.finditer(text):
        body = body_of(text, head)
        if head.start() < end or body is None:
            continue
        impl = (IMPL.findall(text[: head.start()]) or [""])[-1] if head[1] else ""
        is_seen = head[2] == "pub " or " for " in impl  # a method of a trait has no `pub`
        face.append(text[end : body[0] if is_seen else head.start()])
        inside.append("" if is_seen else text[head.start() : body[0]])
        name = f"{impl}::{head[3]}"
        bodies[name] = plain(text[body[0] : body[1]])
        places[name] = head.start()
        end = body[1]
    shown = plain("".join([*face, text[end:]]))
    seen = "\n".join(it for it in shown.split("\n") if not NOT_SEEN.match(it))
    return Parts(bodies, places, plain("".join(inside)) + brought(shown), seen)


def brought(text):
    """What a file brings into scope, which its own crate alone reads."""
    return "\n".join(it for it in text.split("\n") if NOT_SEEN.match(it))


class Change:
    """What changed of a crate."""

    def __init__(self, crate):
        self.crate = crate
        self.functions: set[str] = set()
        self.inside: list[str] = []
        self.face: list[str] = []
        self.tests: list[str] = []
        self.edits: set[str] = set()

    def read(self, base, path):
        """Learns of a file below crates/NAME that differs from a commit, or of a twin."""
        kind = path.split("/")[2]
        if path.endswith(".edit"):
            self.edits |= {Path(path).stem} if (ROOT / path).exists() else set()
        elif re.search(r"(^|/)tests(/|\.rt$)", path):
            self.tests.append(path)
        elif kind == "src" and path.endswith(".rt"):
            self.read_source(path, parts_of(text_at(base, path)), parts_of(text_here(path)))
        elif kind == "proofs":
            self.read_proof(path)
        elif kind == "specs":
            self.face.append(path)

    def read_source(self, path, was, now):
        folder, text = str(ROOT / "crates" / self.crate), text_here(path)
        file = path.split("/", 2)[2]
        for name in [it for it in now.bodies if now.bodies[it] != was.bodies.get(it)]:
            self.functions.add(function_at(folder, file, text, now.places[name]))
        if now.inside != was.inside or {*was.bodies} - {*now.bodies}:
            self.inside.append(path)
        if now.face != was.face:
            self.face.append(path)

    def read_proof(self, path):
        """The proof files of functions that call one another stand together, below `+NAME`."""
        words = path.split("/")[3:-1]
        if Path(path).name not in ANSWERS:
            self.face.append(path)
        elif any(it.startswith("+") for it in words) or not (ROOT / path).exists():
            self.inside.append(path)
        else:
            self.functions.add("::".join(words))

    @property
    def is_proof_due(self):
        return bool(self.functions or self.inside or self.face)


def changes_since(base, crates):
    """What changed of each of these crates since a commit, where something did."""
    found = {crate: Change(crate) for crate in crates}
    for path in changed_paths(base):
        words = path.split("/")
        crate = words[2] if words[:2] == ["tests", "twins"] and len(words) > 3 else words[1] if len(words) > 2 else ""
        if crate in found and (words[0] == "crates" or path.endswith(".edit")):
            found[crate].read(base, path)
    return {name: it for name, it in found.items() if it.is_proof_due or it.tests or it.edits}
