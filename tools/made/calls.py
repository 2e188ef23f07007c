"""The public calls of crates/*/src: each with its comment, its clauses and its place."""

import re
from dataclasses import dataclass

from specs import Scope, sources

FUNCTION = re.compile(r"^( *)(?:pub(?:\(crate\))? )?(?:const )?fn (\w+)")
OWNER = re.compile(r"^(?:pub )?(impl|trait)\b(.*)$")
CLAUSE = re.compile(r"^\s*(ensures|requires)\s+(\w+)?\s*\{")
FAULT = re.compile(r"`?(?:Fault[:.]+)?\b([A-Z]\w+)\b`?")


@dataclass
class Call:
    """A function: where it stands, its comment, its signature, its head, which is the signature with the clauses, and
    whether other crates can call it."""

    crate: str
    path: str
    line: int
    owner: str
    name: str
    doc: str
    signature: str
    head: str
    scope: Scope
    is_open: bool

    @property
    def clauses(self):
        return [found[2] or found[1] for found in map(CLAUSE.match, self.head.split("\n")) if found]

    @property
    def full_name(self):
        return f"{self.owner}::{self.name}" if self.owner else self.name

    @property
    def is_law(self):
        """A function that takes nothing and gives nothing: its contract is a statement."""
        return re.search(r"\(\)\s*$", self.signature) is not None and "ensures" in self.head

    def first_sentence(self):
        return re.split(r"(?<=[a-z0-9`)\]])[.:;] ", self.doc + " ", maxsplit=1)[0].rstrip(". ")

    def cost(self):
        """The sentences of the comment that tell what the call costs."""
        return " ".join(
            one for one in re.split(r"(?<=[a-z0-9`)])\. ", self.doc) if re.search(r"\b[Cc]osts?\b|\b[Ll]inear\b", one)
        ).rstrip(".")

    def refusals(self, faults):
        """The faults that comment and clauses name, in this order, and that of memory where the result can be one."""
        told: list[str] = []
        for name in FAULT.findall(self.doc + "\n" + self.head):
            if name in faults and name not in told and name != "Memory":
                told.append(name)
        if re.search(r"\bFault\b|Alloc\w+|FaultOr\w*", self.signature) or "Memory" in self.doc:
            told.append("Memory")
        return told


def type_of(text):
    """The type that an `impl` or a `trait` is of."""
    text = re.sub(r"<[^<>]*(?:<[^<>]*>[^<>]*)*>", "", text)
    text = text.split("{")[0].split(" where ")[0]
    name = text.rpartition(" for ")[2] if " for " in text else text
    found = re.search(r"\w+", name.partition(":")[0])
    return found[0] if found else ""


def head_end(lines, at, indent):
    """The line behind a function's signature and clauses: that on which its body begins, or the one after that."""
    for end in range(at, len(lines)):
        text = lines[end].rstrip()
        if text == " " * indent + "{":
            return end
        is_clause = re.match(r"\s*(ensures|requires|ghost|decreases)\b", text)
        if (
            text.endswith("{}")
            or (text.endswith((" {", ";")) and not is_clause)
            or (text.endswith("};") and "ensures" in text)
        ):
            return end + 1
    return len(lines)


def doc_above(lines, at, mark="///"):
    """The comment above a line, past its attributes."""
    told: list[str] = []
    at -= 1
    while at >= 0 and lines[at].strip().startswith((mark, "#[")):
        if lines[at].strip().startswith(mark):
            told.insert(0, lines[at].strip().lstrip("/ "))
        at -= 1
    return " ".join(told)


def calls_of_file(crate, path, root, opened):
    """The functions of a file that its crate can call, and the calls of its traits; of a program all functions, since
    nobody calls it."""
    lines = path.read_text(encoding="utf-8").split("\n")
    scope, owner, is_trait = Scope(lines), "", False
    for at, line in enumerate(lines):
        found = OWNER.match(line)
        if found:
            owner, is_trait = type_of(found[2]), found[1] == "trait"
        elif line.startswith("}"):
            owner, is_trait = "", False
        found = FUNCTION.match(line)
        if not found or not (is_trait or opened is None or line.lstrip().startswith("pub")):
            continue
        is_public = is_trait or line.lstrip().startswith("pub ")
        end = head_end(lines, at, len(found[1]))
        head = "\n".join(lines[at:end])
        signature = re.split(r"\n\s*(?:ensures|requires|ghost|decreases)\b", head, maxsplit=1)[0]
        doc = doc_above(lines, at, "///" if is_public else "//")
        can_be_called = is_open(is_public, owner, found[2], opened)
        yield Call(
            crate,
            path.relative_to(root).as_posix(),
            at + 1,
            owner,
            found[2],
            doc,
            signature,
            head,
            scope,
            can_be_called,
        )


def is_open(is_public, owner, name, opened):
    """Can other crates call it? Of a program, which nobody calls, all that is public counts."""
    return is_public and (opened is None or (owner or name) in opened)


def opened_by(folder):
    """The names that a crate's lib.rt lets others use; a program has none, and opens all."""
    names = set()
    if not (folder / "lib.rt").exists():
        return None
    for listed in re.findall(r"(?ms)^pub use ([^;]*);", (folder / "lib.rt").read_text(encoding="utf-8")):
        names |= set(re.findall(r"\w+", listed.partition("{")[2] or listed.rpartition("::")[2]))
    return names


def calls(root, order):
    """The calls of all crates, in the order of crates.txt."""
    found = []
    for crate in order:
        folder = root / "crates" / crate / "src"
        opened = opened_by(folder)
        for path in sources(root):
            if folder in path.parents:
                found += calls_of_file(crate, path, root, opened)
    return found


@dataclass
class Kind:
    """A type that keeps something by itself: where it stands, its comment, and its invariant."""

    crate: str
    path: str
    line: int
    name: str
    doc: str
    invariant: str
    scope: Scope


def braced(text, at):
    """The text from an opening brace to the one that closes it."""
    depth = 0
    for end in range(at, len(text)):
        depth += {"{": 1, "}": -1}.get(text[end], 0)
        if depth == 0:
            return text[at : end + 1]
    return text[at:]


def kinds(root, order):
    """The types with an invariant, in the order of the crates."""
    for crate in order:
        for path in sources(root):
            if root / "crates" / crate / "src" not in path.parents:
                continue
            text = path.read_text(encoding="utf-8")
            lines = text.split("\n")
            for found in re.finditer(r"(?m)^impl[^\n]*\bModel for (\w+)[^\n]*\{$", text):
                kept = re.search(r"ghost invariant = ", braced(text, found.end() - 1))
                at = next(
                    (
                        at
                        for at, line in enumerate(lines)
                        if re.match(rf"(?:pub(?:\(crate\))? )?(?:struct|enum) {found[1]}\b", line)
                    ),
                    None,
                )
                if kept and at is not None:
                    start = found.end() - 1 + kept.end()
                    yield Kind(
                        crate,
                        path.relative_to(root).as_posix(),
                        at + 1,
                        found[1],
                        doc_above(lines, at, "//"),
                        braced(text, start),
                        Scope(lines),
                    )
