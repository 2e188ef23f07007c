"""The words of crates/*/specs: each definition with its comment, its place, and the words that its text names.

A word is one definition (data, record, function); constructors and fields belong to theirs. Names are looked up by the
`use` lines of the file, so that two words of one name in two crates stay two."""

import re
from collections import defaultdict
from pathlib import Path

USE = re.compile(r"^\s*(?:pub )?(?:ghost )?use\s+(\S+?)(?:\.\{(.*)\}|\s+as\s+(\S+?))?;?\s*$")
HEAD = re.compile(
    r"^(?P<indent> *)(?:(?:pub|abbrev|opaque|prop|instance) )*(?P<kind>data |record )?(?:pub )?(?P<name>[^\s(){}:=,;|\[\]]+)(?P<rest>.*)$"
)
SIGNATURE = re.compile(r"^(\s+[({\[].*[)}\]])?\s*:\s")
TOKEN = re.compile(r"[A-Za-z_][\w'-]*(?:\.[A-Za-z_][\w'-]*)*|[^\s\w(){}\[\],;.]+")
MODEL = re.compile(r"impl(?:<[^{]*?>)? Model for (\w+)")
VALUE = re.compile(r"ghost Value = \{ (.*?) \};", re.S)


class Word:
    """A definition: its crate, the file within `specs/` without its ending, its name, line, comment and text."""

    def __init__(self, module, name, kind, indent, line, comment):
        self.module, self.name, self.kind, self.indent, self.line, self.comment = (
            module,
            name,
            kind,
            indent,
            line,
            comment,
        )
        self.constructors, self.text = [], []

    @property
    def crate(self):
        return self.module.split(".")[1]

    @property
    def file(self):
        return "/".join(self.module.split(".")[3:])

    @property
    def path(self):
        return f"crates/{self.crate}/specs/{self.file}.antt"


class Scope:
    """What the `use` lines of a file give: names with their modules, and modules by a short name."""

    def __init__(self, lines):
        self.names, self.modules = {}, {}
        for line in lines:
            found = USE.match(line)
            if not found:
                continue
            module, listed, short = found.groups()
            if listed is not None:
                for part in filter(None, (part.strip() for part in listed.split(","))):
                    there, _, here = part.partition(" as ")
                    self.names[(here or there).strip()] = (module, there.strip())
            else:
                self.modules[short or module.split(".")[-1]] = module


def comment_above(lines, at):
    """The comment that stands directly above a line, also where `mutual` stands between; the file's own first line is
    none."""
    at -= 1
    if at >= 0 and lines[at].strip() in ("mutual", "abbrev mutual", "pub mutual"):
        at -= 1
    told: list[str] = []
    while at >= 1 and lines[at].strip().startswith("--"):
        told.insert(0, lines[at].strip()[2:].strip())
        at -= 1
    return " ".join(told)


def definitions(lines, module):
    """The words of a file, in its order."""
    words: list[Word] = []
    current: Word = None
    for at, line in enumerate(lines):
        text = line.strip()
        if not text or text.startswith("--") or USE.match(line):
            continue
        if text in ("mutual", "abbrev mutual", "pub mutual") or text.startswith("module "):
            current = None
            continue
        head = HEAD.match(line)
        indent = len(line) - len(line.lstrip())
        within = current is not None and current.kind in ("data", "record") and indent > current.indent
        if head and not head["kind"] and SIGNATURE.match(head["rest"]) and within:
            if current.kind == "data":
                current.constructors.append(head["name"])
        elif head and (head["kind"] or SIGNATURE.match(head["rest"])):
            kind = (head["kind"] or "function").strip()
            current = Word(module, head["name"], kind, indent, at + 1, comment_above(lines, at))
            words.append(current)
        if current:
            current.text.append(line)
    return words


class Specs:
    """All words of a repository, and what names them."""

    def __init__(self, root):
        self.root, self.scopes, self.files = Path(root), {}, {}
        self.words, self.owners, self.by_name = {}, {}, defaultdict(list)
        self.models, self.named = {}, {}
        for path in sorted(self.root.glob("crates/*/specs/**/*.antt")):
            if path.name != "Lib.antt" and "out" not in path.parts:
                self.add(path)
        for path in sources(self.root):
            self.add_models(path.read_text(encoding="utf-8"))

    def add(self, path):
        folder = next(parent for parent in path.parents if parent.name == "specs")
        inner = path.relative_to(folder).with_suffix("").as_posix().replace("/", ".")
        module = f"Rattle.{folder.parent.name}.specs.{inner}"
        lines = path.read_text(encoding="utf-8").split("\n")
        words = definitions(lines, module)
        self.scopes[module], self.files[module] = Scope(lines), words
        for word in words:
            self.words[module, word.name] = word
            self.by_name[word.name].append(word)
            for part in word.constructors:
                self.owners.setdefault((module, part), word)
                self.owners.setdefault((f"{module}.{word.name}", part), word)

    def add_models(self, text):
        scope = None
        for found in MODEL.finditer(text):
            value = VALUE.search(text, found.end(), found.end() + 3000)
            if value:
                scope = scope or Scope(text.split("\n"))
                self.models[found[1]] = (value[1], scope)

    def find(self, module, name):
        return self.words.get((module, name)) or self.owners.get((module, name))

    def in_text(self, text, scope, own=()):
        """The words that a text names, in a scope and beside the words of its own file."""
        found = set()
        local = {word.name: word for word in own}
        for word in own:
            for part in word.constructors:
                local.setdefault(part, word)
        for token in set(TOKEN.findall(text)):
            first, _, rest = token.partition(".")
            if rest and first in scope.modules:
                found.add(self.find(scope.modules[first], rest.split(".")[0]))
            if first in local:
                found.add(local[first])
            elif first in scope.names:
                found.add(self.find(*scope.names[first]))
        for name, (module, there) in scope.names.items():
            signs = [sign for sign in name.split("◌") if sign] if "◌" in name else []
            if signs and all(sign in text for sign in signs):
                found.add(self.find(module, there))
        return found - {None}

    def names_of(self, word):
        """The words that a definition names."""
        if word not in self.named:
            own = self.files[word.module]
            self.named[word] = self.in_text("\n".join(word.text), self.scopes[word.module], own) - {word}
        return self.named[word]

    def reached(self, start):
        """These words and all that they name in turn."""
        seen, left = set(), list(start)
        while left:
            word = left.pop()
            if word not in seen:
                seen.add(word)
                left += self.names_of(word)
        return seen

    def of_contract(self, call):
        """The words that a call's signature and clauses name, and those of the models of its types."""
        found = self.in_text(call.head, call.scope)
        for kind in set(re.findall(r"\b[A-Z]\w+", call.signature)) | {call.owner}:
            if kind in self.models:
                value, scope = self.models[kind]
                found |= self.in_text(value, scope)
        return found


def sources(root):
    """The sources of all crates but their tests."""
    for path in sorted(Path(root).glob("crates/*/src/**/*.rt")):
        if "tests" not in path.parts and path.name != "tests.rt" and "out" not in path.parts:
            yield path
