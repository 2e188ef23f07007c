"""Joins ES modules into one script: the page is one file, and a browser reads no module from a disk; so is a release,
for Node.

    tools/bundle.py MODULE [MODULE=OTHER ..]     writes the script of a module and of all that it needs, for Node; OTHER
                                                 stands in it in the place of MODULE
"""

import re
import sys
from pathlib import Path

ROOT = Path(__file__).resolve().parent.parent

# A module exports one thing by `default`, or some names, between braces; all of it is imported by a name, too.
ONE, ALL, SOME = r"(?P<one>\w+)", r"\* as (?P<all>\w+)", r"\{(?P<some>[^}]*)\}"
IMPORT = re.compile(rf'^import (?:{ALL}|{ONE}|{SOME}) from "(?P<file>\.[^"]+)";\n', re.MULTILINE)
EXPORT = re.compile(rf"^\n?export (?:default |{SOME};\n?)", re.MULTILINE)
# What no page has: modules that are Node's own, and those that run only when they are wanted.
OF_NODE = re.compile(rf'^import (?:{ONE}|{SOME}) from "(?P<file>node:[^"]+)";$', re.MULTILINE)
LATER = re.compile(r'\bimport\("(?P<file>\.[^"]+\.mjs)"\)')


def told_of(path, root):
    return str(path.relative_to(root))


def taken(names):
    """Names of an import or an export, as a pattern of JavaScript."""
    return "{ " + re.sub(r"(\w+) as (\w+)", r"\1: \2", " ".join(names.split()).rstrip(",")) + " }"


class Page:
    """The modules of a page: each runs where it stands."""

    head = ""
    begin, end = "(() => {", "})()"
    given = "{}"  # by the name of a module, what it exports

    def place(self, path, word):
        """The file of the module that another one names by a word."""
        return (path.parent / word).resolve()

    def name_of(self, path, root, found):
        """The name, in one script, of a module: by which all of it is imported, where that is so."""
        return found["all"] or found["one"] or re.sub(r"\W", "_", told_of(path, root))

    def text_of(self, path, _root):
        return path.read_text()


class Release(Page):
    """The modules of a release: each is a function, by which it runs when it is wanted first. One that asks where it
    stands hears of a place beside the release at which nothing is."""

    head = "function $once(run) {\n  let made;\n  return () => (made ??= run());\n}\n\n"
    begin, end = "$once(() => {", "})"
    given = "{}()"

    def __init__(self, entry, moved):
        self.moved = moved
        self.first = [entry]  # the modules that others name without an import: more as texts are read

    def place(self, path, word):
        place = super().place(path, word)
        return self.moved.get(place, place)

    def name_of(self, path, root, _found=None):
        return "$" + re.sub(r"\W", "_", told_of(path, root))

    def text_of(self, path, root):
        def later(found):
            self.first.append(self.place(path, found["file"]))
            return f"Promise.resolve().then({self.name_of(self.first[-1], root)})"

        def of_node(found):
            return f'const {found["one"] or taken(found["some"])} = require("{found["file"]}");'

        here = f'require("node:url").pathToFileURL(`${{__filename}}.inside/{told_of(path, root)}`).href'
        return LATER.sub(later, OF_NODE.sub(of_node, path.read_text())).replace("import.meta.url", here)


def known(found, given):
    """What an import declares, of a module whose exports are given by a name already."""
    wanted = found["all"] or found["one"] or taken(found["some"])
    return "" if wanted == given else f"const {wanted} = {given};\n"


def own_text(told, text):
    """A module without its imports and exports; at its end it returns what it exports."""
    exported = EXPORT.search(text)
    own = EXPORT.sub(lambda found: "" if found["some"] else "return ", IMPORT.sub("", text)).strip()
    if re.search(r"^(import|export|await)\b|^return .*\n(.*\n)*\w", own, re.MULTILINE):
        sys.exit(f"{told} imports, exports or waits in a way that a bundle does not know")
    if exported is not None and not exported["some"]:
        return own
    return f"{own}\nreturn {taken(exported['some']) if exported else '{}'};"


def bundle(entry, root, there, way=(), name=None, kind=Page()):
    """The text of a module, after the texts of those that it imports and that are not yet `there`, which has the names
    of modules in one script by their paths. The first has that of its file. Where they go in a circle, it ends."""
    path = entry.resolve()
    if path in way:
        sys.exit("modules go in a circle: " + " -> ".join(told_of(it, root) for it in (*way[way.index(path) :], path)))
    if path in there:
        return ""
    text, told, above, imported = kind.text_of(path, root), told_of(path, root), [], []
    name = name or "".join(it.capitalize() for it in path.stem.split("_"))
    for found in IMPORT.finditer(text):
        other = kind.place(path, found["file"])
        above.append(bundle(other, root, there, (*way, path), kind.name_of(other, root, found), kind))
        imported.append(known(found, kind.given.format(there[other])))
    if name in there.values():
        sys.exit(f"{told}: another module has the name {name}")
    there[path] = name
    made = f"const {name} = {kind.begin}\n{''.join(imported)}{own_text(told, text)}\n{kind.end};"
    return f"{''.join(above)}// {told}\n{made}\n\n"


def script(entry, root, moved):
    """The script of a module for Node."""
    there: dict = {}
    kind = Release(entry, moved)
    parts = [bundle(path, root, there, name=kind.name_of(path, root), kind=kind) for path in kind.first]
    return f"{kind.head}{''.join(parts)}{there[entry]}();\n"


def main(entry, *moved):
    """Writes the script that the words of the command line ask for."""
    pairs = (it.split("=") for it in moved)
    sys.stdout.write(script(Path(entry).resolve(), ROOT, {ROOT / one: ROOT / other for one, other in pairs}))


if __name__ == "__main__":
    main(*sys.argv[1:])
