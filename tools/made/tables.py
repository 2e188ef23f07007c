"""The tables of commands, refusals and limits, from fault.rt, the specs of replies, and the constants of the code."""

import re

FAULT = "crates/ghc_term/src/fault.rt"
LIMIT = "crates/ghc_term/src/limit.rt"

# Each limit: the constant of the code, the equation of specs/ that ends with the same number ("" where none does), and
# what comes past it.
LIMITS = [
    ("ghc_term/src/limit.rt", "TEXT_LIMIT", "ghc_term text_limit", "F6 `text`"),
    ("ghc_console/src/devices/line_buffer.rt", "LINE_LIMIT", "ghc_console line_limit", "F6 `line`"),
    ("ghc_console/src/schedules/play.rt", "HANDS", "ghc_console hand_count", "F25"),
    ("ghc_reader/src/limits.rt", "MOST_CLAUSES", "ghc_reader most limit.Clauses", "F6 `clauses`"),
    ("ghc_reader/src/limits.rt", "MOST_ARGUMENTS", "ghc_reader most limit.Arity", "F6 `arity`"),
    ("ghc_reader/src/depth.rt", "MOST_OPEN", "", "F6 `depth`"),
    ("ghc_reader/src/limits/levels.rt", "MOST_LEVELS", "ghc_reader most limit.Depth", "F6 `depth`"),
    ("ghc_reader/src/depth.rt", "MOST_OPEN_IN_BODY", "", "F1; the loader tests for the next limit first"),
    ("ghc_records/src/text/brackets.rt", "MOST_OPEN", "ghc_records OpensFew text", "F24"),
    ("ghc_reader/src/limits.rt", "MOST_GOALS", "ghc_reader most limit.Goals", "F6 `goals`"),
    ("ghc_reader/src/limits.rt", "MOST_VARIABLES", "ghc_reader most limit.Variables", "F6 `variables`"),
    ("ghc_reader/src/limits.rt", "MOST_NODES", "ghc_reader most limit.Term", "F6 `term`"),
    ("ghc_term/src/printing.rt", "PRINT_LIMIT", "ghc_trace print_limit", "F6 `print`"),
    ("ghc_core/src/changes/commit.rt", "KEPT_LIMIT", "ghc_records kept_limit", "F22; F24 in a history"),
    ("ghc_term/src/var_name.rt", "NO_STEP", "ghc_fire no_step", "F22"),
    ("ghc_records/src/text/chronicle_reading.rt", "ENTRY_LIMIT", "ghc_records entry_limit", "F24"),
    ("ghc_records/src/text/chronicle_reading.rt", "SPY_LIMIT", "ghc_records spy_limit", "F24"),
    ("ghc_console/src/command.rt", "RUN_LIMIT", "ghc_console run_limit", "`stopped limit`"),
]

# Why a command of the console is refused is said by its equation of `Replies`. Of those that the core obeys, and that
# have another name there, this is said by other words, in the order of the tests: the reader's refusals, a word, or an
# equation of one.
OF_TEXT = ["F2", "F6"]
REFUSED_BY: dict[str, list] = {
    "step": [("ghc_core", "StepFails")],
    "in": [OF_TEXT, ("ghc_core", "StreamFails")],
    "end": [("ghc_core", "StreamFails")],
    "ask": [OF_TEXT, ("ghc_core", "AskFails")],
    "undo": [("ghc_core", "UndoFails")],
    "roll": [("ghc_core", "Fails", "roll")],
    "redo": [("ghc_core", "RedoFails")],
    "arrange": [("ghc_core", "Fails", "arrange")],
    "clauses": [("ghc_console", "TellsClausesFor")],
    "explain": [("ghc_console", "RepliesToExplain"), ("ghc_console", "RepliesToExplainGoal")],
    "whynot": [("ghc_console", "RepliesToWhyNot"), ("ghc_console", "RepliesToWhyNotGoal")],
    "keep": [("ghc_console", "RepliesToKeep"), ("ghc_console", "RepliesToKeepGoal")],
    "save": [("ghc_console", "RepliesToSaveSteps")],
    "leap": [],
}


def faults(root):
    """The refusals in their order: name, number, text, and the comment above the variant."""
    text = (root / FAULT).read_text(encoding="utf-8")
    numbers = {name: int(number) for name, number in re.findall(r"Fault::(\w+)[^=\n]*=> (\d+),", text)}
    body = text.partition("pub fn text(")[2].partition("pub fn push_text")[0]
    texts = {name: told for name, told in re.findall(r"Fault::(\w+)[^\"]*\"([^\"]*)\"", body)}
    variants = text.partition("pub enum Fault {")[2].partition("\n}")[0]
    reasons = {}
    for comment, name in re.findall(r"((?:\s*///[^\n]*\n)+)\s*(\w+)", variants):
        reasons[name] = " ".join(line.strip()[3:].strip() for line in comment.strip().split("\n"))
    return [(name, number, texts[name], reasons[name]) for name, number in numbers.items()]


def limit_words(root):
    """The words that F6 tells, each with the comment above its variant."""
    text = (root / LIMIT).read_text(encoding="utf-8")
    words = dict(re.findall(r"Limit::(\w+) => \"(\w+)\"", text))
    variants = text.partition("pub enum Limit {")[2].partition("\n}")[0]
    return [(words[name], comment) for comment, name in re.findall(r"/// (.*)\n\s*(\w+),", variants)]


SHOWN = {
    "line": "L",
    "column": "C",
    "clause": "N",
    "variable": "V",
    "name": "NAME",
    "arity": "ARITY",
    "": "WHICH",
    "step": "S",
    "earlier": "A",
    "later": "B",
}


def shown_text(name, text):
    """The text of a refusal with letters for what it names."""
    return re.sub(r"\{(\w*)\}", lambda found: "L" if name == "History" else SHOWN[found[1]], text)


def refusals_table(root):
    yield "| no. | text | refused because |"
    yield "|---|---|---|"
    for name, number, text, reason in faults(root):
        yield f"| F{number} | `{shown_text(name, text)}` | {reason.rstrip('.')} |"


def constant(root, path, name):
    """The value of a constant, its comment, and its line."""
    lines = (root / "crates" / path).read_text(encoding="utf-8").split("\n")
    for at, line in enumerate(lines):
        found = re.match(rf"\s*(?:pub(?:\(crate\))? )?const {name}: \w+ = ([\d_]+);", line)
        if found:
            above = at - 1
            told: list[str] = []
            while lines[above].strip().startswith("//"):
                told.insert(0, lines[above].strip().lstrip("/ "))
                above -= 1
            return int(found[1].replace("_", "")), " ".join(told), at + 1
    raise SystemExit(f"there is no constant {name} in {path}")


def in_specs(specs, equation):
    """The number with which an equation of specs/ ends, and the comment above its word."""
    crate, name, *argument = equation.split()
    found = next(one for one in specs.by_name[name] if one.crate == crate)
    start = " ".join([name, *argument]) + " ="
    line = next(line for line in found.text if line.startswith(start))
    return int(re.search(r"(\d+)$", line)[1]), found.comment


def limits_table(root, specs):
    yield "| what | limit | beyond it | set in |"
    yield "|---|---|---|---|"
    for path, name, word, beyond in LIMITS:
        value, comment, line = constant(root, path, name)
        there, said = in_specs(specs, word) if word else (value, "")
        if there != value:
            raise SystemExit(f"{name} is {value}, and `{word}` of specs is {there}")
        comment = comment or said
        yield f"| {comment[:1].upper()}{comment[1:].rstrip('.')} | {value:,} | {beyond} | [{name}](../crates/{path}#L{line}) |"


def told_faults(specs, names, word, only=None, seen=None):
    """The faults that a definition tells, as `F16`, in the order of its text: its own, and in their place those of the
    words it names."""
    seen = set() if seen is None else seen
    seen.add(word)
    scope, own = specs.scopes[word.module], specs.files[word.module]
    text = "\n".join(
        line for line in word.text if not only or re.match(rf"{word.name}\b.*?[ (]{only}(?:_of)?[ )].* = ", line)
    )
    found = []
    for token, limit in re.findall(r"([A-Za-z_][\w.]*)(?: limit\.(\w+))?", text):
        name = token.rpartition(".")[2]
        if name in names and (token.startswith("Fault.") or "declared.fault" in scope.names.get(name, ("", ""))[0]):
            found.append(names[name] + (f" `{limit.lower()}`" if limit else ""))
            continue
        for one in specs.in_text(token, scope, own):
            if one not in seen and tells(one):
                found += told_faults(specs, names, one, None, seen)
    return list(dict.fromkeys(found))


def tells(word):
    """Does the word speak of refusals?"""
    return any(re.search(r"\bFault\b|\bAnswer\b|\brefused\b", line) for line in word.text) and word.crate in (
        "ghc_core",
        "ghc_fire",
        "ghc_console",
    )


def command_rows(root, specs, rows):
    """Each command with its refusals, F1 left out."""
    names = {name: f"F{number}" for name, number, *_ in faults(root)}
    for row in rows:
        refusals = []
        for by in REFUSED_BY.get(row.name, [("ghc_console", "Replies", row.name)]):
            if isinstance(by, list):
                refusals += by
            else:
                word = [one for one in specs.by_name[by[1]] if one.crate == by[0]][0]
                refusals += [
                    one
                    for one in told_faults(specs, names, word, by[2] if len(by) > 2 else None)
                    if one not in refusals
                ]
        yield row, [one for one in refusals if one != "F1"]


def commands_table(root, specs, rows):
    yield "| command | what it does | refusals |"
    yield "|---|---|---|"
    for row, refusals in command_rows(root, specs, rows):
        by_number = sorted(refusals, key=lambda told: int(told[1:].split()[0]))
        yield f"| `{row.form}` | {row.tells} | {', '.join(by_number)} |"


def unlike_formats(root, specs, rows, page):
    """Where the table of commands in FORMATS names other refusals than specs do, said in a line each."""
    section = page.partition("## 10. Commands\n")[2].partition("\n## ")[0]
    written: dict[str, set[str]] = {}
    for line in section.split("\n"):
        if line.startswith("| `"):
            cells = re.split(r"(?<!\\)\|", line)
            for name in re.findall(r"`([a-z]+)", cells[1]):
                written.setdefault(name, set()).update(re.findall(r"\bF\d+", cells[3]))
    for row, refusals in command_rows(root, specs, rows):
        name, told = row.name, {one.split()[0] for one in refusals}
        if name not in written:
            yield f"FORMATS: the table of commands has no `{name}`"
        elif written[name] != told:
            yield f"FORMATS: `{name}` is refused with {sorted(written[name])} there, with {sorted(told)} in specs (tools/made/tables.py, REFUSED_BY)"
