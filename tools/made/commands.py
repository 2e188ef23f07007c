"""The tables commands.table and refusals.table, and all lists of commands, refusals and limits that are made of them.

What refusals and limits mean is read in fault.rt and limit.rt, so a meaning stands once.
"""

import json
import re
from itertools import zip_longest
from typing import NamedTuple

import tables

TABLE = "commands.table"
CURES = "refusals.table"
HELP = "crates/ghcdb/src/help.rt"
PARSER = "crates/ghc_console/src/command.rt"
MANUAL = "packaging/ghcdb.1"
WORDS = "commands.txt"
PROTOCOL = "front/protocol"  # where JavaScript has what it knows of the console's lines

EFFECTS = ("adds", "takes", "orders", "looks", "ends", "front")
FOLLOWS = ("", "ready", "goal", "kept", "shelf", "variable", "value", "stream", "predicate", "goals", "command")
COLUMNS = 120  # of a line of code
WIDTH_OF_FORM = 17  # the widest form that --help tells in the line of what it does

# Which forms each function of command.rt reads: what stands in a form after the command's name, as a pattern.
READ_BY = {
    "one_word_command": r"|\[.*\]",
    "number_command": r"N|\[?K\]?",
    "variable_command": r"X( or G)?",
    "goal_command": r"(X or )?G",
    "two_word_command": r"G( \[C\])?|F/N|\[1\]",
    "three_word_command": r"G \[C\]",
    "of_line": r"N \.\.|K TERM|GOALS|X or G \.\.",
}


class Row(NamedTuple):
    """A command: how it is written, what it does to the record, what may follow, what it does, and what a terminal
    adds."""

    form: str
    effect: str
    follows: str
    tells: str
    more: str

    @property
    def name(self):
        return self.form.split()[0]

    @property
    def rest(self):
        """What stands in the form after the name."""
        return self.form[len(self.name) + 1 :]

    @property
    def is_of_console(self):
        return self.effect != "front"


class Wrong(Exception):
    """A row that cannot be read."""


def cells_of(line, count, name):
    cells = [cell.strip() for cell in line.split("|")]
    if len(cells) != count:
        raise Wrong(f"{name}: this row has not {count} cells: {line}")
    return cells


def rows_in(root, name, count):
    for line in (root / name).read_text(encoding="utf-8").splitlines():
        if line and not line.startswith("#"):
            yield cells_of(line, count, name)


def read_groups(root):
    """The commands, those together that --help tells in one line, by the words of the first."""
    found: list[list[Row]] = []
    for form, effect, follows, tells, more in rows_in(root, TABLE, 5):
        if effect not in EFFECTS or follows.removesuffix(" ..") not in FOLLOWS:
            raise Wrong(f"{TABLE}: {form} has {effect!r} or {follows!r} where another word belongs")
        if form.startswith("& "):
            first = found[-1][0]
            found[-1].append(Row(form[2:], effect, follows, tells or first.tells, more or first.more))
        else:
            found.append([Row(form, effect, follows, tells, more)])
    return found


def of_console(groups):
    return [group for group in groups if group[0].is_of_console]


def of_front(groups):
    return [group for group in groups if not group[0].is_of_console]


def rows_of(groups):
    return [row for group in groups for row in group]


def forms_of(group):
    return ", ".join(row.form for row in group)


def tells_at_terminal(row):
    return f"{row.tells}; {row.more}" if row.more else row.tells


# --- texts of the console's commands alone


def help_lines(groups):
    """The lines of --help."""
    for group in of_console(groups):
        forms, tells = forms_of(group), group[0].tells
        yield from [f"  {forms:17} {tells}"] if len(forms) <= WIDTH_OF_FORM else [f"  {forms}", f"{'':20}{tells}"]


def usage_table(groups):
    """The table of README."""
    yield "| type | to |"
    yield "|---|---|"
    for group in of_console(groups):
        yield f"| {', '.join(f'`{row.form}`' for row in group)} | {group[0].tells} |"


# --- texts of all commands


def cheat_rows(cells):
    """Rows of a table with two pairs of columns, the first half of the cells in the left pair."""
    half = (len(cells) + 1) // 2
    for left, right in zip_longest(cells[:half], cells[half:], fillvalue=("", "")):
        yield f"| {left[0]} | {left[1]} | {right[0]} | {right[1]} |".replace("|  |", "| |")


def cheat_table(groups):
    """The tables of the cheat sheet: of the console's commands, and of those of the terminal alone."""
    for heading, part in (("type", of_console(groups)), ("at a terminal also", of_front(groups))):
        yield from ["", f"| {heading} | to | {heading} | to |", "|---|---|---|---|"]
        yield from cheat_rows(
            [(", ".join(f"`{row.form}`" for row in group), tells_at_terminal(group[0])) for group in part]
        )


def man_words(group):
    """The forms of a group for `.BI`, which sets words in bold and in italic by turns."""
    if len(group) == 1 and not group[0].rest:
        return f".B {group[0].name}"
    ends = ["\\fR, \\fP"] * (len(group) - 1) + [""]
    return ".BI " + " ".join(f'{row.name} " {row.rest}{end}"' for row, end in zip(group, ends))


def man_lines(groups):
    """The list of the man page."""
    for part in of_console(groups), of_front(groups):
        for group in part:
            yield from (".TP", man_words(group), tells_at_terminal(group[0]).replace("-", "\\-"))
        if part[0][0].is_of_console:
            yield from (".PP", "What stands after a semicolon is of the terminal alone, and so are these:")


# --- refusals and limits


def lowered(text):
    """A text of a comment as the middle of a sentence."""
    return text[:1].lower() + text[1:].rstrip(".")


def read_refusals(root):
    """The refusals: number, text, what it means, and what helps."""
    cures = {number: cure for number, cure in rows_in(root, CURES, 2)}
    faults = tables.faults(root)
    numbers = [f"F{number}" for _, number, *_ in faults]
    if list(cures) != numbers:
        raise Wrong(f"{CURES} has not the numbers of {tables.FAULT}: {sorted(set(cures) ^ set(numbers))}")
    for (name, number, text, reason) in faults:
        means = lowered(re.split(r"(?<=\.) |; ", reason)[0])
        yield f"F{number}", tables.shown_text(name, text), means, cures[f"F{number}"]


def cures_table(root):
    """The table of refusals of the cheat sheet."""
    yield "| refusal | what helps | refusal | what helps |"
    yield "|---|---|---|---|"
    yield from cheat_rows([(f"`{text}`", cure) for _, text, _, cure in read_refusals(root)])


def read_limits(root):
    """What each word of F6 means, with its numbers."""
    numbers: dict[str, list[tuple[str, int]]] = {}
    for path, name, _, beyond in tables.LIMITS:
        value, comment, _ = tables.constant(root, path, name)
        found = re.match(r"F6 `(\w+)`", beyond)
        if found:
            numbers.setdefault(found[1], []).append((comment, value))
    for word, what in tables.limit_words(root):
        (_, first), *others = numbers.get(word, [("", 0)])
        told = [f"{lowered(what)}: {first:,} at most" if first else lowered(what)]
        yield word, "; ".join([*told, *(f"{lowered(comment)}: {value:,}" for comment, value in others)])


# --- modules of JavaScript


def string(text, first):
    """A string as JavaScript writes it, in several lines where it is wide; `first` letters stand before it."""
    lines, width = [""], COLUMNS - first
    for word in re.findall(r"\S+\s*", text):
        if len(lines[-1] + word) > width - len('"" +'):
            lines.append("")
            width = COLUMNS - 4
        lines[-1] += word
    return " +\n    ".join(json.dumps(line, ensure_ascii=False) for line in lines)


def module(name, what, source, brackets, items):
    """A module that exports one thing."""
    lines = "".join(f"  {item},\n" for item in items)
    made = f"// {what}\n// Made by tools/make-commands of {source}.\n"
    return f"{made}const {name} = {brackets[0]}\n{lines}{brackets[1]};\n\nexport default {name};\n"


def entries(pairs):
    """The entries of an object whose values are strings."""
    return (f"{name}: {string(text, len(name) + 4)}" for name, text in pairs)


def commands_module(groups):
    """The commands for JavaScript, in the order in which a terminal's help lists them."""
    *console, last = of_console(groups)
    rows = []
    for row in rows_of([*console, *of_front(groups), last]):
        told = (
            json.dumps(it, ensure_ascii=False)
            for it in (row.name, row.form, row.effect, row.follows, row.tells, row.more)
        )
        rows.append("{{ name: {}, form: {}, effect: {}, follows: {},\n    tells: {}, more: {} }}".format(*told))
    what = "The commands: how each is written, what it does to the record, what follows it, what it does, what a terminal adds."
    return module("CommandsTable", what, TABLE, "[]", rows)


def refusals_module(root):
    told = entries((number, f"{means}; {cure}") for number, _, means, cure in read_refusals(root))
    return module("Refusals", "What each refusal means, and what helps.", f"{tables.FAULT} and {CURES}", "{}", told)


def limits_module(root):
    source = f"{tables.LIMIT} and the constants of the code"
    return module("Limits", "What each word of `F6 limit: WORD` means.", source, "{}", entries(read_limits(root)))


# --- what does not go together


def read_by_parser(root):
    """The words of command.rt: of each the functions that read it."""
    text = (root / PARSER).read_text(encoding="utf-8")
    found: dict[str, set[str]] = {}
    for function, body in re.findall(r"(?ms)^(?:pub )?fn (\w+)(.*?)^}", text):
        for word in re.findall(r'(?:first_word|name) == b"([a-z]+)"', body):
            found.setdefault(word, set()).add(function)
    return found


def unlike_parser(root, groups):
    """Where the table and the function that reads a line differ, said in a line each."""
    parsed, rows = read_by_parser(root), {row.name: row for row in rows_of(of_console(groups))}
    for word in sorted(set(parsed) ^ set(rows)):
        yield f"{TABLE}: `{word}` stands {'in command.rt alone' if word in parsed else 'here alone, and not in command.rt'}"
    for word in sorted(set(parsed) & set(rows)):
        form, reads = rows[word].form, sorted(parsed[word])
        if any(not re.fullmatch(READ_BY.get(function, ""), rows[word].rest) for function in reads):
            yield f"{TABLE}: `{form}` is not what {', '.join(reads)} of command.rt read"
        elif len(reads) == 1 and reads != ["of_line"] and re.search(r"\[| or ", form):
            yield f"{TABLE}: `{form}` has two forms, of which command.rt reads one, in {reads[0]}"


# --- all that is made


def between(root, name, begin, end, lines):
    """The text of a file with other lines between two others."""
    before, found, rest = (root / name).read_text(encoding="utf-8").partition(begin)
    _, ends, after = rest.partition(end)
    if not found or not ends:
        raise Wrong(f"{name}: {begin!r} .. {end!r} is not there")
    return before + begin + "".join(f"{line}\n" for line in lines) + end + after


def made(root):
    """Each file that is made of the tables, in whole or in part, with its text."""
    groups = read_groups(root)
    names = sorted(row.name for row in rows_of(of_console(groups)))
    return {
        root / HELP: between(root, HELP, "a line each:\n", "\nExample:", help_lines(groups)),
        root / WORDS: "".join(f"{name}\n" for name in names),
        root / PROTOCOL / "commands_table.mjs": commands_module(groups),
        root / PROTOCOL / "refusals.mjs": refusals_module(root),
        root / PROTOCOL / "limits.mjs": limits_module(root),
        root / MANUAL: between(root, MANUAL, '.\\" made: commands\n', '.\\" end of made\n', man_lines(groups)),
    }
