#!/usr/bin/env python3
"""Runs the rows and tables of tests/rows/, and the examples of some pages, on the proved program,
crates/ghcdb/out/ghcdb, or on the one that the environment names as GHCDB.

    python3 tests/run_rows.py [WORD..]     the files whose names hold one of the words; without words, all
    python3 tests/run_rows.py --tell [WORD..]     runs nothing, and tells these rows as JSON, a line each, for others who play them

./ghcdb is a program, too: here it says nothing of itself on standard error.

Each row runs in a fresh folder of its own, for at most 60 seconds, as many rows side by side as there are
processors. Standard output, standard error and exit status have to be exactly those of the row. The last line is
`N passed, M failed`; the exit status is 1 where a row failed, or where there is no row.

A row is a file NAME.row: one case, as a list of entries. Lines that begin with `#` say what the row shows, and
empty lines are left out.

    # A file that is not there.
    file: missing.ghc
    query: true
    errors:
    | program: F26 device
    status: 3

An entry is `KEY: VALUE`, where the value is the rest of the line, or `KEY:` and below it lines that begin with `|`
(a bar alone, or a bar, a space and the text), each of which ends with a line feed in the value. In both forms

    {0D}       is the byte with these two hexadecimal digits, so {7B} is an opening brace
    {64*f(}    is the text behind the star, 64 times, which may hold bytes of the first form
    {}         at the end of a line of the second form takes its line feed away

What the program is given:

    program        the text of FILE; an empty text where there is neither `program` nor `file`
    file           the word for FILE, `program.ghc` where it is left out; with no `program` nothing is written there
    query          the text of the query; the option is left out where this entry is
    options        further words, one a line
    words          all words, one a line, in place of FILE, the query and the options
    example        a file of examples/: its text is the program, and where there is no `query` it is the one named in the
                   file's comment, on the line that begins with `% Query:`
    file NAME      the text of a further file of that name
    input          standard input
    to PATH        no value: standard output goes to PATH, as /dev/full
    errors to PATH no value: the same of standard error
    in turns       no value: each line of a session is given only when what stands above it was written
    left open      no value, beside `in turns`: the input stays open behind the last line, and the program ends by itself

What it has to do:

    output             standard output, nothing where it is left out
    output contains    a text that stands in standard output, which may hold more; can be given more than once
    errors, errors contain      the same of standard error
    session            input and output in one: what stands behind `> ` is a line of input, all else is output
    schedule           a schedule and output in one, in the same way: the lines are the file run.schedule, which is named behind
                       the options
    status             the exit status, 0 where it is left out

A table is a file NAME.table of many small rows on texts that are refused or accepted. Each of its lines is a row: KIND,
a tab, the text with its braces, a tab, and the line on standard error, with which the status is 1, or the word
`accepted`, with which the session begins and, without input, ends with status 0. KIND is `program`, and then the query
is `true`; `query`, and then the program is empty; or `history`, and then program and query are those of
examples/append.ghc. Lines that begin with `#` and empty lines are left out.

The examples of README.md, and of LANGUAGE.md, FORMATS.md, TUTORIAL.md, RACE.md and TERMINAL.md in docs/, are rows too:
each block that begins with `program` and `query`, and then has a session; one that begins with `continued` goes on with
the session of the block before it, and one that begins with `after the first run` with that of the page's first.

A block that begins with `$ ./ghcdb FILE --query "QUERY"` is a session on a file of the repository as a terminal shows
it. Its lines that begin with `% ` are the terminal's; here they are left out, and with them what is typed and answered
by such lines alone. Where `% sent: LINE` stands, LINE is given in place of what was typed.
"""

import json
import os
import re
import select
import subprocess
import sys
import tempfile
from concurrent.futures import ThreadPoolExecutor
from contextlib import ExitStack
from pathlib import Path

sys.dont_write_bytecode = True
from lib.program import PROGRAM, ROOT, TESTS

EXAMPLES = ROOT / "examples"
SECONDS = 60
TURN_SECONDS = 60  # more than any reply takes on a busy machine
PROMPT = b"> "
PAGES = ("README.md", "docs/LANGUAGE.md", "docs/FORMATS.md", "docs/TUTORIAL.md", "docs/RACE.md", "docs/TERMINAL.md")
AT_TERMINAL = re.compile(rb'\$ \./ghcdb (\S+) --query "(.*)"')
MARK, SENT = b"% ", b"% sent: "

SINGLE = {
    "program",
    "example",
    "file",
    "query",
    "options",
    "words",
    "input",
    "in turns",
    "left open",
    "session",
    "schedule",
    "output",
    "errors",
    "status",
}
LISTED = {"output contains", "errors contain"}
NAMED = {"file ", "to ", "errors to "}


class BadRow(Exception):
    """A row that is not of the form."""


def expand(text):
    """The bytes of a text with its braces."""

    def one(match):
        if match["byte"]:
            return bytes.fromhex(match["byte"].decode())
        return expand(match["part"]) * int(match["times"])

    pattern = rb"\{(?:(?P<byte>[0-9A-F]{2})|(?P<times>[0-9]+)\*(?P<part>(?:[^{}]|\{[0-9A-F]{2}\})*))\}"
    rest = re.sub(pattern, b"", text)
    if b"{" in rest:
        raise BadRow(f"an opening brace without a meaning: {text!r}")
    return re.sub(pattern, one, text)


def text_of(lines):
    """The text that lines with bars give."""
    text = b""
    for line in lines:
        if line != b"|" and not line.startswith(b"| "):
            raise BadRow(f"a bar stands alone or before a space: {line!r}")
        body = line[2:]
        if body.endswith(b"{}"):
            text += expand(body[:-2])
        else:
            text += expand(body) + b"\n"
    return text


def entries(source):
    """The keys of a row, each with its value, in order."""
    found = []
    lines = source.split(b"\n")
    at = 0
    while at < len(lines):
        line = lines[at]
        at += 1
        if not line or line.startswith(b"#"):
            continue
        key, colon, value = line.partition(b":")
        if not colon:
            raise BadRow(f"a line without a key: {line!r}")
        if value:
            found.append((key.decode(), expand(value.removeprefix(b" "))))
            continue
        start = at
        while at < len(lines) and lines[at].startswith(b"|"):
            at += 1
        found.append((key.decode(), text_of(lines[start:at])))
    return found


def read_row(path):
    """The entries of a row by their keys; those of LISTED are lists."""
    row: dict = {key: [] for key in LISTED}
    for key, value in entries(path.read_bytes()):
        if key in LISTED:
            row[key].append(value.removesuffix(b"\n"))
        elif key in row:
            raise BadRow(f"`{key}` stands twice")
        elif key in SINGLE or any(key.startswith(name) for name in NAMED):
            row[key] = value
        else:
            raise BadRow(f"`{key}` is no key")
    if "example" in row:
        take_example(row)
    if "session" in row:
        split_session(row)
    if "schedule" in row:
        split_schedule(row)
    return row


def take_example(row):
    """Puts the text of an example, and its query, into the row."""
    if "program" in row:
        raise BadRow("an example stands in the place of a program")
    try:
        row["program"] = (EXAMPLES / row["example"].decode()).read_bytes()
    except OSError as error:
        raise BadRow(f"no such example: {error}") from None
    query = re.search(rb"^% Query: +(.+)$", row["program"], re.MULTILINE)
    if "query" not in row and query:
        row["query"] = query[1]


def read_table(path):
    """The rows of a table, each with its name."""
    rows = []
    for number, line in enumerate(path.read_bytes().split(b"\n"), 1):
        if line and not line.startswith(b"#"):
            rows.append((f"{path.relative_to(ROOT)}:{number}", table_row(line)))
    return rows


def table_row(line):
    """A row of a table, or what is wrong with it."""
    columns = line.split(b"\t")
    if len(columns) != 3 or columns[0] not in (b"program", b"query", b"history"):
        return BadRow(f"a line of a table is not of the form: {line!r}")
    try:
        row: dict = {key: [] for key in LISTED}
        if columns[0] == b"history":
            row |= {
                "example": b"append.ghc",
                "file run.history": expand(columns[1]),
                "options": b"--load\nrun.history\n",
            }
            take_example(row)
        else:
            row |= {"program": b"", "query": b"true", columns[0].decode(): expand(columns[1])}
        if columns[2] == b"accepted":
            return row
        return row | {"errors": expand(columns[2]) + b"\n", "status": b"1"}
    except BadRow as error:
        return error


def blocks_of(text):
    """The blocks of a page between fences: the number of the first line, and the lines."""
    inside, start = False, 0
    lines = text.split(b"\n")
    for number, line in enumerate(lines):
        if line == b"```":
            if inside:
                yield start + 1, lines[start:number]
            inside, start = not inside, number + 1


def program_of(lines):
    """The text of an example's program: it begins behind `program`, and further lines are set in as far."""
    texts = [line[9:] for line in lines if not line.startswith(b"query ")]
    return b"" if texts == [b"(no clause)"] else b"".join(text + b"\n" for text in texts)


def sent_of(turn):
    """What of a line typed at a terminal and its reply is the console's: a list of lines."""
    reply = [line for line in turn[1:] if line.startswith(SENT) or not line.startswith(MARK)]
    if any(line.startswith(SENT) for line in reply):
        return [line.replace(SENT, PROMPT, 1) if line.startswith(SENT) else line for line in reply]
    return [turn[0], *reply] if reply else []


def terminal_session(lines):
    """The console's part of a session that is written as a terminal shows it."""
    starts = [at for at, line in enumerate(lines) if line.startswith(PROMPT)] + [len(lines)]
    turns = [lines[start:end] for start, end in zip(starts, starts[1:])]
    return b"".join(line + b"\n" for turn in turns for line in sent_of(turn))


def example_of(block, before):
    """The row of an example, where `before` has the rows on which it can go on; none where the block is no example."""
    at_terminal = AT_TERMINAL.fullmatch(block[0]) if block else None
    if at_terminal:
        row: dict = {key: [] for key in LISTED}
        program = (ROOT / at_terminal[1].decode()).read_bytes()
        return row | {"program": program, "query": at_terminal[2], "session": terminal_session(block[1:])}
    head, _, session = b"\n".join(block).partition(b"\n\n")
    if head in before:
        told = before[head]
        return told | {"session": told["session"] + session + b"\n"}
    lines = head.split(b"\n")
    if not lines[0].startswith(b"program  ") or not lines[-1].startswith(b"query    "):
        return None
    row = {key: [] for key in LISTED}
    return row | {"program": program_of(lines), "query": lines[-1][9:], "session": session + b"\n"}


def read_page(path):
    """The examples of a page, each with its name."""
    rows: list = []
    before: dict = {}
    for number, block in blocks_of(path.read_bytes()):
        row = example_of(block, before)
        if row:
            if not AT_TERMINAL.fullmatch(block[0]):
                before[b"continued"] = row
                before.setdefault(b"after the first run", row)
            rows.append((f"{path.relative_to(ROOT)}:{number}", dict(row)))
    for _, row in rows:
        split_session(row)
    return rows


def rows_of(path):
    """The rows of a file, each with its name, or with what is wrong with it."""
    if path.suffix == ".md":
        return read_page(path)
    if path.suffix == ".table":
        return read_table(path)
    try:
        row = read_row(path)
    except BadRow as error:
        row = error
    return [(str(path.relative_to(ROOT)), row)]


def split_session(row):
    """Puts input and output in the place of a session."""
    if "input" in row or "output" in row:
        raise BadRow("a session stands in the place of input and output")
    row["turns"] = []
    for line in row.pop("session").splitlines(keepends=True):
        if line.startswith(PROMPT):
            row["turns"].append((line[len(PROMPT):], b""))
        elif row["turns"]:
            given, written = row["turns"].pop()
            row["turns"].append((given, written + line))
        else:
            raise BadRow("a session begins with a line of input")
    row["input"] = b"".join(given for given, _ in row["turns"])
    row["output"] = b"".join(written for _, written in row["turns"])


def split_schedule(row):
    """Puts a file, the words that name it and output in the place of a schedule."""
    if "output" in row:
        raise BadRow("a schedule stands in the place of output")
    lines = row.pop("schedule").splitlines(keepends=True)
    row["file run.schedule"] = b"".join(line[len(PROMPT):] for line in lines if line.startswith(PROMPT))
    row["output"] = b"".join(line for line in lines if not line.startswith(PROMPT))
    row["options"] = row.get("options", b"") + b"--schedule\nrun.schedule\n"


def words_of(row):
    """The words of the command line."""
    if "words" in row:
        return row["words"].split(b"\n")[:-1]
    words = [row.get("file", b"program.ghc")]
    if "query" in row:
        words += [b"--query", row["query"]]
    return words + row.get("options", b"").split(b"\n")[:-1]


def files_of(row):
    """The names and the texts of the files that are there."""
    files = {key.removeprefix("file "): text for key, text in row.items() if key.startswith("file ")}
    if "program" in row or "file" not in row:
        files.setdefault(row.get("file", b"program.ghc").decode(), row.get("program", b""))
    return files


def target(row, key, stack):
    """The file that a stream goes to, or a pipe."""
    for name in row:
        if name.startswith(key):
            return stack.enter_context(open(name.removeprefix(key), "wb"))
    return subprocess.PIPE


def read_some(stream, length):
    """What comes from the stream: so many bytes, or fewer where no more come for a while."""
    got = b""
    while len(got) < length and select.select([stream], [], [], TURN_SECONDS)[0]:
        piece = os.read(stream.fileno(), length - len(got))
        if not piece:
            break
        got += piece
    return got


def run_in_turns(row, folder):
    """The same of a session in which no line is given before the replies to those above it were written."""
    with subprocess.Popen(
        [PROGRAM, *words_of(row)],
        stdin=subprocess.PIPE,
        stdout=subprocess.PIPE,
        stderr=subprocess.PIPE,
        cwd=folder,
        bufsize=0,
    ) as program:
        output = b""
        for given, written in row["turns"]:
            program.stdin.write(given)
            output += read_some(program.stdout, len(written))
            if not row["output"].startswith(output):
                break
        if "left open" in row:
            program.wait(timeout=SECONDS)
        rest, errors = program.communicate(timeout=SECONDS)
    return output + rest, errors, program.returncode


def run(row):
    """Standard output, standard error and exit status of the program on a row."""
    with ExitStack() as stack:
        folder = stack.enter_context(tempfile.TemporaryDirectory(prefix="ghcdb-row-"))
        for name, text in files_of(row).items():
            (Path(folder) / name).write_bytes(text)
        if "in turns" in row:
            return run_in_turns(row, folder)
        ended = subprocess.run(
            [PROGRAM, *words_of(row)],
            input=row.get("input", b""),
            stdout=target(row, "to ", stack),
            stderr=target(row, "errors to ", stack),
            cwd=folder,
            timeout=SECONDS,
        )
    return ended.stdout or b"", ended.stderr or b"", ended.returncode


def difference(row, name, contained, got):
    """What is wrong with what was written to a stream: a list of lines."""
    if row[contained]:
        missing = [text for text in row[contained] if text not in got]
        return [f"  {name} lacks {text!r}" for text in missing] + ([f"  {name} is {got!r}"] if missing else [])
    wanted = row.get(name, b"")
    if wanted == got:
        return []
    return [f"  {name} is to be {wanted!r}", f"  {name} is       {got!r}"]


def judge(row):
    """What is wrong with a row: a list of lines."""
    if isinstance(row, BadRow):
        return [f"  {row}"]
    try:
        output, errors, status = run(row)
        wanted = int(row.get("status", b"0"))
    except subprocess.TimeoutExpired:
        return [f"  it ran for {SECONDS} seconds"]
    except (OSError, ValueError) as error:
        return [f"  {error}"]
    wrong = difference(row, "output", "output contains", output)
    wrong += difference(row, "errors", "errors contain", errors)
    if status != wanted:
        wrong.append(f"  status is to be {wanted} and is {status}")
    return wrong


def letters(value):
    """Bytes as a text for JSON, which has for each byte the character of that number."""
    return value.decode("latin-1")


def told(name, row):
    """A row as JSON: what the program is given, and what it has to do."""
    if isinstance(row, BadRow):
        return json.dumps({"name": name, "bad": str(row)})
    return json.dumps(
        {
            "name": name,
            "words": [letters(word) for word in words_of(row)],
            "files": {file: letters(text) for file, text in files_of(row).items()},
            "input": letters(row.get("input", b"")),
            "turns": [[letters(given), letters(written)] for given, written in row["turns"]]
            if "in turns" in row
            else None,
            "left open": "left open" in row,
            "to": [
                [number, key.removeprefix(to)]
                for number, to in ((1, "to "), (2, "errors to "))
                for key in row
                if key.startswith(to)
            ],
            "output": letters(row.get("output", b"")),
            "errors": letters(row.get("errors", b"")),
            "output contains": [letters(text) for text in row["output contains"]],
            "errors contain": [letters(text) for text in row["errors contain"]],
            "status": int(row.get("status", b"0")),
        }
    )


def all_rows(words):
    """The rows of the files whose names hold one of the words, or of all, each with its name."""
    paths = sorted(path for path in (TESTS / "rows").rglob("*") if path.suffix in (".row", ".table"))
    paths += [ROOT / page for page in PAGES]
    return [row for path in paths if not words or any(word in path.stem for word in words) for row in rows_of(path)]


def main():
    if sys.argv[1:2] == ["--tell"]:
        print("\n".join(told(name, row) for name, row in all_rows(sys.argv[2:])))
        return 0
    os.environ["GHCDB_QUIET"] = "1"
    rows = all_rows(sys.argv[1:])
    if not Path(PROGRAM).is_file():
        print(f"{PROGRAM} is not there: `./ghcdb --prove` makes it", file=sys.stderr)
        rows = []
    with ThreadPoolExecutor(os.cpu_count()) as pool:
        judged = list(zip(rows, pool.map(judge, (row for _, row in rows))))
    failed = [(name, wrong) for (name, _), wrong in judged if wrong]
    for name, wrong in failed:
        print(f"failed: {name}")
        print("\n".join(wrong))
    print(f"{len(judged) - len(failed)} passed, {len(failed)} failed")
    return 1 if failed or not judged else 0


if __name__ == "__main__":
    sys.exit(main())
