#!/usr/bin/env python3
"""Plays sessions at a pseudo-terminal: what people type who have not read the manual, ^C, ^D, Tab, the tutorial, and
examples/wrong.

    python3 terminal/tests/played.py [PATTERN]      those whose names have the pattern, or all, several at once
    python3 terminal/tests/played.py --write PAGE   plays the sessions of a page, and writes what is shown into it: look at each line

GHCDB names the native program; without it see terminal/ghcdb.

The last line is `N passed, M failed`; the exit status is 1 where a test failed.
"""

import json
import os
import re
import signal
import subprocess
import sys
import tempfile
import time
from pathlib import Path

sys.path[:0] = [str(Path(__file__).resolve().parent / "lib"), str(Path(__file__).resolve().parents[2] / "tests")]
import run_rows  # noqa: E402
import trying  # noqa: E402
from pseudo_terminal import Terminal  # noqa: E402
from trying import FRONT, is_met, start, wait_until, wants  # noqa: E402
from typed import SESSIONS  # noqa: E402

ROOT = Path(__file__).resolve().parents[2]
MARK = "% "
BLOCK = re.compile(r"^```\n(\$.*?)^```$", re.M | re.S)
ENDLESS = "p(N) :- true | M := N + 1, p(M).\n"


def play_typed(home, name):
    """A session of typed.py: each typed line with what has to be shown."""
    program, query, lines = SESSIONS[name]
    terminal = start(home, str(ROOT / program), "--query", query)
    try:
        for typed, *patterns in lines:
            shown = terminal.type(typed)
            for pattern in patterns:
                wants(is_met(pattern, shown), f"{typed!r} shows {shown}, without {pattern!r}")
    finally:
        terminal.end()


def page_rows():
    """The examples of the tutorials, as run_rows.py reads them; it plays them on the program alone."""
    pages = [ROOT / "docs" / page for page in ("TUTORIAL.md", "RACE.md")]
    return [(name, row) for page in pages for name, row in run_rows.rows_of(page)]


def play_row(home, row):
    """A session of a manual: the lines without the mark are exactly its replies."""
    with tempfile.TemporaryDirectory() as folder:
        for name, text in row["files"].items():
            Path(folder, name).write_text(text)
        words = [str(Path(folder, word)) if word in row["files"] else word for word in row["words"]]
        terminal = start(home, *words)
        try:
            shown = [line for typed in row["input"].splitlines() for line in terminal.type(typed)]
        finally:
            terminal.end()
    told = [line for line in shown if not line.startswith(MARK)]
    if any(line.startswith("% ..") for line in shown):
        return  # a long run is shortened, which test_long_run_is_shortened looks at
    wants("\n".join(told) + "\n" == row["output"], f"{row['name']}: {told}")


def shown_sessions():
    """The sessions of pages that are written as a terminal shows them, each as its lines."""
    answers = ("examples/wrong/ANSWERS.md", "examples/wrong/HABITS.md")
    for page in ("README.md", "docs/TUTORIAL.md", "docs/TERMINAL.md", *answers):
        for block in re.findall(BLOCK, (ROOT / page).read_text()):
            yield page, block.splitlines()


def shown_by(home, block):
    """What a terminal shows of a session, as its lines. A line in brackets stands for the file's being mended."""
    _, file, query = re.fullmatch(r'\$ (\S+) (\S+) --query "(.*)"', block[0]).groups()
    with tempfile.TemporaryDirectory() as folder:
        program = Path(folder, file)
        program.parent.mkdir(parents=True)
        program.write_text((ROOT / file).read_text())
        terminal = start(home, file, "--query", query, folder=folder)
        try:
            started = terminal.start.splitlines()
            shown = [block[0], *(started[:-1] if terminal.status is None else started)]
            for line in block:
                if line.startswith("("):
                    program.write_text((ROOT / "examples/wrong/mended" / program.name).read_text())
                    shown.append(line)
                elif line.startswith("> "):
                    shown += [line, *terminal.type(line[2:])]
        finally:
            terminal.end()
    return shown


def play_shown(home, block):
    """A session, exactly as it stands in a page."""
    shown = shown_by(home, block)
    for wanted, got in zip(block, shown):
        wants(wanted == got, f"{got!r} in place of {wanted!r}")
    wants(len(block) == len(shown), f"{len(shown)} lines in place of {len(block)}")


def write_page(page):
    """Writes into a page what a terminal shows of its sessions."""
    text = Path(page).read_text()
    for block in re.findall(BLOCK, text):
        with tempfile.TemporaryDirectory() as home:
            text = text.replace(block, "\n".join(shown_by(home, block.splitlines())) + "\n")
    Path(page).write_text(text)


def test_greeting_follows_the_program(home):
    terminal = start(home, str(ROOT / "examples/bill.ghc"), "--query", "bill(12,3,T)")
    wants(terminal.start.startswith("% Flat GHC. help lists the commands"), terminal.start)
    terminal.end()
    refused = start(home, str(ROOT / "examples/bill.ghc"), "--query", "bill(12,3,T")
    shown = refused.start.splitlines()
    wants(refused.status == 1 and shown[0] == "query: F2 syntax at 1:12", str(shown))
    wants(all(line.startswith(MARK) for line in shown[1:]) and "the query ends within brackets" in shown[1], str(shown))


def test_file_that_is_not_there(home):
    terminal = start(home, "nosuch.ghc", "--query", "true")
    wants(
        terminal.start.splitlines() == ["program: F26 device", "% nosuch.ghc: no such file"] and terminal.status == 3,
        terminal.start,
    )


def test_interrupt_at_the_prompt(home):
    terminal = start(home, str(ROOT / "examples/bill.ghc"), "--query", "bill(12,3,T)")
    terminal.type("step")
    terminal.press("garbage\x03")
    shown = terminal.read()
    wants("% quit ends; the session stands" in shown, shown)
    wants(is_met("=1 0.1 by 1 reads - binds - makes 1.1,1.2,1.3", terminal.type("records")), "the session is gone")
    terminal.end()


def test_interrupt_in_a_run(home):
    with tempfile.TemporaryDirectory() as folder:
        program = Path(folder, "endless.ghc")
        program.write_text(ENDLESS)
        terminal = start(home, str(program), "--query", "p(0)")
        terminal.type("leap 3")
        terminal.send("leap")
        time.sleep(1)
        terminal.press("\x03")
        shown = terminal.read()
        ended = re.search(r"% ended by \^C after (\d+) steps, which stand; leap goes on\n", shown)
        wants(ended and "\nstopped limit\n" in shown, shown[-500:])
        count = 3 + int(ended[1])
        wants(is_met(f"% {count} steps, longest chain", terminal.type("stat")), f"not {count} steps")
        wants(is_met(f"REDU {count + 1} ", terminal.type("leap 5")), "no run after it")
        terminal.end()


def test_interrupt_of_a_long_list(home):
    with tempfile.TemporaryDirectory() as folder:
        program = Path(folder, "endless.ghc")
        program.write_text(ENDLESS)
        terminal = start(home, str(program), "--query", "p(0)")
        terminal.type("leap 20000")
        for listing, first in (
            ("records all", "1 0.1 by 1"),
            ("records p/1 all", "1 p(0) by 1"),
            ("causes all", "2 1 made"),
        ):
            terminal.press(f"{listing}\r")
            terminal.read_until(first)  # nobody reads on, so that the terminal is full, and the rest is not shown yet
            terminal.press("\x03")
            shown = terminal.read()
            wants(
                shown.count("\n") < 9000 and re.search(r"% \.\. \d+ lines more \.\.\n", shown),
                f"{listing}: {shown[-200:]}",
            )
            wants(is_met("20000 steps", terminal.type("stat")), "the session is gone")
        terminal.end()


def test_interrupt_drops_the_lines_that_wait(home):
    with tempfile.TemporaryDirectory() as folder:
        program = Path(folder, "endless.ghc")
        program.write_text(ENDLESS)
        terminal = start(home, str(program), "--query", "p(0)")
        terminal.send("leap")
        terminal.send("leap 7")
        terminal.press("\x03")
        ended = re.search(r"% ended by \^C after (\d+) steps", terminal.read())
        wants(ended, "no end")
        wants(is_met(f"% {ended[1]} steps, longest chain", terminal.type("stat")), "the next line was played")
        terminal.end()


def test_goals_that_are_too_long_to_print(home):
    with tempfile.TemporaryDirectory() as folder:
        program = Path(folder, "double.ghc")
        program.write_text("d(0,T,R) :- true | R = T.\nd(N,T,R) :- N > 0 | M := N - 1, d(M,f(T,T),R).\n")
        terminal = start(home, str(program), "--query", "d(24,a,R)")
        wants(terminal.type("leap 45")[-2:] == ["stopped limit", "% leap goes on"], "no note")
        wants(
            is_met(
                "% a goal is longer than 1,048,576 bytes, so that no goal can be listed; step and leap go on",
                terminal.type("stuck"),
            ),
            "no reason",
        )
        wants(terminal.type("R") == ["% sent: show R", "R = _0_1", "% _0_1 (R of the query) is unbound"], "no value")
        wants(terminal.type("step")[:2] == ["% sent: leap 1", "REDU 46 45.1 is"], "no step")
        wants(terminal.type("run")[-2:] == ["stopped quiet", "% all is done"], "no end")
        wants(re.fullmatch(r"% it begins so: f\(f\(f\(.*…", terminal.type("R")[-1]), "no beginning")
        terminal.type("ask X = [b,R,1,2]")
        terminal.type("leap")
        wants(is_met("% it begins so: [b,f(f(f(", terminal.type("show _51_1")), "no beginning within a term")
        terminal.end()


def test_interrupt_where_the_file_has_changed(home):
    for text in ("q(1).\n" + ENDLESS, "p(1\n", None):
        with tempfile.TemporaryDirectory() as folder:
            program = Path(folder, "endless.ghc")
            program.write_text(ENDLESS)
            terminal = start(home, str(program), "--query", "p(0)")
            terminal.type("leap 3")
            before = terminal.type("records")
            program.unlink() if text is None else program.write_text(text)
            terminal.send("skip 3.2")  # which is made in one piece
            time.sleep(0.1)
            terminal.press("\x03")
            shown = terminal.read()
            wants("% the run was ended; the session stands as before it" in shown, shown[-500:])
            wants(terminal.type("records") == before, "the session is another one")
            wants(is_met("REDU 4 ", terminal.type("leap 1")), "no run after it")
            terminal.end()


def test_stopped_by_the_shell(home):
    terminal = start(home, str(ROOT / "examples/bill.ghc"), "--query", "bill(12,3,T)")
    terminal.press("\x1a")
    wait_until(terminal.reads_lines, "the end of reading keys")
    os.kill(terminal.child, signal.SIGCONT)
    terminal.read()
    wants(is_met("=REDU 1 0.1 by 1", terminal.type("step")), "no key is heard after fg")
    terminal.end()


def test_interrupt_of_what_takes_many_lines(home):
    with tempfile.TemporaryDirectory() as folder:
        program = Path(folder, "endless.ghc")
        program.write_text("p(N,_) :- true | M := N + 1, p(M,_).\n")
        terminal = start(home, str(program), "--query", "p(0,X)")
        terminal.send("watch X")
        time.sleep(0.3)
        terminal.press("\x03")
        shown = terminal.read()
        wants("% ended: it is not bound" in shown, shown[-500:])
        wants(is_met("stopped limit", terminal.type("leap 2000")), "no run after it")
        terminal.send("back 100000")
        time.sleep(0.05)
        terminal.press("\x03")
        terminal.read()
        left = len(terminal.type("records all"))
        wants(0 < left, "the steps are gone")
        terminal.end()


def test_launcher_gives_a_terminal_the_front(home):
    environment = {"HOME": home, "COLUMNS": "220", "GHCDB_QUIET": "1"}
    terminal = Terminal([str(ROOT / "ghcdb"), "examples/bill.ghc", "--query", "bill(12,3,T)"], environment, folder=ROOT)
    wants("% Flat GHC. help lists the commands" in terminal.start, terminal.start)
    wants(is_met("=% sent: step 0.1", terminal.type("s")), "no front")
    wants(is_met("=undone 1", terminal.type("back")), "no front")
    wants(is_met("% 1 step taken back and not saved", terminal.type("exit")), "it is lost without a word")
    terminal.type("y")
    wants(terminal.status == 0, f"status {terminal.status}")


def test_words_that_begin_no_session(home):
    environment = {"HOME": home, "COLUMNS": "220", "GHCDB_QUIET": "1"}
    wanted = "ghcdb: a program and a query are wanted, as bill.ghc --query 'bill(12,3,T)'; --help lists the options"
    lacking = {
        "": wanted,
        "nofile.ghc": "ghcdb: there is no file nofile.ghc",
        "README.md": "ghcdb: README.md has no comment `% Query: GOALS`: --query GOALS is wanted",
    }
    for word, why in lacking.items():
        terminal = Terminal([str(ROOT / "ghcdb"), *filter(None, [word])], environment, folder=ROOT)
        wants(why in terminal.start and terminal.status == 2, f"{terminal.start} {terminal.status}")


def test_long_run_is_shortened(home):
    terminal = start(home, str(ROOT / "examples/primes.ghc"), "--query", "primes(40,Ps)")
    shown = terminal.type("run")
    steps = int(terminal.type("stat")[-1].split()[1])
    wants(len([line for line in shown if line.startswith("REDU ")]) == 30, str(shown))
    wants(f"% .. {steps - 30} steps more (records all shows all) .." in shown, str(shown))
    wants(shown[0] == "% sent: leap" and shown[-2:] == ["stopped quiet", "% all is done"], str(shown[-3:]))
    terminal.end()


def test_long_explanation_is_shortened(home):
    terminal = start(home, str(ROOT / "examples/primes.ghc"), "--query", "primes(40,Ps)")
    terminal.type("run")
    steps = int(terminal.type("stat")[-1].split()[1])
    shown = terminal.type("explain Ps")
    told = [line for line in shown if not line.startswith(MARK)]
    tree = [line for line in shown if re.match(r"%( {2})* step \d+: ", line)]
    of = int(told[-1].split()[1])
    wants(told[-1] == f"steps {of} of {steps}" and len(told) == 31, str(told))
    wants(f"% .. {of - 29} steps more (explain Ps all shows all) .." in shown, str(shown))
    wants(len(tree) == 20 and shown[-1] == f"% {of - 20} steps more: explain Ps all shows them", str(shown[-3:]))
    wants(tree[0] == "% step 1: primes(40,_0_1) by 1" and re.search(r"\(and \d+ below\)$", tree[-1]), str(tree))
    whole = terminal.type("explain Ps all")
    told = [line for line in whole if not line.startswith(MARK)]
    tree = [line for line in whole if re.match(r"%( {2})* step \d+: ", line)]
    wants(len(told) == of + 2 and len(tree) == of and "below)" not in "".join(tree), str(whole[:3]))
    terminal.end()


def test_end_of_input_asks_once(home):
    terminal = start(home, str(ROOT / "examples/bill.ghc"), "--query", "bill(12,3,T)")
    terminal.type("leap")
    terminal.press("\x04")
    shown = terminal.read()
    wants("% 6 steps kept and not saved: save FILE keeps them; quit again ends" in shown, shown)
    wants(is_met("T = 150", terminal.type("show T")), "the session is gone")
    terminal.press("\x04")
    terminal.read()
    wants(terminal.status == 0, f"status {terminal.status}")


def test_end_of_input_ends_at_once_where_nothing_is_lost(home):
    terminal = start(home, str(ROOT / "examples/bill.ghc"), "--query", "bill(12,3,T)")
    terminal.press("\x04")
    terminal.read()
    wants(terminal.status == 0, f"status {terminal.status}")


def test_save_and_load(home):
    with tempfile.TemporaryDirectory() as folder:
        file = str(Path(folder, "run.history"))
        words = [str(ROOT / "examples/bill.ghc"), "--query", "bill(12,3,T)"]
        terminal = start(home, *words)
        terminal.type("leap")
        wants(is_met(f"saved in {file}", terminal.type(f"save {file}")), "not saved")
        wants(
            is_met("is there and is no history", terminal.type(f"save {ROOT / 'README.md'}")), "would be written over"
        )
        wants(
            is_met("its folder is not there; nothing was saved", terminal.type(f"save {folder}/none/run.history")),
            "no reason",
        )
        wants(is_met("it is a folder; nothing was saved", terminal.type(f"save {folder}")), "no reason")
        terminal.type("quit")
        wants(terminal.status == 0, "asks though it is saved")
        loaded = start(home, *words, "--load", file)
        wants(is_met("T = 150", loaded.type("T")), "not loaded")
        wants(is_met("undone 6", loaded.type("back")), "does not know its steps")
        loaded.end()


def test_restart(home):
    with tempfile.TemporaryDirectory() as folder:
        program = Path(folder, "bill.ghc")
        program.write_text((ROOT / "examples/bill.ghc").read_text())
        terminal = start(home, str(program), "--query", "bill(12,3,T)")
        terminal.type("leap")
        program.write_text(program.read_text().replace("N > 0 |", "N > 0, N < 10 |"))
        wants(is_met("restart again begins anew", terminal.type("restart")), "steps are lost without a word")
        wants(is_met("Flat GHC.", terminal.type("restart")), "no new beginning")
        terminal.type("leap")
        wants(is_met("T = 126", terminal.type("T")), "the old program")
        program.write_text("price(N,P) :- N > 0 P := N.\n")
        terminal.type("restart")
        wants(
            is_met("% the session before stands", terminal.type("restart")),
            "it is not told that the new text is refused",
        )
        wants(is_met("T = 126", terminal.type("T")), "the session is gone")
        history = str(Path(folder, "kept"))
        wants(
            is_met("saved in", terminal.type(f"save 1 {history}"))
            and Path(history).read_text().startswith("ghc-history 1\n"),
            "no history 1",
        )
        terminal.end()


def test_tab(home):
    terminal = start(home, str(ROOT / "examples/bill.ghc"), "--query", "bill(12,3,Total)")
    for line, wanted in [("lea", "leap"), ("step ", "step 0.1"), ("show T", "show Total"), ("spy pr", "spy price/2")]:
        wants(terminal.complete(line).rstrip() == wanted, f"{line!r} becomes {terminal.complete(line)!r}")
    terminal.type("step")
    wants(terminal.complete("undo ").rstrip() == "undo 1", "no kept step is offered")
    wants(terminal.offered("step ") == ["1.1", "1.2"], "the ready goals are not offered")
    wants(terminal.offered("explain ")[:2] == ["Total", "_1_1"], "no variable is offered")
    wants("goals" in terminal.offered("go") and "goal" in terminal.offered("go"), "no commands are offered")
    terminal.end()


def test_tab_where_there_is_much(home):
    with tempfile.TemporaryDirectory() as folder:
        program = Path(folder, "endless.ghc")
        program.write_text(ENDLESS)
        terminal = start(home, str(program), "--query", "p(0), instream(S)")
        terminal.type("leap 5000")
        offered = terminal.offered("undo ")
        wants(len(offered) == 200 and {"1", "5000"} < set(offered), f"{len(offered)} words")
        wants(terminal.complete("undo 4") == "undo 4", "what all have in common is wrong")
        wants(terminal.complete("in ").rstrip() == "in 1", "no stream is offered")
        terminal.end()


def test_terminal_that_edits_no_lines(home):
    terminal = start(home, str(ROOT / "examples/bill.ghc"), "--query", "bill(12,3,T)", kind="dumb")
    wants(is_met("=REDU 1 0.1 by 1", terminal.type("step")), "no step")
    terminal.press("\x03")
    wants("% quit ends; the session stands" in terminal.read(), "^C ends the session")
    wants(is_met("=undone 1", terminal.type("back")), "the session is gone")
    terminal.type("quit")
    terminal.type("y")
    wants(terminal.status == 0, f"status {terminal.status}")


def test_history_is_kept(home):
    terminal = start(home, str(ROOT / "examples/bill.ghc"), "--query", "bill(12,3,T)")
    terminal.type("show T")
    terminal.end()
    again = start(home, str(ROOT / "examples/bill.ghc"), "--query", "bill(12,3,T)")
    again.press("\x1b[A\r")
    wants("T = _0_1" in again.read(), "the line before is not there")
    again.end()


def test_note_on_a_lone_variable(home):
    terminal = start(home, str(ROOT / "examples/wrong/buffer.ghc"), "--query", "go(5,Sum)")
    wants("% note: Tai1 stands once in clause 6" in terminal.start and "is it Tail1?" in terminal.start, terminal.start)
    terminal.end()


def test_on_a_pipe_nothing_is_added(home):
    native = os.environ.get("GHCDB") or str(ROOT / "crates/ghcdb/out/ghcdb")
    is_there = os.access(native, os.X_OK)
    words = [str(ROOT / "examples/append.ghc"), "--query", "append([1],[2],R)"]
    lines = "help\nstep\nR\nexplain\nexplain R\nleap\nundo\nshow R\n\n\xff\n".encode("latin-1")
    environment = {**os.environ, "GHCDB": native if is_there else "page", "GHCDB_QUIET": "1"}
    alone = [native] if is_there else ["node", str(ROOT / "web" / "console")]
    programs = [
        alone,
        ["node", FRONT],
        ["node", str(ROOT / "terminal" / "check")],
        [str(ROOT / "ghcdb")],
        [str(ROOT / "ghcdb"), "--check"],
    ]
    told = [
        subprocess.run([*program, *words], input=lines, capture_output=True, env=environment, timeout=300)
        for program in programs
    ]
    for program, one in zip(programs, told):
        wants((one.stdout, one.stderr) == (told[0].stdout, told[0].stderr), f"{program}: {one}")
    wants([one.returncode for one in told] == [0, 0, 4, 0, 4], str([one.returncode for one in told]))
    wants(told[0].stdout.count(b"F25 command") == 6 and b"%" not in told[0].stdout, str(told[0]))


def tests():
    """All tests, each with its name."""
    yield from trying.tests_of(globals())
    for name in SESSIONS:
        yield f"typed: {name}", lambda home, name=name: play_typed(home, name)
    for page, block in shown_sessions():
        yield f"{page}: {block[0]}", lambda home, block=block: play_shown(home, block)
    for name, row in page_rows():
        yield name, lambda home, name=name, row=row: play_row(home, json.loads(run_rows.told(name, row)))


def main():
    if sys.argv[1:2] == ["--write"]:
        return write_page(sys.argv[2])
    trying.main(tests())


if __name__ == "__main__":
    main()
