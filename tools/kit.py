"""Rattle's kit, for tools that take the module of the program which it hands to its own clang: web/build,
tools/unproved, tests/edits."""
import shutil
import subprocess
import sys
from pathlib import Path

LEAST_MODULE = 100_000  # bytes; what is smaller, and goes through clang too, is none of the program

KEEPING_CLANG = """#!/bin/bash
for word in "$@"; do
  case "$word" in
    *.bc) [ "$(stat -c %s "$word")" -lt {least} ] || {{ cp "$word" "{kept}"; {then}; }} ;;
  esac
done
exec -a clang "{clang}" "$@"
"""


def kit_folder():
    """The folder of Rattle's kit: that of `rt`, or the one that a script of that name goes to."""
    rt = shutil.which("rt") or sys.exit("there is no `rt` on the PATH")
    beside = Path(rt).resolve().parent.parent
    if (beside / "toolchain").is_dir():
        return beside
    guides = subprocess.run(["rt", "doc"], capture_output=True, text=True).stdout.strip()
    return Path(guides).resolve().parent


def link_all(folder, copy, but=()):
    """Makes a folder whose entries are links to those of another, but some."""
    copy.mkdir()
    for entry in folder.iterdir():
        if entry.name not in but:
            (copy / entry.name).symlink_to(entry)


def keeping_kit(kit, room, kept, then="true"):
    """A kit of links in the room. Its clang puts the module of a program there where it is to be kept, does what the
    words of a shell say then, as `exit 1`, and goes on as the kit's."""
    copy = room / "kit"
    link_all(kit, copy, but=("bin", "toolchain"))
    link_all(kit / "toolchain", copy / "toolchain", but=("bin",))
    link_all(kit / "toolchain" / "bin", copy / "toolchain" / "bin", but=("clang",))
    link_all(kit / "bin", copy / "bin", but=("rt", "rtlib.py"))
    for script in ("rt", "rtlib.py"):  # they go by the folder that they stand in
        shutil.copy(kit / "bin" / script, copy / "bin" / script)
    clang = copy / "toolchain" / "bin" / "clang"
    clang.write_text(
        KEEPING_CLANG.format(least=LEAST_MODULE, kept=kept, then=then, clang=kit / "toolchain" / "bin" / "clang")
    )
    clang.chmod(0o755)
    return copy


def left_module(root):
    """Where the gate leaves the module of the program that it proved, by the sum of the sources."""
    found = subprocess.run([root / "tools" / "sources-sum"], capture_output=True, text=True, check=True)
    return root / "crates" / "ghcdb" / "out" / f"module-{found.stdout.strip()[:16]}.bc"


def run_tool(kit, name, words, **how):
    """Runs a tool of the kit's toolchain, as clang, which is its linker and its archiver too, by name."""
    subprocess.run([name, *map(str, words)], executable=kit / "toolchain" / "bin" / "clang", check=True, **how)


def text_of_module(kit, module, text):
    """Writes a module as LLVM text, with nothing changed."""
    words = "--target=x86_64-unknown-linux-gnu -S -emit-llvm -O0 -Xclang -disable-llvm-passes -x ir".split()
    run_tool(kit, "clang", [*words, module, "-o", text])
