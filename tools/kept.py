"""Rattle's `rt` as a module, for tools that use what it keeps: tests/edits, tools/keep-proofs, tools/give-libraries,
web/build."""
import importlib.machinery
import importlib.util
import os
import shutil
import sys
import tempfile

sys.dont_write_bytecode = True
sys.path.insert(0, os.path.dirname(os.path.realpath(__file__)))
from kit import keeping_kit, kit_folder, left_module


def load_rt():
    path = os.path.realpath(shutil.which("rt") or sys.exit("there is no `rt` on the PATH"))
    loader = importlib.machinery.SourceFileLoader("rt_main", path)
    made = importlib.util.module_from_spec(importlib.util.spec_from_loader("rt_main", loader))
    sys.modules["rt_main"] = made
    loader.exec_module(made)
    if not keeps(made):
        fill_in(made)
    return made


def keeps(rt):
    """Whether the kit keeps on this machine what it passed. Of the kits in use 13b does not."""
    return hasattr(rt, "Kept")


def need_kept(rt):
    """Ends the tool where the kit keeps nothing."""
    if not keeps(rt):
        sys.exit(
            "this kit's rt keeps nothing of what it passed: ./ghcdb --prove proves all crates in this checkout, for web/build too"
        )


def leave_module(rt, root, room):
    """Has rt ci leave the module of the program that it proved in this checkout, as it hands it to clang. Not every
    kit's has a function of that name. What `room` holds has to stay meanwhile."""
    if not hasattr(rt.Crate, "compile_by"):
        return
    left, compile_by = left_module(root), rt.Crate.compile_by
    left.parent.mkdir(exist_ok=True)
    toolchain = keeping_kit(kit_folder(), room, left) / "toolchain"

    def leaving(crate, backend, words, to):
        words = [str(toolchain) if before == "--toolchain" else it for before, it in zip(["", *words], words)]
        return compile_by(crate, backend, words, to)

    rt.Crate.compile_by = leaving


def is_built_here(root):
    """Whether `rt run` has proved and built the program in this checkout as all stands now, so that building it again
    proves nothing."""
    rtlib = load_rt().rtlib
    program = next(it for it in rtlib.crates_below(str(root)) if it.is_program)
    stamp = rtlib.text_of(f"{program.folder}/out/{program.name}.stamp") or ""
    return all(it.is_built() for it in program.below()) and program.has_kept() and stamp.startswith(program.stamp())


def fill_in(rt):
    """Gives a kit that keeps nothing what tests/edits uses of one that does: the folder of what `rt check` left in a
    crate, and one check of a crate in a folder of its own."""

    def work_for(crate):
        left = os.path.join(crate.folder, rt.rtlib.KEPT[1])
        return left if crate.has_kept() else None

    def seeded(crate, flags):
        made = tempfile.mkdtemp(prefix="edits-seed-")
        os.mkdir(os.path.join(made, "seed"))
        if rt.checked(crate, {}, flags, os.path.join(made, "seed")).returncode:
            shutil.rmtree(made, ignore_errors=True)
            return None
        return made

    rt.work_for, rt.seeded, rt.linked, rt.SEEDS = work_for, seeded, shutil.copytree, []
    rt.share_work = lambda shares: None
