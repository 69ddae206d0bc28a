"""What tools/check knows of the checks: their words, the programs that they take, and what is wrong
that each has to find. NAME_kind.py says it of the check NAME; a check without such a file is known
by its own (tools/check)."""
import importlib
import shutil
import sys
from collections import namedtuple
from pathlib import Path

TOP = Path(__file__).resolve().parents[2]
TOOLS = TOP / "tools"
# What is given to a check to find: what is wrong with it, programs that stand before the true ones
# (a body in C, or a text in Python), what else its environment has, its words, what it has to say,
# and the status with which it says so.
Wrong = namedtuple(
    "Wrong", "what programs given words says status", defaults=({}, {}, (), "", None)
)
# A check: its file, its words, those of --quick (None where it takes no part), the programs that it
# takes, what it is, and what it has to find.
Kind = namedtuple("Kind", "file words quick programs line wrong")

NO_SYNC = 'setenv("LOOP_MODE", "no_sync", 1);'


def changed_copy(name, old, new):
    """A changed copy of a file: what makes it, from a folder."""

    def make(folder):
        text = (TOP / name).read_text()
        if old not in text:
            sys.exit(f"tools/check: {name} hasn't {old!r} any more")
        copy = folder / Path(name).name
        copy.write_text(text.replace(old, new, 1))
        # A program stays one.
        shutil.copymode(TOP / name, copy)
        return str(copy)

    return make


def changed_crate(crate, name, old, new):
    """A folder with the sources of one crate, in which a file is changed: what makes it, from a
    folder."""

    def make(folder):
        there = folder / crate / "src"
        shutil.copytree(TOP / "crates" / crate / "src", there)
        changed = changed_copy(f"crates/{crate}/src/{name}", old, new)(folder)
        shutil.move(changed, there / name)
        return str(folder)

    return make


def changed_links(name, old, new, program="loop_archive"):
    """A copy of the programs that link stations, in which one file is changed: what makes it, from
    a folder."""

    def make(folder):
        shutil.copytree(TOP / "python", folder / "python")
        changed = changed_copy(f"python/links/station_links/{name}", old, new)(folder)
        shutil.move(changed, folder / "python/links/station_links" / name)
        return str(folder / "python/links" / program)

    return make


def kinds():
    """All checks that have a file NAME_kind.py, by their names."""
    names = [
        it.stem.removesuffix("_kind") for it in sorted(Path(__file__).parent.glob("*_kind.py"))
    ]
    return {name: importlib.import_module(f"{name}_kind").KIND for name in names}


# The programs, by the variables that name them.
CRATES = {
    name.upper(): name
    for name in (
        "loop_cli",
        "loop_station",
        "bench_programs",
        "example_fill",
        "lapyrei",
        "test_lane_cases",
        "test_station",
    )
}
