"""The faults of tests/wrong/station.faults, which tests/simulate --faults has to find, and those of
power.faults beside it, for tools/check power --wrong. All of a file are put into one program, each
behind a number: LOOP_WRONG names the one that is switched on.

A fault is a line `fault: NAME`, a line `says: TEXT`, or `met: TEXT` where users met it, a line
`seed: N` once a seed is known that finds it, and then for each place a line `file: PATH`, unless it
is that of the place before, and `old: TEXT` and `new: TEXT`. An old text is an expression, or
statements where it ends in `;` or `}`, and stands in that file exactly once; or is the first one
after the text of a line `after: TEXT`, which does. Where they have a space the file may have any
white space."""
from __future__ import annotations

import re
import subprocess
from pathlib import Path
from typing import NamedTuple

import processes
import unproved

TOP = Path(__file__).resolve().parents[2]
FAULTS = TOP / "tests/wrong/station.faults"
POWER = TOP / "tests/wrong/power.faults"
SWITCH = """#include <stdlib.h>
_Bool loop_wrong(unsigned number) {
    static int chosen = -1;
    if (chosen < 0) {
        const char *said = getenv("LOOP_WRONG");
        chosen = said ? atoi(said) : 0;
    }
    return (int)number == chosen;
}
"""
# What each crate gets in which there is a fault.
MODULE = """//! Whether a fault is switched on.

unsafe extern "C" {
    pub safe fn loop_wrong(number: u32) -> bool;
}

/// Whether the fault of this number is switched on.
pub fn wrong(number: u32) -> bool {
    loop_wrong(number)
}
"""


class Unfit(Exception):
    """A fault doesn't fit the sources."""


class Place(NamedTuple):
    """Where a fault changes a file: after a text, if one is given, from a text to another one."""

    file: str
    after: str
    old: str
    new: str


class Fault(NamedTuple):
    """A fault: its number, its name, what it does, whether users met it, the seed that finds it, if
    one is known, and what it changes."""

    number: int
    name: str
    says: str
    is_met: bool
    seed: int | None
    places: list[Place]


def faults_of(text: str) -> list[Fault]:
    """The faults of a text, in their order."""
    found = []
    for number, block in enumerate(text.strip("\n").split("\n\n"), 1):
        said: dict[str, str] = {}
        file, after, old, places = "", "", None, []
        for line in block.split("\n"):
            word, _, rest = line.partition(":")
            rest = rest.strip()
            if word in ("fault", "says", "met", "seed"):
                said[word] = rest
            elif word == "file":
                file = rest
            elif word == "after":
                after = rest
            elif word == "old":
                old = rest
            elif word == "new" and old:
                places.append(Place(file, after, old, rest))
                after, old = "", None
            else:
                raise Unfit(f"{line!r} is no line of a fault")
        seed = int(said["seed"]) if "seed" in said else None
        if not places or old or "fault" not in said or ("says" in said) == ("met" in said):
            raise Unfit(f"the fault {said.get('fault', number)} isn't whole")
        found.append(Fault(number, said["fault"], said.get("says") or said["met"], "met" in said,
                           seed, places))
    twice = {it.name for it in found if sum(it.name == other.name for other in found) > 1}
    if twice:
        raise Unfit(f"two faults have one name: {sorted(twice)}")
    return found


def all_faults(path: Path = FAULTS) -> list[Fault]:
    """All of a file."""
    return faults_of(path.read_text())


def with_seeds(text: str, seeds: dict[str, int]) -> str:
    """A text of faults, in which some have other seeds."""
    for name, seed in seeds.items():
        text = re.sub(rf"(?m)^(fault: {name}\n(?:says|met): .*\n)(?:seed: .*\n)?",
                      rf"\g<1>seed: {seed}\n", text)
    return text


def pattern(text: str) -> re.Pattern[str]:
    """Where a text stands, with any white space."""
    return re.compile(r"\s+".join(map(re.escape, text.split())))


def found_once(fault: Fault, place: Place, text: str) -> tuple[int, int]:
    """Where the old text of a place is in its file."""
    begin = 0
    if place.after:
        after = list(pattern(place.after).finditer(text))
        if len(after) != 1:
            raise Unfit(f"{fault.name}: {place.after!r} stands {len(after)} times in {place.file}")
        begin = after[0].end()
    there = list(pattern(place.old).finditer(text, begin))
    if not there or not place.after and len(there) != 1:
        raise Unfit(f"{fault.name}: {place.old!r} stands {len(there)} times in {place.file}")
    return there[0].span()


# A number of a fault, and the text in whose place it puts another one.
Change = tuple[int, int, int, str]


def changed(text: str, changes: list[Change]) -> str:
    """A text with all changes, each behind its number: a change within another one's old text is
    made there."""
    out, at = [], 0
    for begin, end in sorted({it[1:3] for it in changes}, key=lambda it: (it[0], -it[1])):
        if begin < at:
            continue
        inner = [it for it in changes
                 if begin <= it[1] and it[2] <= end and it[1:3] != (begin, end)]
        if any(begin < it[1] < end < it[2] for it in changes):
            raise Unfit(f"faults overlap: {text[begin:end]!r}")
        old = changed(text[begin:end], [(it[0], it[1] - begin, it[2] - begin, it[3])
                                        for it in inner])
        mine = [it for it in changes if it[1:3] == (begin, end)]
        choice = "".join(f"if crate::wrong::wrong({number}) {{ {new} }} else " for number, _, _, new
                         in mine) + f"{{ {old} }}"
        is_statement = text[end - 1] in ";}"
        out += [text[at:begin], choice if is_statement else f"({choice})"]
        at = end
    return "".join(out) + text[at:]


def with_faults(files: dict[str, str], faults: list[Fault]) -> dict[str, str]:
    """The files of a program with all faults in them."""
    by_file: dict[str, list[Change]] = {}
    for fault in faults:
        for place in fault.places:
            if place.file not in files:
                raise Unfit(f"{fault.name}: there is no {place.file}")
            begin, end = found_once(fault, place, files[place.file])
            by_file.setdefault(place.file, []).append((fault.number, begin, end, place.new))
    found = dict(files)
    for path, changes in by_file.items():
        found[path] = changed(files[path], changes)
    for crate in sorted({path.split("/src/")[0] for path in by_file}):
        root = f"{crate}/src/lib.rt"
        found[root] = re.sub(r"(?m)^(pub )?mod ", r"mod wrong;\n\g<0>", found[root], count=1)
        found[f"{crate}/src/wrong.rt"] = MODULE
    return found


def unfit() -> list[str]:
    """Why faults don't fit their sources, a line for each."""
    files, told = unproved.program("loop_station").files, []
    for path in (FAULTS, POWER):
        try:
            faults = all_faults(path)
        except Unfit as why:
            told.append(f"{path.name}: {why}")
            continue
        for fault in faults:
            try:
                with_faults(files, [fault])
            except Unfit as why:
                told.append(f"{path.name}: {why}")
    return told


class Planted(unproved.Program):
    """The station with all faults, which is linked with the switch."""

    def _compile(self, folder: Path, place: Path) -> float:
        switch = folder / "switch"
        switch.with_suffix(".c").write_text(SWITCH)
        subprocess.run(["cc", "-O2", "-fPIC", "-c", f"{switch}.c", "-o", f"{switch}.o"], check=True)
        subprocess.run(["ar", "rcs", f"{switch}.a", f"{switch}.o"], check=True)
        plain = processes.run

        def with_switch(words, *rest, **more):
            at = words.index("--crate-name")
            return plain([*words[:at], "--link", f"{switch}.a", *words[at:]], *rest, **more)

        processes.run = with_switch
        try:
            return super()._compile(folder, place)
        finally:
            processes.run = plain


def program(level: str = "fast", path: Path = FAULTS) -> Planted:
    """The station with all faults of a file, each switched off."""
    plain = unproved.program("loop_station", level)
    files = with_faults({**plain.files, "switch": SWITCH}, all_faults(path))
    return Planted(*plain._replace(files=files))
