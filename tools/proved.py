#!/usr/bin/env python3
"""The programs and the C library as they are handed out: proved or, for a trial, not.

    tools/proved.py FOLDER [NAME..]            puts loop_cli, loop_station and liblapyrei.a (NAME:
                                               lapyrei), or those named, into FOLDER, and beside
                                               each program its object, NAME.o
    tools/proved.py --trial FOLDER [NAME..]    the same, compiled without a proof; the programs are
                                               optimized
    tools/proved.py --help | -h | --version

It copies the crates on which they stand, as they are now, and runs `rt ci` over the copy. The kit
keeps what it has proved on this machine by the checksums of all that it read: after the gate, over
the same sources, nothing is proved again, and what isn't kept is proved (about 160 processor
minutes for all). The programs are those that `rt ci` made. What it doesn't make, the objects and
the static library, is compiled over the libraries that it proved, by the same compiler, which
proves these three small crates once more; an object has to give the very program when it is linked.
"""
import re
import shutil
import subprocess
import sys
import tempfile
import time
from pathlib import Path

import about

import trial_library
import unproved
from unproved import CRATES, KIT, TOP

ALL = ("loop_cli", "loop_station", "lapyrei")
# What each crate's verdict doesn't stand on, and what an earlier run left.
LEFT_OUT = ("out", "must-fail")


class Unproved(Exception):
    """What the kit said where it made nothing."""


def call(words, folder, told="it made nothing"):
    """Runs a tool of the kit."""
    done = subprocess.run([str(it) for it in words], cwd=folder, stdin=subprocess.DEVNULL,
                          stdout=subprocess.PIPE, stderr=subprocess.STDOUT, text=True)
    if done.returncode:
        raise Unproved(f"{told}: {done.stdout[-2000:]}")


def copy(names, room):
    """Lays out the crates of these names and those below, as a repository of their own."""
    wanted = unproved.below(names)
    lines = (TOP / "crates.txt").read_text().splitlines()
    kept = [it for it in lines if re.split(r"[\s:]", it, maxsplit=1)[0] in wanted]
    for name in wanted:
        shutil.copytree(CRATES / name, room / "crates" / name, symlinks=True,
                        ignore=lambda at, _, top=CRATES / name:
                        LEFT_OUT if Path(at) == top else ())
    (room / "crates.txt").write_text("".join(f"{it}\n" for it in kept))
    shutil.copyfile(TOP / "HANDLES", room / "HANDLES")
    # It is the top of a repository.
    (room / ".git").mkdir()
    return wanted


def prove(room, wanted):
    """Runs the gate of the copy, and says how far it is."""
    began, said, done = time.monotonic(), [], 0
    with subprocess.Popen(["rt", "ci"], cwd=room, stdin=subprocess.DEVNULL, text=True,
                          stdout=subprocess.PIPE, stderr=subprocess.STDOUT) as gate:
        for line in gate.stdout:
            said.append(line)
            found = re.match(r"rt: (\w+) (is kept|proved$)", line)
            if found:
                done += 1
                how = "kept" if found[2] == "is kept" else "proved"
                minutes = (time.monotonic() - began) / 60
                print(f"  {minutes:.0f} min: {found[1]} {how}, {done} of {len(wanted)}",
                      file=sys.stderr, flush=True)
    if gate.returncode or not re.search(r"^\d+ passed, 0 failed$", said[-1] if said else ""):
        raise Unproved("".join(said)[-4000:])


def words_of(name, top=TOP):
    """The call of the compiler for a crate over the libraries that `rt ci` has proved and left in
    crates/NAME/out/rlib, but for what is made of it."""
    used, is_program = unproved.libraries(), unproved.is_program(name)
    lower = unproved.below(used[name])
    places = {it: top / f"crates/{it}/out/rlib/{it}.rlib" for it in lower}
    kit = dict.fromkeys(["core", "std", *(it for it in used[name] if it not in used)])
    words = [KIT / "bin/rattle", "build", "--crate-name", name,
             "src/main.rt" if is_program else "src/lib.rt"]
    for it in kit:
        words += ["--extern", f"{it}={KIT}/rlibs/{it}.rlib"]
    for it in used[name]:
        words += ["--extern", f"{it}={places[it]}"] if it in used else []
    for folder in (KIT / "rlibs", *(it.parent for it in places.values())):
        words += ["-L", f"dependency={folder}"]
    words += ["--antt-project", KIT / "rattle/logic/antt-project.json"]
    words += ["--logic-built", KIT / "logic_built", "--toolchain", KIT / "toolchain"]
    return [*words, "--links", f"{name}=", "--jobs", "2"]


def archive(top, to):
    """Makes the static library."""
    to.parent.mkdir(exist_ok=True)
    call([*words_of("lapyrei", top), "--crate-type", "staticlib", "-o", to], top / "crates/lapyrei")


def link(made, to):
    """Links a program as `rt ci` does."""
    call([KIT / "bin/rattle-link", "--target", "x86_64-unknown-linux-gnu", "--toolchain",
          KIT / "toolchain", "-o", to, made, KIT / "c/libos_c.a", KIT / "c/liblibc_c.a"],
         to.parent, "it isn't linked")


def links_as(made, program, scratch):
    """Whether an object gives this very program."""
    if not made.exists():
        return False
    link(made, scratch / "linked")
    return (scratch / "linked").read_bytes() == program.read_bytes()


def object_of(room, name, scratch):
    """The object of which a proved program was linked: what `rt ci` left, here or at the top, or
    compiled again."""
    program = room / f"crates/{name}/out/{name}"
    for top in (room, TOP):
        made = top / f"crates/{name}/out/{name}.o"
        if links_as(made, program, scratch):
            return made
    made = scratch / f"{name}.o"
    call([*words_of(name, room), "--backend", "llvm", "-o", made], room / f"crates/{name}")
    if links_as(made, program, scratch):
        return made
    print(f"{name}: compiled again, its object gives another program, and is left out",
          file=sys.stderr)
    return None


def proved(folder, names):
    """Puts what is proved into a folder."""
    with tempfile.TemporaryDirectory(prefix="lapyrei-proved-", dir="/var/tmp") as place:
        room, scratch = Path(place, "repository"), Path(place)
        room.mkdir()
        prove(room, copy(names, room))
        for name in names:
            print(f"  compiling {name}", file=sys.stderr, flush=True)
            if unproved.is_program(name):
                shutil.copy(room / f"crates/{name}/out/{name}", folder)
                made = object_of(room, name, scratch)
                if made:
                    shutil.copyfile(made, folder / f"{name}.o")
            else:
                archive(room, folder / f"lib{name}.a")


def tried(folder, names):
    """Puts what isn't proved into a folder."""
    for name in names:
        print(f"  compiling {name} without a proof", file=sys.stderr, flush=True)
        if unproved.is_program(name):
            made = unproved.program(name, "fast")._replace(wanted="input-0").made()[0]
            shutil.copyfile(made, folder / f"{name}.o")
            link(folder / f"{name}.o", folder / name)
        else:
            # Optimized, its calls would be parts of their one caller.
            made = trial_library.object_of(name)._replace(level=unproved.PLAIN).made()[0]
            shutil.copyfile(trial_library.archive_of(name, made), folder / f"lib{name}.a")


def main(words):
    """Makes them; returns the status."""
    make = tried if words[:1] == ["--trial"] else proved
    words = words[make is tried:]
    names = words[1:] or ALL
    if not words or words[0].startswith("-") or not set(names) <= set(ALL):
        print(__doc__, file=sys.stderr, end="")
        return 2
    folder = Path(words[0]).resolve()
    folder.mkdir(parents=True, exist_ok=True)
    try:
        make(folder, names)
    except (Unproved, unproved.Unmade) as fault:
        print(f"{fault}\ntools/proved.py: nothing is made", file=sys.stderr)
        return 1
    return 0


if __name__ == "__main__":
    about.answers(__doc__)
    sys.exit(main(sys.argv[1:]))
