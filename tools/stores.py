"""What kill_check, power_check, format_check, start_check, output_check, descriptor_check and
save_check share: the programs, the preloaded library and its log, what a loss of power may leave of
a file, and the plain recorder that says what a file may hold."""
import os
import pathlib
import struct
import subprocess
import sys
import tempfile

import layout
import trial
import unproved
from power_loss import (  # noqa: F401 (the checks take them from here)
    after_power_loss,
    at_random,
    change,
    library,
    log_of,
    under,
)

TOOLS = os.path.dirname(os.path.abspath(__file__))
CRATES = os.path.join(TOOLS, "..", "crates")
ALL = str(2**64 - 1)
MODES = ("no_sync", "late_sync", "gate_first")


class Violation(Exception):
    """Something that no kill, loss of power or refusal may leave."""


def built(name):
    """A program's path, or the static library's of a crate that has no program. One that a variable
    names, as LOOP_CLI, LOOP_STATION, BENCH_PROGRAMS, EXAMPLE_FILL or LAPYREI, is taken as it is;
    one of tests/rust is compiled, and never proved. Others are taken from crates/NAME/out, where
    they are newer than their sources. Else they are built where LAPYREI_PROVE is set, and proved
    where something changed: nobody starts that unawares."""
    given = os.environ.get(name.upper())
    if given:
        return os.path.abspath(given)
    if name in unproved.of_tests():
        return trial.trial(name)
    if not os.environ.get("LAPYREI_PROVE"):
        if is_fresh(name):
            return path_of(name)
        sys.exit(
            f"{name} isn't built, or is older than its sources. {name.upper()}=PATH names another;"
            f" tools/check KIND --trial compiles it without a proof, in a minute; with --prove, or"
            f" LAPYREI_PROVE=1, it is proved and built, in an hour or more"
        )
    print(
        f"proving and building {name} where something has changed: an hour or more, silently",
        file=sys.stderr,
        flush=True,
    )
    prove(name)
    return path_of(name)


def path_of(name):
    """Where the program of a crate is built, or its static library."""
    is_program = os.path.exists(os.path.join(CRATES, name, "src/main.rt"))
    return os.path.join(CRATES, name, "out", name if is_program else f"lib{name}.a")


def is_fresh(name):
    """Whether it is built, and newer than the sources of its crate and of those below."""
    if not os.path.exists(path_of(name)):
        return False
    crates = [name, *unproved.below(unproved.libraries()[name])]
    sources = [it for crate in crates for it in (pathlib.Path(CRATES) / crate / "src").rglob("*")]
    return os.stat(path_of(name)).st_mtime >= max(it.stat().st_mtime for it in sources)


def prove(name):
    """Proves and builds a program, or a static library."""
    with tempfile.TemporaryDirectory() as folder:
        is_program = not path_of(name).endswith(".a")
        verb = "run" if is_program else "lib"
        words = ["rt", verb, "--jobs", "1", *(words_of(name, folder) if is_program else [])]
        done = subprocess.run(
            words, cwd=os.path.join(CRATES, name), stdin=subprocess.DEVNULL, capture_output=True
        )
        if done.returncode != 0:
            sys.exit(f"rt {verb} made no {name}")


def words_of(name, folder, stops=True):
    """What makes a program end at once, with status 0, as it is run once it was built: loop_station
    wants a configuration, whose orders end it, or not."""
    if name != "loop_station":
        return []
    orders, config = os.path.join(folder, "orders"), os.path.join(folder, "station.toml")
    with open(orders, "w") as file:
        file.write("stop\n" if stops else "")
    with open(config, "w") as file:
        file.write(
            f'orders = "{orders}"\n[[camera]]\nname = "one"\nsource = "pattern"\nstore ='
            f' "{folder}/one.loop"\nbytes = 100000000\n'
        )
    return ["--", config]


def settle(log, path):
    """Makes a log after a kill one of what was done: a record that was cut is removed, and a last
    write, which is logged before it is made, has the bytes that the file has in its place, since
    the kill may have come in between."""
    if not os.path.exists(log):
        return
    whole = log_of(log)
    if whole and whole[-1][0] == "W":
        _, at, data = whole[-1]
        with open(path, "rb") as file:
            file.seek(at)
            whole[-1] = ("W", at, file.read(len(data)))
    with open(log, "wb") as file:
        for kind, at, data in whole:
            file.write(kind.encode() + struct.pack("<QQ", at, len(data)) + data)


def footage(number, run):
    """The byte of which `bench_programs record` makes a frame."""
    return (number % 251 + run % 251 * 7) % 251


class Plain:
    """The plain recorder: the frames by their numbers, each as its byte, the clips, the next
    number, and the layout's version."""

    def __init__(self, geometry, frames=None, clips=None, following=0, version=2):
        self.geometry, self.frames, self.clips, self.next = (
            geometry,
            dict(frames or {}),
            list(clips or []),
            following,
        )
        self.version = version

    def copy(self):
        return Plain(self.geometry, self.frames, self.clips, self.next, self.version)

    def victim(self):
        """The block that is removed before the next frame is stored, if one is."""
        slots = self.geometry.slots
        blocks = {number // slots for number in self.frames}
        is_full = not self.next % slots and len(blocks) == self.geometry.segments
        return layout.victim(blocks, [clip[1:3] for clip in self.clips], slots) if is_full else None

    def store(self, byte):
        """The states that the store of one more frame goes through."""
        states, gone = [], self.victim()
        if gone is not None:
            self.frames = {
                number: it
                for number, it in self.frames.items()
                if number // self.geometry.slots != gone
            }
            states.append(self.copy())
        self.frames[self.next] = byte
        self.next += 1
        return states + [self.copy()]

    def lock(self, first, last, tag=0):
        """The state after a lock."""
        taken = {clip[0] for clip in self.clips}
        self.clips = sorted(
            self.clips + [(min(set(range(layout.CLIPS)) - taken), first, last, tag)]
        )
        return [self.copy()]

    def unlock(self, index):
        """The state after an unlock."""
        self.clips = [clip for clip in self.clips if clip[0] != index]
        return [self.copy()]

    def upgrade(self):
        """The state after an upgrade of version 1."""
        self.version = 2
        return [self.copy()]

    def reads_as(self):
        """What an image of this state reads as."""
        frames = {
            number: bytes([byte]) * self.geometry.size for number, byte in self.frames.items()
        }
        return layout.Recording(self.geometry, self.version, self.next, frames, self.clips)


def list_of(program, path):
    """What `list` answers for a file."""
    done = subprocess.run([program, "list", path], capture_output=True, text=True)
    return done.returncode, done.stdout, done.stderr


def reads_the_same(program, path, image):
    """Writes an image into a file; `list` and `export` answer what the rules say, and a refused
    file keeps its bytes. Answers what it reads as."""
    with open(path, "wb") as file:
        file.write(image)
    found = layout.read(image)
    wanted = layout.answer(found)
    answered = list_of(program, path)
    if answered != wanted:
        raise Violation(f"list answers {answered}, and by the rules {wanted}")
    if isinstance(found, layout.Refused):
        with open(path, "rb") as file:
            if file.read() != image:
                raise Violation("a refused file was changed")
    elif found.frames:
        text = path + ".y4m"
        done = subprocess.run(
            [program, "export", path, "0", ALL, text], capture_output=True, text=True
        )
        with open(text, "rb") as file:
            exported = file.read()
        if (done.returncode, done.stdout) != (
            0,
            f"exported {len(found.frames)}\n",
        ) or exported != layout.text_of(found, 0, 2**64 - 1):
            raise Violation(
                f"export answers {done.returncode} {done.stdout!r} {done.stderr!r}, or another text"
                " than the frames that are held"
            )
    return found


def is_one_of(found, readings):
    """Sees that what an image reads as is one of these, pixels and all."""
    if found not in readings:
        shown = (
            found.text
            if isinstance(found, layout.Refused)
            else layout.listed(found).replace("\n", ", ")
        )
        wanted = " or ".join(layout.listed(reading).replace("\n", ", ") for reading in readings)
        raise Violation(
            f"a file reads as {shown}; what may stand there is {wanted}(with the pixels of each"
            " number and run)"
        )
