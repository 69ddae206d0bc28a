"""Runs a world's lives, one after the other, by the real program under tools/virtual.c."""
from __future__ import annotations

import ctypes
import json
import os
import random
import shutil
import subprocess
import tempfile
from pathlib import Path
from typing import NamedTuple

import unproved
from simulated_disk import Disk, Record, log_of
from simulated_world import Life, World

TOOLS = Path(__file__).resolve().parents[2] / "tools"
# So many seconds a life may take.
PATIENCE = 120
# Files of a folder that no loss of power touches.
OUTSIDE = ("station.toml", "answers")
ADDRESSES_STAY = 0x0040000


def library() -> Path:
    """The preloaded library, built once for the same source."""
    path = unproved.KEPT / unproved.checksum((TOOLS / "virtual.c").read_text()) / "virtual.so"
    if not path.exists():
        path.parent.mkdir(parents=True, exist_ok=True)
        made = path.with_suffix(f".{os.getpid()}")
        words = ["cc", "-shared", "-fPIC", "-O2", "-o", made, TOOLS / "virtual.c", "-ldl"]
        subprocess.run(words, check=True)
        made.rename(path)
    os.utime(path.parent)
    return path


class Lived(NamedTuple):
    """What was of a life: what its world was to be, its log, the files before it, those that it
    left and those with which the next one begins, and its standard output."""

    life: Life
    log: bytes
    records: list[Record]
    before: dict[str, bytes]
    left: dict[str, bytes]
    after: dict[str, bytes]
    output: bytes
    status: int
    # Whether the file of answers is there, which links are, and what was changed of the files that
    # the station only reads.
    has_answers: bool
    links: set[str]
    changed_files: set[str]
    # The reads of files, which change nothing.
    reads: list[Record]

    def end(self) -> int:
        """When it ended."""
        return self.records[-1].time if self.records else self.life.begins

    def why(self) -> str:
        """How it ended."""
        last = self.records[-1] if self.records else None
        return last.data.decode() if last and last.kind == "E" else "broken off"

    def steps(self) -> int:
        """How many steps it had."""
        last = self.records[-1] if self.records else None
        return last.place if last and last.kind == "E" else 0


def told(records: list[Record]) -> list[tuple[int, int, dict]]:
    """The lines of answers: of each, after how many records and when it came, and what it is. A
    line that isn't JSON has the kind None."""
    found, rest = [], b""
    for index, record in enumerate(records):
        if record.kind != "A":
            continue
        *lines, rest = (rest + record.data).split(b"\n")
        for line in lines:
            try:
                said = json.loads(line)
            except ValueError:
                said = {"kind": None, "text": line.decode(errors="replace")}
            found.append((index, record.time, said))
    return found


class Runner:
    """A folder in which lives are lived."""

    def __init__(self, program: str, top: str) -> None:
        self.program, self.top = os.path.abspath(program), top
        self.made = Path(tempfile.mkdtemp(prefix="simulate", dir=top))
        self.preload, self.lived, self.config = library(), 0, ""
        # The number of the fault that is switched on, of a program that has some.
        self.wrong = 0
        self.place = self.made / "seed"
        self.folder = self.place / "files"

    def begins(self, world: World) -> None:
        """Makes the folder of a world."""
        shutil.rmtree(self.place, ignore_errors=True)
        self.folder.mkdir(parents=True)
        self.lived = 0
        (self.folder / "clips").mkdir()
        self.config = world.config()
        for camera in world.cameras:
            os.mkfifo(self.folder / f"{camera.name}.y4m")
        for name in ("orders", "nobody", *world.sinks):
            os.mkfifo(self.folder / name)
        self.lays(world.files())
        for name, where in world.links.items():
            (self.folder / name).symlink_to(where)
        if world.is_piped:
            os.mkfifo(self.folder / "answers")

    def held(self) -> dict[str, bytes]:
        """What the files of the folder hold."""
        paths = sorted(it for it in self.folder.rglob("*") if it.is_file() and not it.is_symlink())
        names = ((str(it.relative_to(self.folder)), it) for it in paths)
        return {name: path.read_bytes() for name, path in names
                if name not in OUTSIDE and not name.startswith(("next.", "answers."))}

    def lays(self, files: dict[str, bytes]) -> None:
        """Makes the folder's files these."""
        for name in self.held():
            (self.folder / name).unlink()
        for name, data in sorted(files.items()):
            (self.folder / name).write_bytes(data)

    def lives(self, life: Life, seed: str, known: Lived | None = None) -> Lived:
        """Lives a life, and what comes after it. Where it is as one that is known, from the same
        files on, that is it."""
        at, self.lived = self.lived, self.lived + 1
        script, log = self.place / f"script.{at}", self.place / f"log.{at}"
        script.write_text(life.script)
        for name, text in {"station.toml": self.config, **life.files}.items():
            (self.folder / name).write_text(text)
        before = self.held()
        env = {"LD_PRELOAD": str(self.preload), "VIRTUAL_SCRIPT": str(script),
               "VIRTUAL_LOG": str(log), "PATH": os.environ["PATH"],
               "LOOP_WRONG": f"{self.wrong:06}"}
        output, status = self.runs(env, self.place / f"output.{at}")
        data = log.read_bytes().rstrip(b"\0") if log.exists() else b""
        if known and data == known.log and output == known.output and before == known.before:
            self.lays(known.after)
            return known
        logged = log_of(str(log))
        records = [it for it in logged if it.kind != "R"]
        reads = [it for it in logged if it.kind == "R"]
        left = self.held()
        after = left
        if life.end == "power" and status == 137:
            disk = Disk(before)
            for record in records:
                disk.take(record)
            chance = random.Random(f"loss {seed}")
            choose = chooser(chance)
            after = disk.after_loss(choose, chance.randrange)
            self.lays(after)
        links = {it.name for it in self.folder.iterdir() if it.is_symlink()}
        config = (self.folder / "station.toml").read_text()
        changed = set() if config in (self.config, *life.files.values()) else {"config"}
        return Lived(life, data, records, before, left, after, output, status,
                     (self.folder / "answers").exists(), links, changed, reads)

    def runs(self, env: dict[str, str], out: Path) -> tuple[bytes, int]:
        """Runs the program; answers its output and its status."""
        with open(out, "wb") as file:
            run = subprocess.Popen(
                [self.program, "station.toml"], cwd=self.folder, env=env, stdout=file,
                stderr=subprocess.STDOUT, stdin=subprocess.DEVNULL,
                preexec_fn=lambda: ctypes.CDLL(None).personality(ADDRESSES_STAY),
            )
            try:
                run.wait(PATIENCE)
            except subprocess.TimeoutExpired:
                run.kill()
                run.wait()
        return out.read_bytes(), run.returncode

    def leaves(self) -> str:
        """Leaves the folder of this world."""
        return shutil.move(self.place, tempfile.mkdtemp(prefix="simulated", dir=self.top))

    def ends(self) -> None:
        """Removes the folder."""
        shutil.rmtree(self.made, ignore_errors=True)


def chooser(chance: random.Random):
    """What a loss of power leaves of a sector, mostly of one kind."""
    often = chance.choice(("new", "old", "zero", None))

    def choose() -> str:
        return often if often and chance.random() < 0.8 else chance.choice(("new", "old", "zero"))

    return choose
