"""What a run under tools/virtual.c did: its log, and the disk by it. A disk is what the files hold
now, and what a loss of power at this moment may leave of them: each synced byte, each name whose
folder was synced, and of all else what is chosen."""
from __future__ import annotations

import mmap
import os
import struct
from collections.abc import Callable
from typing import NamedTuple

from power_loss import change, torn

RECORD = struct.Struct("<cQIQI")


class Record(NamedTuple):
    """A record of the log: its kind, the time, a number, a place, and bytes."""

    kind: str
    time: int
    number: int
    place: int
    data: bytes


def log_of(path: str) -> list[Record]:
    """The records of a log. That of a program that broke off has zeros after them."""
    found = []
    if os.stat(path).st_size == 0:
        return found
    with open(path, "rb") as file, mmap.mmap(file.fileno(), 0, access=mmap.ACCESS_READ) as data:
        at = 0
        while at + RECORD.size <= len(data):
            kind, time, number, place, count = RECORD.unpack_from(data, at)
            if kind == b"\0":
                break
            at += RECORD.size
            found.append(Record(kind.decode(), time, number, place, data[at:at + count]))
            at += count
    return found


class File:
    """A file: its bytes now, those that are on the disk for certain, and the changes since then."""

    def __init__(self, data: bytes = b"") -> None:
        self.now, self.synced = bytearray(data), bytearray(data)
        self.pending: list[tuple[int, tuple[str, int, bytes]]] = []

    def changes(self, index: int, record: tuple[str, int, bytes]) -> None:
        """Takes a change of the file."""
        change(self.now, record)
        self.pending.append((index, record))

    def sync(self, began: int) -> None:
        """What came before the sync began is on the disk."""
        while self.pending and self.pending[0][0] < began:
            change(self.synced, self.pending.pop(0)[1])

    def after_loss(self, choose: Callable[[], str]) -> bytes:
        """The file after a loss of power."""
        image = bytearray(self.synced)
        for _, record in self.pending:
            torn(image, record, choose)
        return bytes(image)


def named(names: dict[str, File], kind: str, words: list[str], file: File) -> None:
    """Makes a change of names: a file is made (C), renamed (N), linked (L) or unlinked (U)."""
    if kind in "NU":
        names.pop(words[0], None)
    if kind in "CNL":
        names[words[-1]] = file


class Disk:
    """The files of a folder, as the records of a log change them one by one."""

    def __init__(self, files: dict[str, bytes]) -> None:
        self.names = {name: File(data) for name, data in files.items()}
        self.safe = dict(self.names)
        self.files: dict[int, File] = {}
        # Changes of names that aren't on the disk yet: the record, its folder, what it was, the
        # names, and the file.
        self.pending: list[tuple[int, str, str, list[str], File]] = []
        self.count = 0

    def take(self, record: Record) -> None:
        """Takes the next record."""
        index, self.count = self.count, self.count + 1
        kind, file = record.kind, self.files.get(record.number)
        if kind in "CX":
            self.meets(index, kind, record.number, record.data.decode())
        elif kind in "WT" and file is not None:
            file.changes(index, (kind, record.place, record.data))
        elif kind == "S" and file is not None:
            file.sync(record.place)
        elif kind == "V":
            self.moves(*record.data.decode().split("\0"))
        elif kind in "NLU":
            self.renames(index, kind, record.data.decode().split("\0"))
        elif kind == "F":
            self.sync_folder(record.data.decode(), record.place)

    def meets(self, index: int, kind: str, number: int, name: str) -> None:
        """A file is made, or one is opened for the first time."""
        if kind == "C":
            file = self.names[name] = File()
            self.pending.append((index, os.path.dirname(name), "C", [name], file))
        if name in self.names:
            self.files[number] = self.names[name]

    def renames(self, index: int, kind: str, words: list[str]) -> None:
        """A file gets another name, one more, or loses one."""
        file = self.names.get(words[0])
        if file is not None:
            named(self.names, kind, words, file)
            self.pending.append((index, os.path.dirname(words[-1]), kind, words, file))

    def moves(self, old: str, new: str) -> None:
        """Somebody moves a file, and syncs its folder."""
        for names in (self.names, self.safe):
            file = names.pop(old, None)
            if file is not None:
                names[new] = file

    def sync_folder(self, folder: str, began: int) -> None:
        """The names of a folder are on the disk."""
        folder = "" if folder == "." else folder.rstrip("/")
        left = []
        for it in self.pending:
            if it[0] < began and it[1] == folder:
                named(self.safe, *it[2:])
            else:
                left.append(it)
        self.pending = left

    def present(self) -> dict[str, bytes]:
        """What the files hold."""
        return {name: bytes(file.now) for name, file in self.names.items()}

    def after_loss(
        self, choose: Callable[[], str], below: Callable[[int], int]
    ) -> dict[str, bytes]:
        """The files after a loss of power: of the changes of names in each folder that aren't on
        the disk, the first ones were made, `below` says how many of so many."""
        names = dict(self.safe)
        for folder in sorted({it[1] for it in self.pending}):
            mine = [it for it in self.pending if it[1] == folder]
            for it in mine[:below(len(mine) + 1)]:
                named(names, *it[2:])
        return {name: file.after_loss(choose) for name, file in names.items()}
