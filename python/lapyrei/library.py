"""The C library, liblapyrei.so.1, by which a store is written. It needs nothing but Python.

Each call of lapyrei.h that changes a store is a method of `Handle`; a refusal is raised by its
class of `lapyrei.errors`. While a call runs, other threads of Python do."""
from __future__ import annotations

import ctypes
import errno
import functools
import os
from pathlib import Path
from typing import Any

from . import errors
from .errors import (
    BadCall,
    BadHandle,
    CannotOpen,
    Damaged,
    NoLibrary,
    NotDone,
    NotFormatted,
    Refused,
)

NAME, ABI = "liblapyrei.so.1", 2
# What lapyrei.h calls LAPYREI_NONE, and how many clips there may be.
NONE, CLIPS = 2**64 - 1, 64
# The formats, by their numbers there.
FORMATS = ("GREY", "YM12", "YM16", "YM24")
# The classes of the refusals, by their numbers.
CLASSES = {
    it.number: it for it in vars(errors).values()
    if isinstance(it, type) and issubclass(it, NotDone) and it.number
}
# What the detail of a DiskFault says.
DISK = {1: "a read", 2: "a write", 3: "a sync", 4: "the file has another length"}


class Shape(ctypes.Structure):
    """lapyrei_shape: what a store is made of. The width is a row's bytes."""

    _fields_ = [
        (name, ctypes.c_uint32)
        for name in (
            "width", "height", "format", "rate_num", "rate_den", "segments", "slots", "version"
        )
    ]


class Head(ctypes.Structure):
    """lapyrei_head: a frame's number, time, count and flags."""

    _fields_ = [
        ("number", ctypes.c_uint64),
        ("timestamp", ctypes.c_uint64),
        ("sequence", ctypes.c_uint32),
        ("flags", ctypes.c_uint32),
    ]


class Run(ctypes.Structure):
    """lapyrei_run: a clip, or a run of frames: the first number and the last one."""

    _fields_ = [(name, ctypes.c_uint64) for name in ("id", "first", "last", "tag")]


Word, Words = ctypes.c_uint64, ctypes.POINTER(ctypes.c_uint64)
# The arguments of each call that is made from here.
CALLS: dict[str, list[Any]] = {
    "format": [ctypes.c_char_p, ctypes.POINTER(Shape), Words],
    "format_over": [ctypes.c_char_p, ctypes.POINTER(Shape), Words],
    "open_keeping": [ctypes.c_char_p, ctypes.c_uint32, Words],
    "close": [Word],
    "room": [Word, Words],
    "append": [Word, ctypes.c_void_p, ctypes.c_void_p, ctypes.c_size_t, ctypes.c_size_t, Words],
    "lock": [Word, Word, Word, Word, ctypes.POINTER(ctypes.c_uint32)],
    "unlock": [Word, ctypes.c_uint32],
    "upgrade": [Word, ctypes.POINTER(ctypes.c_int)],
    "clips": [Word, ctypes.POINTER(Run), ctypes.c_size_t, ctypes.POINTER(ctypes.c_size_t)],
    "frames_of": [
        Word, Word, Word, ctypes.POINTER(Run), ctypes.c_size_t, ctypes.POINTER(ctypes.c_size_t)
    ],
}


def places() -> list[str]:
    """Where the library may be: where LAPYREI_LIBRARY says; or in this module's folder, as a wheel
    has it; in the `lib` in which this module is, as the package has it, and then where the system
    looks."""
    if named := os.environ.get("LAPYREI_LIBRARY"):
        return [named]
    here = Path(__file__).resolve()
    beside = [here.with_name(NAME), *(it / NAME for it in here.parents if it.name == "lib")]
    return [*(str(it) for it in beside if it.exists()), NAME]


@functools.cache
def library() -> ctypes.CDLL:
    """The library, loaded once. NoLibrary where it isn't there, or is another one."""
    why = ""
    for place in places():
        try:
            found = ctypes.CDLL(place)
        except OSError as fault:
            why = str(fault)
            continue
        found.lapyrei_abi.restype = ctypes.c_uint32
        if found.lapyrei_abi() != ABI:
            why = f"{place} is of another version ({found.lapyrei_abi()})"
            continue
        for name, takes in CALLS.items():
            getattr(found, f"lapyrei_{name}").argtypes = takes
        found.lapyrei_detail.restype = ctypes.c_uint64
        found.lapyrei_name.restype = found.lapyrei_text.restype = ctypes.c_char_p
        return found
    raise NoLibrary(why)


def refused(number: int, detail: int, path: str) -> Refused:
    """The exception of a refusal."""
    if number == NotFormatted.number:
        fault: Refused = NotFormatted()
    elif number == Damaged.number:
        fault = Damaged(detail)
    elif number == CannotOpen.number:
        fault = CannotOpen(why_not(detail))
    else:
        kind = CLASSES.get(number, NotDone)
        why = kind.sentence
        if kind is errors.DiskFault:
            why = f"{why}: {DISK.get(detail, detail)}"
        elif issubclass(kind, errors.CannotMake) and detail:
            why = f"{why}: {os.strerror(detail)}"
        fault = kind(why or f"refusal {number}", detail)
    fault.path = path
    return fault


def why_not(number: int) -> str:
    """Why a file can't be opened, in this module's words."""
    if number == errno.ENOENT:
        return "missing"
    return f"cannot open: {os.strerror(number)}" if number else "not a file"


def encoded(path: str) -> bytes:
    """A path as C has it."""
    name = os.fsencode(path)
    if b"\0" in name:
        raise BadCall("a path has no zero byte")
    return name


def call(path: str, name: str, *words: Any) -> None:
    """Makes a call of the library; raises what it refuses."""
    made = library()
    number = getattr(made, f"lapyrei_{name}")(*words)
    if number:
        raise refused(number, made.lapyrei_detail(), path)


class Handle:
    """A store that is open to write. Any thread may use it: the library makes one call after the
    other. In a process that was forked from this one it is a BadHandle, and nothing is called."""

    def __init__(self, path: str, number: int) -> None:
        self.path, self.number, self.process = path, number, os.getpid()

    def check(self) -> None:
        """BadHandle where no call can be made on it."""
        if self.process != os.getpid():
            raise BadHandle("it is of the process that this one was forked from", path=self.path)
        if not self.number:
            raise BadHandle("it was closed", path=self.path)

    def call(self, name: str, *words: Any) -> None:
        """Makes a call on the store; raises what is refused."""
        self.check()
        call(self.path, name, self.number, *words)

    def room(self) -> int:
        """The most frames of the next group, 1 to 64."""
        found = Word()
        self.call("room", ctypes.byref(found))
        return found.value

    def append(self, heads: int, frames: int, count: int, length: int) -> int:
        """Stores a group of frames in one commit, and answers the number of the first. `heads` and
        `frames` are the addresses of `Head`s, and of `count` times `length` bytes."""
        first = Word()
        self.call("append", heads, frames, count, length, ctypes.byref(first))
        return first.value

    def lock(self, first: int, last: int, tag: int) -> int:
        """Locks the frames from a number to another, and answers the clip's id."""
        found = ctypes.c_uint32()
        self.call("lock", first, last, tag, ctypes.byref(found))
        return found.value

    def unlock(self, id_: int) -> None:
        """Unlocks a clip."""
        self.call("unlock", id_)

    def upgrade(self) -> bool:
        """Makes version 2 of the layout; whether it wasn't that already."""
        did = ctypes.c_int()
        self.call("upgrade", ctypes.byref(did))
        return bool(did.value)

    def clips(self) -> list[tuple[int, int, int, int]]:
        """The clips by rising id, as (id, first, last, tag)."""
        found, count = (Run * CLIPS)(), ctypes.c_size_t()
        self.call("clips", found, CLIPS, ctypes.byref(count))
        return [(it.id, it.first, it.last, it.tag) for it in found[: count.value]]

    def frames_of(self, since: int, until: int) -> list[tuple[int, int]]:
        """The held frames of a time, as runs of numbers (first, last)."""
        count, room = ctypes.c_size_t(CLIPS), 0
        while room < count.value:
            room = count.value
            found = (Run * room)()
            self.call("frames_of", since, until, found, room, ctypes.byref(count))
        return [(it.first, it.last) for it in found[: count.value]]

    def close(self) -> None:
        """Closes it, unless that was done, or it is another process's."""
        number, self.number = self.number, 0
        if number and self.process == os.getpid():
            library().lapyrei_close(number)

    def __del__(self) -> None:
        self.close()


def opened(path: str, keep: int) -> Handle:
    """Opens a store; its newest `keep` blocks never go."""
    found = Word()
    call(path, "open_keeping", encoded(path), keep, ctypes.byref(found))
    return Handle(path, found.value)


def formatted(path: str, shape: Shape, replaces: bool) -> Handle:
    """Makes a store of a new file, or of one that is there and is replaced, and opens it."""
    found, name = Word(), "format_over" if replaces else "format"
    call(path, name, encoded(path), ctypes.byref(shape), ctypes.byref(found))
    return Handle(path, found.value)
