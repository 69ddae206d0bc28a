"""Recordings of Lapyrei in Python: what a store holds, as arrays of numpy.

    import lapyrei

    store = lapyrei.open("left.loop")          # also a folder, or a list, of one camera's stores
    len(store), store.times                    # how many frames, and when, in microseconds
    store[-1]                                  # the newest picture, (height, width)
    store.between("18:30:05", "18:30:07")      # the frames of a time
    event = store.events[-1]                   # the frames of the newest keep
    [event.luma(n).mean() for n in range(len(event))]

    with lapyrei.create("right.loop", shape=(48, 64), rate=25, minutes=1) as store:
        store.append(picture)                  # is on the disk now
        clip = store.lock(0, 0, tag=7)

A store is read beside the program that records into it: nothing is locked or changed, and no
picture is of two frames. `create`, and `open` with the mode "r+", write by the C library, where no
program has the store open; where one has, the station's orders lock. What is refused is a class of
`lapyrei.errors`. docs/python.md has more.

The parts `layout`, `files`, `times`, `events`, `errors`, `library` and `answers` need nothing but
Python, and the tools stand on them; the others are loaded when they are first asked for, since they
need numpy."""
from __future__ import annotations

import importlib
from typing import TYPE_CHECKING, Any, Literal, overload

from .errors import (
    AllLocked,
    BadCall,
    BadGeometry,
    BadHandle,
    BadKeep,
    BadTime,
    CannotMake,
    CannotOpen,
    Changed,
    ClipEmpty,
    ClipNotHeld,
    ClipTableFull,
    Damaged,
    DiskFault,
    Exists,
    ExportFault,
    Gone,
    InUse,
    LapyreiError,
    MissingPackage,
    MixedDepths,
    Moved,
    MustReopen,
    NoLibrary,
    NoMemory,
    NoSuchClip,
    NoSuchEvent,
    NotDone,
    NotFormatted,
    NumbersSpent,
    OldLayout,
    Refused,
    TooMany,
    UnknownDepth,
    Unlike,
    Unsettled,
    WrongSize,
)

if TYPE_CHECKING:
    from collections.abc import Sequence

    from .exports import Options, export
    from .files import Path
    from .parts import Part, Picture, Planes
    from .store import Clip, Event, Frames, Store
    from .writing import Writable, create

__version__ = "0.1.0"
__all__ = [
    "AllLocked",
    "BadCall",
    "BadGeometry",
    "BadHandle",
    "BadKeep",
    "BadTime",
    "CannotMake",
    "CannotOpen",
    "Changed",
    "Clip",
    "ClipEmpty",
    "ClipNotHeld",
    "ClipTableFull",
    "Damaged",
    "DiskFault",
    "Event",
    "Exists",
    "ExportFault",
    "Frames",
    "Gone",
    "InUse",
    "LapyreiError",
    "MissingPackage",
    "MixedDepths",
    "Moved",
    "MustReopen",
    "NoLibrary",
    "NoMemory",
    "NoSuchClip",
    "NoSuchEvent",
    "NotDone",
    "NotFormatted",
    "NumbersSpent",
    "OldLayout",
    "Options",
    "Part",
    "Picture",
    "Planes",
    "Refused",
    "Store",
    "TooMany",
    "UnknownDepth",
    "Unlike",
    "Unsettled",
    "Writable",
    "WrongSize",
    "create",
    "export",
    "open",
]
LATER = dict.fromkeys(("Clip", "Event", "Frames", "Store"), "store")
LATER.update(dict.fromkeys(("Part", "Picture", "Planes"), "parts"))
LATER.update(Options="exports", export="exports", Writable="writing", create="writing")


def __getattr__(name: str) -> Any:
    if name not in LATER:
        raise AttributeError(f"module 'lapyrei' has no attribute {name!r}")
    return getattr(needs_numpy(LATER[name]), name)


def needs_numpy(name: str) -> Any:
    """A part that needs numpy, or MissingPackage."""
    try:
        return importlib.import_module(f".{name}", __name__)
    except ModuleNotFoundError as fault:
        if fault.name != "numpy":
            raise
        raise MissingPackage("lapyrei", "python3-numpy") from None


@overload
def open(where: Path | Sequence[Path], mode: Literal["r"] = "r") -> Store:
    ...


@overload
def open(where: Path | Sequence[Path], mode: Literal["r+"], keep: int = 1) -> Writable:
    ...


def open(where: Path | Sequence[Path], mode: str = "r", keep: int = 1) -> Store:
    """Opens a store: a file; a folder of one camera's files; `left.loop` for `left.000.loop` and
    those that follow, where it isn't there itself; or a list of any of these, which is read as one
    ring in time's order. Raises NotFormatted, Damaged, CannotOpen, Unsettled or Unlike, which are
    all `Refused`.

    With the mode "r+" one file is opened to write as well, by the C library (`Writable`). Of its
    blocks the newest `keep` never go. Raises InUse too, where another program has it open, BadKeep,
    TooMany, NoMemory, DiskFault, and NoLibrary. `create` makes a store."""
    if mode == "r+":
        written: Store = needs_numpy("writing").edit(where, keep)
        return written
    if mode != "r":
        raise ValueError(f"a mode is 'r' or 'r+', not {mode!r}; lapyrei.create makes a store")
    store: Store = needs_numpy("store").Store(where)
    return store
