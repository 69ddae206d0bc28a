"""What can go wrong with a store, each by its own class. All of them are `LapyreiError`s.

    LapyreiError
      Refused          a file that can't be read as a store, in the words of `loop_cli`
        NotFormatted   it is no store
        Damaged        it is one that is damaged, in the way that `kind` says (docs/layout.md)
        CannotOpen     it isn't there, isn't a file, or the system refuses it
        Unsettled      it changes faster than it can be read
        Unlike         files that can't be one ring
        NotDone        a call that writes was refused, by the C library's number and words:
          InUse          another program has the store open, or another object here
          AllLocked      a block would have to go, and each is locked or among the newest
          WrongSize      frames of another shape, or none
          ClipEmpty, ClipNotHeld, ClipTableFull, NoSuchClip, OldLayout
                         what was to be locked or unlocked
          BadGeometry, BadKeep, CannotMake
                         a store that can't be made, or opened so
            Exists       a file is there
          DiskFault, MustReopen
                         the disk failed: close it and open it again
          Moved          the file was removed or renamed since it was opened
          BadHandle      it was closed, or is of the process that this one was forked from
          NoMemory, NumbersSpent, TooMany, BadCall
      Changed          the file was cut, replaced or formatted anew since it was opened: open it
                       again
      Gone             a frame that isn't held any more
      NoSuchEvent      a clip or an event that isn't there
      BadTime          words that are no time
      UnknownDepth     a frame whose flags name a depth that no frame has
      MixedDepths      frames of several depths where one array is wanted
      MissingPackage   a package that an export needs isn't installed
      NoLibrary        the C library, by which a store is written, isn't there
      ExportFault      an export that couldn't be made; nothing is left of it
"""
from __future__ import annotations


class LapyreiError(Exception):
    """Whatever this module refuses, or can't do."""


class Refused(LapyreiError):
    """A refusal, in the words of `loop_cli`: `text`. Where it is known, `path` is the file's.
    `number` is the store's own, or the C library's from 101 on; 0 where it has none."""

    number = 0

    def __init__(self, text: str, path: str | None = None) -> None:
        super().__init__(text)
        self.text, self.path = text, path

    def __str__(self) -> str:
        return self.text if self.path is None else f"{self.path}: {self.text}"

    def __eq__(self, other: object) -> bool:
        return isinstance(other, Refused) and self.text == other.text

    __hash__ = None  # type: ignore[assignment]


class NotFormatted(Refused):
    """The file has no store: it is too short, or its first bytes aren't those of one."""

    number = 4

    def __init__(self) -> None:
        super().__init__("refused 4 NotFormatted")


class Damaged(Refused):
    """The file is a store that is damaged. `kind` is the number of docs/layout.md, 1 to 7."""

    number = 5

    def __init__(self, kind: int) -> None:
        super().__init__(f"refused 5 Damaged {kind}")
        self.kind = kind


class CannotOpen(Refused):
    """The file isn't there, isn't a regular file, or the system refuses to open or read it."""

    number = 101


class Unsettled(Refused):
    """What was read is of more than one moment, each time that it was read."""

    def __init__(self) -> None:
        super().__init__("the store changes faster than it can be read")


class Unlike(Refused):
    """Several files that can't be one ring: of other frames, or of several cameras."""


class NotDone(Refused):
    """A call that writes was refused. `name` and `sentence` are the library's, and `detail` is what
    it names: of ClipNotHeld a number, of DiskFault which call of the disk, of CannotMake an errno.
    Nothing was changed, but by DiskFault. An `append` of several groups may have stored some of
    them before: `stored` has the numbers of their frames."""

    name = ""
    sentence = ""

    def __init__(self, why: str = "", detail: int = 0, path: str | None = None) -> None:
        super().__init__(f"{self._words(detail)}: {why or self.sentence}", path)
        self.detail = detail
        self.stored = range(0)

    def _words(self, detail: int) -> str:
        """What `loop_cli` prints."""
        return f"refused {self.number} {self.name}"


class NoMemory(NotDone, MemoryError):
    """There was no memory."""

    number, name, sentence = 1, "NoMemory", "no memory"


class DiskFault(NotDone):
    """The disk failed. `detail` says in what: 1 a read, 2 a write, 3 a sync, 4 the file was cut.
    The call was made as a whole, or not at all, or of an append the first frames."""

    number, name, sentence = 2, "Disk", "the disk failed"


class MustReopen(NotDone):
    """The disk has failed before: close the store and open it again."""

    number, name = 3, "MustReopen"
    sentence = "the store has to be closed and opened again"


class AllLocked(NotDone):
    """A block would have to go, and each is locked by a clip or among the newest."""

    number, name, sentence = 6, "AllLocked", "no block may go"


class WrongSize(NotDone, ValueError):
    """Frames of another shape than the store's, or none."""

    number, name = 8, "WrongSize"
    sentence = "the frames have another size, or are too many or none"


class ClipEmpty(NotDone, ValueError):
    """The first number of a clip is above its last one, or no frame is held of a time."""

    number, name, sentence = 9, "ClipEmpty", "the clip is empty"


class ClipNotHeld(NotDone, LookupError):
    """A number of a clip isn't held; `detail` is the least such one."""

    number, name = 10, "ClipNotHeld"
    sentence = "the clip has a number of which no frame is held"

    def _words(self, detail: int) -> str:
        return f"{super()._words(detail)} {detail}"


class ClipTableFull(NotDone):
    """There are 64 clips."""

    number, name = 11, "ClipTableFull"
    sentence = "as many clips stand as there may be"


class NoSuchClip(NotDone, LookupError):
    """No clip has this id, or it is another one's by now."""

    number, name, sentence = 12, "NoSuchClip", "no clip has this id"


class NumbersSpent(NotDone):
    """No number is left for a frame."""

    number, name, sentence = 14, "NumbersSpent", "no number is left"


class BadGeometry(NotDone, ValueError):
    """A store can't have this shape, rate, segments or slots."""

    number, name, sentence = 16, "BadGeometry", "the geometry isn't good"


class OldLayout(NotDone):
    """The store has version 1 of the layout, which has no tags: `upgrade` it."""

    number, name = 21, "OldLayout"
    sentence = "the layout has no tags: it is to be upgraded first"


class BadKeep(NotDone, ValueError):
    """So many blocks can't be kept: 1 to the number of segments less one."""

    number, name, sentence = 22, "BadKeep", "so many blocks can't be kept"


class InUse(NotDone):
    """Another program has the store open to write, or another object of this one. It can be read
    meanwhile, by `lapyrei.open(path)`."""

    number, name, sentence = 102, "Busy", "the file is in use"


class CannotMake(NotDone):
    """The file can't be made: `detail` is the errno, EEXIST where a file is there."""

    number, name, sentence = 103, "CannotMake", "the file can't be made"


class Exists(CannotMake):
    """A file is there, and stays as it is."""

    number, name, sentence = 107, "Exists", "a file is there, and wasn't to be replaced"


class Moved(NotDone):
    """The file was removed or renamed since it was opened, or another is in its place: what would
    be stored nobody would find."""

    number, name = 108, "Moved"
    sentence = "the file was removed or renamed since it was opened"


class BadCall(NotDone, ValueError):
    """The library can't take a path or a format."""

    number, name = 104, "BadCall"
    sentence = "a null pointer, an unknown format or a bad path"


class BadHandle(NotDone, ValueError):
    """The store was closed, or is of the process that this one was forked from."""

    number, name, sentence = 105, "BadHandle", "this handle isn't open"


class TooMany(NotDone):
    """64 stores are open to write in this process."""

    number, name, sentence = 106, "TooMany", "64 stores are open"


class Changed(LapyreiError):
    """The file was cut, replaced, or formatted anew since it was opened. Open it again."""


class Gone(LapyreiError, LookupError):
    """A frame that isn't held any more: its block was removed. `number` is the frame's, and `path`
    the file's, where they are known. An `append` of such frames may have stored some of them:
    `stored` has their numbers."""

    stored = range(0)

    def __init__(self, text: str, number: int | None = None, path: str | None = None) -> None:
        super().__init__(text)
        self.text, self.number, self.path = text, number, path

    def __str__(self) -> str:
        return self.text if self.path is None else f"{self.path}: {self.text}"


class NoSuchEvent(LapyreiError, LookupError):
    """No clip or event has that name."""


class BadTime(LapyreiError, ValueError):
    """A time that can't be read, or that needs times of the day where the frames have none."""


class UnknownDepth(LapyreiError, ValueError):
    """A frame says that its samples have so many bits, and no frame has such ones."""


class MixedDepths(LapyreiError, ValueError):
    """Frames of several depths were asked for in one array."""


class MissingPackage(LapyreiError, ImportError):
    """A package that is needed isn't installed. `package` is its name in Debian."""

    def __init__(self, what: str, package: str) -> None:
        super().__init__(
            f"{what} needs {package}, which isn't installed: sudo apt install {package}"
        )
        self.package = package


class NoLibrary(MissingPackage):
    """The C library isn't there, by which a store is written. Reading needs none."""

    def __init__(self, why: str) -> None:
        LapyreiError.__init__(
            self,
            f"writing needs liblapyrei.so.1: {why}. The package lapyrei has it; LAPYREI_LIBRARY in "
            "the environment names one that is elsewhere",
        )
        self.package = "lapyrei"


class ExportFault(LapyreiError):
    """An export that couldn't be made. Nothing is left of it."""
