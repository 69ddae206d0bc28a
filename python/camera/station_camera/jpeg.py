"""JPEG taken apart by libturbojpeg: the planes as they are in the picture, without a change of
colours."""
from __future__ import annotations

import ctypes as c

from .faults import Refused, Shorter

LIBRARY = "libturbojpeg.so.0"
PACKAGE = "libturbojpeg0"
# turbojpeg.h's words for how chroma is halved, and for the colours of the planes; those that no
# store has aren't here.
COLOURS = {0: "yuv444p", 1: "yuv422p", 2: "yuv420p", 3: "gray"}
YUV, GREY = 1, 2
# The kind of a fault after which there is a picture.
WARNING = 0


class Decoder:
    """libturbojpeg, for one picture after the other."""

    def __init__(self) -> None:
        try:
            self.library = c.CDLL(LIBRARY)
        except OSError:
            raise Refused(f"libturbojpeg isn't installed: sudo apt install {PACKAGE}") from None
        self.library.tjInitDecompress.restype = c.c_void_p
        self.library.tjGetErrorStr2.restype = c.c_char_p
        self.library.tjGetErrorStr2.argtypes = [c.c_void_p]
        self.library.tjGetErrorCode.argtypes = [c.c_void_p]
        self.handle = c.c_void_p(self.library.tjInitDecompress())

    def header(self, data: bytes) -> tuple[int, int, str]:
        """The size of a picture, and the colour of its planes in ffmpeg's words."""
        width, height, halved, colours = (c.c_int() for _ in range(4))
        if self.library.tjDecompressHeader3(
            self.handle,
            data,
            c.c_ulong(len(data)),
            *(c.byref(it) for it in (width, height, halved, colours)),
        ):
            raise Shorter(self._why())
        if colours.value not in (YUV, GREY) or halved.value not in COLOURS:
            raise Refused(
                "its JPEG has neither grey nor YUV of 4:2:0, 4:2:2 or 4:4:4: choose another format"
            )
        return width.value, height.value, COLOURS[halved.value]

    def planes(self, data: bytes) -> tuple[int, int, str, list[memoryview]]:
        """A picture: its size, the colour of its planes, and these, row by row."""
        # A picture that was cut off may be filled with grey, and not a word be said.
        if data[:2] != b"\xff\xd8" or b"\xff\xd9" not in data[2:]:
            raise Shorter("it has no end")
        width, height, colour = self.header(data)
        halved = next(number for number, it in COLOURS.items() if it == colour)
        sides = [
            (
                self.library.tjPlaneWidth(number, width, halved),
                self.library.tjPlaneHeight(number, height, halved),
            )
            for number in range(1 if colour == "gray" else 3)
        ]
        made = [(c.c_ubyte * (wide * high))() for wide, high in sides]
        places = (c.POINTER(c.c_ubyte) * 3)(*(c.cast(it, c.POINTER(c.c_ubyte)) for it in made))
        if (
            self.library.tjDecompressToYUVPlanes(
                self.handle, data, c.c_ulong(len(data)), places, width, None, height, 0
            )
            and not self._is_harmless()
        ):
            raise Shorter(self._why())
        return width, height, colour, self._cut(made, sides, width, height, colour)

    def _cut(
        self,
        made: list,
        sides: list[tuple[int, int]],
        width: int,
        height: int,
        colour: str,
    ) -> list[memoryview]:
        """The planes without what the library rounds their sides up by."""
        from .planes import chroma

        found = []
        for number, (plane, (wide, high)) in enumerate(zip(made, sides)):
            across, down = chroma(colour, width, height) if number else (width, height)
            view = memoryview(plane).cast("B")
            if across == wide:
                found.append(view[: wide * down])
            else:
                rows = range(0, wide * down, wide)
                found.append(memoryview(b"".join([view[at : at + across] for at in rows])))
        return found

    def _why(self) -> str:
        return self.library.tjGetErrorStr2(self.handle).decode(errors="replace")

    def _is_harmless(self) -> bool:
        """Whether all that is wrong are bytes before the end, as many webcams have them. The
        library tells the first fault alone."""
        is_warning = self.library.tjGetErrorCode(self.handle) == WARNING
        return is_warning and "extraneous bytes before marker 0xd9" in self._why()
