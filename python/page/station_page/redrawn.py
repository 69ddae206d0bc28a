"""Pictures of other stations, decoded and encoded anew: nothing of what another machine sends
reaches a browser but pixels. What isn't a picture is refused."""
import asyncio
import collections
import hashlib
import io
import warnings

from lapyrei.answers import Unusable
from PIL import Image

from . import limits
from .workers import DRAWING

QUALITY = 85


def redraw(data: bytes) -> bytes:
    """A JPEG of the same pixels; Unusable where it isn't one, or too large."""
    try:
        with warnings.catch_warnings():
            warnings.simplefilter("error")
            picture = Image.open(io.BytesIO(data), formats=("JPEG",))
        wide, high = picture.size
        if picture.mode not in ("L", "RGB") or wide * high > limits.PIXELS:
            raise Unusable(f"is a picture of {wide}x{high} in {picture.mode}")
        if picture.mode == "RGB":
            # As it is in the file: colours aren't reckoned twice.
            picture.draft("YCbCr", picture.size)
        # Pixels alone: a picture that is saved again keeps its comment.
        pixels, out = picture.tobytes(), io.BytesIO()
        Image.frombytes(picture.mode, picture.size, pixels).save(out, "JPEG", quality=QUALITY)
        return out.getvalue()
    except (OSError, ValueError, SyntaxError, Warning) as fault:
        if isinstance(fault, Unusable):
            raise
        raise Unusable("isn't a picture") from None


class Redrawn:
    """The pictures that were made anew last, by what came: open pages that look at the same time
    cost one."""

    def __init__(self) -> None:
        self.made: collections.OrderedDict[bytes, bytes] = collections.OrderedDict()
        self.making: dict[bytes, asyncio.Task] = {}
        self.bytes = 0

    async def picture(self, data: bytes) -> bytes:
        """A picture made anew; Unusable where it is none."""
        if len(data) > limits.PICTURE_MOST:
            raise Unusable(f"has more than {limits.PICTURE_MOST} bytes")
        mark = hashlib.sha256(data).digest()
        if mark in self.made:
            self.made.move_to_end(mark)
            return self.made[mark]
        if mark not in self.making:
            self.making[mark] = asyncio.create_task(self.make(mark, data))
        # Others may wait for it too.
        return await asyncio.shield(self.making[mark])

    async def make(self, mark: bytes, data: bytes) -> bytes:
        """Makes a picture, and remembers it among so many bytes of them."""
        try:
            found = self.made[mark] = await DRAWING.do(redraw, data)
            self.bytes += len(found)
            while self.bytes > limits.PICTURE_BYTES and len(self.made) > 1:
                self.bytes -= len(self.made.popitem(last=False)[1])
            return found
        finally:
            del self.making[mark]
