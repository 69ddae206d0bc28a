"""What an open page is sent, over one answer that doesn't end: how all stands, the events, and the
pictures of all cameras, as quickly as the network takes them.

A message is two lengths of 4 bytes (big-endian), those of its head and of its body; the head, which
is JSON and says by `kind` what it is; and the body. A picture is made once for all pages that look
at the same time. A page whose network is slow is sent fewer and smaller pictures, each of them new:
none waits behind others. A page says now and then how many bytes it has taken (`/api/took`), since
what is between may hold much. Each picture has its age when it was sent, and when that was."""
import asyncio
import contextlib
import fcntl
import json
import secrets
import struct
import termios
import time
from dataclasses import dataclass, field

from aiohttp import web

from . import limits
from .eye import Eye, Look, Picture, Turns
from .line import Line
from .reader import Gone, store_in
from .words import Unfit

LENGTHS = struct.Struct(">II")
# What a page with a slow network is sent, step by step: the part of the width, and the quality.
LEVELS = ((1.0, 82), (0.75, 75), (0.5, 70), (0.35, 60))


def message(kind: str, body: bytes = b"", **more) -> bytes:
    """A message."""
    head = json.dumps({"kind": kind, **more}, separators=(",", ":")).encode()
    return LENGTHS.pack(len(head), len(body)) + head + body


@dataclass
class View:
    """What a page looks at: which cameras, how wide, how stretched; and the moment, where it isn't
    live. Where a speed is given, the moment moves on with it, up to an end."""

    turn: int = 0
    width: int = 640
    cameras: list[str] | None = None
    stretch: dict = field(default_factory=dict)
    moment: int | None = None
    speed: float = 0.0
    until: int | None = None
    # The pictures of a camera a second, at most.
    rate: float = limits.PLAY_RATE
    since: float = field(default_factory=time.monotonic)

    def now(self) -> int | None:
        """The moment that is to be shown; none for the newest frames."""
        if self.moment is None or not self.speed:
            return self.moment
        now = self.moment + int((time.monotonic() - self.since) * self.speed * 1_000_000)
        return now if self.until is None else min(now, self.until)

    def is_over(self) -> bool:
        """Whether it played to its end."""
        now = self.now()
        return bool(self.speed) and self.until is not None and now is not None and now >= self.until


def whole(value: object, least: int, most: int, what: str) -> int:
    """A whole number of a request, within its bounds."""
    if not isinstance(value, int) or isinstance(value, bool) or not least <= value <= most:
        raise Unfit(400, f"{what} is a whole number from {least} to {most}.")
    return value


def number(value: object, least: float, most: float, what: str) -> float:
    """A number of a request, within its bounds."""
    is_number = isinstance(value, (int, float)) and not isinstance(value, bool)
    if not is_number or not least <= value <= most:
        raise Unfit(400, f"{what} is a number from {least} to {most}.")
    return float(value)


def stretch_in(value: object, names: set[str]) -> dict:
    """How cameras are to be stretched: by name, `auto` or two points."""
    if not isinstance(value, dict) or set(value) - names:
        raise Unfit(400, "stretch is an object with cameras' names.")
    found: dict[str, tuple[int, int] | str] = {}
    for name, points in value.items():
        if points == "auto":
            found[name] = "auto"
        elif isinstance(points, list) and len(points) == 2:
            black = whole(points[0], 0, 65534, "a black point")
            found[name] = black, whole(
                points[1], black + 1, 65535, "a white point above the black one"
            )
        else:
            raise Unfit(400, "A stretch is auto, or a black and a white point.")
    return found


def view_of(body: dict, names: list[str]) -> View:
    """The view that a request asks for; Unfit where it can't be."""
    cameras, moment, until = body.get("cameras"), body.get("moment"), body.get("until")
    if cameras is not None and (
        not isinstance(cameras, list) or not set(map(str, cameras)) <= set(names)
    ):
        raise Unfit(404, "There is no camera of that name.")
    speed = number(body.get("speed", 0), 0, 64, "speed")
    rate = number(body.get("rate", limits.PLAY_RATE), 0.1, limits.PLAY_RATE, "rate")
    for value, what in ((moment, "moment"), (until, "until")):
        if value is not None:
            whole(value, 0, limits.NUMBERS_END, what)
    return View(
        whole(body.get("turn", 0), 0, 2**53, "turn"),
        whole(body.get("width", 640), limits.LEAST_WIDTH, limits.MOST_WIDTH, "width"),
        cameras,
        stretch_in(body.get("stretch", {}), set(names)),
        moment,
        speed,
        until,
        rate,
    )


def waiting(transport: asyncio.Transport) -> int:
    """How many bytes the client has not taken yet, here and in the system."""
    count = transport.get_write_buffer_size()
    socket = transport.get_extra_info("socket")
    if socket is not None:
        with contextlib.suppress(OSError):
            (queued,) = struct.unpack(
                "i", fcntl.ioctl(socket.fileno(), termios.TIOCOUTQ, b"\0" * 4)
            )
            count += queued
    return count


class Pace:
    """How often and how large pictures are sent. Where the network doesn't take five of each camera
    a second, they become smaller; where it does for a while, larger."""

    def __init__(self) -> None:
        self.level, self.rounds, self.late = 0, 0, 0
        self.since = time.monotonic()
        self.calm = limits.CALM_SECONDS

    def round(self, is_late: bool, most: float = limits.LIVE_RATE) -> None:
        """A round of pictures was sent, of which there are so many a second at most; or couldn't
        be, since the client still takes earlier ones."""
        self.late += is_late
        self.rounds += not is_late
        took, least = time.monotonic() - self.since, min(limits.LEAST_PICTURES, most * 0.6)
        if self.late and took >= limits.PACE_SECONDS and self.rounds / took < least:
            if self.level + 1 < len(LEVELS):
                self.level += 1
            # Each time that larger ones were too much, they are tried later.
            self.calm = min(self.calm * 2, limits.CALM_MOST)
            self.begin()
        elif took >= self.calm and self.level and self.rounds / took > least:
            self.level -= 1
            self.begin()
        elif took >= limits.CALM_MOST:
            self.begin()

    def begin(self) -> None:
        """Counts anew."""
        self.rounds, self.late, self.since = 0, 0, time.monotonic()


class Stream:
    """An open page."""

    def __init__(self, eyes: dict[str, Eye], ahead=lambda: 0) -> None:
        """`ahead` says by how many microseconds the station's clock is ahead."""
        self.id, self.eyes, self.ahead = secrets.token_urlsafe(12), eyes, ahead
        self.view, self.pace, self.line = View(), Pace(), Line()
        self.turned = asyncio.Event()
        self.shown: dict[str, tuple] = {}
        self.tasks: dict[str, asyncio.Task] = {}
        # The newest message with a picture of each camera of another station: an older one that
        # wasn't sent is dropped. Of all cameras, the bytes of what was sent last, and when.
        self.foreign: dict[str, bytes] = {}
        # All cameras of other stations that are shown.
        self.elsewhere: set[str] = set()
        self.sizes: dict[str, int] = {}
        self.served: dict[str, float] = {}

    def turn(self, view: View) -> None:
        """The page looks at something else. A view that a newer one has overtaken is dropped."""
        if view.turn < self.view.turn:
            return
        self.view = view
        self.turned.set()

    def names(self) -> list[str]:
        """The cameras of this station that are shown. One that was removed isn't any more."""
        if self.view.cameras is None:
            return list(self.eyes)
        return [name for name in self.view.cameras if name in self.eyes]

    def due(self) -> tuple[list[str], bool]:
        """The cameras of which a picture may be sent now, the one that waited longest first; and
        whether the line has no room for one of the others."""
        found, room = [], self.line.room()
        names = [*self.names(), *self.foreign]
        for name in sorted(names, key=lambda it: self.served.get(it, 0.0)):
            if room <= 0:
                return found, True
            found.append(name)
            room -= self.sizes.get(name, limits.PICTURE_GUESS)
        return found, False

    def most(self) -> float:
        """The rounds of pictures a second, at most."""
        most = limits.PLAY_RATE if self.view.speed else limits.LIVE_RATE
        fair = limits.PICTURES_A_SECOND / max(1, len(self.names()) + len(self.elsewhere))
        return min(self.view.rate, max(limits.SLOWEST, min(most, fair)))

    def pause(self) -> float:
        """The seconds to the next round of pictures. Those of all pages begin together, so that
        they are sent the same ones."""
        period = 1 / self.most()
        return period - time.monotonic() % period

    def look(self, name: str) -> Look:
        """How a camera is to be shown. One that stands still is shown as well as can be."""
        stands = self.view.moment is not None and not self.view.speed
        part, quality = LEVELS[0] if stands else LEVELS[self.pace.level]
        width = max(limits.LEAST_WIDTH, int(self.view.width * part))
        return Look(width, self.view.stretch.get(name), quality)

    async def picture(self, name: str, moment: int | None) -> bytes | None:
        """The message with what a camera shows; none where the page has it."""
        eye, view, look = self.eyes[name], self.view, self.look(name)
        moments = eye.moments() if moment is not None else None
        within = max(limits.PEEK_SECONDS, 1 / self.most() / 4)
        frame = (moments and moments.at(moment)) if moment is not None else await eye.newest(within)
        mark = (frame and (frame.number, frame.time), look, view.turn if frame is None else 0)
        if self.shown.get(name) == mark:
            return None
        told = {"camera": name, "turn": view.turn, "live": moment is None}
        if frame is None:
            self.shown[name] = mark
            return message("none", **told)
        try:
            picture = await eye.picture(frame, look)
        except (Gone, Unfit):
            # It was overwritten just now, or the disk doesn't answer: a later round shows a newer
            # one.
            return None
        self.shown[name] = mark
        now = time.time_ns() // 1000
        told |= {"sent": now, "age": max(0, now + self.ahead() - frame.time)}
        found = message("picture", picture.body, **told, **words_of(picture))
        self.sizes[name] = len(found)
        return found

    async def pictures(self, names: list[str] | None = None) -> list[bytes]:
        """The messages of a round, of some cameras or of all. A camera whose disk hangs is left
        out, and asked again later."""
        moment = self.view.now()
        for name in self.names() if names is None else names:
            self.served[name] = time.monotonic()
            if name in self.foreign:
                continue
            if name not in self.tasks:
                self.tasks[name] = asyncio.create_task(self.picture(name, moment))
        if self.tasks:
            await asyncio.wait(self.tasks.values(), timeout=limits.ROUND_SECONDS)
        found = [self.foreign.pop(name) for name in names or [] if name in self.foreign]
        for name, task in list(self.tasks.items()):
            if task.done():
                del self.tasks[name]
                found += [task.result()] * (task.result() is not None)
        return found

    def close(self) -> None:
        """Ends what is under way."""
        for task in self.tasks.values():
            task.cancel()


def words_of(picture: Picture) -> dict:
    """What a page is told of a picture."""
    frame, store = picture.frame, store_in(picture.frame)
    found = {
        "number": frame.number,
        "time": frame.time,
        "sequence": frame.sequence,
        "stretch": picture.stretch,
    }
    return found if store is None else found | {"store": store}


def is_open(request: web.Request) -> bool:
    """Whether the client is still there."""
    return request.transport is not None and not request.transport.is_closing()


class Push:
    """All open pages, and what each is sent."""

    def __init__(self, laboratory, state, is_known, hello=lambda request: {}) -> None:
        """`state` answers what all pages are sent, `is_known` whether a request may be answered,
        and `hello` what a page is told first."""
        self.laboratory, self.state, self.is_known = laboratory, state, is_known
        self.hello = hello
        self.turns = Turns()
        self.eyes: dict[str, Eye] = {}
        self.follow()
        self.streams: dict[str, Stream] = {}
        # What else a page is sent, by its stream, until it goes away.
        self.beside = None

    def follow(self) -> None:
        """Cameras may have come and gone."""
        cameras = self.laboratory.cameras
        for name in [it for it in self.eyes if self.eyes[it].watched is not cameras.get(it)]:
            del self.eyes[name]
        for name, watched in cameras.items():
            if name not in self.eyes:
                self.eyes[name] = Eye(watched, self.turns)
        for eye in self.eyes.values():
            eye.most = min(limits.EYE_BYTES, limits.EYES_BYTES // len(self.eyes))

    def stream(self, id_: object) -> Stream:
        """The stream of a page."""
        if not isinstance(id_, str) or id_ not in self.streams:
            raise Unfit(404, "There is no such page any more. It begins again by itself.")
        return self.streams[id_]

    async def answer(self, request: web.Request, response: web.StreamResponse) -> None:
        """Sends a page all that is new, until it goes away."""
        if self.laboratory.streams >= limits.STREAMS:
            many = f"Too many pages are open: {limits.STREAMS}. Close one, and this one begins."
            raise Unfit(503, many)
        self.laboratory.streams += 1
        stream, beside = Stream(self.eyes, self.laboratory.orders.clock.ahead), None
        self.streams[stream.id] = stream
        try:
            await response.prepare(request)
            self.laboratory.hurry.set()
            hello = message("hello", id=stream.id, cameras=list(self.eyes), **self.hello(request))
            await self.write(stream, response, hello)
            if self.beside:
                beside = asyncio.create_task(self.beside(stream))
            await self.run(stream, request, response)
        except (ConnectionResetError, ConnectionAbortedError):
            return
        finally:
            if beside:
                beside.cancel()
            stream.close()
            self.laboratory.streams -= 1
            del self.streams[stream.id]

    async def write(self, stream: Stream, response: web.StreamResponse, data: bytes) -> None:
        """Sends a page something."""
        stream.line.send(len(data))
        await response.write(data)

    async def run(self, stream: Stream, request: web.Request, response: web.StreamResponse) -> None:
        """Round after round, as long as the page's session lasts, and it reads."""
        told: dict[str, object] = {}
        while is_open(request) and self.is_known(request):
            begun = time.monotonic()
            stream.turned.clear()
            stream.line.look(waiting(request.transport))
            if stream.line.is_dead():
                request.transport.abort()
                return
            for mark, kind, body in self.state():
                if told.get(kind) != mark and stream.line.is_due(kind, len(body)):
                    told[kind] = mark
                    await self.write(stream, response, message(kind, body))
            is_late = await self.round(stream, response)
            stream.pace.round(is_late, stream.most())
            # One that took longer than its time waits for no other page.
            is_long = time.monotonic() - begun >= 1 / stream.most()
            with contextlib.suppress(asyncio.TimeoutError):
                pause = 0.01 if is_long else max(0.01, stream.pause())
                await asyncio.wait_for(stream.turned.wait(), pause)

    async def round(self, stream: Stream, response: web.StreamResponse) -> bool:
        """A round of pictures, and the moment of what is played. Answers whether the line has no
        room for all of them."""
        view, is_over = stream.view, stream.view.is_over()
        names, is_late = stream.due()
        found = await stream.pictures(names)
        if view.speed:
            found.append(message("moment", turn=view.turn, moment=view.now(), over=is_over))
            if is_over:
                view.moment, view.speed = view.until, 0.0
        if found:
            await self.write(stream, response, b"".join(found))
        return is_late
