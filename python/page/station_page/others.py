"""Another station's page, as this page asks it: what it said last, how far its clock is off, and
its answers. None of them is believed before the parser (lapyrei.answers) has found it whole: a page
that says something else is `unusable`, with the reason, until it says what can be used."""
import asyncio
import contextlib
import time
from collections.abc import AsyncIterator, Callable

import aiohttp
from lapyrei import answers
from lapyrei.answers import MARK, Unusable

from . import limits, words
from .clock import Clock
from .push import LENGTHS
from .settings import OtherStation
from .words import Unfit

NO_PAGE = "isn't a station's page, or is of another version"
OTHER_TOKEN = "it wants another token: name the file of its token in `token`"
# The status of an answer that can't be given since another station's can't be used.
UNUSABLE = 502
VERSIONS = "Is its loop_page of this version?"


class Other:
    """Another station's page."""

    def __init__(self, station: OtherStation) -> None:
        self.station, self.name = station, station.name
        self.state: dict | None = None
        self.more: dict = {}
        self.events: list = []
        self.heard, self.fault, self.version = time.monotonic(), "", 0
        # Why an answer couldn't be used, and when that was, by what was asked for: until one can,
        # or a while has passed.
        self.unusable: dict[str, tuple[str, float]] = {}
        self.clock = Clock()
        # What is done with its events as they come, beside the loop that answers requests.
        self.prepare: Callable[[list[dict]], object] = lambda events: None
        self.session: aiohttp.ClientSession | None = None

    # ---------------------------------------------------------------------------------- its answers

    def opened(self) -> aiohttp.ClientSession:
        """The connections to it."""
        if self.session is None:
            headers = {"X-Loop-Page": "1"}
            if self.station.token:
                headers["Authorization"] = f"Bearer {self.station.token}"
            timeout = aiohttp.ClientTimeout(
                total=None, sock_connect=limits.AWAY_SECONDS, sock_read=limits.READ_SECONDS
            )
            self.session = aiohttp.ClientSession(
                headers=headers,
                timeout=timeout,
                # Streams of open pages take no order's place. Who asks this page is bounded.
                connector=aiohttp.TCPConnector(limit=0),
                cookie_jar=aiohttp.DummyCookieJar(),
                auto_decompress=False,
            )
        return self.session

    def away(self, why: str) -> Unfit:
        """That it doesn't answer."""
        return Unfit(503, f"{self.name or 'this page'}: {why}.")

    def unfit(self, what: str, fault: Exception) -> Unfit:
        """That an answer of it can't be used; it is remembered until one can."""
        self.unusable[what] = words.plain(f"{what}: {fault}"), time.monotonic()
        self.version += 1
        return Unfit(UNUSABLE, self.trouble()[1])

    def usable(self, what: str) -> None:
        """An answer could be used."""
        if self.unusable.pop(what, None):
            self.version += 1

    def reasons(self) -> dict[str, str]:
        """Why answers of it can't be used, by what was asked for."""
        least = time.monotonic() - limits.UNUSABLE_SECONDS
        return {what: why for what, (why, moment) in self.unusable.items() if moment > least}

    @contextlib.asynccontextmanager
    async def answer(
        self, path: str, body: dict | None = None, headers: dict | None = None
    ) -> AsyncIterator[aiohttp.ClientResponse]:
        """An answer of it, whatever it says; Unfit where it doesn't answer."""
        try:
            async with self.opened().request(
                "GET" if body is None else "POST",
                self.station.url + path,
                json=body,
                headers=headers,
                allow_redirects=False,
            ) as found:
                yield found
        except (aiohttp.ClientError, asyncio.TimeoutError, OSError, ValueError) as fault:
            raise self.away(why(fault)) from None

    async def ask(
        self,
        path: str,
        body: dict | None = None,
        seconds: float = limits.CHANGE_SECONDS,
        shape: answers.Shape = answers.SAID,
    ) -> tuple[int, dict]:
        """Its status and JSON, which has a shape; Unfit where it refuses by more than that, can't
        be used, or isn't there."""
        try:
            async with asyncio.timeout(seconds), self.answer(path, body) as found:
                status, data = found.status, await within(found, answers.BYTES)
        except TimeoutError:
            raise self.away(f"it hasn't answered within {seconds:.0f} s") from None
        if status == 401:
            raise self.away(OTHER_TOKEN)
        if 300 <= status < 400 or status == 421:
            raise self.away(NO_PAGE)
        try:
            told = await aside(data, answers.value_in, data)
            if status >= 400 and not (isinstance(told, dict) and "answers" in told):
                answers.REFUSAL(told)
                front = f"{self.name}: " if self.name else ""
                raise Unfit(status, front + words.plain(str(told.get("error", status))))
            await aside(data, shape, told)
        except Unusable as fault:
            if status >= 500:
                # A proxy says so, whose page isn't there.
                raise self.away(f"it answers {status}") from None
            raise self.unfit(path, fault) from None
        self.usable(path)
        return status, told

    # ----------------------------------------------------------------------------- what it says

    async def watch(self) -> None:
        """Hears how it stands, without end, whatever it says."""
        while True:
            try:
                await self.listen()
                self.fault = "it has ended its answer"
            except Unfit as unfit:
                self.fault = str(unfit).removeprefix(f"{self.name}: ").rstrip(".")
                if unfit.status != UNUSABLE:
                    self.unusable.clear()
            except Exception as fault:
                self.unfit("/api/stream", fault)
            self.version += 1
            await asyncio.sleep(limits.AGAIN_SECONDS)

    async def listen(self) -> None:
        """Hears how it stands until it is lost. No pictures: these each open page fetches."""
        async with self.answer("/api/stream") as found:
            if found.status == 401:
                raise self.away(OTHER_TOKEN)
            if found.status != 200:
                raise self.away(f"it answers {found.status}")
            async for head, body in self.messages(found):
                begun = time.monotonic()
                if head["kind"] == "hello":
                    view = {"stream": head["id"], "turn": 1, "cameras": []}
                    await self.ask("/api/view", view)
                elif head["kind"] in answers.PUSHED:
                    try:
                        self.hear(head["kind"], await aside(body, self.read, head["kind"], body))
                    except Unusable as fault:
                        raise self.unfit(f"its {head['kind']}", fault) from None
                # Half of the time is this page's own, however much a station says.
                await asyncio.sleep(time.monotonic() - begun)

    async def messages(
        self, found: aiohttp.ClientResponse
    ) -> AsyncIterator[tuple[dict, bytes]]:
        """The messages of its stream; Unfit where one can't be used."""
        read = found.content.readexactly
        try:
            while True:
                lengths = LENGTHS.unpack(await read(LENGTHS.size))
                if lengths[0] > limits.HEAD_BYTES or lengths[1] > limits.MESSAGE_BYTES:
                    raise Unusable(f"has lengths of {lengths[0]} and {lengths[1]} bytes")
                async with asyncio.timeout(limits.MESSAGE_SECONDS):
                    head = answers.answer_in(await read(lengths[0]), answers.HEAD)
                    body = await read(lengths[1])
                answers.HEADS.get(head["kind"], answers.HEAD)(head)
                self.usable("/api/stream")
                yield head, body
        except asyncio.IncompleteReadError:
            return
        except TimeoutError:
            raise self.away("a message of it hasn't come whole in time") from None
        except Unusable as fault:
            raise self.unfit("/api/stream", fault) from None

    def take(self, kind: str, body: bytes) -> None:
        """What it says."""
        try:
            self.hear(kind, self.read(kind, body))
        except Unusable as fault:
            raise self.unfit(f"its {kind}", fault) from None

    def read(self, kind: str, body: bytes):
        """What it says, which has its shape: of what it shows itself, its own."""
        told = answers.answer_in(body, answers.PUSHED[kind])
        if kind == "state":
            return own_state(told)
        if kind == "more":
            return {name: it for name, it in told["cameras"].items() if MARK not in name}
        events = own_events(told)
        self.prepare(events)
        return events

    def hear(self, kind: str, told) -> None:
        """What it says, as it was read."""
        if kind == "state":
            self.state, self.fault, self.heard = told, "", time.monotonic()
        elif kind == "more":
            self.more = told
        else:
            self.events = told
        self.usable(f"its {kind}")
        self.version += 1

    async def measure(self) -> None:
        """Measures its clock, without end: at first quickly."""
        while True:
            try:
                asked, seconds = time.time_ns() // 1000, limits.AWAY_SECONDS
                _, told = await self.ask("/api/clock", None, seconds, answers.CLOCK)
                self.clock.add(asked, told["now_us"], time.time_ns() // 1000)
            except Unfit:
                pass
            except Exception as fault:
                self.unfit("/api/clock", fault)
            is_young = len(self.clock.samples) < limits.CLOCK_SAMPLES // 2
            await asyncio.sleep(limits.AGAIN_SECONDS if is_young else limits.ASK_SECONDS)

    def silent(self) -> float:
        """For how long it has said nothing, where that is long; else 0."""
        waited = time.monotonic() - self.heard
        return waited if waited > limits.AWAY_SECONDS else 0.0

    def trouble(self) -> tuple[str, str]:
        """What is wrong with it, as a word and in a sentence; `good` where nothing is."""
        if reasons := self.reasons():
            reason = next(iter(reasons.values()))
            return "unusable", f"{self.name} is unusable: {reason}. {VERSIONS}"
        if waited := self.silent():
            fault = f": {self.fault}" if self.fault else ""
            late = words.seconds_words(int(waited))
            return "away", f"{self.name} hasn't answered for {late}{fault}."
        offset = self.clock.offset()
        if not self.clock.is_off() or not offset:
            return "good", ""
        way = "ahead of" if offset[0] > 0 else "behind"
        return "clock", (
            f"{self.name}: its clock is {abs(offset[0]) / 1000:.0f} ms {way} this one, within "
            f"{offset[1] / 1000:.0f} ms. A span is kept by each station's own clock: "
            f"synchronize them."
        )

    def is_shown_as_it_is(self) -> bool:
        """Whether what it said last is how it stands."""
        said = {"/api/stream", "its state"}
        return not self.silent() and not said & set(self.reasons())

    def standing(self) -> dict:
        """How it stands, for the page."""
        kind, text = self.trouble()
        level = {"good": "good", "clock": "warn"}.get(kind, "bad")
        found = {"name": self.name, "url": self.station.url, "level": level, "text": text}
        found |= {"kind": kind, "offset_us": None, "error_us": None}
        offset = self.clock.offset()
        return found | (dict(zip(("offset_us", "error_us"), offset)) if offset else {})

    async def close(self) -> None:
        """Ends the connections."""
        if self.session:
            await self.session.close()


async def within(found: aiohttp.ClientResponse, most: int) -> bytes:
    """The bytes of an answer, of which there are so many at most: one more shows that there are
    more."""
    data = bytearray()
    async for piece in found.content.iter_chunked(limits.PIECE):
        data += piece[: most + 1 - len(data)]
        if len(data) > most:
            break
    return bytes(data)


async def aside(data: bytes, work, *given):
    """What is made of a text. Of a long one it is made in a thread, so that it holds up nobody."""
    if len(data) <= limits.PIECE:
        return work(*given)
    return await asyncio.to_thread(work, *given)


async def parsed(data: bytes, shape: answers.Shape):
    """The value of a text of JSON, which has a shape."""
    return await aside(data, answers.answer_in, data, shape)


def own_state(told: dict) -> dict:
    """A state without what its station shows of others."""
    cameras = [it for it in told["cameras"] if MARK not in it["name"]]
    if len({it["name"] for it in cameras}) < len(cameras):
        raise Unusable("has one name twice", "cameras")
    alerts = [it for it in told["alerts"] if MARK not in (it.get("camera") or "")]
    return told | {"cameras": cameras, "alerts": alerts}


def own_events(told: list[dict]) -> list[dict]:
    """Events without the clips of stations that their station shows too."""
    found = []
    for event in told:
        parts = {word: [it for it in event[word] if MARK not in it["camera"]]
                 for word in ("clips", "lacks")}
        parts["cameras"] = [it for it in event["cameras"] if MARK not in it]
        found += [event | parts] * bool(parts["clips"])
    return found


def why(fault: BaseException) -> str:
    """Why it doesn't answer, in a few words."""
    if isinstance(fault, asyncio.TimeoutError):
        return "it doesn't answer in time"
    if isinstance(fault, aiohttp.ClientConnectorError):
        return f"no connection ({words.plain(str(fault.os_error.strerror or fault.os_error))})"
    return words.plain(str(fault)) or type(fault).__name__
