"""Several stations in one console: those that the settings name beside this page's own. What a page
asks for goes to the page of the station that it is about, and what they say is one state. A station
that doesn't answer is said, and holds up no other one."""
import asyncio
import contextlib
import functools
import json
import re
import time
import zipfile
from collections.abc import AsyncIterator, Awaitable, Coroutine
from urllib.parse import quote

from aiohttp import web
from lapyrei import answers
from lapyrei.answers import ALERT_NUMBERS_END as ALERTS
from lapyrei.answers import MARK

from . import limits, words
from .asked import CAUSES, number_in
from .bundle import PARTS, Progress, entry, parts_in, stamp
from .console import EVENTS, VIEW
from .films import KINDS, Gathered
from .guard import FOREIGN
from .orders import NoStation
from .others import UNUSABLE, Other, parsed, within
from .push import LEVELS, Stream, View, message, view_of, whole
from .redrawn import Redrawn
from .search import search_in
from .settings import OtherStation
from .standing import for_programs
from .together import (
    Joined,
    Presses,
    answers_of,
    more_of,
    named,
    refused,
    span_of,
    state_of,
)
from .words import Unfit

# What is given on of a request for a file.
ASKED = ("Range", "If-Range")
# What is given on of its answer, and what that may be.
TOLD = {
    "Accept-Ranges": r"bytes|none",
    "Content-Range": r"bytes (\d{1,19}-\d{1,19}|\*)/\d{1,19}",
    "ETag": r'(W/)?"[\x21\x23-\x7e]{0,100}"',
    "Retry-After": r"\d{1,5}",
    "X-Frame-Number": r"\d{1,19}",
    "X-Frame-Store": r"\d{1,3}",
    "X-Frame-Time": r"\d{1,19}",
}
NAMED = r'attachment; filename="([A-Za-z0-9_.-]{1,100})"'
NAME = answers.NAME
# What a file of another station is said to be there, and is here, whatever it says: by its kind.
PICTURE, JSON = "image/jpeg", "application/json"
FILES = {PICTURE, "image/png", *KINDS.values()}
STATUSES = {200, 206, 400, 404, 409, 416, 429, 503, 507}


class Told:
    """What became of a keep of several stations, for the journal."""

    def __init__(self, answer: dict) -> None:
        self.answer = answer

    def sentence(self) -> str:
        """All of it."""
        return self.answer["text"]


# What is given on of what stands before a picture, but for its camera and its times.
HEAD = ("turn", "live", "number", "time", "sequence", "store", "stretch", "age")


class Beside:
    """What an open page is sent of another station: the newest picture of each camera, by a stream
    of its own there. It is put beside those of this station, and an older one that wasn't sent yet
    is dropped: however slow the page's line is, the station's stream is read at once."""

    def __init__(self, other: Other, stream: Stream, redrawn: Redrawn) -> None:
        self.other, self.stream, self.redrawn = other, stream, redrawn
        self.id: str | None = None
        self.view: dict = {}
        self.turned = asyncio.Event()
        self.level, self.rate = 0, 0.0

    def turn(self, view: dict) -> None:
        """The page looks at something else."""
        self.view = view
        self.turned.set()

    async def run(self) -> None:
        """Takes what comes, again where the station was lost."""
        while True:
            try:
                await self.listen()
            except Unfit:
                pass
            except Exception as fault:
                self.other.unfit("/api/stream", fault)
            self.id = None
            await asyncio.sleep(limits.AGAIN_SECONDS)

    async def listen(self) -> None:
        """Takes what comes until the station is lost."""
        async with self.other.answer("/api/stream") as found:
            if found.status != 200:
                return
            sends = asyncio.create_task(self.send_views())
            try:
                async for head, body in self.other.messages(found):
                    if head["kind"] == "hello":
                        self.id = head["id"]
                        self.turned.set()
                    elif head["kind"] in ("picture", "none") and MARK not in head["camera"]:
                        await self.take(head, body)
                    if (self.level, self.rate) != (self.stream.pace.level, self.stream.most()):
                        self.turned.set()
            finally:
                sends.cancel()

    async def take(self, head: dict, body: bytes) -> None:
        """A picture, or that there is none. A picture is made anew."""
        if head["kind"] == "picture":
            try:
                body = await self.redrawn.picture(body)
            except answers.Unusable as fault:
                raise self.other.unfit("a picture", fault) from None
        more = {key: head[key] for key in HEAD if key in head}
        offset, now = self.other.clock.offset(), time.time_ns() // 1000
        sent = head["sent"] - offset[0] if offset and "sent" in head else now
        camera = named(self.other, head["camera"])
        told = message(head["kind"], body if head["kind"] == "picture" else b"", **more,
                       camera=camera, sent=min(sent, now))
        self.stream.foreign[camera] = told
        self.stream.elsewhere.add(camera)
        self.stream.sizes[camera] = len(told)

    def wished(self) -> dict:
        """The page's view as this station is asked for it: smaller where the page's line is
        slow."""
        self.level = self.stream.pace.level
        stands = self.view.get("moment") is not None and not self.view.get("speed")
        part = 1.0 if stands else LEVELS[self.level][0]
        width = max(limits.LEAST_WIDTH, int(self.view.get("width", View.width) * part))
        self.rate = self.stream.most()
        return {**self.view, "width": width, "rate": self.rate, "stream": self.id}

    async def send_views(self) -> None:
        """Says what the page looks at, each time that it is something else."""
        while True:
            await self.turned.wait()
            self.turned.clear()
            if self.id and self.view:
                with contextlib.suppress(Unfit):
                    await self.other.ask("/api/view", self.wished())


def is_of_this(request: web.Request) -> bool:
    """Whether a request is about this page's own station alone, as programs beside it want."""
    return request.query.get("of") == "this"


class Stations:
    """The other stations, and the addresses that are about them too."""

    def __init__(self, page) -> None:
        self.page, self.laboratory, self.console = page, page.laboratory, page.console
        self.others = [Other(it) for it in page.gate.settings.stations]
        self.by_name = {other.name: other for other in self.others}
        # Beside the notes.
        path = f"{page.gate.settings.notes}.presses" if self.others else None
        self.presses = Presses(limits.EVENTS_HEARD, path)
        self.beside: dict[str, list[Beside]] = {}
        self.told: tuple[object, list, float] = (None, [], 0.0)
        # The events of all, as they were joined last and as JSON, and of what; one join at a time,
        # in a thread, so that it holds up nobody.
        self.join, self.joins = Joined(self.presses), asyncio.Lock()
        for other in self.others:
            other.prepare = functools.partial(self.join.prepare, other.name, other)
        self.last: tuple[list, list[dict], bytes | None] = ([], [], None)
        self.joining: asyncio.Task | None = None
        self.redrawn = Redrawn()
        # This page itself, which is asked as the others are.
        self.this: Other | None = None
        if self.others:
            self.console.push.state = self.state
            self.console.push.beside = self.begin_beside

    def add_to(self, app: web.Application) -> None:
        """Adds the addresses: where there are other stations, before those of this one alone."""
        get, post, add = app.router.add_get, app.router.add_post, app.router.add_route
        get("/api/clock", self.clock)
        if not self.others:
            return
        for path, handler in (
            ("/api/view", self.view),
            ("/api/step", self.step),
            ("/api/keep", self.keep),
            ("/api/note", self.of_clip),
            ("/api/release", self.of_clip),
            ("/api/seen", self.seen),
            ("/api/event/note", self.of_event),
            ("/api/event/release", self.of_event),
        ):
            post(path, handler)
        get("/api/status", self.status)
        get("/api/clips", self.clips)
        get("/api/events", self.events)
        get("/api/event.zip", self.zip, allow_head=False)
        # A browser writes the mark as %3A.
        camera = rf"{{camera:{NAME}(?:{MARK}|%3A){NAME}}}"
        frames = r"newest\.jpg|frame|frames/(?:\d{1,3}\.)?\d{1,19}(?:\.jpg|/value|/light|/picture)"
        kinds = r"\d{1,5}\.(?:mp4|y4m|zip|csv|jpg)"
        for method in ("GET", "HEAD"):
            add(method, f"/api/{{kind:cameras}}/{camera}/{{rest:{frames}}}", self.file)
            add(method, f"/api/{{kind:clips}}/{camera}/{{rest:{kinds}}}", self.file)

    def works(self, port: int) -> list[Coroutine]:
        """What has to run beside the page, which is at a port of this machine."""
        if not self.others:
            return []
        settings = self.page.gate.settings
        host = settings.host if settings.host not in ("0.0.0.0", "::") else "127.0.0.1"
        url = f"http://{f'[{host}]' if ':' in host else host}:{port}"
        self.this = Other(OtherStation("", url, settings.token))
        return [
            *(other.watch() for other in self.others),
            *(other.measure() for other in self.others),
            self.judge(),
        ]

    async def judge(self) -> None:
        """Warns of stations that don't answer, and of clocks that are off, without end."""
        while True:
            for other in self.others:
                found = other.standing()
                for kind in ("away", "unusable", "clock"):
                    text = found["text"] if found["kind"] == kind else ""
                    # What is said of how long isn't said anew each second.
                    if not (text and self.laboratory.alerts.stands(kind, camera=other.name)):
                        self.laboratory.warned.set(kind, other.name, text)
            await asyncio.sleep(limits.AGAIN_SECONDS)

    async def close(self) -> None:
        """Ends the connections."""
        for other in [*self.others, *([self.this] if self.this else [])]:
            await other.close()

    # ---------------------------------------------------------------------------- what is one state

    def state(self) -> list[tuple[object, str, bytes]]:
        """What all pages are sent, as `Console.state` has it of this station. Where much is said, it
        is made anew so often at most."""
        now, local = time.monotonic(), self.console.state()
        mark = ([it[0] for it in local], [it.version for it in self.others],
                [it.standing() for it in self.others])
        if mark != self.told[0] and now - self.told[2] >= limits.MERGE_SECONDS:
            parts = [self.merged(it, mark) for it in local if it[1] != "events"]
            self.told = mark, parts, now
        self.begin_to_join()
        body = self.last[2]
        return self.told[1] + [(body, "events", body)] * (body is not None and bool(local))

    def merged(self, part: tuple[object, str, bytes], mark: object) -> tuple[object, str, bytes]:
        """A part of the state with that of the others."""
        own, kind, body = part
        if kind == "state":
            found = state_of(json.loads(body), self.others)
        elif kind == "more":
            found = more_of(json.loads(body), self.others)
        else:
            return part
        told = json.dumps(found, separators=(",", ":")).encode()
        return (mark if kind == "state" else told), kind, told

    def said(self) -> dict[str, tuple[Other | None, list[dict]]]:
        """The events that each station says, this one first."""
        own = {"": (None, self.console.listed)}
        return own | {it.name: (it, it.events) for it in self.others}

    def is_joined(self) -> bool:
        """Whether nothing new was said since the events were joined."""
        now = [*(events for _, events in self.said().values()), self.presses.version]
        return len(now) == len(self.last[0]) and all(
            one is other for one, other in zip(now, self.last[0])
        )

    def begin_to_join(self) -> None:
        """Has the events joined, where something new was said; what was joined before stays until
        that is done."""
        if not self.is_joined() and (self.joining is None or self.joining.done()):
            self.joining = asyncio.create_task(self.joined())

    async def joined(self) -> list[dict]:
        """The events of all stations as they are now."""
        async with self.joins:
            if not self.is_joined():
                said = self.said()
                mark = [*(events for _, events in said.values()), self.presses.version]
                self.last = mark, *await asyncio.to_thread(self.join.join, said)
        return self.last[1]

    async def clock(self, request: web.Request) -> web.Response:
        """This machine's clock, in microseconds since 1970."""
        return web.json_response({"now_us": int(time.time() * 1e6)})

    async def status(self, request: web.Request) -> web.Response:
        """How all stands, once."""
        if is_of_this(request):
            return await self.page.status(request)
        await self.laboratory.fresh()
        found = state_of(self.laboratory.shown.standing(), self.others)
        for camera in found["cameras"]:
            for_programs(camera)
        return web.json_response(found)

    async def clips(self, request: web.Request) -> web.Response:
        """All clips."""
        await self.laboratory.fresh()
        clips = self.laboratory.held.clips()
        for clip in clips:
            del clip["order_tag"], clip["runs"]
        told = await asyncio.gather(*(self.clips_of(it) for it in self.others))
        unusable = {}
        for other, found in zip(self.others, told):
            if isinstance(found, Unfit):
                unusable[other.name] = str(found)
            else:
                clips += [it | {"camera": named(other, it["camera"])} for it in found]
        clips.sort(key=lambda clip: (clip["to_us"], clip["camera"]), reverse=True)
        return web.json_response({"clips": clips} | ({"unusable": unusable} if unusable else {}))

    async def clips_of(self, other: Other) -> list[dict] | Unfit:
        """The clips of another station, or why they can't be had."""
        try:
            seconds, shape = limits.FRESH_SECONDS, answers.CLIPS_SAID
            _, found = await other.ask("/api/clips", None, seconds, shape)
        except Unfit as unfit:
            return unfit
        return [it for it in found["clips"] if MARK not in it["camera"]]

    async def events(self, request: web.Request) -> web.Response:
        """All events."""
        if is_of_this(request):
            return await self.console.events(request)
        search = search_in(request.query)
        await self.laboratory.fresh()
        self.console.state()
        return web.json_response({"events": search.found(await self.joined())})

    # -------------------------------------------------------------------------------- open pages

    def begin_beside(self, stream: Stream) -> Coroutine:
        """What a page is sent beside its own station's pictures, until it goes away."""
        self.beside[stream.id] = [Beside(it, stream, self.redrawn) for it in self.others]
        return self.run_beside(stream.id)

    async def run_beside(self, id_: str) -> None:
        """Runs until it is ended."""
        tasks = [asyncio.create_task(it.run()) for it in self.beside[id_]]
        try:
            await asyncio.wait(tasks)
        finally:
            for task in tasks:
                task.cancel()
            del self.beside[id_]

    async def view(self, request: web.Request) -> web.Response:
        """A page looks at something else."""
        body = await self.page.body(request, VIEW)
        stream = self.console.push.stream(body.get("stream"))
        names, stretch = body.get("cameras"), body.get("stretch", {})
        if names is not None and not isinstance(names, list) or not isinstance(stretch, dict):
            raise Unfit(400, "cameras is a list, and stretch an object.")
        by_station = self.split(names)
        eyes = list(self.console.push.eyes)
        own = body | {"stretch": {it: to for it, to in stretch.items() if MARK not in str(it)}}
        stream.turn(view_of(own if names is None else own | {"cameras": by_station[""]}, eyes))
        stream.foreign, stream.elsewhere = {}, set()
        for one in self.beside.get(stream.id, []):
            name = one.other.name
            view = {key: it for key, it in body.items() if key != "stream"}
            view["cameras"] = None if names is None else by_station[name]
            front = f"{name}{MARK}"
            view["stretch"] = {
                it.removeprefix(front): to for it, to in stretch.items() if it.startswith(front)
            }
            one.turn(view)
        return web.json_response({"moment": stream.view.now()})

    def split(self, names: list | None) -> dict[str, list[str]]:
        """Cameras by their station, this one's under nothing. Unfit where there is no such
        station."""
        found: dict[str, list[str]] = {"": [], **{it.name: [] for it in self.others}}
        for name in names or []:
            station, mark, camera = str(name).rpartition(MARK)
            if station not in found or (mark and not station):
                raise Unfit(404, "There is no camera of that name.")
            found[station].append(camera)
        return found

    async def step(self, request: web.Request) -> web.Response:
        """The moment some frames after another one, of whichever camera has the next."""
        body = await self.page.body(request, {"cameras", "moment", "by"})
        by, names = whole(body.get("by"), -1000, 1000, "by"), body.get("cameras")
        if names is not None and not isinstance(names, list):
            raise Unfit(400, "cameras is a list.")
        by_station = self.split(names)
        if not names:
            by_station = {"": list(self.console.push.eyes), **{it.name: [] for it in self.others}}
        elif not any(by_station[it.name] for it in self.others):
            return await self.console.step(request)
        chosen = [(self.this, by_station[""])] if by_station[""] else []
        chosen += [
            (it, by_station[it.name])
            for it in self.others
            if not it.silent() and (not names or by_station[it.name])
        ]
        moment = body.get("moment")
        for _ in range(min(abs(by), limits.STEPS)):
            asked = {"moment": moment, "by": 1 if by > 0 else -1}
            told = await asyncio.gather(
                *(self.step_of(it, asked | {"cameras": its or None}) for it, its in chosen if it),
                return_exceptions=True,
            )
            moments = [it[1]["moment"] for it in told if isinstance(it, tuple)]
            if moment is not None:
                moments = [it for it in moments if (it > moment if by > 0 else it < moment)]
            if not moments:
                break
            moment = min(moments) if by > 0 and moment is not None else max(moments)
        if moment is None:
            raise Unfit(404, "No frame is stored.")
        return web.json_response({"moment": moment})

    async def step_of(self, other: Other, asked: dict) -> tuple[int, dict]:
        """A step at another station."""
        return await other.ask("/api/step", asked, shape=answers.STEP)

    # ---------------------------------------------------------------------------- what is asked for

    def other_of(self, camera: object) -> tuple[Other, str] | None:
        """The other station of a camera's name, and its name there; none where it is this one's."""
        if not isinstance(camera, str) or MARK not in camera:
            return None
        station, _, name = camera.partition(MARK)
        if station not in self.by_name or not re.fullmatch(NAME, name):
            raise Unfit(404, "There is no camera of that name.")
        return self.by_name[station], name

    async def keep(self, request: web.Request) -> web.Response:
        """Keeps one span: of one camera at its station, or of all at all of them."""
        came = time.time_ns() // 1000
        if is_of_this(request):
            return await self.page.keep(request)
        wish = await self.page.asked_keep(request)
        if wish.camera is not None and self.other_of(wish.camera) is None:
            return await self.page.keep(request)
        cameras = state_of(self.laboratory.shown.standing(), self.others)["cameras"]
        if wish.camera is not None:
            cameras = [it for it in cameras if it["name"] == wish.camera]
        why = self.page.cause_of(request, wish, came)
        span = span_of(wish, why["at_us"], cameras)
        whom = wish.camera or "all stations"
        order = f"from {words.iso(span[0])} to {words.iso(span[1])} of {whom}"
        work = self.keep_of(wish.camera, span, wish.note, why)
        told = await self.page.change(request, "keep", order, work)
        answers = [it.answer for it in told]
        is_kept = any(it["kept"] for it in answers)
        return web.json_response(
            {"kept": is_kept, "answers": answers}, status=200 if is_kept else 409
        )

    async def keep_of(
        self, camera: str | None, span: tuple[int, int], note: str, why: dict
    ) -> list[Told]:
        """Gives the order to all stations at once, and answers what each said. One that was silent
        before holds up no answer. `why` is the cause, which each station is told."""
        found, body = self.other_of(camera), asked_of(span, note, why)
        if found:
            body = body | {"camera": found[1]}
            works = [asyncio.create_task(self.keep_there(found[0], body))]
            names: list[Other | None] = [found[0]]
        else:
            # A page may have no station of its own.
            names = [*([None] if self.laboratory.cameras else []), *self.others]
            works = [
                asyncio.create_task(
                    self.keep_there(it, body) if it else self.keep_here(span, note, why)
                )
                for it in names
            ]
        end = time.monotonic() + limits.CHANGE_SECONDS + limits.AWAY_SECONDS
        while left := [name for name, work in zip(names, works) if not work.done()]:
            others_done = len(left) < len(works) and all(it and it.silent() for it in left)
            if others_done or time.monotonic() > end:
                break
            await asyncio.wait(
                [it for it in works if not it.done()], timeout=limits.ENOUGH_SECONDS
            )
        answers, numbers = [], []
        for name, work in zip(names, works):
            if not work.done():
                # It goes on: where the station comes back in time, it keeps.
                text = "it doesn't answer. It may still keep: look at its clips."
                answers.append(refused(name.name if name else None, text))
                continue
            answers += work.result()
            numbers += {(name.name if name else "", it["event"]) for it in work.result()
                        if it["kept"] and it["event"] is not None}
        await asyncio.to_thread(self.presses.add, sorted(numbers))
        return [Told(it) for it in answers]

    async def keep_here(self, span: tuple[int, int], note: str, why: dict) -> list[dict]:
        """Keeps at this page's own station."""
        try:
            kept = await self.laboratory.keeping.keep(None, None, span, note)
        except (Unfit, NoStation) as fault:
            return [refused(None, str(fault))]
        numbers = {it.event for it in kept if it.is_kept and it.event is not None}
        await asyncio.to_thread(self.laboratory.causes.add, numbers, why)
        return [it.as_object() for it in kept]

    async def keep_there(self, other: Other, body: dict) -> list[dict]:
        """Keeps at another station."""
        try:
            _, told = await other.ask("/api/keep", body, shape=answers.KEPT)
            return answers_of(other, told)
        except Unfit as fault:
            may = " It may have kept: look at its clips." * (fault.status == UNUSABLE)
            return [refused(other.name, f"{fault}{may}")]

    async def of_clip(self, request: web.Request) -> web.Response:
        """A note or a release of a clip, at its station."""
        body = await self.page.body(
            request, {"camera", "id", "first", "note", "last", "tag"}
        )
        found, kind = self.other_of(body.get("camera")), request.path.rsplit("/", 1)[1]
        if found is None:
            return await getattr(self.page, kind)(request)
        order = f"clip {body.get('id')} of {body['camera']}"
        work = self.text_of(found[0].ask(request.path, body | {"camera": found[1]}))
        return web.json_response({"text": await self.page.change(request, kind, order, work)})

    async def text_of(self, asked: Awaitable) -> str:
        """What another station says of a change."""
        _, told = await asked
        return words.plain(str(told.get("text", "")))

    async def of_event(self, request: web.Request) -> web.Response:
        """A note or a release of an event: of its clips at each station."""
        body, kind = await self.page.body(request, {"clips", "note"}), request.path.rsplit("/", 1)[1]
        by_station = self.clips_by_station(body.get("clips"))
        if not any(name for name in by_station):
            return await getattr(self.console, kind)(request)
        order = f"the event of {', '.join(str(it['camera']) for it in body['clips'])}"
        order += f": {str(body['note'])[: limits.NOTE_BYTES]}" if "note" in body else ""
        work = self.change_all(request.path, body, by_station)
        return web.json_response({"text": await self.page.change(request, kind, order, work)})

    def clips_by_station(self, clips: object) -> dict[str, list[dict]]:
        """The clips of a request by their station, with their cameras' names there."""
        found: dict[str, list[dict]] = {}
        if not isinstance(clips, list) or not 1 <= len(clips) <= limits.EVENT_CLIPS:
            raise Unfit(400, f"clips is a list of 1 to {limits.EVENT_CLIPS}.")
        for one in clips:
            if not isinstance(one, dict):
                raise Unfit(400, "A clip has camera, id and first.")
            there = self.other_of(one.get("camera"))
            name, camera = (there[0].name, there[1]) if there else ("", one.get("camera"))
            found.setdefault(name, []).append(one | {"camera": camera})
        return found

    async def change_all(self, path: str, body: dict, by_station: dict[str, list[dict]]) -> str:
        """Changes the clips of each station; Unfit where one refuses, and the others do it
        nevertheless."""
        asked = [
            (self.by_name.get(name) or self.this).ask(path, body | {"clips": clips})
            for name, clips in by_station.items()
        ]
        told = await asyncio.gather(*asked, return_exceptions=True)
        faults = [it for it in told if isinstance(it, BaseException)]
        for fault in faults:
            if not isinstance(fault, Unfit):
                raise fault
        if faults:
            done = f"{len(told) - len(faults)} of {len(told)} stations did it. "
            raise Unfit(409, done + " ".join(str(it) for it in faults))
        if path.endswith("note"):
            return "The note is written."
        return f"The event of {len(told)} stations is released. Its room is used again."

    async def seen(self, request: web.Request) -> web.Response:
        """Somebody has seen a warning."""
        body = await self.page.body(request, {"id", "ids"})
        ids = body["ids"] if "ids" in body else [body.get("id")]
        if not isinstance(ids, list) or not all(type(it) is int and it >= 0 for it in ids):
            raise Unfit(404, "There is no such warning any more.")
        count = sum(self.laboratory.alerts.seen(it) for it in ids if it < ALERTS)
        for place, other in enumerate(self.others, 1):
            its = [it % ALERTS for it in ids if it // ALERTS == place]
            if its:
                await other.ask("/api/seen", {"ids": its})
                count += len(its)
        if not count:
            raise Unfit(404, "There is no such warning any more.")
        self.laboratory.hurry.set()
        return web.json_response({"text": "Seen."})

    # ------------------------------------------------------------------------------------- files

    async def file(self, request: web.Request) -> web.StreamResponse:
        """A picture or a file of another station's camera. Its type is this page's own, whatever
        the station says, and no browser takes it for a page of this origin."""
        match = request.match_info
        found = self.other_of(match["camera"])
        if found is None:
            raise Unfit(404, "There is no camera of that name.")
        other, camera = found
        path = f"/api/{match['kind']}/{quote(camera)}/{match['rest']}"
        path += f"?{request.query_string}" if request.query_string else ""
        headers = {key: request.headers[key] for key in ASKED if key in request.headers}
        async with other.answer(path, None, headers) as found:
            if found.status == 401:
                raise other.away("it wants another token")
            if found.content_type == JSON:
                return await self.words_of(found, other)
            if found.content_type not in FILES or found.status not in STATUSES:
                fault = answers.Unusable(f"is {found.content_type}, with the status {found.status}")
                raise other.unfit("a file", fault)
            kind = match["rest"].rpartition(".")[2]
            if kind == "jpg" or kind.endswith("picture"):
                return await self.picture_of(found, other)
            return await self.sent(request, found, other, kind)

    async def picture_of(self, found, other: Other) -> web.Response:
        """A picture of another station, made anew."""
        try:
            data = await within(found, limits.PICTURE_MOST)
            body = await self.redrawn.picture(data)
        except answers.Unusable as fault:
            raise other.unfit("a picture", fault) from None
        headers = {"Content-Security-Policy": FOREIGN} | told_of(found)
        return web.Response(body=body, content_type=PICTURE, headers=headers)

    async def sent(self, request: web.Request, found, other: Other, kind: str):
        """A file of another station, as it comes: one that is saved, or a film that is played."""
        if kind not in KINDS:
            raise Unfit(404, "There is no such file.")
        response = web.StreamResponse(status=found.status)
        response.headers["Content-Security-Policy"] = FOREIGN
        response.headers.update(told_of(found))
        response.headers["Content-Type"] = KINDS[kind]
        response.content_length = found.content_length
        if kind != "mp4" or "play" not in request.query:
            name = re.fullmatch(NAMED, found.headers.get("Content-Disposition", ""))
            name = name[1] if name else f"{other.name}.{kind}"
            response.headers["Content-Disposition"] = f'attachment; filename="{name}"'
        self.page.dress(response)
        return await self.page.send(request, response, pieces_of(found, other))

    async def words_of(self, found, other: Other) -> web.Response:
        """What another station says of a frame, in JSON."""
        try:
            told = await parsed(await within(found, limits.MESSAGE_BYTES), answers.SAID)
        except answers.Unusable as fault:
            raise other.unfit("a file", fault) from None
        status = found.status if found.status in STATUSES else UNUSABLE
        return web.json_response(
            told, status=status, headers={"Content-Security-Policy": FOREIGN}
        )

    async def zip(self, request: web.Request) -> web.StreamResponse:
        """An event as one zip, with the files of all its stations."""
        keys = [it for it in request.query.get("clips", "").split("~") if it]
        if not any(MARK in it for it in keys):
            return await self.console.zip(request)
        files = self.files_of(keys, request.query.get("what", "mp4,csv"))
        if self.page.fetches[EVENTS] >= limits.EVENT_FETCHES:
            raise Unfit(503, "Too many events are being fetched. Try again in a minute.")
        await self.joined()
        since = self.since_of(set(keys))
        name, progress = f"event_{stamp(since)}", Progress(len(files))
        response = web.StreamResponse(headers={"Content-Type": "application/zip"})
        response.headers["Content-Disposition"] = f'attachment; filename="{name}.zip"'
        response.headers["Content-Security-Policy"] = FOREIGN
        self.page.dress(response)
        if shown := request.query.get("as", "")[:40]:
            self.console.progress[shown] = progress
            while len(self.console.progress) > limits.PROGRESS:
                self.console.progress.popitem(last=False)
        self.page.fetches[EVENTS] += 1
        try:
            return await self.page.send(request, response, zipped(name, since, files, progress))
        finally:
            self.console.ended(shown, progress)

    def files_of(self, keys: list[str], what: str) -> list[tuple]:
        """The files of some clips: of each its station, its camera there, the part, and the clip's
        id and first frame."""
        clips, parts = [it.rsplit(".", 2) for it in keys], parts_in(what)
        if len(clips) > limits.EVENT_CLIPS or any(len(it) != 3 for it in clips):
            raise Unfit(400, "clips names clips as CAMERA.ID.FIRST, with ~ between them.")
        if parts is None:
            raise Unfit(400, "what is some of mp4, y4m, png and csv, with commas between them.")
        return [
            (
                *(self.other_of(camera) or (self.this, self.laboratory.watched(camera).camera.name)),
                part,
                number_in(id_, limits.NUMBERS_END, "id"),
                number_in(first, limits.NUMBERS_END, "first"),
            )
            for part in parts
            for camera, id_, first in clips
        ]

    def since_of(self, keys: set[str]) -> int:
        """When the event of some clips begins, as far as the other stations have said."""
        known = [
            clip["from_us"]
            for event in self.last[1]
            for clip in event["clips"]
            if f"{clip['camera']}.{clip['id']}.{clip['first']}" in keys
        ]
        return min(known, default=time.time_ns() // 1000)


def told_of(found) -> dict[str, str]:
    """What is given on of an answer's headers."""
    return {
        key: found.headers[key]
        for key, form in TOLD.items()
        if re.fullmatch(form, found.headers.get(key, ""), re.ASCII)
    }


def asked_of(span: tuple[int, int], note: str, why: dict) -> dict:
    """What another station is asked to keep, and why. A program's order is one of this page
    there, as it is here."""
    body = {"from": span[0], "to": span[1], "note": note, "at": why["at_us"], "by": why["who"]}
    return body | ({"cause": why["kind"]} if why["kind"] in CAUSES else {})


async def pieces_of(found, other: Other) -> AsyncIterator[bytes]:
    """The bytes of an answer: all of them, or Unfit."""
    try:
        async for piece in found.content.iter_chunked(limits.PIECE):
            yield piece
    except Exception as fault:
        raise other.away(f"it broke off ({type(fault).__name__})") from None


def called(other: Other, camera: str) -> str:
    """How a camera's files are called in a zip."""
    return f"{other.name}_{camera}" if other.name else camera


async def zipped(
    name: str, since: int, files: list[tuple], progress: Progress
) -> AsyncIterator[bytes]:
    """A zip of the files of several stations, each by its station and its camera."""
    out = Gathered()
    archive = zipfile.ZipFile(out, "w", zipfile.ZIP_STORED, allowZip64=True)
    lines = [
        f"An event kept by the cameras of several stations: {words.iso(since)}.",
        "All times and names here are UTC: each ends with Z. Each station has its own clock.",
        "",
        *sorted({called(other, camera) for other, camera, *_ in files}),
        "",
        *(f".{part}: {PARTS[part]}" for part in dict.fromkeys(it[2] for it in files)),
    ]
    archive.writestr(entry(f"{name}/event.txt", since), "\n".join(lines).encode() + b"\n")
    taken: dict[str, int] = {}
    for other, camera, part, id_, first in files:
        progress.text = f"{called(other, camera)}: {PARTS[part].split(' (')[0]}"
        ending = {"png": "png.zip"}.get(part, part)
        kind = {"png": "zip"}.get(part, part)
        file = f"{name}/{called(other, camera)}.{ending}"
        count = taken[file] = taken.get(file, 0) + 1
        if count > 1:
            file = f"{name}/{called(other, camera)}_{count}.{ending}"
        path = f"/api/clips/{quote(camera)}/{id_}.{kind}?first={first}"
        async with other.answer(path) as found:
            if found.status != 200:
                raise other.away(f"it answers {found.status} for clip {id_} of {camera}")
            with archive.open(entry(file, since), "w", force_zip64=True) as handle:
                async for piece in pieces_of(found, other):
                    handle.write(piece)
                    yield out.take()
        progress.step(1)
    archive.close()
    yield out.take()
    progress.is_over = True
