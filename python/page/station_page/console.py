"""The addresses of the console: what open pages are sent, what they look at, events and single
pixels."""
import asyncio
import collections
import json
from contextlib import ExitStack

import layout
from aiohttp import web

from . import limits, pictures
from .advice import advice_for
from .asked import FRAME, frame_in, headers_of, number_in
from .bundle import Bundle, Progress, parts_in
from .disks import figures_of, unlocked_blocks
from .eye import Look
from .events import events_of
from .films import FilmFault
from .orders import NoStation
from .push import Push, stretch_in, view_of, whole
from .reader import Reading, store_in
from .rings import Ring
from .search import search_in
from .words import Unfit
from .workers import DRAWING

# The words of a view that a page asks for.
VIEW = {"stream", "turn", "width", "cameras", "stretch", "moment", "speed", "until", "rate"}

# Under what fetches of events are counted, beside those of each camera.
EVENTS = ""
# So many changes of cameras are marked on the timeline, the newest.
CHANGES = 50


class Console:
    """What the page's console asks for. `page` has the laboratory, and the ways in which requests
    are read and answers sent."""

    def __init__(self, page) -> None:
        self.page, self.laboratory = page, page.laboratory
        self.push = Push(self.laboratory, self.state, page.gate.is_known, page.rights)
        self.progress: collections.OrderedDict[str, Progress] = collections.OrderedDict()
        self.told: tuple[int, list] = (-1, [])
        self.clips: tuple[list[dict], int, int] = ([], 0, 0)
        # The events of this station, and as JSON.
        self.listed: list[dict] = []
        self.found = b"[]"

    def add_to(self, app: web.Application) -> None:
        """Adds the addresses."""
        get, post, camera = app.router.add_get, app.router.add_post, r"{camera:[A-Za-z0-9_-]{1,32}}"
        frame = rf"/api/cameras/{camera}/frames/{{number:{FRAME}}}"
        get("/api/stream", self.stream, allow_head=False)
        post("/api/view", self.view)
        post("/api/took", self.took)
        post("/api/step", self.step)
        get("/api/events", self.events)
        get("/api/disks", self.disks)
        get("/api/event.zip", self.zip, allow_head=False)
        post("/api/event/note", self.note)
        post("/api/event/release", self.release)
        get(rf"/api/cameras/{camera}/settings", self.settings)
        post("/api/camera", self.tune)
        get(rf"{frame}/value", self.value)
        get(rf"{frame}/light", self.light)
        get(rf"{frame}/picture", self.picture)

    # -------------------------------------------------------------------------- what pages are sent

    def state(self) -> list[tuple[object, str, bytes]]:
        """What all pages are sent where it is new: a mark, a kind and a body each. It is made once
        for all pages, where something has been seen anew."""
        laboratory = self.laboratory
        if self.told[0] != laboratory.version:
            self.push.follow()
            clips = laboratory.held.clips(), laboratory.heard.version, laboratory.causes.version
            if clips != self.clips:
                self.clips, self.listed = clips, self.events_of(clips[0])
                self.found = json.dumps(self.listed, separators=(",", ":")).encode()
            events = self.found
            more = json.dumps(self.more(), separators=(",", ":")).encode()
            found = [
                (laboratory.version, "state", laboratory.state),
                (more, "more", more),
                (events, "events", events),
            ]
            self.told = laboratory.version, found
        if not self.progress:
            return self.told[1] if laboratory.version else []
        told = {name: it.as_object() for name, it in self.progress.items()}
        body = json.dumps(told, separators=(",", ":")).encode()
        return [*self.told[1], (body, "progress", body)]

    def events_of(self, clips: list[dict]) -> list[dict]:
        """The events of some clips."""
        causes = self.laboratory.causes
        return events_of(clips, self.laboratory.heard, causes.of, causes.changed)

    def more(self) -> dict:
        """What the console shows of each camera beside its state."""
        found = {}
        for name, watched in self.laboratory.cameras.items():
            *_, kind, _ = self.laboratory.shown.camera_state(watched)
            found[name] = {"advice": advice_for(kind), "source": watched.camera.source}
            if watched.reading:
                found[name] |= room_of(watched.reading)
                found[name]["disk"] = figures_of(watched.reading, watched.space)
        return {"cameras": found, "changes": list(self.laboratory.causes.changes)[-CHANGES:]}

    async def stream(self, request: web.Request) -> web.StreamResponse:
        """All that is new, until the page goes away."""
        response = web.StreamResponse(headers={"Content-Type": "application/octet-stream"})
        # A proxy that gathers an answer would hold the pictures back.
        response.headers["X-Accel-Buffering"] = "no"
        self.page.dress(response)
        await self.push.answer(request, response)
        return response

    async def view(self, request: web.Request) -> web.Response:
        """A page looks at something else: other cameras, a moment, or live again."""
        body = await self.page.body(request, VIEW)
        stream = self.push.stream(body.get("stream"))
        stream.turn(view_of(body, list(self.push.eyes)))
        return web.json_response({"moment": stream.view.now()})

    async def took(self, request: web.Request) -> web.Response:
        """How many bytes of its answer a page has taken."""
        body = await self.page.body(request, {"stream", "bytes"})
        stream = self.push.stream(body.get("stream"))
        stream.line.told(whole(body.get("bytes"), 0, limits.NUMBERS_END, "bytes"))
        return web.Response(status=204)

    async def step(self, request: web.Request) -> web.Response:
        """The moment some frames after another one, or before it: of one camera, or whichever of
        several has the next."""
        body = await self.page.body(request, {"cameras", "moment", "by"})
        by = whole(body.get("by"), -1000, 1000, "by")
        names = body.get("cameras") or list(self.push.eyes)
        if not isinstance(names, list) or not set(map(str, names)) <= set(self.push.eyes):
            raise Unfit(404, "There is no camera of that name.")
        known = [
            found
            for name in names
            if (found := self.push.eyes[name].moments()) and found.newest is not None
        ]
        if not known:
            raise Unfit(404, "No frame is stored.")
        newest = max(moments.newest for moments in known)
        asked = body.get("moment")
        moment = newest if asked is None else whole(asked, 0, limits.NUMBERS_END, "moment")
        for _ in range(abs(by)):
            beside = [found for it in known if (found := it.beside(moment, by)) is not None]
            if not beside:
                break
            moment = min(beside) if by > 0 else max(beside)
        return web.json_response({"moment": moment})

    # -------------------------------------------------------------------------------- single frames

    async def source(self, request: web.Request):
        """The eye of a camera, and a frame of it that is still held."""
        await self.laboratory.fresh()
        name = request.match_info["camera"]
        self.laboratory.seen(name)
        eye, named = self.push.eyes[name], frame_in(request.match_info["number"])
        return eye, await eye.work(eye.head, *named)

    async def value(self, request: web.Request) -> web.Response:
        """The values of a pixel, as they are stored."""
        eye, frame = await self.source(request)
        store = store_in(frame)
        if eye.watched.source is None:
            raise Unfit(503, "No store is there.")
        source = eye.source(store)
        geometry, bits = source.geometry, layout.bits_of(frame.flags)
        high, wide = pictures.form_of(geometry, bits).planes[0]
        x = number_in(request.query.get("x", ""), wide, "x") or 0
        y = number_in(request.query.get("y", ""), high, "y") or 0

        def part(at: int, count: int) -> bytes:
            """Some bytes of the frame."""
            if frame.number // geometry.slots in source.places:
                return source.part(frame.number, at, count)
            return eye.data(frame.number, store)[0][at : at + count]

        values = await eye.work(pictures.value_at, geometry, part, x, y, bits)
        return web.json_response({"x": x, "y": y, "values": values})

    async def light(self, request: web.Request) -> web.Response:
        """How often each brightness is there in a frame."""
        eye, frame = await self.source(request)
        data, geometry = await eye.work(eye.data, frame.number, store_in(frame))
        bits = layout.bits_of(frame.flags)
        return web.json_response(await DRAWING.do(pictures.light, geometry, data, bits))

    async def picture(self, request: web.Request) -> web.Response:
        """A frame as JPEG: `width` pixels wide at most, `stretch` as `auto` or `BLACK,WHITE`."""
        eye, frame = await self.source(request)
        width = number_in(request.query.get("width"), limits.MOST_WIDTH, "width")
        text, stretch = request.query.get("stretch"), None
        if text == "auto":
            stretch = "auto"
        elif text is not None:
            points = [number_in(it, 65536, "stretch") for it in text.split(",")]
            stretch = stretch_in({"it": points}, {"it"})["it"]
        picture = await eye.picture(frame, Look(width and max(limits.LEAST_WIDTH, width), stretch))
        body, headers = picture.body, headers_of(frame)
        return web.Response(body=body, content_type="image/jpeg", headers=headers)

    # --------------------------------------------------------------------------------- events

    async def events(self, request: web.Request) -> web.Response:
        """All events, or those that are looked for."""
        search = search_in(request.query)
        await self.laboratory.fresh()
        found = self.events_of(self.laboratory.held.clips())
        return web.json_response({"events": search.found(found)})

    async def disks(self, request: web.Request) -> web.Response:
        """How much room each camera's disk has, and for how long its ring holds what comes."""
        await self.laboratory.fresh()
        found = {name: it.get("disk") for name, it in self.more()["cameras"].items()}
        return web.json_response({"disks": found})

    def clips_in(self, found: object) -> list[tuple[str, int, int]]:
        """The clips that a request names, each by camera, id and first number."""
        if not isinstance(found, list) or not 1 <= len(found) <= limits.EVENT_CLIPS:
            raise Unfit(
                400,
                f"clips is a list of 1 to {limits.EVENT_CLIPS}, each with camera, id and first.",
            )
        clips = []
        for one in found:
            if not isinstance(one, dict) or set(one) != {"camera", "id", "first"}:
                raise Unfit(400, "A clip has camera, id and first.")
            name = self.laboratory.watched(one["camera"]).camera.name
            id_ = whole(one["id"], 0, limits.NUMBERS_END, "id")
            clips.append((name, id_, whole(one["first"], 0, limits.NUMBERS_END, "first")))
        return clips

    async def note(self, request: web.Request) -> web.Response:
        """Writes a note beside all clips of an event."""
        body = await self.page.body(request, {"clips", "note"})
        if not isinstance(body.get("note"), str):
            raise Unfit(400, "note isn't a text.")
        named = self.clips_in(body.get("clips"))
        held = self.laboratory.held
        found = [(name, held.clip(name, id_, first)[-1]) for name, id_, first in named]

        order = f"{clip_words(named)}: {body['note'][: limits.NOTE_BYTES]}"
        work = asyncio.to_thread(self.laboratory.noting.put, found, body["note"])
        await self.page.change(request, "note", order, work)
        return web.json_response({"text": "The note is written."})

    async def settings(self, request: web.Request) -> web.Response:
        """What of a camera may be set, with what it has now."""
        tuning, name = self.laboratory.tuning, request.match_info["camera"]
        return web.json_response(await asyncio.to_thread(tuning.settings, name))

    async def tune(self, request: web.Request) -> web.Response:
        """Sets words of a camera."""
        body = await self.page.body(request, {"camera", "set"})
        name, wish = self.laboratory.watched(body.get("camera")).camera.name, body.get("set")
        who = ", ".join(self.page.gate.who(request))
        work = self.laboratory.tuning.change(name, wish, who)
        text = await self.page.change(request, "set", f"{name}: {str(wish)[:200]}", work)
        return web.json_response({"text": text})

    async def release(self, request: web.Request) -> web.Response:
        """Releases all clips of an event. What isn't is said, and the rest is released
        nevertheless."""
        body = await self.page.body(request, {"clips"})
        clips = self.clips_in(body.get("clips"))
        text = await self.page.change(
            request, "release", clip_words(clips), self.release_all(clips)
        )
        return web.json_response({"text": text})

    async def release_all(self, clips: list[tuple[str, int, int]]) -> str:
        """Releases clips, and says what became of that; Unfit where one stays."""
        told = await asyncio.gather(
            *(self.laboratory.held.release(name, id_, first) for name, id_, first in clips),
            return_exceptions=True,
        )
        faults = [it for it in told if isinstance(it, BaseException)]
        for fault in faults:
            if not isinstance(fault, (Unfit, NoStation)):
                raise fault
        if len(faults) == len(clips):
            raise faults[0]
        if faults:
            done = f"{len(clips) - len(faults)} of {len(clips)} clips are released."
            raise Unfit(409, f"{done} {' '.join(str(it) for it in faults)}")
        names = {name for name, _, _ in clips}
        count = "1 camera" if len(names) == 1 else f"{len(names)} cameras"
        return f"The event of {count} is released. Its room is used again."

    async def zip(self, request: web.Request) -> web.StreamResponse:
        """An event as one zip: `clips` names its clips as CAMERA.ID.FIRST with `~` between them,
        `what` its parts, and `as` the name by which pages are told how far it is."""
        query, page = request.query, self.page
        named = [text.rsplit(".", 2) for text in query.get("clips", "").split("~") if text]
        if not 1 <= len(named) <= limits.EVENT_CLIPS or any(len(it) != 3 for it in named):
            raise Unfit(400, "clips names clips as CAMERA.ID.FIRST, with ~ between them.")
        parts = parts_in(query.get("what", "mp4,csv"))
        if parts is None:
            raise Unfit(400, "what is some of mp4, y4m, png and csv, with commas between them.")
        await self.laboratory.fresh()
        wanted = []
        for name, id_, first in named:
            number = number_in(id_, limits.NUMBERS_END, "id") or 0
            wanted.append((name, number, number_in(first, limits.NUMBERS_END, "first")))
        if page.fetches[EVENTS] >= limits.EVENT_FETCHES:
            raise Unfit(503, "Too many events are being fetched. Try again in a minute.")
        fetches = [self.laboratory.held.fetch(*it) for it in wanted]
        if not {"mp4", "y4m"}.isdisjoint(parts):
            for fetch in fetches:
                fetch.bits()
        notes = {
            clip["note"]: None
            for clip in self.laboratory.held.clips()
            if clip["note"] and any((clip["camera"], clip["id"]) == it[:2] for it in wanted)
        }
        chunks = page.gate.settings.chunks
        bundle = Bundle(fetches, parts, "; ".join(notes), chunks)
        return await self.send(request, bundle, query.get("as", "")[:40])

    async def send(self, request: web.Request, bundle: Bundle, named: str) -> web.StreamResponse:
        """Sends a zip, and tells pages how far it is. None of its clips is released meanwhile."""
        page, films = self.page, self.laboratory.films
        response = web.StreamResponse(headers={"Content-Type": "application/zip"})
        response.headers["Content-Disposition"] = f'attachment; filename="{bundle.name}.zip"'
        page.dress(response)
        page.fetches[EVENTS] += 1
        if named:
            self.progress[named] = bundle.progress
            while len(self.progress) > limits.PROGRESS:
                self.progress.popitem(last=False)
        with ExitStack() as stack:
            stack.callback(self.ended, named, bundle.progress)
            for fetch in bundle.fetches:
                stack.enter_context(self.laboratory.held.busy(fetch.camera, fetch.clip.id))

            def film_of(fetch):
                """The film of a clip, read until the zip is sent."""
                store = self.laboratory.cameras[fetch.camera].camera.store
                is_busy = self.laboratory.held.busy(fetch.camera, fetch.clip.id)
                film = films.film(store, fetch, is_busy)
                stack.enter_context(films.reading(film))
                return film

            return await page.send(request, response, told(bundle, film_of))

    def ended(self, named: str, progress: Progress) -> None:
        """A zip has ended, whole or not. Pages are told for a while."""
        self.page.fetches[EVENTS] -= 1
        if not progress.is_over:
            progress.text, progress.is_over = progress.text + " It broke off.", True
        asyncio.get_running_loop().call_later(
            limits.PROGRESS_SECONDS, self.progress.pop, named, None
        )


async def told(bundle: Bundle, film_of):
    """The zip's bytes; why there is no film is said where pages are told how far it is."""
    try:
        async for piece in bundle.pieces(film_of):
            yield piece
    except FilmFault as fault:
        bundle.progress.text = str(fault)
        raise


def clip_words(clips: list[tuple[str, int, int]]) -> str:
    """An event's clips in words, for the journal."""
    return "the event of " + ", ".join(
        f"clip {id_} of {name} from frame {first}" for name, id_, first in clips
    )


def room_of(reading: Reading | Ring) -> dict:
    """How much may still be locked: in blocks, of so many frames each, and in clips. Clips are made
    where frames come now."""
    return {
        "room_blocks": unlocked_blocks(reading),
        "slots": reading.geometry.slots,
        "segments": sum(part.geometry.segments for part in reading.each()),
        "clips_left": limits.EVENT_CLIPS_A_STORE - len(reading.active().clips),
    }
