"""The page's addresses, and the program."""
import argparse
import asyncio
import collections
import functools
import json
import logging
import re
import signal
import sys
import time
from collections.abc import AsyncIterator, Awaitable
from pathlib import Path

import layout
from aiohttp import HttpVersion11, http_exceptions, web, web_urldispatcher

from . import limits, metrics, pictures, words
from .asked import (
    FRAME,
    KEEP,
    Wish,
    frame_in,
    headers_of,
    number_in,
    problem,
    range_of,
    wish_in,
)
from .causes import cause
from .console import Console
from .films import KINDS, FilmFault, Sums, Text, csv_of, zip_stream
from .guard import COOKIE, HEADERS, OPEN, Connection, Gate, bearer_of, session_word
from .guide import Guide
from .journal import Expected, PlainFormatter
from .laboratory import Laboratory
from .notes import NotesFault
from .orders import NoStation
from .push import whole
from .reader import Gone, store_in
from .settings import BadSettings, Settings, read_settings
from .standing import for_programs
from .stations import Stations
from .words import Unfit
from .workers import DRAWING, NO_ANSWER

log = logging.getLogger("loop_page")
TOO_MANY = "Too many wrong tokens came from your address. Wait a minute, or bring the right one."
STATIC = Path(__file__).parent / "static"
TYPES = {
    ".html": "text/html",
    ".js": "text/javascript",
    ".css": "text/css",
    ".svg": "image/svg+xml",
}
STATIC_FILES = {
    path.name: TYPES[path.suffix] for path in sorted(STATIC.iterdir()) if path.suffix in TYPES
}
# Requests that are none, and clients that leave, for which aiohttp would write where it failed: it
# asserts that they are there.
MALFORMED = Expected(
    (http_exceptions.HttpProcessingError, web.RequestPayloadError, ConnectionError, AssertionError)
)


class Pictures:
    """The pictures that were made last, so that several pages cost as much as one."""

    def __init__(self) -> None:
        self.made: collections.OrderedDict[tuple, bytes] = collections.OrderedDict()
        self.bytes = 0
        # One at a time of each store, so that one frame of each is in memory. A disk that doesn't
        # answer holds up its own pictures alone.
        self.turns: collections.defaultdict[tuple, asyncio.Lock] = collections.defaultdict(
            asyncio.Lock
        )

    async def jpeg(self, source, frame, width: int | None) -> bytes:
        """A frame as JPEG, made once. Unfit where its disk doesn't answer."""
        key = (source.opened.identity, frame.number, frame.time, width)
        try:
            return await asyncio.wait_for(
                self.made_of(key, source, frame, width), limits.PICTURE_SECONDS
            )
        except asyncio.TimeoutError:
            raise Unfit(503, NO_ANSWER) from None

    async def made_of(self, key: tuple, source, frame, width: int | None) -> bytes:
        """The picture of a key, once it is its turn."""
        async with self.turns[source.opened.identity]:
            if key not in self.made:
                data = await source.do(source.frame, frame.number)
                draw = functools.partial(pictures.jpeg, bits=layout.bits_of(frame.flags))
                self.remember(key, await DRAWING.do(draw, source.geometry, data, width))
            self.made.move_to_end(key)
            return self.made[key]

    def remember(self, key: tuple, body: bytes) -> None:
        """Remembers a picture, and drops those that were asked for longest ago."""
        self.made[key] = body
        self.bytes += len(body)
        while len(self.made) > 1 and (
            len(self.made) > limits.PICTURES or self.bytes > limits.PICTURE_BYTES
        ):
            self.bytes -= len(self.made.popitem(last=False)[1])


class Page:
    """The addresses, each with what answers it."""

    def __init__(self, settings: Settings) -> None:
        self.laboratory, self.gate = Laboratory(settings), Gate(settings)
        self.registry = metrics.registry_of(self.laboratory, self.gate)
        self.pictures, self.fetches = Pictures(), collections.Counter()
        self.files = {name: (STATIC / name).read_bytes() for name in STATIC_FILES}
        self.console = Console(self)
        self.stations = Stations(self)

    def app(self) -> web.Application:
        """All of them."""
        app = web.Application(middlewares=[self.let_in], client_max_size=limits.BODY_BYTES)
        get, post, camera = app.router.add_get, app.router.add_post, r"{camera:[A-Za-z0-9_-]{1,32}}"
        # Where there are other stations, their addresses come before those of this one alone.
        self.stations.add_to(app)
        get("/", self.front)
        get("/static/{name}", self.static)
        get("/favicon.ico", self.icon, allow_head=False)
        get("/answers", Guide().page)
        get("/sign-in", self.sign_in_page)
        post("/sign-in", self.sign_in)
        post("/sign-out", self.sign_out)
        get("/events", self.events, allow_head=False)
        get("/healthz", self.healthz)
        get("/metrics", self.metrics)
        get("/api/me", self.me)
        get("/api/status", self.status)
        get("/api/clips", self.clips)
        get("/api/journal", self.journal)
        get(f"/api/cameras/{camera}/newest.jpg", self.newest)
        get(f"/api/cameras/{camera}/frame", self.frame)
        get(rf"/api/cameras/{camera}/frames/{{number:{FRAME}}}.jpg", self.frame_picture)
        get(rf"/api/clips/{camera}/{{id:\d{{1,5}}}}.{{kind:mp4|y4m|zip|csv|jpg|sums}}", self.fetch)
        post("/api/keep", self.keep)
        post("/api/release", self.release)
        post("/api/note", self.note)
        post("/api/seen", self.seen)
        self.console.add_to(app)
        return app

    # -------------------------------------------------------------------------------- who is let in

    @web.middleware
    async def let_in(self, request: web.Request, handler) -> web.StreamResponse:
        """What stands before each request, and after it."""
        connection = request.transport.get_protocol() if request.transport else None
        if connection is None:
            raise web.HTTPBadRequest()
        connection.begin()
        try:
            connection.is_known = self.gate.is_known(request)
            response = await self.judged(request, handler)
        finally:
            connection.end()
        if not response.prepared:
            self.dress(response)
        return response

    def dress(self, response: web.StreamResponse) -> None:
        """The headers of each answer, where it hasn't its own."""
        for key, value in HEADERS.items():
            response.headers.setdefault(key, value)
        response.headers.setdefault("Cache-Control", "no-store")

    async def judged(self, request: web.Request, handler) -> web.StreamResponse:
        """Lets a request in, and answers what it can't do in words."""
        try:
            self.gate_of(request)
            return await handler(request)
        except Unfit as unfit:
            return problem(unfit.status, str(unfit))
        except (NoStation, FilmFault) as fault:
            return problem(503, str(fault))
        except Gone as gone:
            return problem(404, f"{gone}.")
        except NotesFault as fault:
            return problem(507, str(fault))
        except asyncio.TimeoutError:
            return problem(408, "The request's body didn't come in time.")
        except web.RequestPayloadError:
            return problem(400, "The request's body can't be read.")
        except web.HTTPException as answer:
            if answer.status in (301, 302, 303):
                self.dress(answer)
                raise
            return problem(
                answer.status,
                f"{answer.reason}.",
                {
                    key: answer.headers[key]
                    for key in ("Allow", "Content-Range")
                    if key in answer.headers
                },
            )
        except ConnectionError:
            # The client has left.
            raise
        except Exception:
            log.exception("%s %s failed", request.method, request.path)
            return problem(500, "The page has failed at this. Its journal says where.")

    def gate_of(self, request: web.Request) -> None:
        """Refuses who may not pass."""
        if not self.gate.is_host(request):
            raise Unfit(
                421,
                "This page answers to the names of its own machine alone. Another name wants a "
                "token.",
            )
        if not self.gate.is_known(request) and request.path not in OPEN:
            self.refuse_stranger(request)
        self.gate.refuse_without_right(request)
        if request.headers.get("Content-Encoding", "identity").lower() != "identity":
            raise Unfit(415, "Send the body as it is, and not packed.")
        if self.gate.is_elsewhere(request):
            raise Unfit(403, "Another site's page asks for this. Open it from the page itself.")
        if request.method not in ("GET", "HEAD") and not self.gate.is_own(request):
            raise Unfit(
                403,
                "A change has to come from this page (Origin), or with the header X-Loop-Page: 1, "
                "or with the token as a bearer.",
            )

    def refuse_stranger(self, request: web.Request) -> None:
        """Says to somebody without the token what to do. Of a wrong one it is counted from where it
        came."""
        if self.gate.has_guessed(request):
            raise Unfit(429, TOO_MANY)
        given = bearer_of(request)
        self.gate.guess(given, request)
        self.note_guesses(request, given)
        if request.method == "GET" and request.path == "/":
            raise web.HTTPSeeOther("/sign-in")
        raise Unfit(401, "Sign in, or bring the token: Authorization: Bearer TOKEN.")

    def note_guesses(self, request: web.Request, given: str) -> None:
        """Writes down, once a minute, that too many wrong tokens came from an address."""
        if given and self.gate.has_guessed(request):
            text = (
                f"{limits.WRONG_TOKENS} wrong tokens came within a minute. More of them have to "
                f"wait."
            )
            self.laboratory.journal.add("wrong tokens", text, self.gate.who(request), is_bad=True)

    # ------------------------------------------------------------------------------ the page itself

    def file(self, name: str) -> web.Response:
        """A file of the page."""
        return web.Response(
            body=self.files[name],
            content_type=STATIC_FILES[name],
            charset="utf-8",
            headers={"Cache-Control": "no-cache"},
        )

    async def front(self, request: web.Request) -> web.Response:
        """The page."""
        return self.file("page.html")

    async def static(self, request: web.Request) -> web.Response:
        """Its script and its style."""
        if request.match_info["name"] not in STATIC_FILES:
            raise web.HTTPNotFound()
        return self.file(request.match_info["name"])

    async def icon(self, request: web.Request) -> web.Response:
        """The icon, for browsers that ask by the old name."""
        return self.file("icon.svg")

    async def sign_in_page(self, request: web.Request) -> web.Response:
        """Where people give the token."""
        return self.file("sign_in.html")

    async def sign_in(self, request: web.Request) -> web.Response:
        """A person gives the token."""
        if request.content_type != "application/x-www-form-urlencoded":
            raise Unfit(415, "Send the form.")
        try:
            form = await asyncio.wait_for(request.post(), limits.REQUEST_SECONDS)
        except (ValueError, LookupError):
            raise Unfit(400, "The form can't be read.") from None
        token = form.get("token", "")
        user = self.gate.user_with(token) if isinstance(token, str) else None
        if user is None:
            return await self.refuse_sign_in(request, str(token))
        name = self.gate.sign_in(user)
        address, _ = self.gate.who(request)
        front = f"{user.name}, " if user.name else ""
        self.laboratory.journal.add(
            "sign-in", "signed in.", (address, f"{front}session {session_word(name)}")
        )
        answer = web.HTTPSeeOther("/")
        answer.set_cookie(
            COOKIE,
            name,
            httponly=True,
            samesite="Strict",
            path="/",
            max_age=limits.SESSION_SECONDS,
            # A proxy with TLS stands before the page where its origin says so.
            secure=request.headers.get("Origin", "").startswith("https://"),
        )
        raise answer

    async def refuse_sign_in(self, request: web.Request, token: str) -> web.Response:
        """Answers a wrong token, after a while; too many of them at once."""
        if self.gate.has_guessed(request):
            raise Unfit(429, TOO_MANY)
        self.gate.guess(token, request)
        log.warning("a wrong token came from %s", self.gate.who(request)[0])
        self.note_guesses(request, token)
        await asyncio.sleep(0.5)
        page = self.files["sign_in.html"].replace(b'<p id="wrong" hidden>', b'<p id="wrong">')
        return web.Response(status=403, body=page, content_type="text/html", charset="utf-8")

    async def sign_out(self, request: web.Request) -> web.Response:
        """A person ends the session."""
        if self.gate.is_signed_in(request):
            self.laboratory.journal.add("sign-out", "signed out.", self.gate.who(request))
        self.gate.sessions.pop(request.cookies.get(COOKIE, ""), None)
        answer = web.HTTPSeeOther("/sign-in")
        answer.del_cookie(COOKIE)
        raise answer

    async def events(self, request: web.Request) -> web.StreamResponse:
        """How all stands, again and again. A client that is slow is sent the newest state once it
        reads, and none in between."""
        if self.laboratory.streams >= limits.STREAMS:
            raise Unfit(503, "Too many pages are open.")
        response = web.StreamResponse(headers={"Content-Type": "text/event-stream"})
        self.dress(response)
        self.laboratory.streams += 1
        try:
            await response.prepare(request)
            self.laboratory.hurry.set()
            await response.write(b"retry: 1000\n\n")
            version = -1
            while True:
                async with self.laboratory.changed:
                    await self.laboratory.changed.wait_for(
                        lambda: self.laboratory.version != version
                    )
                    version, state = self.laboratory.version, self.laboratory.state
                await response.write(b"data: " + state + b"\n\n")
        except (ConnectionResetError, ConnectionAbortedError):
            return response
        finally:
            self.laboratory.streams -= 1

    # ------------------------------------------------------------------------------ for instruments

    async def healthz(self, request: web.Request) -> web.Response:
        """The server runs."""
        return web.Response(text="ok\n")

    async def metrics(self, request: web.Request) -> web.Response:
        """Prometheus's text."""
        await self.laboratory.fresh()
        return web.Response(
            body=metrics.text_of(self.registry),
            headers={"Content-Type": "text/plain; version=0.0.4; charset=utf-8"},
        )

    def rights(self, request: web.Request) -> dict:
        """Who asks, and what they may do."""
        user = self.gate.user_of(request)
        return {"user": user.name if user else "", "rights": list(user.rights if user else ())}

    async def me(self, request: web.Request) -> web.Response:
        """Who asks, and what they may do."""
        return web.json_response(self.rights(request))

    async def status(self, request: web.Request) -> web.Response:
        """How all stands, once."""
        await self.laboratory.fresh()
        standing = self.laboratory.shown.standing()
        for camera in standing["cameras"]:
            for_programs(camera)
        return web.json_response(standing)

    async def clips(self, request: web.Request) -> web.Response:
        """All clips."""
        await self.laboratory.fresh()
        clips = self.laboratory.held.clips()
        for clip in clips:
            del clip["order_tag"], clip["runs"]
        return web.json_response({"clips": clips})

    async def journal(self, request: web.Request) -> web.Response:
        """Who changed what, and what couldn't be told."""
        return web.json_response({"journal": self.laboratory.journal.listed()})

    async def newest(self, request: web.Request) -> web.Response:
        """The newest stored frame; or the one of a number, so that pages that look at the same time
        cost one picture."""
        await self.laboratory.fresh()
        watched, reading, source = self.laboratory.seen(request.match_info["camera"])
        if not reading.count():
            raise Unfit(503, "No frame is stored yet.")
        wished, frame = request.query.get("number"), reading.newest()
        if wished is not None:
            number, store = frame_in(wished)
            frame = reading.near(number, 0, store)
        if frame is None:
            raise Unfit(404, "That frame isn't held any more.")
        return await self.picture(source, frame, limits.TILE_WIDTH)

    async def picture(self, source, frame, width: int | None) -> web.Response:
        """A frame, as JPEG, with its number and time."""
        body = await self.pictures.jpeg(source.of(store_in(frame)), frame, width)
        return web.Response(body=body, content_type="image/jpeg", headers=headers_of(frame))

    async def frame(self, request: web.Request) -> web.Response:
        """Which frame was there at a time, or comes so many after another."""
        await self.laboratory.fresh()
        _, reading, _ = self.laboratory.seen(request.match_info["camera"])
        query = request.query
        number, moment = query.get("number"), query.get("time")
        moment = number_in(moment, limits.NUMBERS_END, "time")
        named = frame_in(number) if number is not None else (0, None)
        if not re.fullmatch(r"-?[0-9]{1,6}", query.get("by", "0")) or (number is None) == (
            moment is None
        ):
            raise Unfit(400, "Ask for time=MICROSECONDS, or for number=N and by=M.")
        found = (
            reading.at(moment)
            if moment is not None
            else reading.near(named[0], int(query.get("by", "0")), named[1])
        )
        if found is None:
            raise Unfit(404, "No frame is stored.")
        store = store_in(found)
        more = {} if store is None else {"store": store}
        return web.json_response({"number": found.number, "time": found.time} | more)

    async def frame_picture(self, request: web.Request) -> web.Response:
        """A frame by its number, in its full size."""
        await self.laboratory.fresh()
        _, reading, source = self.laboratory.seen(request.match_info["camera"])
        number, store = frame_in(request.match_info["number"])
        frame = reading.near(number, 0, store)
        if frame is None or frame.number != number:
            raise Unfit(404, "That frame isn't held any more.")
        return await self.picture(source, frame, None)

    async def body(self, request: web.Request, words: set[str]) -> dict:
        """A request's JSON: an object that has no other words than these."""
        if request.content_type != "application/json":
            raise Unfit(415, "Send JSON: Content-Type: application/json.")
        try:
            found = json.loads(await asyncio.wait_for(request.read(), limits.REQUEST_SECONDS))
        except (ValueError, RecursionError):
            raise Unfit(400, "The body isn't JSON.") from None
        if not isinstance(found, dict) or set(found) - words:
            raise Unfit(400, f"The body is an object with these words: {', '.join(sorted(words))}.")
        return found

    async def asked_keep(self, request: web.Request) -> Wish:
        """What a keep asks for."""
        return wish_in(await self.body(request, KEEP))

    def cause_of(self, request: web.Request, wish: Wish, came: int) -> dict:
        """Why something is kept: who asked for it, and when that was pressed, or happened. `came`
        is when the request did."""
        is_browser = "Sec-Fetch-Site" in request.headers or "Origin" in request.headers
        kind = wish.cause or ("press" if is_browser else "http")
        who = wish.by or ", ".join(self.gate.who(request))
        return cause(kind, who, came if wish.moment is None else min(wish.moment, came))

    async def keep(self, request: web.Request) -> web.Response:
        """Locks the last seconds, or a span of time."""
        came, wish = time.time_ns() // 1000, await self.asked_keep(request)
        keeping = self.laboratory.keeping
        kept = await self.change(
            request,
            "keep",
            wish.sentence(),
            keeping.keep(
                wish.camera, wish.seconds, wish.span, wish.note, wish.moment, wish.after
            ),
        )
        is_kept = any(one.is_kept for one in kept)
        numbers = {one.event for one in kept if one.is_kept and one.event is not None}
        why = self.cause_of(request, wish, came)
        await asyncio.to_thread(self.laboratory.causes.add, numbers, why)
        return web.json_response(
            {"kept": is_kept, "answers": [one.as_object() for one in kept]},
            status=200 if is_kept else 409,
        )

    async def of_clip(
        self, request: web.Request, more: set[str]
    ) -> tuple[dict, str, int, int | None]:
        """A request about a clip: its body, camera, id and first number."""
        body = await self.body(request, {"camera", "id", "first"} | more)
        camera, id_, first = body.get("camera"), body.get("id"), body.get("first")
        for value, what in ((id_, "id"), (first if first is not None else 0, "first")):
            if (
                not isinstance(value, int)
                or isinstance(value, bool)
                or not 0 <= value < limits.NUMBERS_END
            ):
                raise Unfit(400, f"{what} isn't a number.")
        return body, self.laboratory.watched(camera).camera.name, id_, first

    async def release(self, request: web.Request) -> web.Response:
        """Releases a clip. One that copies clips elsewhere says its last frame and tag too."""
        body, camera, id_, first = await self.of_clip(request, {"last", "tag"})
        order = f"clip {id_} of {camera}" + ("" if first is None else f" from frame {first}")
        exactly = None
        if "last" in body or "tag" in body:
            exactly = tuple(whole(body.get(it), 0, 2**64 - 1, it) for it in ("last", "tag"))
        text = await self.change(
            request, "release", order, self.laboratory.held.release(camera, id_, first, exactly)
        )
        return web.json_response({"text": text})

    async def note(self, request: web.Request) -> web.Response:
        """Writes a note beside a clip."""
        body, camera, id_, first = await self.of_clip(request, {"note"})
        if not isinstance(body.get("note"), str):
            raise Unfit(400, "note isn't a text.")
        *_, clip = self.laboratory.held.clip(camera, id_, first)
        work = asyncio.to_thread(self.laboratory.noting.put, [(camera, clip)], body["note"])
        await self.change(
            request, "note", f"clip {id_} of {camera}: {body['note'][: limits.NOTE_BYTES]}", work
        )
        return web.json_response({"text": "The note is written."})

    async def change(self, request: web.Request, kind: str, order: str, work: Awaitable):
        """Does what somebody asked for, and writes down who, and what became of it."""
        who = self.gate.who(request)
        try:
            found = await work
        except (Unfit, NoStation, NotesFault) as fault:
            self.laboratory.journal.add(kind, f"refused: {fault}", who, order, is_bad=True)
            raise
        except Exception as fault:
            self.laboratory.journal.add(kind, f"failed: {fault!r}", who, order, is_bad=True)
            raise
        told = (
            " ".join(one.sentence() for one in found)
            if isinstance(found, list)
            else found or "written."
        )
        self.laboratory.journal.add(kind, told, who, order)
        self.laboratory.hurry.set()
        return found

    async def seen(self, request: web.Request) -> web.Response:
        """Somebody has seen a warning."""
        body = await self.body(request, {"id", "ids"})
        wanted = body["ids"] if "ids" in body else [body.get("id")]
        if not isinstance(wanted, list) or not all(isinstance(id_, int) for id_ in wanted):
            raise Unfit(404, "There is no such warning any more.")
        if not sum(self.laboratory.alerts.seen(id_) for id_ in wanted):
            raise Unfit(404, "There is no such warning any more.")
        self.laboratory.hurry.set()
        return web.json_response({"text": "Seen."})

    # ------------------------------------------------------------------------------- clips as files

    async def fetch(self, request: web.Request) -> web.StreamResponse:
        """A clip as a file."""
        camera, id_, kind = (
            request.match_info["camera"],
            int(request.match_info["id"]),
            request.match_info["kind"],
        )
        await self.laboratory.fresh()
        fetch = self.laboratory.held.fetch(
            camera, id_, number_in(request.query.get("first"), limits.NUMBERS_END, "first")
        )
        if kind == "jpg":
            return await self.picture(
                fetch.source, fetch.frames[len(fetch.frames) // 2], limits.THUMB_WIDTH
            )
        # A bound for each camera, so that those of one whose disk doesn't answer leave the others
        # theirs.
        if self.fetches.total() >= limits.FETCHES or self.fetches[camera] >= limits.CAMERA_FETCHES:
            raise Unfit(503, "Too many clips are being fetched. Try again in a minute.")
        self.fetches[camera] += 1
        try:
            with self.laboratory.held.busy(camera, id_):
                return await getattr(self, f"fetch_{kind}")(request, fetch)
        finally:
            self.fetches[camera] -= 1

    def file_response(self, request: web.Request, fetch, kind: str) -> web.StreamResponse:
        """An answer that is a file: it is saved under a name, or played where `play` is asked
        for."""
        response = web.StreamResponse(
            headers={"Content-Type": KINDS[kind], "ETag": fetch.tag(kind)}
        )
        if "play" not in request.query:
            response.headers["Content-Disposition"] = f'attachment; filename="{fetch.name(kind)}"'
        self.dress(response)
        return response

    async def send(
        self, request: web.Request, response: web.StreamResponse, pieces: AsyncIterator[bytes]
    ) -> web.StreamResponse:
        """Sends a body. Where it can't go on, the connection is broken off, so that nobody takes a
        part for the whole."""
        try:
            await response.prepare(request)
            if request.method == "HEAD":
                return response
            async for piece in pieces:
                await response.write(piece)
            await response.write_eof()
        except (Gone, FilmFault, Unfit, OSError) as fault:
            if not isinstance(fault, ConnectionError):
                log.warning("%s broke off: %s", request.path, fault)
            if request.transport:
                request.transport.abort()
        return response

    async def send_known(
        self, request: web.Request, fetch, kind: str, length: int, pieces
    ) -> web.StreamResponse:
        """Sends a file whose length is known, or the range of it that is asked for. `pieces` gives
        the bytes from a place to another."""
        found = range_of(request, length, fetch.tag(kind))
        response = self.file_response(request, fetch, kind)
        start, end = found or (0, length)
        response.headers["Accept-Ranges"] = "bytes"
        response.content_length = end - start
        if found:
            response.set_status(206)
            response.headers["Content-Range"] = f"bytes {start}-{end - 1}/{length}"
        return await self.send(request, response, pieces(start, end))

    async def fetch_y4m(self, request: web.Request, fetch) -> web.StreamResponse:
        """Byte for byte as `loop_cli export`, or, of more than 8 bits, as the station saves it."""
        text = Text(fetch)
        return await self.send_known(request, fetch, "y4m", text.length, text.pieces)

    async def fetch_csv(self, request: web.Request, fetch) -> web.StreamResponse:
        """Numbers and times."""
        data = csv_of(fetch)

        async def pieces(start: int, end: int) -> AsyncIterator[bytes]:
            """A part of the table."""
            yield data[start:end]

        return await self.send_known(request, fetch, "csv", len(data), pieces)

    async def fetch_sums(self, request: web.Request, fetch) -> web.StreamResponse:
        """A checksum of each frame, for whoever reads a film back."""
        found = Sums(fetch)
        return await self.send_known(request, fetch, "sums", found.length, found.pieces)

    async def fetch_zip(self, request: web.Request, fetch) -> web.StreamResponse:
        """PNGs. How long the zip is isn't known before it ends."""
        return await self.send(
            request, self.file_response(request, fetch, "zip"), zip_stream(fetch)
        )

    async def fetch_mp4(self, request: web.Request, fetch) -> web.StreamResponse:
        """A film: as it is made, or, once it is, any range of it."""
        films, store = self.laboratory.films, self.laboratory.cameras[fetch.camera].camera.store
        film = films.film(store, fetch, self.laboratory.held.busy(fetch.camera, fetch.clip.id))
        with films.reading(film):
            if (
                not film.is_done
                and request.method == "GET"
                and request.headers.get("Range") in (None, "bytes=0-")
            ):
                await film.until(0)
                return await self.send(
                    request, self.file_response(request, fetch, "mp4"), film.pieces()
                )
            while not film.is_done:
                await film.until(film.size)

            async def pieces(start: int, end: int) -> AsyncIterator[bytes]:
                """A part of the film."""
                with open(film.path, "rb") as file:
                    file.seek(start)
                    while (left := end - file.tell()) > 0:
                        yield file.read(min(limits.PIECE, left))

            return await self.send_known(request, fetch, "mp4", film.size, pieces)


async def expect(request: web.Request) -> None:
    """Answers `Expect`. aiohttp's own answer repeats what was sent, and fails where that isn't
    UTF-8."""
    if request.version < HttpVersion11:
        return
    if request.headers.get("Expect", "").lower() != "100-continue":
        text = json.dumps({"error": "Of Expect the page knows 100-continue alone."})
        raise web.HTTPExpectationFailed(text=text, content_type="application/json", headers=HEADERS)
    await request.writer.write(b"HTTP/1.1 100 Continue\r\n\r\n")


async def end_all(tasks: list[asyncio.Task]) -> None:
    """Ends all tasks. Before Python 3.12 `wait_for` loses a cancellation that comes together with
    what it waits for: then there is another one."""
    while left := [task for task in tasks if not task.done()]:
        for task in left:
            task.cancel()
        await asyncio.wait(left, timeout=0.1)


async def serve(settings: Settings) -> None:
    """Runs the page until it is told to end."""
    # For each address, and for those that there aren't.
    web_urldispatcher._default_expect_handler = expect
    page = Page(settings)
    # A body stays as it was sent: one that is packed would be unpacked before anybody has looked at
    # who sends it.
    runner = web.AppRunner(
        page.app(), access_log=None, keepalive_timeout=limits.REQUEST_SECONDS, auto_decompress=False
    )
    await runner.setup()
    loop = asyncio.get_running_loop()
    server = await loop.create_server(
        lambda: Connection(runner.server(), page.gate), settings.host, settings.port, backlog=64
    )
    port, ended = server.sockets[0].getsockname()[1], asyncio.Event()
    for number in (signal.SIGINT, signal.SIGTERM):
        loop.add_signal_handler(number, ended.set)
    tasks = [
        asyncio.create_task(work)
        for work in (
            page.laboratory.orders.watch(),
            page.laboratory.watch(),
            page.laboratory.ask(),
            page.laboratory.alerts.deliver(),
            page.laboratory.alerts.again(),
            page.gate.watch(),
            ended.wait(),
            *page.stations.works(port),
        )
    ]
    print(
        f"loop_page: "
        f"http://{f'[{settings.host}]' if ':' in settings.host else settings.host}:{port}/",
        flush=True,
    )
    await asyncio.wait(tasks, return_when=asyncio.FIRST_COMPLETED)
    server.close()
    for connection in list(page.gate.connections):
        connection.transport.abort()
    await page.laboratory.close()
    await page.stations.close()
    faults = [task.exception() for task in tasks if task.done() and not task.cancelled()]
    await end_all(tasks)
    await runner.cleanup()
    for fault in faults:
        if fault:
            raise fault


def main(given: argparse.Namespace) -> int:
    """Reads the files that the options name, and serves; answers the status."""
    lines = logging.StreamHandler()
    lines.setFormatter(PlainFormatter())
    logging.basicConfig(handlers=[lines], level=logging.WARNING)
    log.setLevel(logging.INFO)
    logging.getLogger("aiohttp.server").addFilter(MALFORMED)
    try:
        settings = read_settings(given)
        asyncio.run(serve(settings))
    except (BadSettings, OSError) as fault:
        print(words.plain(f"loop_page: {fault}"), file=sys.stderr)
        return 1
    return 0
