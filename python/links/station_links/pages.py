"""A station's page, asked by HTTP as docs/page.md has it for instruments. What it answers is
bounded in bytes and in time, and read by the one parser, lapyrei.answers; no redirect is followed,
since a token would go with it, and no proxy of the environment stands between."""
import contextlib
import http.client
import io
import json
import ssl
import time
from collections.abc import Iterator
from urllib.parse import urlsplit

from lapyrei import answers
from lapyrei.answers import Unusable

# The seconds in which an answer has to be whole, and that of a keep, which waits for a slow disk;
# and those in which a connection has to be made.
ANSWER_SECONDS = 25.0
KEEP_SECONDS = 150.0
CONNECT_SECONDS = 10.0
# What an answer that refuses has at most.
REFUSAL_BYTES = 64 * 1024
# A page that shows other stations too is asked of its own one.
OWN = "?of=this"


class PageFault(Exception):
    """Why a page gave no answer that can be used, in a sentence with what to do."""


class Timed(io.RawIOBase):
    """What comes of a connection, each byte before its end."""

    def __init__(self, door: "Door") -> None:
        super().__init__()
        self.door = door

    def readable(self) -> bool:
        """It is read alone."""
        return True

    def readinto(self, room) -> int:
        """Reads what has come, or waits for it."""
        self.door.socket.settimeout(self.door.left())
        return self.door.socket.recv_into(room)


class Door:
    """A connection's socket, as http.client uses one: an answer that drips is late as a whole, and
    not byte by byte."""

    def __init__(self, socket, seconds: float) -> None:
        self.socket, self.seconds, self.end = socket, seconds, 0.0
        self.renew()

    def renew(self) -> None:
        """The time begins anew."""
        self.end = time.monotonic() + self.seconds

    def left(self) -> float:
        """The seconds that are left."""
        left = self.end - time.monotonic()
        if left <= 0:
            raise TimeoutError(f"its answer isn't whole within {self.seconds:.0f} s")
        return left

    def sendall(self, data: bytes) -> None:
        """Sends what is asked."""
        self.socket.settimeout(self.left())
        self.socket.sendall(data)

    def makefile(self, *_mode) -> io.BufferedReader:
        """What comes."""
        return io.BufferedReader(Timed(self), 65536)

    def close(self) -> None:
        """http.client closes it while its answer is still read: whoever asked ends it."""


class Page:
    """A page by its address, with its token where it has one."""

    def __init__(self, url: str, token: str | None, seconds: float = ANSWER_SECONDS) -> None:
        self.url, self.seconds, self.parts = url.rstrip("/"), seconds, urlsplit(url)
        self.headers = {"X-Loop-Page": "1", "Content-Type": "application/json"}
        if token:
            self.headers["Authorization"] = f"Bearer {token}"

    def connection(self) -> http.client.HTTPConnection:
        """A connection that isn't made yet."""
        host, port = self.parts.hostname or "", self.parts.port
        if self.parts.scheme == "https":
            context = ssl.create_default_context()
            return http.client.HTTPSConnection(host, port, timeout=CONNECT_SECONDS, context=context)
        return http.client.HTTPConnection(host, port, timeout=CONNECT_SECONDS)

    @contextlib.contextmanager
    def answer(
        self, path: str, body: dict | None = None, seconds: float | None = None
    ) -> Iterator[tuple[http.client.HTTPResponse, Door]]:
        """An answer, whatever it says, and its connection. PageFault where there is none."""
        door = None
        try:
            connection = self.connection()
            connection.connect()
            door = Door(connection.sock, seconds or self.seconds)
            connection.sock = door
            data = None if body is None else json.dumps(body).encode()
            where = self.parts.path.rstrip("/") + path
            connection.request("GET" if data is None else "POST", where, data, self.headers)
            yield connection.getresponse(), door
        except (OSError, http.client.HTTPException, ValueError) as fault:
            why = getattr(fault, "strerror", None) or str(fault) or type(fault).__name__
            raise PageFault(f"The page at {self.url} doesn't answer: {why}. Start it.") from None
        finally:
            if door:
                door.socket.close()

    def unusable(self, path: str, fault: Unusable) -> PageFault:
        """That an answer can't be used."""
        what = f"{path.split('?')[0]}: {fault}"
        return PageFault(
            f"The page at {self.url} is unusable: {what}. Are both of one version?"
        )

    def ask(
        self,
        path: str,
        body: dict | None = None,
        seconds: float | None = None,
        shape: answers.Shape = answers.SAID,
    ) -> tuple[int, dict]:
        """What is answered to a question, or to a change where there is a body: the status, and the
        object, which has a shape, or says why it refuses."""
        with self.answer(path, body, seconds) as (found, _):
            status, raw = found.status, found.read(answers.BYTES + 1)
        try:
            told = answers.value_in(raw)
            if status >= 400 and not (isinstance(told, dict) and "answers" in told):
                shape = answers.REFUSAL
            elif status != 200 and status != 409:
                raise Unusable(f"has the status {status}")
            shape(told)
        except Unusable as fault:
            if status >= 500:
                # A proxy says so, whose page isn't there.
                why = f"The page at {self.url} answers {status}. Start it."
                raise PageFault(why) from None
            raise self.unusable(path, fault) from None
        return status, told

    def look(self, path: str, shape: answers.Shape) -> dict:
        """What is answered to a question, which has to be had."""
        status, found = self.ask(path, shape=shape)
        if status != 200:
            why = found.get("error", f"status {status}")
            raise PageFault(f"The page at {self.url} refuses {path}: {why}")
        return found

    def status(self) -> dict:
        """How station and cameras stand."""
        return self.look("/api/status" + OWN, answers.STATUS)

    def events(self) -> list[dict]:
        """All events, the newest first."""
        return self.look("/api/events" + OWN, answers.EVENTS_SAID)["events"]

    def keep(
        self, since: int, until: int, note: str, camera: str | None = None, why: dict | None = None
    ) -> tuple[int, dict]:
        """Keeps a time, in microseconds since 1970, of one camera or of all. `why` has the cause:
        its kind, by whom, and the moment."""
        body = {"from": since, "to": until, "note": note} | (why or {})
        more = {"camera": camera} if camera else {}
        return self.ask("/api/keep" + OWN, body | more, KEEP_SECONDS, answers.KEPT)
