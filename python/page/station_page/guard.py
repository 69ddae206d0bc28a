"""Which connections and requests are let in: bounds for slow and many clients, names of hosts,
tokens, sessions, and the origin of changes."""
import asyncio
import hashlib
import hmac
import secrets
import socket
import time
from urllib.parse import urlsplit

from aiohttp import web
from yarl import URL

from . import limits
from .settings import Settings, is_loopback
from .users import OWNER, User, Users, right_for
from .words import Unfit

COOKIE = "loop_page"
# Scripts, styles and pictures come from this server alone, and none of them from within the page's
# text.
POLICY = (
    "default-src 'none'; script-src 'self'; style-src 'self'; img-src 'self'; media-src 'self'; "
    "connect-src 'self'; form-action 'self'; "
    "base-uri 'none'; frame-ancestors 'none'"
)
HEADERS = {
    "Content-Security-Policy": POLICY,
    "X-Content-Type-Options": "nosniff",
    "X-Frame-Options": "DENY",
    "Referrer-Policy": "same-origin",
    "Cross-Origin-Resource-Policy": "same-origin",
    "Cross-Origin-Opener-Policy": "same-origin",
}
# Of what another station has sent: a browser that takes it for a page runs and loads nothing of it,
# and it isn't of this page's origin.
FOREIGN = "sandbox; default-src 'none'; base-uri 'none'; form-action 'none'; frame-ancestors 'none'"
# What is answered to anybody.
OPEN = {"/sign-in", "/healthz", "/static/page.css", "/static/icon.svg", "/favicon.ico"}
# What asks for no right: to leave, and to know which rights one has.
FREE = {"/sign-out", "/api/me"}
# To what a page of another site may lead: of all else it may use nothing.
ENTRANCES = {"/", "/sign-in", "/healthz", "/favicon.ico"}
OWN_HEADER = "X-Loop-Page"


class Connection(asyncio.BufferedProtocol):
    """A connection, before aiohttp's own: it is closed where its request isn't whole in time, or
    its client reads nothing."""

    def __init__(self, inner: asyncio.Protocol, gate: "Gate") -> None:
        self.inner, self.gate = inner, gate
        self.transport: asyncio.Transport | None = None
        self.working, self.since = 0, time.monotonic()
        self.paused: float | None = None
        self.is_in = False
        # Whether somebody who may pass has used it. Until then it has its first seconds alone, and
        # makes room for others.
        self.is_known = gate.is_open()

    def connection_made(self, transport: asyncio.BaseTransport) -> None:
        """It has begun; one too many ends at once."""
        self.transport = transport
        if not self.gate.has_room():
            self.gate.refused += 1
            transport.abort()
            return
        self.gate.connections.add(self)
        self.is_in = True
        transport.set_write_buffer_limits(high=limits.PIECE)
        # What a client that never reads can make the system hold.
        transport.get_extra_info("socket").setsockopt(
            socket.SOL_SOCKET, socket.SO_SNDBUF, limits.PIECE
        )
        self.inner.connection_made(transport)

    def connection_lost(self, exc: Exception | None) -> None:
        """It has ended."""
        if self.is_in:
            self.gate.connections.discard(self)
            self.inner.connection_lost(exc)

    def get_buffer(self, sizehint: int) -> memoryview:
        """Where the system puts what the client sends: little at a time, so that little is made of
        it before it is looked at."""
        return self.gate.buffer

    def buffer_updated(self, nbytes: int) -> None:
        """The client has sent something."""
        if self.is_in:
            self.inner.data_received(bytes(self.gate.buffer[:nbytes]))
            if self.has_too_much() or not self.has_names():
                self.gate.refused += 1
                self.transport.abort()

    def has_too_much(self) -> bool:
        """Whether more waits behind the request that is worked on than a client may send: other
        requests; or anything after `Upgrade`, which no answer here is. aiohttp would keep all of
        it."""
        return (
            len(self.inner._messages) > limits.REQUESTS_WAITING
            or len(self.inner._message_tail) > limits.BODY_BYTES
        )

    def has_names(self) -> bool:
        """Whether each request that waits has a host that is a name, where its line has one.
        aiohttp fails at others, with no answer, and still before a connection that is ended has
        ended: so it is given another address."""
        waiting, are_names = self.inner._messages, True
        for place, (message, body) in enumerate(waiting):
            try:
                if url := getattr(message, "url", None):
                    url.host
            except ValueError:
                waiting[place], are_names = (message._replace(url=URL("/")), body), False
        return are_names

    def eof_received(self) -> bool | None:
        """The client sends no more."""
        return self.inner.eof_received() if self.is_in else None

    def pause_writing(self) -> None:
        """The client doesn't read."""
        self.paused = time.monotonic()
        self.inner.pause_writing()

    def resume_writing(self) -> None:
        """The client reads again."""
        self.paused = None
        self.inner.resume_writing()

    def begin(self) -> None:
        """A request is whole, and is worked on."""
        self.working += 1

    def end(self) -> None:
        """A request was answered."""
        self.working -= 1
        if self.is_known:
            self.since = time.monotonic()

    def is_late(self, now: float) -> bool:
        """Whether nothing has come of it in time."""
        if self.paused is not None:
            return now - self.paused > limits.READ_SECONDS
        return not self.working and now - self.since > limits.REQUEST_SECONDS


class Gate:
    """All connections, and who may pass."""

    def __init__(self, settings: Settings) -> None:
        self.settings, self.refused, self.late = settings, 0, 0
        self.connections: set[Connection] = set()
        # What has just come of any connection: it is taken from here at once.
        self.buffer = memoryview(bytearray(limits.RECEIVE_BYTES))
        self.sessions: dict[str, float] = {}
        # Of each session the user's name; nothing where it is of the page's own token.
        self.people: dict[str, str] = {}
        self.users = Users(settings.users) if settings.users else None
        self.wrong: dict[str, list[float]] = {}

    async def watch(self) -> None:
        """Closes connections that are late, without end."""
        while True:
            await asyncio.sleep(1)
            now = time.monotonic()
            for connection in [it for it in self.connections if it.is_late(now)]:
                self.late += 1
                connection.transport.abort()

    def has_room(self) -> bool:
        """Whether one more connection is let in. Of those who aren't signed in the oldest one makes
        room, first such as nothing is worked on; of the others only one on which nothing is."""
        strangers = [it for it in self.connections if not it.is_known]
        if len(strangers) < limits.STRANGERS and len(self.connections) < limits.CONNECTIONS:
            return True
        oldest = min(strangers or self.connections, key=lambda it: (it.working > 0, it.since))
        if oldest.is_known and oldest.working:
            return False
        self.refused += 1
        self.connections.discard(oldest)
        oldest.transport.abort()
        return True

    def is_host(self, request: web.Request) -> bool:
        """Whether the request names this host: a page without a token answers to this machine's
        names alone, whatever name leads here."""
        try:
            name = urlsplit("//" + request.headers.get("Host", "")).hostname or ""
        except ValueError:
            return False
        return not self.is_open() or is_loopback(name) or name == self.settings.host

    def is_open(self) -> bool:
        """Whether anybody may pass."""
        return self.settings.token is None and self.users is None

    def is_known(self, request: web.Request) -> bool:
        """Whether a request comes from somebody who knows the token, or has one of their own. The
        right one always counts, also from an address that others guess from: behind a proxy all
        have one address."""
        return self.user_of(request) is not None

    def user_of(self, request: web.Request) -> User | None:
        """Whose request it is; nobody's where it has neither token nor session."""
        if self.is_open():
            return OWNER
        return self.user_with(bearer_of(request)) or self.user_in(request)

    def user_with(self, token: str) -> User | None:
        """The user of a token."""
        if self.is_same(token):
            return OWNER
        return self.users.of_token(token) if self.users else None

    def user_in(self, request: web.Request) -> User | None:
        """The user who has signed in; nobody once the file of users doesn't name them any more."""
        if not self.is_signed_in(request):
            return None
        name = self.people.get(request.cookies[COOKIE], "")
        return (self.users.named(name) if self.users else None) if name else OWNER

    def refuse_without_right(self, request: web.Request) -> None:
        """Unfit where a user hasn't the right for a request."""
        user, right = self.user_of(request), right_for(request.path)
        if user and right not in user.rights and request.path not in OPEN | FREE:
            raise Unfit(403, f"{user.name} may not {right} here. The file of users says who may.")

    def is_same(self, given: str) -> bool:
        """Whether a text is the token, in a time that doesn't depend on where they differ."""
        token = self.settings.token
        return token is not None and hmac.compare_digest(
            given.strip().encode(errors="replace"), token.encode()
        )

    def guess(self, given: str, request: web.Request) -> None:
        """Counts a wrong token, by the address that sent it."""
        if not given:
            return
        address = str(request.remote)
        self.wrong[address] = [*self.wrong.pop(address, []), time.monotonic()][
            -limits.WRONG_TOKENS :
        ]
        while len(self.wrong) > limits.GUESSERS:
            del self.wrong[next(iter(self.wrong))]

    def has_guessed(self, request: web.Request) -> bool:
        """Whether too many wrong tokens came from an address in the last minute: then another wrong
        one has to wait."""
        times = self.wrong.get(str(request.remote), [])
        return len(times) >= limits.WRONG_TOKENS and time.monotonic() - times[0] < 60

    def is_signed_in(self, request: web.Request) -> bool:
        """Whether a request has the cookie of somebody who has signed in."""
        end = self.sessions.get(request.cookies.get(COOKIE, ""))
        return end is not None and end > time.monotonic()

    def sign_in(self, user: User = OWNER) -> str:
        """A new session of a user, by its secret name. The oldest one ends where there are too
        many."""
        now = time.monotonic()
        self.sessions = {name: end for name, end in self.sessions.items() if end > now}
        while len(self.sessions) >= limits.SESSIONS:
            del self.sessions[next(iter(self.sessions))]
        name = secrets.token_urlsafe(32)
        self.sessions[name] = now + limits.SESSION_SECONDS
        self.people = {it: to for it, to in self.people.items() if it in self.sessions}
        self.people[name] = user.name
        return name

    def who(self, request: web.Request) -> tuple[str, str]:
        """Who asks, for the journal: the address, and the session or how else the token came. A
        proxy on this machine says whose request it gives on; from elsewhere that is anybody's word,
        and isn't taken."""
        address, forwarded = str(request.remote), request.headers.get("X-Forwarded-For", "")
        if forwarded and is_loopback(address):
            address = f"{forwarded.split(',')[-1].strip()[:64]} by {address}"
        user = self.user_of(request)
        front = f"{user.name}, " if user and user.name else ""
        if self.is_signed_in(request):
            return address, f"{front}session {session_word(request.cookies[COOKIE])}"
        has_token = self.user_with(bearer_of(request)) is not None
        return address, f"{front}token" if has_token else "no session"

    def is_own(self, request: web.Request) -> bool:
        """Whether a change is asked for by this page, or by no page at all: a browser names the
        page that asks as the origin, and lets no other page send a header of our own."""
        origin, site = request.headers.get("Origin"), request.headers.get("Sec-Fetch-Site")
        if site not in (None, "same-origin", "none"):
            return False
        if origin is not None:
            return origin in (f"http://{request.host}", f"https://{request.host}")
        return OWN_HEADER in request.headers or self.user_with(bearer_of(request)) is not None

    def is_elsewhere(self, request: web.Request) -> bool:
        """Whether another site's page asks, by what the browser says of it. It may lead people to
        the page, and use nothing of it: a film in that page would keep the machine at work."""
        site = request.headers.get("Sec-Fetch-Site")
        return site not in (None, "same-origin", "none") and request.path not in ENTRANCES


def bearer_of(request: web.Request) -> str:
    """The token that a request brings by itself; nothing where it brings none."""
    kind, _, token = request.headers.get("Authorization", "").partition(" ")
    return token if kind.lower() == "bearer" else ""


def session_word(name: str) -> str:
    """A short word for a session, of which its secret name can't be reckoned."""
    return hashlib.sha256(name.encode(errors="replace")).hexdigest()[:6]
