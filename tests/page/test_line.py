"""Slow lines: the newest picture alone is sent, as large as the line takes it, and it says how old
it is; a stream that nobody reads is closed."""
import asyncio
import http.client
import io
import json
import socket
import statistics
import struct
import threading
import time
import types

import pytest
from conftest import LIMIT, until
from PIL import Image
from slow import Slow
from station_page import limits
from station_page.line import Line
from station_page.others import Other
from station_page.push import Stream, View
from station_page.redrawn import Redrawn
from station_page.settings import OtherStation
from station_page.stations import Beside
from test_push import Open
from test_stations import names_of, settings_of

PICTURES = [
    {"name": name, "pattern": "640x480 YM12 10:1", "scene": "pendulum"} for name in ("a", "b")
]


class Teller(threading.Thread):
    """An open page behind a slow line, which says what it has taken as the browser does it: the
    ages of the pictures when they came, and their sizes."""

    def __init__(self, lab, port):
        super().__init__(daemon=True)
        self.lab, self.port, self.ages, self.sizes, self.told = lab, port, [], [], 0.0
        self.cameras, self.is_over, self.taken, self.id = set(), False, 0, ""

    def run(self):
        """Reads until it is told to end."""
        connection = http.client.HTTPConnection("127.0.0.1", self.port, timeout=LIMIT)
        connection.request("GET", "/api/stream")
        answer = connection.getresponse()
        while not self.is_over:
            lengths = struct.unpack(">II", answer.read(8))
            head, body = json.loads(answer.read(lengths[0])), answer.read(lengths[1])
            self.taken += 8 + sum(lengths)
            self.id = head.get("id", self.id)
            if head["kind"] == "picture":
                self.ages.append(head["age"] / 1e6 + time.time() - head["sent"] / 1e6)
                self.sizes.append(len(body))
                self.cameras.add(head["camera"])
            if time.monotonic() - self.told > 0.3:
                self.told = time.monotonic()
                self.lab.post("/api/took", {"stream": self.id, "bytes": self.taken})
        connection.close()


def is_new(teller, count):
    """Whether the pictures that came last are new: half of them are 2 s old at most."""
    ages = list(teller.ages)
    return len(ages) > count and statistics.median(ages[-10:]) < 2


def test_pictures_are_new_behind_a_slow_line_that_holds_much(make):
    """60 kB a second through a proxy that reads all that comes: without the page's word the server
    can't know what waits there."""
    lab = make(cameras=PICTURES).filmed(10, "a").filmed(10, "b")
    line = Slow(lab.port)
    teller = Teller(lab, line.port)
    try:
        teller.start()
        start = time.monotonic()
        until(lambda: is_new(teller, 20) and time.monotonic() > start + 10, "new pictures")
        assert teller.cameras == {"a", "b"} and teller.sizes[-1] < max(teller.sizes)
    finally:
        teller.is_over = True
        line.close()


def test_pictures_through_a_hub_are_new_behind_a_slow_line(make):
    """Those of another station, too: what came from there and wasn't sent is dropped."""
    north = make(cameras=PICTURES).filmed(10, "a").filmed(10, "b")
    hub = make(page=False, station=False)
    hub.config = None
    settings_of(hub.folder, ("north", north.port))
    hub.start_page("--settings", "page.toml")
    hub.until(lambda: len(names_of(hub)) == 2, "cameras")
    line = Slow(hub.port)
    teller = Teller(hub, line.port)
    try:
        teller.start()
        start = time.monotonic()
        until(lambda: is_new(teller, 20) and time.monotonic() > start + 10, "new pictures")
        assert teller.cameras == {"north:a", "north:b"}
    finally:
        teller.is_over = True
        line.close()


def test_a_page_that_never_reads_is_closed(make):
    lab = make(page=False, cameras=PICTURES)
    lab.start_limited(READ_SECONDS=6).filmed(10, "a")
    with socket.socket() as client:
        client.setsockopt(socket.SOL_SOCKET, socket.SO_RCVBUF, 4096)
        client.connect(("127.0.0.1", lab.port))
        client.sendall(b"GET /api/stream HTTP/1.0\r\nHost: localhost\r\n\r\n")
        found = b""
        while b"}" not in found:
            found += client.recv(2000)
        id_ = json.loads(found[found.index(b'{"kind"') :].split(b"}")[0] + b"}")["id"]
        is_open = lambda: lab.post("/api/view", {"stream": id_}).status == 200  # noqa: E731
        assert is_open()
        until(lambda: not is_open(), "end of the stream")
    # One that reads stays, however little is new.
    page = Open(lab)
    page.look(cameras=[])
    end = time.monotonic() + 12
    while time.monotonic() < end:
        page.message()
    assert page.look(cameras=[]).status == 200
    page.close()


def test_one_page_too_many_is_told_so(make):
    lab = make(page=False)
    lab.start_limited(STREAMS=2)
    pages = [Open(lab) for _ in range(2)]
    answer = lab.ask("/api/stream")
    assert answer.status == 503 and "Too many pages are open: 2." in answer.json()["error"]
    for page in pages:
        page.close()
    until(lambda: lab.raw(b"GET /api/stream HTTP/1.0\r\nHost: localhost\r\n\r\n",
                          lambda found: b"hello" in found).find(b" 200 ") > 0, "room for another")


def test_what_was_taken_is_a_number_of_a_page(shared):
    page = Open(shared)
    for wrong in (-1, "7", 2**63, True, None):
        assert shared.post("/api/took", {"stream": page.id, "bytes": wrong}).status == 400
    assert shared.post("/api/took", {"stream": "none", "bytes": 1}).status == 404
    assert shared.post("/api/took", {"stream": page.id, "bytes": 10}).status == 204
    page.close()


# --------------------------------------------------------------------------------------- the window


@pytest.fixture
def now(monkeypatch):
    """The clock, which a test sets."""
    found = [100.0]
    monkeypatch.setattr(time, "monotonic", lambda: found[0])
    return found


def test_a_line_has_room_until_what_was_sent_is_taken(now):
    line = Line()
    line.send(limits.WINDOW_FIRST)
    assert line.room() == 0
    line.look(limits.WINDOW_FIRST - 1000)
    assert line.room() == 1000
    # The page's own word counts from then on: what the system gave away may wait elsewhere.
    line.told(2000)
    line.look(0)
    assert line.taken == 2000 and line.room() == 2000 and line.window == limits.WINDOW_FIRST
    # No page has taken more than was sent, and none gives back.
    line.told(10**9)
    line.told(5)
    assert line.taken == line.sent and line.room() >= limits.WINDOW_FIRST


def test_the_window_is_smaller_where_the_line_is_late_and_larger_where_it_is_not(now):
    line = Line()
    for _ in range(100):
        while line.room() > 0:
            line.send(2_000)
        now[0] += 0.3
        # 20 kB a second.
        line.told(line.taken + 6_000)
    assert line.window <= 24_000 and 15_000 < line.rate < 25_000
    for _ in range(60):
        while line.room() > 0:
            line.send(line.window // 8)
        now[0] += 0.3
        line.told(line.sent)
    assert line.window == limits.WINDOW_MOST


def test_a_long_way_alone_makes_no_window_small(now):
    """A second there and back, and nothing that waits."""
    line, sent = Line(), []
    for _ in range(100):
        line.send(min(20_000, max(0, line.room())))
        sent.append(line.sent)
        now[0] += 0.25
        line.told(sent[-4] if len(sent) > 4 else 0)
    assert line.window >= limits.WINDOW_FIRST


def test_a_stream_on_which_nothing_waits_is_quiet_and_not_dead(now):
    line = Line()
    line.send(1000)
    line.look(0)
    now[0] += 10 * limits.READ_SECONDS
    line.look(0)
    assert not line.is_dead()


def test_a_slow_line_is_told_seldom_how_all_stands(now):
    line = Line()
    assert all(line.is_due("state", 30_000) for _ in range(5))
    line.rate = 60_000.0
    now[0] += 10
    assert line.is_due("state", 30_000) and not line.is_due("state", 30_000)
    now[0] += 1.9
    assert not line.is_due("state", 30_000) and line.is_due("more", 100)
    now[0] += 0.2
    assert line.is_due("state", 30_000)
    # A little takes little of the line.
    now[0] += 0.1
    assert line.is_due("more", 100)


def test_a_stream_is_dead_where_nothing_leaves_the_system(now):
    line = Line()
    line.send(1000)
    line.look(1000)
    now[0] += limits.READ_SECONDS + 1
    assert line.is_dead()
    line.look(999)
    assert not line.is_dead()
    now[0] += limits.READ_SECONDS + 1
    line.look(0)
    now[0] += limits.READ_SECONDS - 1
    assert not line.is_dead()


def test_the_cameras_that_waited_longest_are_served_first(now):
    stream = Stream(dict.fromkeys("abcd"))
    stream.line.window = 25_000
    stream.sizes = dict.fromkeys("abcd", 10_000)
    stream.served = {"a": 3.0, "b": 1.0, "c": 2.0}
    assert stream.due() == (["d", "b", "c"], True)
    stream.foreign["n:e"] = b""
    assert stream.due()[0][:2] == ["d", "n:e"]
    stream.line.send(30_000)
    assert stream.due() == ([], True)
    stream.line.told(30_000)
    stream.line.window = 10**6
    assert len(stream.due()[0]) == 5 and not stream.due()[1]


def test_many_cameras_have_fewer_pictures_each_and_all_pages_the_same_ones(now):
    stream = Stream(dict.fromkeys("abcdefghijklmnop"))
    assert stream.most() == 2.5
    assert Stream(dict.fromkeys("ab")).most() == limits.LIVE_RATE
    stream.elsewhere = {f"n:{place}" for place in range(100)}
    assert stream.most() == limits.SLOWEST
    stream.view = View(rate=0.5)
    assert stream.most() == 0.5
    pauses = set()
    for _ in range(50):
        now[0] += 0.0317
        one = Stream(dict.fromkeys("abcdefghijklmnop"))
        pauses.add(round((now[0] + one.pause()) / 0.4, 6) % 1)
    assert pauses == {0.0}


# -------------------------------------------------------------------------- pictures of other hands


def jpeg_of(mode="RGB", size=(64, 48), **more):
    """A JPEG."""
    out = io.BytesIO()
    Image.radial_gradient("L").resize(size).convert(mode).save(out, "JPEG", **more)
    return out.getvalue()


def test_the_newest_picture_of_another_station_takes_the_place_of_one_that_waits():
    async def look():
        other = Other(OtherStation("north", "http://127.0.0.1:1", None))
        other.clock.add(0, 5_000_000, 0)
        stream = Stream({})
        beside = Beside(other, stream, Redrawn())
        for number in range(3):
            head = {"kind": "picture", "camera": "left", "number": number, "turn": 1, "live": True}
            head |= {"age": 7, "sent": 12_000_000, "evil": "<script>"}
            await beside.take(head, jpeg_of())
        return stream

    stream = asyncio.run(look())
    (told,) = stream.foreign.values()
    length = struct.unpack(">I", told[:4])[0]
    head = json.loads(told[8 : 8 + length])
    assert head["number"] == 2 and head["camera"] == "north:left" and "evil" not in head
    # Its clock is five seconds ahead.
    assert head["sent"] == 7_000_000 and head["age"] == 7
    names, _ = stream.due()
    found = asyncio.run(stream.pictures(names))
    assert found == [told] and not stream.foreign


def test_a_slow_page_asks_other_stations_for_smaller_and_fewer_pictures():
    other = types.SimpleNamespace(name="north", clock=None)
    stream = Stream({})
    beside = Beside(other, stream, Redrawn())
    beside.turn({"width": 400, "cameras": None, "moment": None, "speed": 0})
    assert beside.wished()["width"] == 400 and beside.wished()["rate"] == limits.LIVE_RATE
    stream.pace.level = 2
    assert beside.wished()["width"] == 200
    # One that stands still is shown as well as can be.
    beside.turn(beside.view | {"moment": 5})
    assert beside.wished()["width"] == 400
