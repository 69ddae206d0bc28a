"""What a page answers to loop_mqtt, loop_trigger and loop_archive: bounded in bytes, depth and
time, by its types; a page that says something else is unusable, with the reason."""
import contextlib
import importlib.util
import json
import random
import socket
import sys
import threading
import time
import types

import pytest
from conftest import TOP, neighbour
from lapyrei import answers
from station_links import archive, archive_page, asked, bridge, doing, pages, standing

# So many wrong answers are tried.
TRIES = 4_000
STATUS = neighbour.STATE
EVENTS = {"events": [neighbour.EVENT]}
CLIPS = {"clips": [neighbour.CLIP]}
KEPT = {
    "kept": True,
    "answers": [{
        "camera": "left", "kept": True, "text": "left: kept.", "why": "", "event": 7,
        "clips": [{"id": 0, "first": 0, "last": 9, "from_us": 0, "to_us": 9}],
        "until_us": None, "held_us": None, "asked_us": None,
    }],
}
TRUE = {"/api/status": STATUS, "/api/events": EVENTS, "/api/clips": CLIPS, "/api/keep": KEPT}


class Said(pages.Page):
    """A page that says what a test gives, without a connection."""

    def __init__(self, said):
        pages.Page.__init__(self, "http://127.0.0.1:1", None)
        self.said, self.kept = {path: json.dumps(it).encode() for path, it in said.items()}, []

    @contextlib.contextmanager
    def answer(self, path, body=None, seconds=None):
        """An answer."""
        if body:
            self.kept.append(body)
        raw = self.said[path.split("?")[0]]
        yield types.SimpleNamespace(status=200, read=lambda most: raw[:most]), None


class SaidToArchive(Said, archive_page.Page):
    """The same, as loop_archive asks it."""

    clip_of = staticmethod(archive.clip_of)


class Broker:
    """A broker that takes all."""

    generation, is_up = 1, True

    def __init__(self):
        self.given = []

    def publish(self, topic, found, retain=False):
        """Takes a message, which is JSON without a number that isn't finite."""
        self.given.append((topic, json.loads(json.dumps(found, allow_nan=False))))
        return len(self.given)


def bridge_of(tmp_path, page, name="state"):
    """A loop_mqtt without a broker of its own."""
    (tmp_path / "mqtt.toml").write_text(f'station = "a"\nstate = "{tmp_path}/{name}"\n')
    found = bridge.Bridge(bridge.read_words(str(tmp_path / "mqtt.toml")), print)
    found.page = found.doer.page = page
    found.broker = found.states.broker = Broker()
    return found


def test_wrong_answers_are_refused_with_the_reason_or_used(tmp_path):
    luck, page = random.Random(91), SaidToArchive(TRUE)
    link, refused = bridge_of(tmp_path, page), 0
    keep = asked.Keep("a", 1, 2, "", None)
    works = {
        "/api/clips": page.held,
        "/api/status": lambda: (
            page.held(), link.show(page.status()), link.show_events(page.status())),
        "/api/events": lambda: (page.held(), link.show_kept(page.events())),
        "/api/keep": lambda: doing.Doer(page, threading.Event(), None, None).kept(
            doing.waiting_of(keep)),
    }
    for _ in range(TRIES):
        path = luck.choice(sorted(works))
        page.said[path] = neighbour.answer_of(luck, TRUE[path])
        try:
            works[path]()
        except pages.PageFault as fault:
            assert "is unusable: /api/" in str(fault)
            refused += 1
        page.said[path] = json.dumps(TRUE[path]).encode()
    assert TRIES // 2 < refused < TRIES
    for work in works.values():
        work()


def test_wrong_files_of_an_archive_are_passed_over(tmp_path):
    true = {"archived": [{"camera": "left", "id": 1}], "cameras": [{"name": "left"}]}
    luck = random.Random(92)
    path, passed = tmp_path / "archive.json", 0
    for _ in range(500):
        path.write_bytes(neighbour.answer_of(luck, true))
        found = standing.archive_in(str(path))
        passed += found is None
        assert found is None or isinstance(found["cameras"], list)
    assert 100 < passed < 500


def test_wrong_orders_are_refused_by_a_name_or_fit():
    luck = random.Random(93)
    true = {"id": "a", "from": 5, "to": "2026-11-22T15:38:00Z", "note": "run", "camera": "left"}
    for _ in range(2_000):
        with contextlib.suppress(asked.Refused):
            keep = asked.keep_in(neighbour.answer_of(luck, true))
            assert 0 <= keep.until - keep.since <= asked.SPAN and asked.ID.fullmatch(keep.id)
    deep = "[" * 100 + "]" * 100
    for text in ('{"id": "a", "from": NaN, "to": 5}', f'{{"id": "a", "x": {deep}}}'):
        with pytest.raises(asked.Refused) as fault:
            asked.keep_in(text.encode())
        assert fault.value.name == "NotJson"


def test_what_is_held_is_of_own_cameras_that_are_read_and_of_events_that_are_over():
    clip, event, camera = neighbour.CLIP, neighbour.EVENT, neighbour.CAMERA
    unread = {word: it for word, it in camera.items() if word != "clips"} | {"name": "dark"}
    names = ("left", "north:left", "dark")
    clips = {"clips": [clip | {"camera": name} for name in names]}
    status = STATUS | {"cameras": [camera, camera | {"name": "north:left"}, unread]}
    page = SaidToArchive(TRUE | {"/api/clips": clips, "/api/status": status})
    held, read = page.held()
    assert [it.camera for it in held] == ["left"] and read == {"left"}
    # One that goes on, as it was seen before or after.
    on = json.dumps({"events": [event | {"until_us": 5}]}).encode()
    page.said["/api/events"] = on
    assert page.held()[0] == []
    said = iter([on, json.dumps(EVENTS).encode(), json.dumps(EVENTS).encode(), on])
    plain = page.answer

    def answer(path, body=None, seconds=None):
        if path == "/api/events":
            page.said[path] = next(said)
        return plain(path, body, seconds)

    page.answer = answer
    assert page.held()[0] == [] and page.held()[0] == []


# ------------------------------------------------------------------------------------ connections

# So often, ten times a second, a server drips: for sixty times as long as an answer may take here,
# and for some times as long as a busy machine takes to notice.
DRIPS = 600


class Raw:
    """A server that sends bytes, and drips after them, for some seconds: what waits for all of it
    without a bound has an end too."""

    def __init__(self, first, drip=b""):
        self.first, self.drip, self.over = first, drip, threading.Event()
        self.server = socket.create_server(("127.0.0.1", 0))
        self.url = f"http://127.0.0.1:{self.server.getsockname()[1]}"
        threading.Thread(target=self.run, daemon=True).start()

    def run(self):
        """Answers one client after the other."""
        with contextlib.suppress(OSError):
            while True:
                client, _ = self.server.accept()
                with client, contextlib.suppress(OSError):
                    client.recv(65536)
                    client.sendall(self.first)
                    for _ in range(DRIPS if self.drip else 0):
                        if self.over.wait(0.1):
                            break
                        client.sendall(self.drip)

    def close(self):
        """Ends it."""
        self.over.set()
        self.server.close()


@pytest.fixture
def raw():
    """Servers that send bytes."""
    made = []

    def one(*words):
        made.append(Raw(*words))
        return made[-1]

    yield one
    for it in made:
        it.close()


HEAD = b"HTTP/1.1 200 OK\r\nContent-Length: 100\r\n\r\n"


@pytest.mark.parametrize("first", [b"", b"HTTP/1.1 200 OK\r\nX: ", HEAD, HEAD + b"{"], ids=range(4))
def test_an_answer_that_drips_is_late_as_a_whole(raw, first):
    page = pages.Page(raw(first, b" ").url, None, 1)
    begun = time.monotonic()
    with pytest.raises(pages.PageFault, match="isn't whole within 1 s|timed out"):
        page.status()
    assert time.monotonic() - begun < 30


def test_an_answer_without_an_end_is_read_to_its_bound(raw):
    page = pages.Page(raw(b"HTTP/1.1 200 OK\r\n\r\n" + b" " * (answers.BYTES + 5)).url, None, 60)
    most = f"is unusable: /api/status: it has more than {answers.BYTES}"
    with pytest.raises(pages.PageFault, match=most):
        page.status()


@pytest.mark.parametrize(
    "said", [b"", b"\0", b"HTTP/1.1 x\r\n\r\n", b"HTTP/1.1 200 OK\r\nContent-Length: x\r\n\r\n[]",
             b"HTTP/1.1 200 OK\r\n" + b"X: y\r\n" * 500 + b"\r\n"], ids=range(5))
def test_what_is_no_http_is_a_fault(raw, said):
    with pytest.raises(pages.PageFault):
        pages.Page(raw(said).url, None, 5).status()


@pytest.mark.parametrize("status", [301, 302, 303, 307])
def test_a_token_is_not_sent_where_a_redirect_leads(make_neighbour, status):
    page, elsewhere = make_neighbour(), make_neighbour()
    place = f"http://127.0.0.1:{elsewhere.port}/api/status".encode()
    page.answers["/api/status"] = place, status, "text/plain"
    page.answers["/api/clips/left/0.y4m"] = place, status, "text/plain"
    with pytest.raises(pages.PageFault):
        pages.Page(f"http://127.0.0.1:{page.port}", "a-secret").status()
    asks = archive_page.Page(f"http://127.0.0.1:{page.port}", "a-secret", archive.clip_of)
    with pytest.raises(pages.PageFault):
        list(asks.pieces("/api/clips/left/0.y4m", 10**9))
    assert [head["Authorization"] for _, head in page.asked] == ["Bearer a-secret"] * 2
    assert not elsewhere.asked


def test_a_proxy_of_the_environment_hears_nothing(make_neighbour, monkeypatch):
    page, proxy = make_neighbour(), make_neighbour()
    for word in ("http_proxy", "HTTP_PROXY", "all_proxy"):
        monkeypatch.setenv(word, f"http://127.0.0.1:{proxy.port}")
    page.answers["/api/status"] = STATUS
    found = pages.Page(f"http://127.0.0.1:{page.port}/", "a-secret").status()
    assert found == STATUS and not proxy.asked


@pytest.fixture
def device(monkeypatch):
    """The device of examples/tango_keep.py, with a stand-in for Debian's python3-tango."""
    states = types.SimpleNamespace(ON="on", ALARM="alarm")
    server = types.SimpleNamespace(
        Device=object, attribute=lambda **_: None, command=lambda **_: lambda work: work,
        device_property=lambda **words: words["default_value"])
    tango = types.SimpleNamespace(
        AttrWriteType=types.SimpleNamespace(READ_WRITE=1), DevState=states, server=server)
    monkeypatch.setitem(sys.modules, "tango", tango)
    monkeypatch.setitem(sys.modules, "tango.server", server)
    spec = importlib.util.spec_from_file_location("tango_keep", TOP / "examples/tango_keep.py")
    module = importlib.util.module_from_spec(spec)
    spec.loader.exec_module(module)
    it = module.LapyreiKeep()
    it.words = "TANGO"
    return it


def test_the_example_for_tango_reads_answers_by_the_same_parser(device, make_neighbour, tmp_path):
    page, elsewhere = make_neighbour(), make_neighbour()
    (tmp_path / "token").write_text("a-secret\n")
    device.page, device.token = f"http://127.0.0.1:{page.port}", str(tmp_path / "token")
    page.answers |= {"/api/status": STATUS, "/api/keep": KEPT}
    assert device.dev_state() == "on" and device.Keep(60) == "left: kept."
    page.answers["/api/keep"] = KEPT | {"kept": False}, 409, "application/json"
    assert device.Keep(60) == "left: kept."
    page.answers["/api/keep"] = {"error": "No."}, 400, "application/json"
    assert device.Keep(60) == "No."
    for wrong in (b"[" * 200_000, {"kept": True, "answers": [{}]}, b"NaN"):
        page.answers["/api/keep"] = wrong
        with pytest.raises(answers.Unusable):
            device.Keep(60)
    place = f"http://127.0.0.1:{elsewhere.port}/api/status".encode()
    page.answers["/api/status"] = place, 302, "text/plain"
    with pytest.raises(answers.Unusable):
        device.dev_state()
    assert not elsewhere.asked and page.asked[0][1]["Authorization"] == "Bearer a-secret"


def test_a_refusal_is_said_and_an_own_page_is_asked(make_neighbour):
    it = make_neighbour()
    it.answers["/api/status"] = {"error": "Sign in."}, 401, "application/json"
    page = pages.Page(f"http://127.0.0.1:{it.port}", None)
    with pytest.raises(pages.PageFault, match="refuses /api/status.*: Sign in."):
        page.status()
    it.answers["/api/status"] = {"error": 5}, 400, "application/json"
    with pytest.raises(pages.PageFault, match="error isn't a text"):
        page.status()
    it.answers["/api/status"] = b"<h1>Bad Gateway</h1>", 502, "text/html"
    with pytest.raises(pages.PageFault, match="answers 502. Start it"):
        page.status()
    assert {path for path, _ in it.asked} == {"/api/status?of=this"}


def test_a_file_is_whole_or_a_fault(raw):
    url = raw(b"HTTP/1.1 200 OK\r\nContent-Length: 9\r\n\r\n12345").url
    page = archive_page.Page(url, None, archive.clip_of)
    with pytest.raises(pages.PageFault, match="broke off"):
        list(page.pieces("/x", 100))
    with pytest.raises(pages.PageFault, match="has 9 bytes, of 8 at most"):
        list(page.pieces("/x", 8))
    page = archive_page.Page(raw(b"HTTP/1.1 200 OK\r\n\r\n12345").url, None, archive.clip_of)
    with pytest.raises(pages.PageFault, match="doesn't say how long"):
        list(page.pieces("/x", 100))
