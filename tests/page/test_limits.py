"""Each bound holds. Most are tried with a smaller value than that of limits.py."""
import asyncio
import contextlib
import json
import os
import socket

import pytest
from conftest import LIMIT, OWN, TOKEN, is_head, token_in
from station_page.reader import Clip

HEAD = "Host: localhost\r\nX-Loop-Page: 1\r\nContent-Type: application/json\r\n"


def asking(lab, path="/events", size=None):
    """A client that has asked for something, and reads nothing more than that it begins."""
    client = socket.socket()
    if size:
        client.setsockopt(socket.SOL_SOCKET, socket.SO_RCVBUF, size)
    client.settimeout(LIMIT)
    client.connect(("127.0.0.1", lab.port))
    client.sendall(f"GET {path} HTTP/1.1\r\nHost: localhost\r\n\r\n".encode())
    return client


def ended(client):
    """Waits until the server ends a connection."""
    client.settimeout(LIMIT)
    with contextlib.suppress(ConnectionError):
        while client.recv(1 << 16):
            pass


def test_open_pages_have_a_bound(make):
    lab = make(page=False).start_limited(STREAMS=3)
    clients = [asking(lab) for _ in range(3)]
    assert all(client.recv(100).startswith(b"HTTP/1.1 200") for client in clients)
    assert asking(lab).recv(100).startswith(b"HTTP/1.1 503")
    clients[0].close()
    lab.until(lambda: asking(lab).recv(100).startswith(b"HTTP/1.1 200"), "room for another page")


def test_fetches_of_all_cameras_have_a_bound(make):
    lab = make(
        page=False,
        cameras=[{"name": name, "pattern": "640x480 YM12 10:1"} for name in ("left", "right")],
    )
    lab.start_limited(FETCHES=2).filmed(25).filmed(25, "right").keep(2)
    lab.keep(2, "right")
    clients = [asking(lab, f"/api/clips/{name}/0.y4m", 4096) for name in ("left", "right")]
    assert all(client.recv(100).startswith(b"HTTP/1.1 200") for client in clients)
    assert lab.ask("/api/clips/left/0.csv").status == 503
    for client in clients:
        client.close()


def test_a_request_that_is_not_whole_in_time_is_closed(make):
    lab = make(page=False).start_limited(REQUEST_SECONDS=2)
    half, nothing = asking(lab), socket.create_connection(("127.0.0.1", lab.port))
    half.close()
    half = socket.create_connection(("127.0.0.1", lab.port))
    half.sendall(b"GET / HTTP/1.1\r\nHost: local")
    for client in (half, nothing):
        ended(client)


def test_a_body_that_does_not_come_in_time_is_refused(make):
    lab = make(page=False).start_limited(REQUEST_SECONDS=1)
    found = lab.raw(
        f"POST /api/keep HTTP/1.1\r\n{HEAD}Content-Length: 40\r\n\r\n{{".encode(), is_head
    )
    assert found.startswith(b"HTTP/1.1 408")
    form = HEAD.replace("application/json", "application/x-www-form-urlencoded")
    found = lab.raw(
        f"POST /sign-in HTTP/1.1\r\n{form}Content-Length: 40\r\n\r\nt".encode(), is_head
    )
    assert found.startswith(b"HTTP/1.1 408")


def test_a_client_that_reads_nothing_is_closed(make):
    lab = make(page=False, cameras=[{"name": "left", "pattern": "640x480 YM12 10:1"}])
    lab.start_limited(READ_SECONDS=2).filmed(25).keep(2)
    with asking(lab, "/api/clips/left/0.y4m", 4096) as client:
        client.recv(100)
        lab.until(
            lambda: b"loop_page_connections_late_total 1.0" in lab.ask("/metrics").body, "end of it"
        )


def test_orders_that_wait_have_a_bound(make):
    from concurrent.futures import ThreadPoolExecutor

    # Long enough for all eight to come while the first three wait.
    lab = make(page=False).start_limited(ORDERS=3, CHANGE_SECONDS=10).filmed()
    lab.order_done("!mute")
    with ThreadPoolExecutor(8) as pool:
        found = [
            it.json()["error"]
            for it in pool.map(lambda _: lab.post("/api/keep", {"seconds": 1}), range(8))
        ]
    assert (
        sum("Too many orders" in it for it in found) >= 4
        and sum("hasn't answered" in it for it in found) >= 2
    )


def test_a_film_that_is_too_large_is_refused_and_none_is_left(make):
    lab = make(page=False, cameras=[{"name": "left", "pattern": "320x240 YM12 10:1"}])
    lab.start_limited(FILM_BYTES=5000).filmed(25).keep(2)
    with pytest.raises(Exception):
        assert lab.ask("/api/clips/left/0.mp4").status != 200
        raise OSError("refused")
    assert lab.ask("/api/clips/left/0.mp4", headers={"Range": "bytes=5-9"}).status == 503
    assert not [path for path in lab.folder.glob("loop_page.*/*.mp4")]


def test_films_that_wait_have_a_bound_and_one_that_nobody_reads_ends(make):
    lab = make(page=False, cameras=[{"name": "left", "pattern": "640x480 YM12 10:1"}])
    # An ffmpeg that makes nothing before it is told to.
    (lab.folder / "ffmpeg").write_text(
        f'#!/bin/sh\nwhile [ ! -e "{lab.folder}/go" ]; do printf x; sleep 0.1; done\nexec '
        '/usr/bin/ffmpeg "$@"\n'
    )
    (lab.folder / "ffmpeg").chmod(0o755)
    bounds = lab.bounds | {"FILMS_WAITING": 2, "FILM_IDLE_SECONDS": 0.5}
    lab.start_page(bounds=bounds, PATH=f"{lab.folder}:{os.environ['PATH']}").filmed(40)
    clips = [lab.keep(second)["id"] for second in (3, 2, 1)]
    with asking(lab, f"/api/clips/left/{clips[0]}.mp4", 4096), asking(
        lab, f"/api/clips/left/{clips[1]}.mp4", 4096
    ):
        lab.until(lambda: len(list(lab.folder.glob("loop_page.*/*.mp4"))) == 2, "two films")
        assert lab.ask(f"/api/clips/left/{clips[2]}.mp4").status == 503
    lab.until(lambda: not list(lab.folder.glob("loop_page.*/*.mp4")), "end of both")
    (lab.folder / "go").touch()
    assert lab.ask(f"/api/clips/left/{clips[2]}.mp4").status == 200


def test_films_that_are_remembered_have_a_bound(make):
    lab = make(page=False).start_limited(FILMS=2).filmed(100)
    for _ in range(4):
        assert lab.ask(f"/api/clips/left/{lab.keep()['id']}.mp4").status == 200
    lab.until(lambda: len(list(lab.folder.glob("loop_page.*/*.mp4"))) == 2, "two films")


def test_a_part_of_a_film_that_is_made_waits_for_all_of_it(make):
    """Nobody is told that a film is as long as it is at the moment."""
    lab = make(cameras=[{"name": "left", "pattern": "640x480 YM12 10:1"}])
    lab.filmed(45).keep(4)
    part = lab.ask("/api/clips/left/0.mp4", headers={"Range": "bytes=0-99"})
    whole = lab.ask("/api/clips/left/0.mp4")
    assert part.status == 206 and part.headers["Content-Range"] == f"bytes 0-99/{len(whole.body)}"


def test_a_note_makes_room_by_those_whose_clips_are_gone_alone(make):
    lab = make(page=False).start_limited(NOTES=3).filmed()
    clips = [lab.keep(note=f"note {place}") for place in range(3)]
    lab.order(f"release left {clips[1]['id']}")
    lab.until(lambda: len(lab.camera()["clips"]) == 2, "release")
    lab.keep(note="new")
    assert sorted(it["note"] for it in lab.ask("/api/clips").json()["clips"]) == [
        "new",
        "note 0",
        "note 2",
    ]


def test_a_note_is_on_the_disk_before_it_takes_the_old_ones_place(tmp_path, monkeypatch):
    from station_page.notes import Notes, NotesFault

    done, notes, clip = [], Notes(str(tmp_path / "notes")), Clip(0, 1, 2, 0, 10, 20)
    notes.put([("store", clip)], "old", lambda key: True)
    sync, replace = os.fsync, os.replace

    def synced(file):
        done.append("folder" if os.path.isdir(f"/proc/self/fd/{file}") else "file")
        sync(file)

    def replaced(old, new):
        done.append("replace")
        replace(old, new)

    monkeypatch.setattr(os, "fsync", synced)
    monkeypatch.setattr(os, "replace", replaced)
    notes.put([("store", clip)], "new", lambda key: True)
    assert done == ["file", "replace", "folder"] and (tmp_path / "notes").stat().st_mode & 0o77 == 0

    def full(file):
        raise OSError(28, "No space left on device")

    monkeypatch.setattr(os, "fsync", full)
    with pytest.raises(NotesFault):
        notes.put([("store", clip)], "newer", lambda key: True)
    assert notes.of("store", clip) == "new" and Notes(notes.path).of("store", clip) == "new"
    assert os.listdir(tmp_path) == ["notes"]


@pytest.mark.parametrize(
    "text",
    ['{"version": 2, "notes": {}}', '{"version": 1, "notes": []}', "[]", "{", "\xff", "[" * 9999],
)
def test_notes_that_cannot_be_read_are_never_written_over(tmp_path, text):
    from station_page.notes import Notes, NotesFault

    path = tmp_path / "notes"
    path.write_bytes(text.encode("latin-1"))
    notes = Notes(str(path))
    with pytest.raises(NotesFault, match="Move it away"):
        notes.put([("store", Clip(0, 1, 2, 0, 10, 20))], "x", lambda key: True)
    assert path.read_bytes() == text.encode("latin-1")


def test_a_line_of_the_station_that_is_too_long_is_cut_and_the_next_one_is_whole(tmp_path):
    from station_page import limits
    from station_page.orders import AnswerReader

    path = tmp_path / "answers"
    path.write_bytes(b"before\n")
    reader = AnswerReader(str(path))
    reader.open(at_end=True)
    assert reader.lines() == []
    with open(path, "ab") as file:
        file.write(b"x" * 3 * limits.LINE_BYTES)
        file.flush()
        first = reader.lines()
        file.write(b"y" * 10 + b"\nwhole\nhalf")
        file.flush()
        assert [len(line) for line in first] == [limits.LINE_BYTES] and reader.lines() == ["whole"]
        file.write(b" and half\n")
        file.flush()
        assert reader.lines() == ["half and half"]
    reader.close()


def test_what_the_station_said_before_the_page_began_is_no_news(make):
    lab = make(station=False, page=False, answers="file")
    old = {"kind": "given_up", "camera": "left", "frames": 12, "since": "2026-11-22T15:38:00.123Z"}
    (lab.folder / "answers").write_text(json.dumps(old) + "\n")
    lab.start_station()
    lab.start_page().filmed()
    # What comes after it has been read.
    lab.say("given_up", camera="right", frames=7, since="2026-11-22T15:38:00.123Z")
    lab.until(lambda: lab.alerts(), "warning")
    assert lab.alerts() == [("given up", "right")]


def test_another_pipe_of_orders_that_takes_the_ones_place_is_used(make):
    lab = make().filmed()
    lab.keep()
    lab.end(lab.station)
    os.unlink(lab.folder / "orders")
    os.mkfifo(lab.folder / "orders")
    # An old station's pipe, which something still reads, is not the one of that name.
    lab.start_station()
    lab.until(lambda: lab.post("/api/keep", {"camera": "left", "seconds": 1}).status == 200, "keep")


def test_orders_go_to_the_pipe_of_that_name_though_the_old_one_is_still_read(tmp_path):
    from station_page.orders import OrderPipe

    os.mkfifo(tmp_path / "orders")
    old = os.open(tmp_path / "orders", os.O_RDONLY | os.O_NONBLOCK)
    pipe = OrderPipe(str(tmp_path / "orders"))
    pipe.write("one")
    os.rename(tmp_path / "orders", tmp_path / "old")
    os.mkfifo(tmp_path / "orders")
    new = os.open(tmp_path / "orders", os.O_RDONLY | os.O_NONBLOCK)
    pipe.write("two")
    assert (os.read(old, 99), os.read(new, 99)) == (b"one\n", b"two\n")
    os.close(old)
    os.close(new)
    assert not pipe.is_read()


def alerts_of(command=()):
    """Warnings without a page."""
    from station_page.alerts import Alerts
    from station_page.journal import Journal

    return Alerts(list(command), None, Journal())


def test_warnings_have_bounds_and_are_seen_one_by_one():
    from station_page import limits
    from station_page.words import Event

    alerts = alerts_of(["true"])
    for place in range(limits.ALERTS + 20):
        alerts.add(Event("lost", f"camera {place}", True, str(place)))
    assert len(alerts.alerts) == limits.ALERTS and alerts.alerts[-1].text == str(limits.ALERTS + 19)
    assert alerts.queue.qsize() == limits.DELIVERIES and alerts.not_told == 20
    first, second = alerts.alerts[:2]
    assert alerts.seen(first.id) and not alerts.seen(first.id) and second in alerts.alerts
    assert (
        alerts.over("lost", second.camera) == second.text
        and alerts.over("lost", second.camera) is None
    )
    assert len(alerts.alerts) == limits.ALERTS - 2


def test_a_warning_is_told_once_while_its_cause_stands():
    alerts = alerts_of(["true"])
    for _ in range(3):
        alerts.set("hangs", "left", "x")
    assert alerts.queue.qsize() == 1 and alerts.alerts[0].times == 1
    alerts.seen(alerts.alerts[0].id)
    alerts.set("hangs", "left", "x")
    assert (
        not alerts.alerts
        and alerts.stands("lost", "hangs", camera="left")
        and not alerts.stands("hangs", camera="right")
    )
    alerts.set("hangs", "left", "")
    alerts.set("hangs", "left", "again")
    assert [it.text for it in alerts.alerts] == ["again"] and alerts.queue.qsize() == 2


def test_how_a_camera_stands_is_said_by_the_stations_status(make):
    lab = make().filmed()
    for order, word, said, level in (
        ("!source left other geometry", "other", "another size", "bad"),
        ("!source left on", "good", "Recording.", "good"),
        ("!behind left 7.5", "behind", "7.5 s of frames wait", "warn"),
    ):
        lab.order(order)
        lab.until(lambda word=word: lab.camera()["kind"] == word, word)
        assert said in lab.camera()["state"] and lab.camera()["level"] == level
    assert ("other", "left") not in lab.alerts()


def test_a_camera_that_gives_fewer_frames_than_it_ought_to_is_one_to_look_at(tmp_path):
    from types import SimpleNamespace

    import layout
    from station_page.reader import Reader
    from station_page.standing import Standing
    from station_page.watched import Watched

    for wait, level in ((40_000, "good"), (49_000, "good"), (52_000, "warn")):
        ring = layout.Ring(4, 2, b"GREY", 8, 16)
        for _ in range(100):
            ring.store(wait=wait)
        path = tmp_path / "a.loop"
        path.write_bytes(bytes(ring.image))
        watched = Watched(SimpleNamespace(name="left", store=str(path)), Reader(str(path)))
        watched.look()
        watched.has_moved = True
        standing = Standing(SimpleNamespace(orders=SimpleNamespace(has_answers=True)))
        assert standing.camera_state(watched)[0] == level, wait


def test_a_camera_is_measured_rightly(make):
    lab = make(station=False, page=False, cameras=[{"name": "left"}])
    import layout

    ring = layout.Ring(4, 2, b"GREY", 8, 16)
    for _ in range(100):
        ring.store()
    ring.lock(0, 20, 0)
    (lab.folder / "left.loop").write_bytes(bytes(ring.image))
    lab.start_page()
    camera = lab.until(lambda: lab.camera().get("newest") and lab.camera(), "frames")
    assert (
        camera["seconds"] == pytest.approx(4.0)
        and camera["rate"] == pytest.approx(25)
        and camera["frames"] == 100
    )
    assert camera["locked"] == pytest.approx(2 / 8) and camera["newest"] == [99, 99 * 40000]
    text = lab.ask("/metrics").body.decode()
    assert (
        'loop_camera_good{camera="left"} 0.0' in text
        and 'loop_camera_clips{camera="left"} 1.0' in text
    )
    assert "loop_station_up 0.0" in text


def test_cameras_never_show_one_anothers_frames(make):
    lab = make(
        cameras=[
            {"name": "left", "pattern": "64x48 GREY 50:1"},
            {"name": "right", "pattern": "64x48 YM12 50:1"},
        ]
    )
    lab.filmed(20).filmed(20, "right")
    pictures = [
        lab.ask(f"/api/cameras/{name}/frames/7.jpg").body for name in ("left", "right", "left")
    ]
    assert pictures[0] == pictures[2] != pictures[1]


def test_a_picture_or_film_of_frames_that_were_made_anew_is_a_new_one(tmp_path):
    """A store that was formatted anew in its place has other frames with the same numbers."""
    from types import SimpleNamespace

    from station_page.films import Fetch
    from station_page.server import Pictures

    made = []

    class Source:
        opened, geometry = SimpleNamespace(identity=(1, 2)), None

        async def do(self, work, number):
            made.append(number)
            raise KeyError

        def frame(self, number):
            return b""

    async def ask(time):
        with pytest.raises(KeyError):
            await Pictures().jpeg(Source(), SimpleNamespace(number=7, time=time), None)

    asyncio.run(ask(5))
    assert made == [7]
    pictures = Pictures()
    pictures.remember(((1, 2), 7, 5, None), b"old")

    async def again():
        assert await pictures.jpeg(Source(), SimpleNamespace(number=7, time=5), None) == b"old"
        for frame, width in (
            (SimpleNamespace(number=7, time=6), None),
            (SimpleNamespace(number=7, time=5), 160),
        ):
            with pytest.raises(KeyError):
                await pictures.jpeg(Source(), frame, width)

    asyncio.run(again())
    tags = {
        Fetch("left", clip, None, ()).tag("mp4")
        for clip in (Clip(0, 1, 2, 0, 5, 6), Clip(0, 1, 2, 0, 7, 8), Clip(0, 1, 3, 0, 5, 9))
    }
    assert len(tags) == 3


def test_what_a_client_says_of_where_it_comes_from_is_believed_of_a_proxy_here_alone():
    from types import SimpleNamespace

    from station_page.guard import Gate
    from station_page.settings import Settings

    gate = Gate(Settings([], None, None, "127.0.0.1", 0, TOKEN, "notes"))
    for remote, forwarded, address in (
        ("127.0.0.1", "10.0.0.7", "10.0.0.7 by 127.0.0.1"),
        ("127.0.0.1", "9.9.9.9, 10.0.0.7", "10.0.0.7 by 127.0.0.1"),
        ("10.0.0.8", "10.0.0.7", "10.0.0.8"),
        ("127.0.0.1", "", "127.0.0.1"),
    ):
        request = SimpleNamespace(remote=remote, headers={"X-Forwarded-For": forwarded}, cookies={})
        assert gate.who(request) == (address, "no session")


def test_a_token_of_another_user_is_refused(make):
    if os.geteuid():
        pytest.skip("only root can give a file to another user")
    from station_page.settings import BadSettings, token_in as token_of

    lab = make(station=False, page=False)
    path = token_in(lab.folder)
    assert token_of(path) == TOKEN
    os.chown(path, 65534, 65534)
    with pytest.raises(BadSettings, match="another user"):
        token_of(path)


def test_after_a_station_has_ended_what_it_said_of_cameras_is_not_said_any_more(make):
    lab = make(as_it_is=True).filmed()
    lab.order("!absent left Busy")
    lab.until(lambda: ("absent", "left") in lab.alerts(), "absence")
    lab.end(lab.station)
    lab.until(lambda: lab.alerts() == [("station", None)], "the station's end alone")
    assert "another program" not in lab.camera()[
        "state"
    ] and "the station doesn't run" in lab.until(
        lambda: "No new frame" in lab.camera()["state"] and lab.camera()["state"], "state"
    )


def test_a_page_that_fails_at_something_says_so_in_words_and_goes_on(make):
    """A fault of the page's own isn't told with where it is, and is written down."""
    lab = make(page=False)
    (lab.folder / "broken").mkdir()
    (lab.folder / "broken" / "sitecustomize.py").write_text(
        "import json\nplain = json.dumps\n"
        "def dumps(found, *words, **more):\n"
        "    if isinstance(found, dict) and 'clips' in found:\n        raise KeyError('secret')\n"
        "    return plain(found, *words, **more)\njson.dumps = dumps\n"
    )
    lab.start_page(PYTHONPATH=str(lab.folder / "broken"))
    found = lab.ask("/api/clips")
    assert (
        found.status == 500 and "journal" in found.json()["error"] and b"secret" not in found.body
    )
    assert (
        "default-src 'none'" in found.headers["Content-Security-Policy"]
        and lab.ask("/healthz").status == 200
    )


def test_a_body_has_only_words_that_are_known(shared):
    for path, body in (
        ("release", {"camera": "left", "id": 0, "force": 1}),
        ("note", {"camera": "left", "id": 0, "note": "x", "all": 1}),
        ("seen", {"id": 1, "x": 2}),
    ):
        assert shared.ask(f"/api/{path}", "POST", json.dumps(body), OWN).status == 400
