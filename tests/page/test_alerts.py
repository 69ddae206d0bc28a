"""Warnings."""
import http.server
import json
import threading

import pytest
from conftest import LIMIT, said

FRAMES = {"width": 640, "height": 480, "format": "YM12", "rate_num": 25, "rate_den": 1}


def test_an_event_is_a_warning_until_it_is_seen(make):
    lab = make()
    lab.filmed()
    lab.say("given_up", camera="left", frames=12, since="2026-11-22T15:38:00.123Z")
    alert = lab.until(lambda: lab.status()["alerts"], "alert")[0]
    assert "12 of them" in alert["text"] and alert["times"] == 1
    lab.say("given_up", camera="left", frames=7, since="2026-11-22T15:38:01.123Z")
    lab.until(lambda: lab.status()["alerts"][0]["times"] == 2, "second time")
    assert lab.post("/api/seen", {"id": alert["id"]}).status == 200
    assert lab.status()["alerts"] == []
    assert lab.post("/api/seen", {"id": alert["id"]}).status == 404
    for body in ({}, {"id": "x"}, {"id": None}, {"id": 10**40}):
        assert lab.post("/api/seen", body).status == 404


def test_a_source_that_comes_at_once_is_no_warning_and_one_that_stays_away_is(make):
    lab = make(page=False)
    (lab.folder / "page.toml").write_text('on_alert = ["tee", "-a", "told to a command"]\n')
    lab.start_page("--settings", str(lab.folder / "page.toml")).filmed()
    # All at once: how soon a source comes is the test's to say.
    lab.order(
        "!source right missing",
        said("source_missing", camera="left"),
        said("store_absent", camera="left", why="NoStore"),
        said("source_missing", camera="right"),
        said("source_on", camera="left", **FRAMES),
        said("store_open", camera="left"),
    )
    lab.until(lab.alerts, "warning")
    assert lab.alerts() == [("missing", "right")]
    command = lab.folder / "told to a command"
    lab.until(lambda: command.exists() and command.read_text(), "command")
    assert "left" not in command.read_text()


def test_good_news_and_unknown_lines_are_no_warnings(make):
    lab = make()
    lab.filmed()
    lab.say("source_on", camera="left", **FRAMES)
    lab.say("a_kind_that_nobody_knows", camera="left", why="x")
    lab.say("all_locked", camera=["left"])
    lab.order("!raw \x1b[31m")
    lab.say("done")
    lab.order('!raw {"kind": "all_locked", "camera": "' + "x" * 3000)
    lab.say("room_again", camera="left")
    lab.until(lambda: len(lab.status()["news"]) == 2, "news")
    assert lab.status()["alerts"] == []


def test_answers_that_cannot_be_read_are_warned_of_until_they_can(make):
    lab = make()
    lab.filmed()
    for _ in range(3):
        lab.order("!raw 2026-11-22T15:38:00.123Z all locked left")
    lab.until(lambda: lab.alerts() == [("answers", None)], "warning")
    assert "answers_form" in lab.status()["alerts"][0]["text"]
    lab.say("caught_up", camera="left")
    lab.until(lambda: not lab.alerts(), "end of the warning")


def test_a_warning_goes_to_the_command_and_the_webhook(make):
    heard = []

    class Hook(http.server.BaseHTTPRequestHandler):
        def do_POST(self):
            heard.append(json.loads(self.rfile.read(int(self.headers["Content-Length"]))))
            self.send_response(204)
            self.end_headers()

        def log_message(self, *args):
            """Is silent."""

    server = http.server.HTTPServer(("127.0.0.1", 0), Hook)
    threading.Thread(target=server.serve_forever, daemon=True).start()
    lab = make(page=False)
    (lab.folder / "page.toml").write_text(
        f'on_alert = ["tee", "a file; true"]\nwebhook = "http://127.0.0.1:{server.server_port}/x"\n'
    )
    lab.start_page("--settings", str(lab.folder / "page.toml")).filmed()
    lab.say("all_locked", camera="left")
    lab.until(lambda: heard, "post")
    assert heard[0]["camera"] == "left" and "Release" in heard[0]["text"]
    # The command is run before.
    assert (lab.folder / "a file; true").read_text() == heard[0]["text"] + "\n"
    server.shutdown()
    server.server_close()


def test_a_command_that_is_not_there_stops_nothing(make):
    lab = make(page=False)
    (lab.folder / "page.toml").write_text('on_alert = ["/no/such/command"]\n')
    lab.start_page("--settings", str(lab.folder / "page.toml")).filmed()
    lab.say("all_locked", camera="left")
    lab.until(lambda: b"loop_alerts_not_told_total 1.0" in lab.ask("/metrics").body, "count")
    lab.keep()


def test_a_page_that_is_open_hears_of_a_warning_at_once(make):
    import http.client

    lab = make()
    lab.filmed()
    connection = http.client.HTTPConnection("127.0.0.1", lab.port, timeout=LIMIT)
    connection.request("GET", "/events")
    stream = connection.getresponse()
    assert stream.headers["Content-Type"] == "text/event-stream"
    stream.readline()
    lab.say("behind", camera="left", micros=1_400_000)
    lab.until(lambda: b'"kind":"behind"' in stream.readline(), "warning")
    connection.close()


def test_a_store_that_is_damaged_or_taken_away_is_told_and_found_again(make):
    lab = make()
    lab.filmed()
    path = lab.folder / "left.loop"
    path.rename(lab.folder / "away")
    lab.until(
        lambda: lab.camera()["level"] == "bad" and "There is no store" in lab.camera()["state"],
        "missing store",
    )
    assert any("its store was there" in it["text"] for it in lab.status()["alerts"])
    path.write_bytes(b"no store at all" * 1000)
    lab.until(lambda: "isn't a store" in lab.camera()["state"], "no store")
    assert lab.ask("/api/cameras/left/newest.jpg").status == 503
    path.write_bytes((lab.folder / "right.loop").read_bytes()[:-1])
    lab.until(lambda: "damaged" in lab.camera()["state"], "damage")
    path.unlink()
    (lab.folder / "away").rename(path)
    lab.until(lambda: lab.camera()["level"] == "good", "the store again")
    assert lab.camera("right")["level"] == "good"


def test_a_camera_without_new_frames_is_seen_to_stand_still(make):
    lab = make(as_it_is=True)
    lab.filmed()
    lab.order("!pause left")
    lab.until(lambda: "No new frame for" in lab.camera()["state"], "a camera that stands still")
    lab.until(lambda: lab.camera("right")["level"] == "good", "the other camera")
    lab.order("!go left")
    lab.until(lambda: lab.camera()["level"] == "good", "frames again")


def test_a_disk_that_does_not_answer_holds_up_no_other_camera(monkeypatch):
    import asyncio
    import threading
    import types

    import layout
    from station_page import limits, standing
    from station_page import watched as looks

    monkeypatch.setattr(limits, "DISK_SECONDS", 0.1)
    let_go = threading.Event()

    def hang():
        let_go.wait(LIMIT)
        raise layout.Refused("missing")

    async def look():
        reader = types.SimpleNamespace(read=hang)
        watched = looks.Watched(types.SimpleNamespace(name="left"), reader)
        watched.begin()
        while not watched.hangs():
            await looks.settle([watched])
        # Nobody waits for it again.
        watched.begin()
        with pytest.raises(StopIteration):
            looks.settle([watched]).send(None)
        state = standing.Standing(None).camera_state(watched)
        let_go.set()
        await watched.looking
        return state, watched.hangs(), watched.why

    state, hangs, why = asyncio.run(look())
    assert (
        state[0] == "bad" and "disk hasn't answered" in state[1] and hangs == 0 and why == "missing"
    )


def test_a_look_that_works_is_one_of_a_busy_machine_and_no_disk_that_hangs(monkeypatch):
    import asyncio
    import hashlib
    import threading
    import time
    import types

    from station_page import limits
    from station_page import watched as looks

    monkeypatch.setattr(limits, "DISK_SECONDS", 0.1)
    is_enough = threading.Event()

    def work():
        # It works while another thread runs too: else it might wait for that.
        while not is_enough.is_set():
            hashlib.sha256(bytes(1 << 20))
        raise OSError("done")

    async def look():
        reader = types.SimpleNamespace(read=work)
        watched = looks.Watched(types.SimpleNamespace(name="left"), reader)
        watched.begin()
        found, end = [], time.monotonic() + 2
        while len(found) < 20 or time.monotonic() < end:
            found.append(watched.hangs())
            await asyncio.sleep(0.02)
        is_enough.set()
        while not watched.looking.done():
            await asyncio.sleep(0.02)
        return found, watched

    try:
        found, watched = asyncio.run(look())
    finally:
        is_enough.set()
    assert not any(found) and watched.why == "done"
    # One that waits for a processor works as soon as it can.
    watched.looking, watched.began = types.SimpleNamespace(done=lambda: False), 0.0
    watched.idle = watched.worked = 0.0
    monkeypatch.setattr(watched.looks, "worked", lambda: float("inf"))
    assert watched.hangs() == 0
    monkeypatch.setattr(watched.looks, "worked", lambda: 0.0)
    time.sleep(0.3)
    assert watched.hangs() > 0
