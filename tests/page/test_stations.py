"""Several stations in one console: one state, one press, one event; and one that doesn't answer."""
import io
import json
import re
import signal
import socket
import time
import zipfile

import pytest
from conftest import LIMIT, TOKEN, Laboratory, token_in
from station_page.others import Clock, Other
from station_page.settings import BadSettings, OtherStation, stations_of
from station_page.together import Joined, Presses, are_near, event_of, known, more_of, state_of
from station_page.words import Unfit
from test_push import Open

LEFT = {"name": "left", "pattern": "64x48 YM12 20:1"}
TOP = {"name": "top", "pattern": "33x21 GREY 20:1"}


def settings_of(folder, *stations):
    """Writes the page's settings with these stations, each as (name, port, more)."""
    lines = []
    for name, port, *more in stations:
        lines += ["[[station]]", f'name = "{name}"', f'url = "http://127.0.0.1:{port}/"', *more]
    (folder / "page.toml").write_text("\n".join(lines) + "\n")


def three_in(folder, made):
    """A page that shows its own station and two others, `north` and `south`. What is begun is put
    into a list."""
    for name, cameras in (("hub", [LEFT]), ("north", [LEFT, TOP]), ("south", [LEFT, TOP])):
        (folder / name).mkdir()
        made.append(Laboratory(folder / name, cameras).start_station())
    hub, *others = made
    settings_of(hub.folder, *((it.folder.name, it.start_page().port) for it in others))
    hub.start_page("--settings", "page.toml")
    hub.until(lambda: len(names_of(hub)) == 5, "cameras of all")
    for it in others:
        it.filmed(60).filmed(60, "top")
    hub.filmed(60)
    return made


@pytest.fixture(scope="module")
def three(tmp_path_factory):
    """Three stations for tests that leave them as they were."""
    made = []
    try:
        yield three_in(tmp_path_factory.mktemp("three"), made)
    finally:
        for it in made:
            it.close()


@pytest.fixture
def own_three(tmp_path):
    """Three stations of which a test ends some."""
    made = []
    try:
        yield three_in(tmp_path, made)
    finally:
        for it in made:
            it.close()


def names_of(hub):
    """The cameras that a page shows."""
    return [it["name"] for it in hub.status()["cameras"]]


def station_of(hub, name):
    """How another station stands."""
    return next(it for it in hub.status()["stations"] if it["name"] == name)


def events_of(hub):
    """The events that a page shows."""
    return hub.ask("/api/events").json()["events"]


def noted(hub, note):
    """The events of a note that a page shows."""
    return [it for it in events_of(hub) if it["note"] == note]


def kept_by(hub, count, note):
    """Keeps on all stations with a note, and waits for the event of so many cameras."""
    answer = hub.post("/api/keep", {"seconds": 2, "note": note})
    assert answer.status == 200, answer.body
    found = hub.until(
        lambda: [
            it for it in noted(hub, note) if len(it["cameras"]) == count and it["until_us"] is None
        ],
        f"event of {count} cameras",
    )
    return answer.json()["answers"], found[0]


def let_go(hub, event):
    """Releases an event."""
    clips = [{key: it[key] for key in ("camera", "id", "first")} for it in event["clips"]]
    answer = hub.post("/api/event/release", {"clips": clips})
    assert answer.status == 200, answer.body


# ------------------------------------------------------------------------------------- one console


def test_the_cameras_of_all_stations_are_in_one_console(three):
    hub, north, _ = three
    assert names_of(hub) == ["left", "north:left", "north:top", "south:left", "south:top"]
    found = {it["name"]: it for it in hub.status()["cameras"]}
    assert (found["north:top"]["width"], found["north:top"]["format"]) == (33, "GREY")
    stands = lambda: {it["name"]: it["level"] for it in hub.status()["cameras"]}  # noqa: E731
    hub.until(lambda: set(stands().values()) == {"good"}, "good cameras")
    north.order("!source top unusable")
    hub.until(lambda: stands()["north:top"] == "bad", "bad camera")
    assert stands()["south:top"] == "good"
    north.order("!source top on")
    hub.until(lambda: stands()["north:top"] == "good", "good camera")


def test_one_press_keeps_the_same_span_on_all_and_is_one_event(three):
    hub, north, south = three
    answers, event = kept_by(hub, 5, "run 7")
    assert sorted(it["camera"] for it in answers if it["kept"]) == sorted(names_of(hub))
    orders = [
        re.findall(r"^keep from (\S+) to (\S+)", (it.folder / "ordered").read_text(), re.M)[-1]
        for it in three
    ]
    assert len(set(orders)) == 1
    assert len(noted(hub, "run 7")) == 1 and len(event["clips"]) == 5
    for one in (north, south):
        one.until(lambda: len(noted(one, "run 7")) == 1, "event")
    # All begin and end within two frames of each other, whatever the machine does.
    for word in ("from_us", "to_us"):
        moments = [clip[word] for clip in event["clips"]]
        assert max(moments) - min(moments) <= 2 * 50_000, moments
    let_go(hub, event)


def test_a_range_and_one_camera_alone_are_kept_where_they_are(three):
    hub, north, south = three
    moment = north.camera("top")["newest"][1]
    body = {
        "camera": "north:top",
        "from": moment - 2_000_000,
        "to": moment - 1_000_000,
        "note": "alone",
    }
    assert [it["camera"] for it in hub.post("/api/keep", body).json()["answers"]] == ["north:top"]
    (event,) = hub.until(lambda: noted(hub, "alone"), "event")
    assert event["cameras"] == ["north:top"] and not noted(south, "alone")
    let_go(hub, event)
    assert hub.post("/api/keep", {"camera": "east:top", "seconds": 1}).status == 404
    assert hub.post("/api/keep", {"camera": "north:none", "seconds": 1}).status == 409
    answer = hub.post("/api/keep", {"camera": "left", "seconds": 1}).json()["answers"][0]
    assert answer["camera"] == "left" and answer["kept"]
    assert (
        hub.post("/api/release", {"camera": "left", "id": answer["clips"][0]["id"]}).status == 200
    )


def test_a_program_beside_it_asks_for_its_own_station_alone(three):
    hub, north, _ = three
    before = len(north.ask("/api/events").json()["events"])
    own = hub.ask("/api/status?of=this").json()["cameras"]
    assert [it["name"] for it in own] == ["left"]
    kept = hub.post("/api/keep?of=this", {"seconds": 1, "note": "its own"}).json()["answers"]
    assert [it["camera"] for it in kept] == ["left"]
    events = hub.ask("/api/events?of=this").json()["events"]
    assert events[0]["note"] == "its own"
    assert all(it["cameras"] == ["left"] for it in events)
    assert len(north.ask("/api/events").json()["events"]) == before


def test_a_note_and_a_release_reach_each_station(three):
    hub, north, south = three
    _, event = kept_by(hub, 5, "soon")
    clips = [{key: it[key] for key in ("camera", "id", "first")} for it in event["clips"]]
    assert hub.post("/api/event/note", {"clips": clips, "note": "later"}).status == 200
    for one in three:
        one.until(lambda: noted(one, "later"), "note")
    one = next(it for it in clips if it["camera"] == "south:top")
    assert hub.post("/api/note", one | {"note": "this one"}).status == 200
    south.until(
        lambda: {it["note"] for it in south.ask("/api/clips").json()["clips"]}
        >= {"later", "this one"},
        "notes",
    )
    assert hub.post("/api/release", one).status == 200
    answer = hub.post("/api/event/release", {"clips": [it for it in clips if it != one]})
    assert answer.status == 200, answer.body
    for one in (north, south, hub):
        one.until(lambda: not noted(one, "later"), "release")
    assert "release" in [it["kind"] for it in north.journal()]


def test_files_of_other_stations_come_as_they_are_there(three):
    hub, north, _ = three
    _, event = kept_by(hub, 5, "files")
    clip = next(it for it in event["clips"] if it["camera"] == "north:top")
    path = f"/api/clips/north:top/{clip['id']}.y4m?first={clip['first']}"
    text = north.text_of("top", clip)
    assert hub.ask(path).body == text
    part = hub.ask(path, headers={"Range": "bytes=10-19"})
    assert (part.status, part.body, part.headers["Content-Range"]) == (
        206,
        text[10:20],
        f"bytes 10-19/{len(text)}",
    )
    assert hub.ask(path.replace("north", "east")).status == 404
    newest = hub.ask("/api/cameras/north%3Aleft/newest.jpg")
    assert (
        newest.status == 200
        and newest.body[:2] == b"\xff\xd8"
        and int(newest.headers["X-Frame-Number"]) >= 30
    )
    let_go(hub, event)
    for key in (
        "north:left/../../metrics.0.0",
        "north:..%2Fx.0.0",
        "east:left.0.0",
        "none.0.0~north:left.0.0",
    ):
        assert hub.ask(f"/api/event.zip?clips={key}&what=csv").status == 404
    for wrong in (
        "north:left/../../healthz",
        "north:left/frames/x.jpg",
        "north:..%2F..%2Fhealthz/newest.jpg",
    ):
        assert hub.ask(f"/api/cameras/{wrong}").status == 404


def test_one_zip_has_the_files_of_all_stations(three):
    hub, north, _ = three
    _, event = kept_by(hub, 5, "zip")
    answer = hub.ask(f"/api/event.zip?clips={event['key']}&what=y4m,csv,png&as=me")
    assert answer.status == 200
    found = zipfile.ZipFile(io.BytesIO(answer.body))
    assert found.testzip() is None
    names = {it.split("/")[1] for it in found.namelist()}
    cameras = ("left", "north_left", "north_top", "south_left", "south_top")
    assert names == {"event.txt"} | {
        f"{it}.{kind}" for it in cameras for kind in ("y4m", "csv", "png.zip")
    }
    clip = next(it for it in event["clips"] if it["camera"] == "north:top")
    (name,) = [it for it in found.namelist() if it.endswith("north_top.y4m")]
    assert found.read(name) == north.text_of("top", clip)
    let_go(hub, event)


def test_a_page_is_sent_pictures_of_all_stations(three):
    hub, north, _ = three
    page = Open(hub)
    for camera in ("left", "north:left", "south:top"):
        page.next("picture", lambda head, camera=camera: head["camera"] == camera)
    assert page.look(cameras=["north:top"]).status == 200
    head, body = page.picture("north:top")
    assert head["live"] and body[:2] == b"\xff\xd8"
    moment = north.camera("top")["newest"][1] - 1_000_000
    page.look(cameras=["north:top"], moment=moment)
    head, _ = page.next("picture", lambda head: head["camera"] == "north:top" and not head["live"])
    assert head["time"] <= moment
    assert page.look(cameras=["east:top"]).status == 404
    page.close()


def test_a_step_is_the_next_frame_of_whichever_station_has_it(three):
    hub, north, south = three
    moment = north.camera("left")["oldest"][1] + 1_000_000
    asked = {"cameras": ["north:left", "south:left"], "moment": moment, "by": 1}
    after = hub.post("/api/step", asked).json()["moment"]
    wanted = min(
        it.post("/api/step", {"cameras": ["left"], "moment": moment, "by": 1}).json()["moment"]
        for it in (north, south)
    )
    assert after == wanted > moment
    before = hub.post("/api/step", asked | {"moment": after, "by": -1}).json()["moment"]
    assert before <= moment < after


def test_warnings_of_all_stations_are_seen_at_their_own(three):
    hub, north, _ = three
    north.say("given_up", camera="top", frames=3, since="2026-11-22T15:38:00.123Z")
    alert = hub.until(
        lambda: [it for it in hub.status()["alerts"] if it["camera"] == "north:top"], "warning"
    )[0]
    assert hub.post("/api/seen", {"ids": [alert["id"]]}).status == 200
    assert not north.alerts()


# ----------------------------------------------------------------------- a station that isn't there


def test_a_station_that_does_not_answer_is_said_and_holds_up_no_other(own_three):
    hub, north, south = own_three
    for note, how in (("stands still", signal.SIGSTOP), ("is gone", signal.SIGKILL)):
        north.page.send_signal(how)
        hub.until(lambda: station_of(hub, "north")["level"] == "bad", "word of it")
        hub.until(lambda: ("away", "north") in hub.alerts(), "warning")
        cameras = {it["name"]: it for it in hub.status()["cameras"]}
        assert (
            cameras["north:left"]["kind"] == "away"
            and "hasn't answered" in cameras["north:left"]["state"]
        )
        assert cameras["south:left"]["kind"] != "away"
        answers, event = kept_by(hub, 3, note)
        assert sorted(it["camera"] for it in answers if it["kept"]) == [
            "left",
            "south:left",
            "south:top",
        ]
        (refused,) = [it for it in answers if not it["kept"]]
        assert refused["camera"] == "north" and refused["text"]
        north.page.send_signal(signal.SIGCONT)
        if how == signal.SIGSTOP:
            hub.until(lambda: station_of(hub, "north")["level"] != "bad", "station that is back")
            hub.until(lambda: ("away", "north") not in hub.alerts(), "end of the warning")


def test_a_wrong_token_is_said_and_the_right_one_lets_in(make, tmp_path):
    other = make("--token", token_in(tmp_path), cameras=[LEFT])
    wrong = tmp_path / "wrong"
    wrong.mkdir()
    hub = make(page=False, cameras=[LEFT])
    settings_of(
        hub.folder,
        ("one", other.port, f'token = "{token_in(tmp_path)}"'),
        ("two", other.port, f'token = "{token_in(wrong, TOKEN[::-1])}"'),
    )
    hub.start_page("--settings", "page.toml")
    hub.until(lambda: "one:left" in names_of(hub), "camera")
    hub.until(lambda: "wants another token" in station_of(hub, "two")["text"], "word of it")


def test_what_is_no_page_is_said(make):
    """A server that answers whatever it is asked with words of its own."""
    with socket.create_server(("127.0.0.1", 0)) as server:
        hub = make(page=False, cameras=[LEFT])
        settings_of(hub.folder, ("odd", server.getsockname()[1]))
        hub.start_page("--settings", "page.toml")
        server.settimeout(60)
        for _ in range(2):
            client, _ = server.accept()
            client.recv(65536)
            client.sendall(
                b"HTTP/1.1 200 OK\r\nContent-Length: 28\r\n\r\n"
                + b"\0\0\0\x05\0\0\0\x0bhello"
                + b"and no JSON"
                + b"...."
            )
            client.close()
    hub.until(lambda: station_of(hub, "odd")["level"] == "bad", "word of it")
    assert hub.post("/api/keep", {"seconds": 1}).status == 200


EVENT = {
    "key": "left.0.0",
    "number": None,
    "from_us": 0,
    "to_us": 1,
    "seconds": 1.0,
    "bytes": 1,
    "tag": 0,
    "until_us": None,
    "clips": [{"camera": "left", "id": 0, "first": 0, "from_us": 0, "to_us": 1, "frames": 2}],
    "cameras": ["left"],
    "note": "",
    "fetched": False,
    "lacks": [],
}


@pytest.mark.parametrize(
    "kind, told",
    [
        ("state", {}),
        ("state", []),
        ("state", {"cameras": [{}], "alerts": []}),
        ("state", {"cameras": [7], "alerts": []}),
        ("state", {"cameras": [{"name": "left", "after": "1"}], "alerts": []}),
        ("state", {"cameras": [], "alerts": [{"id": "1", "text": ""}]}),
        ("more", {"cameras": {"left": 1}}),
        ("more", {"cameras": []}),
        ("events", [{}]),
        ("events", 7),
        ("events", [EVENT | {"clips": []}]),
        *(
            ("events", [EVENT | {word: "1"}])
            for word in (
                "from_us",
                "to_us",
                "seconds",
                "bytes",
                "tag",
                "number",
                "until_us",
                "fetched",
            )
        ),
        *(("events", [{it: to for it, to in EVENT.items() if it != word}]) for word in EVENT),
    ],
)
def test_what_another_station_says_is_taken_whole_or_not_at_all(kind, told):
    other = Other(OtherStation("north", "http://127.0.0.1:1", None))
    with pytest.raises(Unfit, match=f"north is unusable: its {kind}: "):
        other.take(kind, json.dumps(told).encode())
    assert (other.state, other.more, other.events) == (None, {}, [])


def test_what_another_station_says_is_taken():
    other = Other(OtherStation("north", "http://127.0.0.1:1", None))
    state = {"cameras": [{"name": "left"}], "alerts": [{"id": 3, "text": "dark", "camera": "left"}]}
    for kind, told in (
        ("state", state),
        ("events", [EVENT]),
        ("more", {"cameras": {"left": {"advice": ""}}}),
    ):
        other.take(kind, json.dumps(told).encode())
    found = state_of({"cameras": [], "alerts": []}, [other])
    assert [it["name"] for it in found["cameras"]] == ["north:left"]
    assert [(it["id"], it["text"]) for it in found["alerts"]] == [(10**9 + 3, "north: dark")]
    assert more_of({"cameras": {}}, [other])["cameras"] == {"north:left": {"advice": ""}}
    assert joined([("north", event_of(other, EVENT))], Presses(9))[0]["key"] == "north:left.0.0"


# ------------------------------------------------------------------------------------------- clocks


def test_a_page_without_cameras_of_its_own_keeps_at_the_others(make):
    north, south = (make(cameras=[LEFT]).filmed(60) for _ in range(2))
    hub = make(page=False, station=False)
    hub.config = None
    settings_of(hub.folder, ("north", north.port), ("south", south.port))
    hub.start_page("--settings", "page.toml")
    hub.until(lambda: names_of(hub) == ["north:left", "south:left"], "cameras")
    assert hub.status()["station"][0] == "good" and not hub.alerts()
    answers, event = kept_by(hub, 2, "both")
    assert sorted(it["camera"] for it in answers) == ["north:left", "south:left"]
    assert event["cameras"] == ["north:left", "south:left"]
    assert hub.post("/api/keep", {"camera": "left", "seconds": 2}).status == 404
    page = Open(hub)
    page.look()
    assert page.picture("north:left")[1].startswith(b"\xff\xd8")
    page.close()
    let_go(hub, event)
    hub.until(lambda: not events_of(hub), "release")


def test_a_page_without_any_camera_is_refused(make):
    hub = make(page=False, station=False)
    hub.config = None
    (hub.folder / "page.toml").write_text('notes = "notes"\n')
    run = hub.begin(*hub.program({}), "--settings", "page.toml")
    assert "[[station]]" in run.communicate(timeout=LIMIT)[0] and run.returncode == 1


def test_a_clock_that_is_off_is_warned_of_and_one_that_is_not_is_not(make):
    north, south = make(page=False, cameras=[LEFT]), make(cameras=[LEFT])
    north.start_spoilt()
    north.spoil("clock", "3")
    hub = make(page=False, cameras=[LEFT])
    settings_of(hub.folder, ("north", north.port), ("south", south.port))
    hub.start_page("--settings", "page.toml")
    hub.until(lambda: ("clock", "north") in hub.alerts(), "warning")
    found = station_of(hub, "north")
    assert (
        abs(found["offset_us"] - 3_000_000) <= found["error_us"] + 1000
        and "ahead of this one" in found["text"]
    )
    hub.until(lambda: station_of(hub, "south")["offset_us"] is not None, "measure")
    other = station_of(hub, "south")
    assert (
        abs(other["offset_us"]) <= other["error_us"] + 1000
        and ("clock", "south") not in hub.alerts()
    )
    north.spoil("clock", "0")
    hub.until(lambda: ("clock", "north") not in hub.alerts(), "end of the warning")


def test_a_clock_is_off_only_where_that_is_certain():
    clock = Clock()
    assert clock.offset() is None and not clock.is_off()
    # 30 ms ahead, in an answer that took 40 ms: it may be 10 ms.
    clock.add(0, 50_000, 40_000)
    assert clock.offset() == (30_000, 20_000) and not clock.is_off()
    # The quickest answer counts.
    clock.add(100_000, 131_000, 102_000)
    assert clock.offset() == (30_000, 1_000) and clock.is_off()
    exact = Clock()
    exact.add(0, 20_000, 0)
    assert not exact.is_off()
    exact.add(0, -20_001, 0)
    assert exact.samples.pop() and not exact.is_off()
    behind = Clock()
    behind.add(0, -20_001, 0)
    assert behind.is_off()


# ------------------------------------------------------------------------------------------- events


def event(camera, since, until, number=None, tag=0):
    """An event of one clip."""
    clip = {"camera": camera, "id": 0, "first": 0, "from_us": since, "to_us": until, "frames": 101}
    return {
        "key": f"{camera}.0.0",
        "number": number,
        "from_us": since,
        "to_us": until,
        "tag": tag,
        "seconds": 1.0,
        "cameras": [camera],
        "bytes": 1,
        "note": "",
        "fetched": False,
        "until_us": None,
        "lacks": [],
        "clips": [clip],
    }


def joined(events, presses):
    """The events of stations, each given with its station's name, as one list."""
    said = {}
    for station, one in events:
        said.setdefault(station, (None, []))[1].append(one)
    return Joined(presses).join(said)[0]


def cameras_of(events, presses=None):
    """The cameras of each joined event."""
    return sorted(sorted(it["cameras"]) for it in joined(events, presses or Presses(9)))


def test_events_of_one_span_are_one_and_others_are_not():
    second = 1_000_000
    near = [("", event("a", 0, 10 * second)), ("n", event("n:a", 50_000, 10 * second + 200_000))]
    assert cameras_of(near) == [["a", "n:a"]]
    assert are_near(*(known(None, it) for _, it in near))
    for other in (
        event("n:a", 2 * second, 10 * second),
        event("n:a", 0, 12 * second),
        event("n:a", 0, 10 * second, tag=7),
    ):
        assert cameras_of([near[0], ("n", other)]) == [["a"], ["n:a"]]
    # Two of one station are two, however near.
    assert cameras_of([near[0], ("", event("b", 0, 10 * second))]) == [["a"], ["b"]]


def test_a_press_of_this_page_is_one_event_by_its_numbers_whatever_the_times():
    presses = Presses(9)
    presses.add([("", 5), ("n", 6)])
    far = [
        ("", event("a", 0, 10**7, 5)),
        ("n", event("n:a", 10**8, 10**9, 6)),
        ("s", event("s:a", 0, 10**7, 9)),
    ]
    assert cameras_of(far, presses) == [["a", "n:a"], ["s:a"]]
    presses = Presses(2)
    for number in range(5):
        presses.add([("", number), ("n", number)])
    assert presses.of("", 4) and presses.of("", 0) is None


def test_presses_are_known_after_a_restart(tmp_path, caplog):
    path = str(tmp_path / "presses")
    presses = Presses(4, path)
    for number in range(3):
        presses.add([("", number), ("n", 10 + number)])
    presses.add([("", 9)])
    again = Presses(4, path)
    assert (
        again.of("n", 12) == ("", 2)
        and again.of("", 1) == ("", 1)
        and again.of("", 0) is again.of("", 9) is None
    )
    # One that was cut, or is something else, is told, and made anew.
    for text in ("{", "[]", '{"presses": [[1]]}', '{"presses": 5}'):
        (tmp_path / "presses").write_text(text)
        caplog.clear()
        anew = Presses(4, path)
        assert anew.presses == {} and "can't be read" in caplog.text, text
        anew.add([("", 5), ("n", 6)])
        assert Presses(4, path).of("n", 6) == ("", 5)
    # Where it can't be written, a press is known nevertheless.
    nowhere = Presses(4, str(tmp_path / "none/presses"))
    nowhere.add([("", 5), ("n", 6)])
    assert nowhere.of("n", 6) == ("", 5) and "can't be written" in caplog.text


# ----------------------------------------------------------------------------------------- settings


@pytest.mark.parametrize(
    "table, said",
    [
        ({}, "url of a"),
        ({"url": "ftp://x/"}, "url of a"),
        ({"url": "http:///x"}, "url of a"),
        ({"url": "http://x/", "name": "a:b"}, "can't be a station's name"),
        ({"url": "http://x/", "port": 1}, "url, token and name alone"),
        ({"url": "http://x/", "token": "missing"}, "missing"),
    ],
)
def test_a_wrong_station_is_refused_by_name(table, said):
    with pytest.raises(BadSettings, match=re.escape(said)):
        stations_of([table], "page.toml")


def test_stations_have_names_of_their_own():
    found = stations_of(
        [{"url": "http://north.lab:8080/"}, {"url": "https://10.0.0.2"}], "page.toml"
    )
    assert [(it.name, it.url) for it in found] == [
        ("north-lab", "http://north.lab:8080"),
        ("10-0-0-2", "https://10.0.0.2"),
    ]
    with pytest.raises(BadSettings, match="is another one's"):
        stations_of([{"url": "http://x:1/"}, {"url": "http://x:2/"}], "page.toml")
    with pytest.raises(BadSettings, match="at most 16"):
        stations_of([{"url": f"http://x{n}/"} for n in range(17)], "page.toml")


def test_a_page_alone_says_its_clock_and_no_stations(three):
    _, north, _ = three
    assert abs(north.ask("/api/clock").json()["now_us"] / 1e6 - time.time()) < 60
    assert "stations" not in north.status() and names_of(north) == ["left", "top"]
