"""What other stations say: read by one parser, bounded, by its types. A station that says something
else is unusable, with the reason, and touches nothing of any other."""
import asyncio
import json
import random
import struct
import time

import pytest
from conftest import until
from lapyrei import answers
from lapyrei.answers import Unusable
from neighbour import CAMERA, CLIP, EVENT, SAID, STATE, Neighbour, answer_of, message
from station_page import limits
from station_page.others import Other
from station_page.settings import OtherStation
from station_page.together import Presses, event_of, more_of, state_of
from station_page.words import Unfit
from test_stations import LEFT, events_of, joined, names_of, settings_of, station_of

# So many wrong answers are tried, within a minute.
TRIES = 10_000


def other_one(name="north", port=1):
    """Another station's page, of which nothing was heard yet."""
    return Other(OtherStation(name, f"http://127.0.0.1:{port}", None))


# ------------------------------------------------------------------------------------- the parser


@pytest.mark.parametrize(
    "raw, why",
    [
        (b"[" * 200_000, "deeper than 32"),
        (b'{"a":' * 33 + b"1" + b"}" * 33, "deeper than 32"),
        (b"NaN", "isn't finite: NaN"),
        (b"[-Infinity]", "isn't finite: -Infinity"),
        (b"[1e999]", "isn't finite: 1e999"),
        (b"1" * 21, "more than 20 digits"),
        (b'"\xff"', "isn't JSON"),
        (b'"\0"', "isn't JSON"),
        (b"", "isn't JSON"),
        ("{}".encode("utf-16"), "isn't JSON"),
        (b" " * (answers.BYTES + 1), f"more than {answers.BYTES} bytes"),
    ],
    ids=range(11),
)
def test_a_text_beyond_the_bounds_is_refused(raw, why):
    with pytest.raises(Unusable, match=why):
        answers.value_in(raw)


def test_brackets_in_a_text_are_no_depth():
    deep = b'{"a":' * 31 + b'"' + b'[{\\"' * 50 + b'"' + b"}" * 31
    assert answers.value_in(deep)
    assert answers.value_in(b"[" * 32 + b"]" * 32)


@pytest.mark.parametrize(
    "raw",
    [
        b'"' + b'\\"' * 2_000_000,
        b'["' + b'\\"[' * 1_000_000 + b'"]',
        b"[]," * 2_000_000,
        b'{"a":[' * 500_000,
    ],
    ids=range(4),
)
def test_a_long_text_is_read_in_time(raw):
    begun = time.thread_time()
    try:
        answers.answer_in(raw, answers.STATE)
    except Unusable:
        pass
    assert time.thread_time() - begun < 20


@pytest.mark.parametrize(
    "told, why",
    [
        ({}, "^cameras is missing$"),
        ([], "^it isn't an object$"),
        ({"cameras": [CAMERA, {}], "alerts": []}, r"^cameras\[1\]\.name is missing$"),
        (
            {"cameras": [CAMERA | {"name": "../x"}], "alerts": []},
            r"^cameras\[0\]\.name isn't a camera's name$",
        ),
        ({"cameras": [CAMERA | {"name": "a\udc00"}], "alerts": []}, "name isn't"),
        ({"cameras": [CAMERA | {"state": "\udc00"}], "alerts": []}, "state isn't a text"),
        ({"cameras": [CAMERA | {"after": True}], "alerts": []}, "after isn't a whole number"),
        ({"cameras": [CAMERA | {"rate": "20"}], "alerts": []}, "rate isn't a number"),
        ({"cameras": [CAMERA | {"level": "best"}], "alerts": []}, "level isn't one of good"),
        (
            {"cameras": [CAMERA | {"pieces": [[0, 1, 2, "3"]]}], "alerts": []},
            r"pieces\[0\]\[3\] isn't a whole",
        ),
        (
            {"cameras": [CAMERA | {"frames": -1}], "alerts": []},
            "frames isn't a whole number from 0",
        ),
        ({"cameras": [], "alerts": [{"id": 10**9, "text": ""}]}, "id isn't a whole number"),
        (
            {"cameras": [{it: to for it, to in CAMERA.items() if it != "pieces"}], "alerts": []},
            r"cameras\[0\]\.pieces is missing",
        ),
        (
            {"cameras": [], "alerts": [], "station": ["good"]},
            "station isn't a level and a sentence",
        ),
        ({"cameras": [{"name": "a"}] * 300, "alerts": []}, "cameras isn't a list of 0 to 256"),
    ],
)
def test_the_place_and_the_reason_are_named(told, why):
    with pytest.raises(Unusable, match=why):
        answers.answer_in(json.dumps(told).encode(), answers.STATE)


def test_unknown_words_are_let_pass():
    told = {"cameras": [CAMERA | {"lens": {"f": [1.4]}}], "alerts": [], "weather": None}
    assert answers.answer_in(json.dumps(told).encode(), answers.STATE) == told


def test_a_clip_does_not_end_before_it_begins():
    for wrong in (
        {"last": -1},
        {"first": 10},
        {"from_us": 450_001},
        {"id": "0"},
        {"camera": "../../OUT/x"},
        {"tag": None},
    ):
        with pytest.raises(Unusable):
            answers.CLIPS_SAID({"clips": [CLIP | wrong]})
    answers.CLIPS_SAID({"clips": [CLIP]})


# ----------------------------------------------------------------------------- ten thousand answers


def no_constant(word):
    """JSON has none."""
    raise AssertionError(word)


def shown(others):
    """What a page makes of what other stations say, as JSON that a browser reads."""
    own = {"cameras": [{"name": "own"}], "alerts": []}
    events = [(it.name, event_of(it, event)) for it in others for event in it.events]
    made = (
        state_of(own, others),
        more_of({"cameras": {"own": {}}}, others),
        joined(events, Presses(9)),
    )
    texts = [json.dumps(it, separators=(",", ":")).encode() for it in made]
    state, more, _ = [json.loads(it, parse_constant=no_constant) for it in texts]
    assert state["cameras"][0] == {"name": "own"} and more["cameras"]["own"] == {}
    return state


def test_ten_thousand_wrong_answers_touch_nothing_of_the_others():
    luck, good = random.Random(90), other_one("south")
    for kind, told in SAID.items():
        good.take(kind, json.dumps(told).encode())
    wanted, refused = [it["name"] for it in shown([good])["cameras"]], 0
    for number in range(TRIES):
        kind, other = luck.choice(sorted(SAID)), other_one()
        try:
            other.take(kind, answer_of(luck, SAID[kind]))
        except Unfit as unfit:
            refused += 1
            assert (
                "north is unusable" in str(unfit) and other.standing()["kind"] == "unusable"
            ), number
        # It needn't be rare that a wrong answer is as good as a right one.
        state = shown([good, other])
        assert [it["name"] for it in state["cameras"]][: len(wanted)] == wanted, number
    assert TRIES // 2 < refused < TRIES


def test_a_station_is_unusable_until_it_says_what_can_be_used_or_for_a_minute(monkeypatch):
    other = other_one()
    for kind in ("state", "events"):
        with pytest.raises(Unfit, match="cameras is missing|isn't a list"):
            other.take(kind, b"{}")
    assert other.standing()["kind"] == "unusable" and not other.is_shown_as_it_is()
    other.take("state", json.dumps(STATE).encode())
    # Its events are still none; how it stands is known.
    assert "its events" in other.standing()["text"] and other.is_shown_as_it_is()
    monkeypatch.setattr(limits, "UNUSABLE_SECONDS", 0.0)
    assert other.standing()["level"] == "good" and other.standing()["text"] == ""


@pytest.mark.parametrize("work, part", [("watch", "listen"), ("measure", "ask")])
def test_no_fault_ends_what_asks_a_station(monkeypatch, work, part):
    """The page ends where one of its works does."""
    other, faults = other_one(), [RecursionError("deep"), AttributeError("x"), RuntimeError("y")]

    async def fail(*_):
        raise faults.pop()

    async def run():
        task = asyncio.create_task(getattr(other, work)())
        while faults:
            await asyncio.sleep(0.01)
        assert not task.done()
        task.cancel()

    monkeypatch.setattr(other, part, fail)
    monkeypatch.setattr(limits, "AGAIN_SECONDS", 0.01)
    asyncio.run(asyncio.wait_for(run(), 60))
    assert other.standing()["kind"] == "unusable"


# --------------------------------------------------------------------- a station that says anything


@pytest.fixture
def neighbour():
    """Makes stations that say anything."""
    made = []

    def one():
        made.append(Neighbour())
        return made[-1]

    yield one
    for it in made:
        it.close()


@pytest.fixture
def hub(make):
    """Makes a page with a camera of its own, which shows other stations."""

    def one(*ports, more=()):
        hub = make(page=False, cameras=[LEFT])
        settings_of(hub.folder, *((f"odd{n or ''}", port, *more) for n, port in enumerate(ports)))
        hub.start_page("--settings", "page.toml")
        return hub.filmed()

    return one


def own_part(hub):
    """Sees that a page's own camera is there, is kept and is listed."""
    assert "left" in names_of(hub)
    answers_ = hub.post("/api/keep", {"seconds": 1}).json()["answers"]
    assert [it["kept"] for it in answers_ if it["camera"] == "left"] == [True]
    clips = hub.ask("/api/clips")
    assert clips.status == 200 and "left" in {it["camera"] for it in clips.json()["clips"]}


def test_a_neighbour_that_lacks_a_word_is_unusable_and_own_clips_are_listed(hub, neighbour):
    odd = neighbour()
    odd.answers["/api/clips"] = {"clips": [{it: to for it, to in CLIP.items() if it != "to_us"}]}
    page = hub(odd.port)
    page.until(lambda: "odd:left" in names_of(page), "camera")
    own_part(page)
    found = page.ask("/api/clips").json()
    assert not [it for it in found["clips"] if it["camera"] == "odd:left"]
    assert "clips[0].to_us is missing" in found["unusable"]["odd"]
    assert (
        station_of(page, "odd")["kind"] == "unusable" and station_of(page, "odd")["level"] == "bad"
    )
    page.until(lambda: ("unusable", "odd") in page.alerts(), "warning")
    # What it says of its cameras is as good as before; and once it says its clips, all is well.
    assert {it["name"]: it["kind"] for it in page.status()["cameras"]}["odd:left"] == "good"
    odd.answers["/api/clips"] = b"<h1>Bad Gateway</h1>", 502, "text/html"
    assert page.ask("/api/clips").json()["unusable"] == {"odd": "odd: it answers 502."}
    odd.answers["/api/clips"] = {"clips": [CLIP]}
    assert [it["camera"] for it in page.ask("/api/clips").json()["clips"]].count("odd:left") == 1
    assert station_of(page, "odd")["level"] == "good"
    page.until(lambda: ("unusable", "odd") not in page.alerts(), "end of the warning")


@pytest.mark.parametrize(
    "body",
    [
        b"[" * 200_000,
        b'{"cameras": [], "alerts": [], "now": NaN}',
        b'{"cameras": [{"name": 5}], "alerts": []}',
        b"\xff",
    ],
    ids=("deep", "nan", "type", "bytes"),
)
def test_a_state_that_is_none_ends_nothing(hub, neighbour, body):
    odd, fair = neighbour(), neighbour()
    odd.stream = [message("hello", b"", id="x"), message("state", body)]
    page = hub(odd.port, fair.port)
    page.until(lambda: station_of(page, "odd")["kind"] == "unusable", "word of it")
    assert "its state" in station_of(page, "odd")["text"]
    page.until(lambda: "odd1:left" in names_of(page), "camera of the other one")
    own_part(page)
    assert page.page.poll() is None and station_of(page, "odd1")["level"] == "good"
    json.loads(page.ask("/api/status").body, parse_constant=no_constant)


def test_what_was_said_before_is_shown_as_such(hub, neighbour):
    odd = neighbour()
    page = hub(odd.port)
    page.until(lambda: "odd:left" in names_of(page) and len(events_of(page)) == 1, "camera")
    odd.stream = [message("hello", b"", id="x"), message("state", b"{}")]
    odd.over.set()
    page.until(lambda: station_of(page, "odd")["kind"] == "unusable", "word of it")
    camera = {it["name"]: it for it in page.status()["cameras"]}["odd:left"]
    assert (
        camera["level"] == "bad"
        and camera["short"] == "unusable answer"
        and "cameras is missing" in camera["state"]
    )


def test_stations_that_it_shows_too_are_left_to_their_own_pages(hub, neighbour):
    odd = neighbour()
    third = CAMERA | {"name": "south:left"}
    both = EVENT | {
        "cameras": ["left", "south:left"],
        "clips": EVENT["clips"] + [EVENT["clips"][0] | {"camera": "south:left"}],
    }
    odd.stream = [
        message("hello", b"", id="x"),
        message("state", STATE | {"cameras": [CAMERA, third]}),
        message("more", {"cameras": {"left": {}, "south:left": {}}}),
        message("events", [both, EVENT | {"clips": both["clips"][1:]}]),
    ]
    odd.answers["/api/clips"] = {"clips": [CLIP, CLIP | {"camera": "south:left"}]}
    page = hub(odd.port)
    page.until(lambda: "odd:left" in names_of(page) and events_of(page), "camera")
    assert names_of(page) == ["left", "odd:left"]
    assert [it["cameras"] for it in events_of(page)] == [["odd:left"]]
    assert [it["camera"] for it in page.ask("/api/clips").json()["clips"]] == ["odd:left"]


def test_an_answer_to_a_keep_that_is_none_is_said_and_the_own_camera_keeps(hub, neighbour):
    odd = neighbour()
    page = hub(odd.port)
    page.until(lambda: "odd:left" in names_of(page), "camera")
    for told in (
        {"answers": 5},
        {"kept": True, "answers": [{"camera": "left"}]},
        b"[" * 100_000,
        b"no JSON",
    ):
        odd.answers["/api/keep"] = told
        found = {
            it["camera"]: it for it in page.post("/api/keep", {"seconds": 1}).json()["answers"]
        }
        assert found["left"]["kept"] and not found["odd"]["kept"]
        assert "is unusable" in found["odd"]["text"] and "may have kept" in found["odd"]["text"]
    odd.answers["/api/step"] = {"moment": "now"}
    moment = page.camera("left")["oldest"][1] + 1_000_000
    asked = {"cameras": ["left", "odd:left"], "moment": moment, "by": 1}
    assert page.post("/api/step", asked).json()["moment"] > moment


def test_a_file_that_a_browser_would_run_is_not_given_on(hub, neighbour):
    odd = neighbour()
    page = hub(odd.port)
    page.until(lambda: "odd:left" in names_of(page), "camera")
    path = "/api/clips/odd:left/0.csv"
    for kind in ("text/html", "text/javascript", "image/svg+xml"):
        odd.answers["/api/clips/left/0.csv"] = b"<script>", 200, kind
        assert page.ask(path).status == 502
        assert kind in station_of(page, "odd")["text"]
    odd.answers["/api/clips/left/0.csv"] = b"number\n", 200, "text/csv"
    assert page.ask(path).body == b"number\n"
    odd.answers["/api/cameras/left/frames/5/light"] = b'{"light": [NaN]}'
    assert page.ask("/api/cameras/odd:left/frames/5/light").status == 502
    odd.answers["/api/cameras/left/frames/5/light"] = {"light": [1]}
    assert page.ask("/api/cameras/odd:left/frames/5/light").json() == {"light": [1]}


def test_an_answer_without_an_end_is_bounded(hub, neighbour):
    odd = neighbour()
    page = hub(odd.port)
    page.until(lambda: "odd:left" in names_of(page), "camera")
    odd.answers["/api/clips"] = b" " * (answers.BYTES + 1)
    found = page.ask("/api/clips")
    assert found.status == 200 and "more than" in found.json()["unusable"]["odd"]
    odd.stream = [message("hello", b"", id="x"), struct.pack(">II", 20, limits.MESSAGE_BYTES + 1)]
    odd.over.set()
    page.until(lambda: "has lengths of" in station_of(page, "odd")["text"], "word of it")
    own_part(page)


def test_a_token_is_not_sent_where_a_redirect_leads(hub, neighbour, tmp_path):
    odd, elsewhere = neighbour(), neighbour()
    (tmp_path / "secret").write_text("a-token-of-more-than-16\n")
    (tmp_path / "secret").chmod(0o600)
    page = hub(odd.port, more=[f'token = "{tmp_path}/secret"'])
    page.until(lambda: "odd:left" in names_of(page), "camera")
    assert all(
        head.get("Authorization") == "Bearer a-token-of-more-than-16" for _, head in odd.asked
    )
    for status in (301, 302, 307):
        place = f"http://127.0.0.1:{elsewhere.port}/api/clips".encode()
        odd.answers["/api/clips"] = place, status, "text/plain"
        found = page.ask("/api/clips").json()
        assert "isn't a station's page" in found["unusable"]["odd"]
    assert not elsewhere.asked


def test_each_station_is_sent_its_own_token(make, neighbour, tmp_path):
    north, south = neighbour(), neighbour()
    page = make(page=False, cameras=[LEFT])
    for name in ("north", "south", "own"):
        (tmp_path / name).write_text(f"the-token-of-{name}-{name}\n")
        (tmp_path / name).chmod(0o600)
    settings_of(
        page.folder,
        *(
            (name, it.port, f'token = "{tmp_path}/{name}"')
            for name, it in (("north", north), ("south", south))
        ),
    )
    page.start_page("--settings", "page.toml", "--token", str(tmp_path / "own"))
    for name, it in (("north", north), ("south", south)):
        until(
            lambda it=it: {path for path, _ in it.asked} >= {"/api/stream", "/api/clock"},
            f"questions to {name}",
        )
        assert {head["Authorization"] for _, head in it.asked} == {
            f"Bearer the-token-of-{name}-{name}"
        }
