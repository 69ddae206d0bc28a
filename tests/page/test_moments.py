"""The moment of a press goes with its order: what was seen is kept, however late the order is done.
Why an event was kept is known by its number."""
import asyncio
import json
import time
import types

import pytest
from station_page import asked, limits
from station_page.causes import Causes, cause
from station_page.clock import Clock
from station_page.events import events_of
from station_page.heard import Heard
from station_page.keeping import Keeping
from station_page.orders import Orders
from station_page.words import Unfit, read_line
from test_stations import own_three  # noqa: F401

SECOND = 1_000_000


def test_a_press_keeps_the_time_before_it_however_late_it_is_done(make):
    """As after a page that stood still: the order comes seconds after the press."""
    lab = make(page=False)
    with open(lab.folder / "station.toml", "a", encoding="utf-8") as file:
        file.write("after = 1\n")
    lab.start_page().filmed(600).filmed(300, "right")
    at = lab.stored()[-1].time - 3 * SECOND
    found = lab.post("/api/keep", {"seconds": 1, "at": at, "camera": "left"}).json()
    (clip,) = found["answers"][0]["clips"]
    assert at - SECOND <= clip["from_us"] and at - 20_000 <= clip["to_us"] <= at
    # Of all cameras: one span, with the longest of what is still to come, which has come here.
    found = lab.post("/api/keep", {"seconds": 1, "at": at}).json()["answers"]
    ends = [clip["to_us"] for one in found for clip in one["clips"]]
    assert len(ends) == 2 and all(at + SECOND - 40_000 <= it <= at + SECOND for it in ends)
    events = lab.ask("/api/events").json()["events"]
    assert [it["cause"]["at_us"] for it in events] == [at, at]
    assert {it["cause"]["kind"] for it in events} == {"http"}


def test_a_press_by_a_clock_that_is_wrong_is_kept_by_the_stations(make):
    """The page's clock is ten seconds ahead of the station's, as after it was set: by the times of
    the station's answers the page knows it."""
    lab = make(page=False)
    lab.start_spoilt()
    lab.spoil("clock", "10")
    lab.filmed(300)
    lab.polled()
    now = lab.ask("/api/clock").json()["now_us"]
    found = lab.post("/api/keep", {"seconds": 2, "at": now, "camera": "left"})
    assert found.status == 200, found.body
    (clip,) = found.json()["answers"][0]["clips"]
    assert clip["to_us"] - clip["from_us"] > SECOND and abs(now - clip["to_us"]) > 8 * SECOND


def test_one_press_of_several_stations_has_one_moment_and_one_cause(own_three):  # noqa: F811
    hub, north, south = own_three
    at = min(it.stored()[-1].time for it in own_three) - 2 * SECOND
    answer = hub.post("/api/keep", {"seconds": 1, "at": at, "by": "ann", "cause": "press"})
    assert answer.status == 200, answer.body
    for lab in own_three:
        lab.until(lambda lab=lab: lab.ask("/api/events?of=this").json()["events"], "event")
        (event,) = lab.ask("/api/events?of=this").json()["events"]
        assert event["cause"] == {"kind": "press", "who": "ann", "at_us": at}
        assert at - SECOND <= event["from_us"] and event["to_us"] <= at
    (event,) = hub.until(
        lambda: [it for it in hub.ask("/api/events").json()["events"] if len(it["cameras"]) == 5],
        "one event",
    )
    assert event["cause"]["who"] == "ann"


@pytest.mark.parametrize(
    "body",
    [
        {"seconds": 1, "at": "noon"},
        {"seconds": 1, "at": None},
        {"seconds": 1, "at": -1},
        {"seconds": 1, "cause": "whim"},
        {"seconds": 1, "by": 7},
    ],
)
def test_a_moment_or_a_cause_that_is_none_is_refused(body):
    with pytest.raises(Unfit):
        asked.wish_in(body)


def keeping_with(clock, *after):
    """What keeps, with cameras that keep on for some seconds."""
    cameras = {
        f"c{place}": types.SimpleNamespace(camera=types.SimpleNamespace(after=it))
        for place, it in enumerate(after)
    }
    orders = types.SimpleNamespace(clock=clock)
    return Keeping(types.SimpleNamespace(cameras=cameras, orders=orders)), list(cameras)


def test_the_span_of_a_press_ends_at_its_moment_by_the_stations_clock():
    keeping, names = keeping_with(Clock(), 0, 7, 3)
    assert keeping.span_at(10**15, 60, names) == (10**15 - 60 * SECOND, 10**15 + 7 * SECOND)
    assert keeping.span_at(10**15, 60, names[:1])[1] == 10**15
    # A moment that is still to come is now.
    assert keeping.span_at(2**61, 1, names[:1])[1] <= time.time_ns() // 1000
    ahead = Clock()
    ahead.add(0, 5 * SECOND, 0)
    keeping, names = keeping_with(ahead, 0)
    assert keeping.span_at(10**15, 1, names) == (10**15 + 4 * SECOND, 10**15 + 5 * SECOND)
    assert keeping.span_at(1, 60, names)[0] == 0


def test_a_clock_that_is_only_late_is_not_ahead():
    clock = Clock()
    clock.add(0, 30_000, 40_000)
    assert clock.ahead() == 0
    clock.add(0, 30_000, 1_000)
    assert clock.ahead() == 29_500


def test_answers_from_before_a_clock_was_set_are_forgotten():
    clock = Clock()
    clock.add(0, 500, 1_000)
    assert clock.offset() == (0, 500)
    # An hour ahead, in a slower answer: the quick one of before can't be so any more.
    clock.add(10**6, 10**6 + 3600 * SECOND, 10**6 + 100_000)
    assert clock.offset() == (3600 * SECOND - 50_000, 50_000)
    clock.add(2 * 10**6, 2 * 10**6 + 3600 * SECOND - 20_000, 2 * 10**6 + 20_000)
    assert len(clock.samples) == 2 and clock.offset()[1] == 10_000


def test_the_stations_clock_is_measured_by_the_times_of_its_answers():
    told = types.SimpleNamespace(on_line=lambda line: None, on_event=lambda line: None)

    async def look():
        orders = Orders(None, None, told)
        orders.pipe.write = lambda line: None
        waiting = orders.begin("status")
        line = {"time": "2026-11-22T15:38:00.250Z", "label": waiting.label, "kind": "done"}
        orders.hear(json.dumps(line))
        assert orders.clock.offset()[0] < -SECOND or orders.clock.offset()[0] > SECOND
        other = Orders(None, None, told)
        other.pipe.write = lambda line: None
        label = other.begin("status").label
        # `times = false`, and a time that is none.
        other.hear(json.dumps({"label": label, "kind": "done"}))
        assert other.clock.offset() is None
        assert read_line('{"kind": "done", "time": "soon"}').time is None
        assert read_line('{"kind": "done", "time": 7}').time is None

    asyncio.run(look())


# ------------------------------------------------------------------------------------------- causes


def test_causes_are_known_after_a_restart(tmp_path, caplog):
    path = str(tmp_path / "causes")
    causes = Causes(path)
    causes.add({7, 9}, cause("mqtt", "run-7", 5))
    causes.add(set(), cause("press", "nobody", 6))
    again = Causes(path)
    assert again.of(7) == again.of(9) == {"kind": "mqtt", "who": "run-7", "at_us": 5}
    assert again.of(8) is None and again.of(None) is None
    for text in ("{", "[]", '{"causes": {"x": 1}}', '{"causes": {"7": {"kind": "mqtt"}}}'):
        (tmp_path / "causes").write_text(text)
        caplog.clear()
        assert Causes(path).of(7) is None and "can't be read" in caplog.text, text
    nowhere = Causes(str(tmp_path / "none/causes"))
    nowhere.add({7}, cause("press", "ann", 1))
    assert nowhere.of(7)["who"] == "ann" and "can't be written" in caplog.text


def test_the_newest_causes_stay(monkeypatch):
    monkeypatch.setattr(limits, "EVENTS_HEARD", 3)
    causes = Causes(None)
    for number in range(1, 6):
        causes.add({number}, cause("press", "ann", number))
    assert [number for number in range(6) if causes.of(number)] == [3, 4, 5]


def test_who_gave_an_order_is_one_line_of_few_letters():
    found = cause("press", "a\nb" + "x" * 1000, 1)
    assert "\n" not in found["who"] and len(found["who"]) == limits.WHO_LETTERS


def clip_of(camera, number, since, until):
    """A clip as `Held.clips` has it."""
    found = {"camera": camera, "id": 0, "first": 0, "last": 9, "frames": 10, "event": number}
    found |= {"from_us": since, "to_us": until, "tag": 0, "order_tag": 0, "note": "", "bytes": 1}
    return found | {"seconds": 1.0, "fetched": False}


def test_an_event_says_why_it_was_kept_and_how_many_frames_were_lost_in_it():
    heard = Heard()
    since = "1970-01-01T00:00:10Z"
    line = {"kind": "given_up", "camera": "left", "frames": 5, "since": since}
    heard.take(read_line(json.dumps(line | {"time": "1970-01-01T00:00:12Z"})))
    heard.take(read_line(json.dumps(line | {"camera": "right", "frames": 70})))
    clips = [
        clip_of("left", 10**15, 11 * SECOND, 20 * SECOND),
        clip_of("left", 10**15 + 1, 13 * SECOND, 20 * SECOND),
        clip_of("left", 10**15 + 2, 0, 9 * SECOND),
    ]
    found = events_of(clips, heard, {10**15: {"kind": "press"}}.get)
    assert {it["number"] - 10**15: it["lost"] for it in found} == {0: 5, 1: 0, 2: 0}
    assert [it["cause"] for it in found if it["number"] == 10**15] == [{"kind": "press"}]
    assert heard.version == 2
