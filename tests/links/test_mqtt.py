"""loop_mqtt beside a station with its page, and a broker: orders, states and events."""
from datetime import datetime, timezone

import pytest
from bench import HERE, Bench, now
from conftest import until


# One bench serves all tests here.
pytestmark = pytest.mark.xdist_group("mqtt")


@pytest.fixture(scope="module")
def bench(module):
    """The bench of all tests here. Each leaves it as it was, and has ids and notes of its own."""
    return Bench(module).start()


def test_states_are_retained(bench):
    until(lambda: bench.newest("state").get("level") == "good", "state")
    until(lambda: bench.newest("cameras/left").get("kind") == "good", "camera")
    late, first = bench.listen(bench.broker.port), {}
    topics = [f"{HERE}/{it}" for it in ("state", "cameras/left", "cameras/right")]
    for topic in topics:
        until(lambda: late.newest(topic).get("station") == "one", topic)
    for topic, _, retain in list(late.messages):
        first.setdefault(topic, retain)
    assert all(first[topic] for topic in topics)


def test_an_order_is_done_and_answered_with_its_id(bench):
    asked = bench.keep("press-1", note="run 7")
    found = bench.answer("press-1")
    assert found["kept"] and found["station"] == "one"
    assert [one["camera"] for one in found["cameras"]] == ["left", "right"]
    assert asked["from"] <= found["from_us"] <= found["to_us"] <= asked["to"]
    kept = until(lambda: bench.kept("[press-1]"), "kept")[0]
    assert (kept["note"], kept["event"]) == ("run 7 [press-1]", found["event"])
    assert kept["cameras"] == ["left", "right"] and kept["lost"] == 0
    assert [one["lost"] for one in found["cameras"]] == [0, 0]


def test_times_may_be_texts_and_one_station_or_camera_be_meant(bench):
    moment = now()
    text = datetime.fromtimestamp(moment / 1e6, timezone.utc).isoformat(timespec="milliseconds")
    order = {"id": "a1", "from": moment - 10**6, "to": text.replace("+00:00", "Z")}
    bench.listener.give(f"{HERE}/keep", order | {"camera": "right"})
    assert [one["camera"] for one in bench.answer("a1")["cameras"]] == ["right"]
    bench.listener.give("lapyrei/two/keep", order | {"id": "a2"})
    bench.keep("a3")
    bench.answer("a3")
    assert not bench.answers("a2") and not bench.events("[a2]")


def test_an_id_has_one_meaning(bench):
    bench.keep("same")
    bench.answer("same")
    bench.keep("same")
    until(lambda: bench.answers("same")[-1].get("refused") == "IdTaken", "refusal")
    assert len(bench.events("[same]")) == 1


def test_an_event_that_goes_on_is_told_once_it_is_over(bench):
    moment = now()
    order = {"id": "ahead", "from": moment - 10**6, "to": moment + 3 * 10**6, "note": "long"}
    bench.listener.give("lapyrei/all/keep", order)
    assert bench.answer("ahead")["cameras"][0]["until_us"]
    kept = until(lambda: bench.kept("[ahead]"), "kept")[0]
    assert kept["to_us"] > moment + 2 * 10**6 and kept["note"] == "long [ahead]"
    bench.keep("next")
    assert until(lambda: bench.kept("[next]"), "the next one")[0]["note"] == "MQTT [next]"
    assert len(bench.kept("[ahead]")) == 1


def test_a_refusal_is_answered_and_the_next_order_is_done(bench):
    bench.listener.give("lapyrei/all/keep", b"\xff\xfe")
    until(lambda: [it for it in bench.answers(None) if it["refused"] == "NotJson"], "refusal")
    bench.keep("none", camera="nobody")
    assert bench.answer("none")["refused"] == "NoCamera"
    bench.listener.give("lapyrei/all/keep", {"id": "old", "from": 1, "to": 2})
    found = bench.answer("old")
    assert not found["kept"] and "refused" not in found and found["cameras"][0]["why"]
    bench.keep("good")
    assert bench.answer("good")["kept"]


def test_warnings_come_and_are_over(bench):
    def left(**words):
        found = [it for it in bench.heard("events") if it["camera"] == "left"]
        return [it for it in found if words.items() <= it.items()]

    # A warning that stays until somebody has seen it.
    bench.station.say("given_up", camera="left", frames=3, since="2026-11-22T15:38:00Z")
    bench.station.order("!source left other geometry")
    found = until(lambda: left(kind="given up", is_bad=True, is_over=False), "warning")
    assert "frames were lost" in found[0]["text"]
    until(lambda: bench.newest("cameras/left").get("kind") == "other", "state")
    bench.station.say("room_again", camera="left")
    ids = [it["id"] for it in bench.station.status()["alerts"] if it["kind"] == "given up"]
    bench.station.post("/api/seen", {"ids": ids})
    bench.station.order("!source left on")
    until(lambda: left(kind="given up", is_over=True), "end")
    news = until(lambda: [it for it in bench.heard("events") if it["kind"] == "news"], "news")
    assert any("there is room again" in it["text"] for it in news) and not news[0]["is_bad"]
    until(lambda: bench.newest("cameras/left").get("level") == "good", "state")
