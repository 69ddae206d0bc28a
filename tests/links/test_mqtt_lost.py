"""loop_mqtt where the page, the broker or itself is lost: nothing is lost, and nothing comes
twice."""
import json
import os
import signal
import sqlite3

import pytest
from bench import HERE, Bench
from conftest import until


# One bench serves all tests here.
pytestmark = pytest.mark.xdist_group("lost")


@pytest.fixture(scope="module")
def bench(module):
    """The bench of all tests here. Each leaves it as it was, and has ids and notes of its own."""
    return Bench(module).start()


def archive(folder, **more):
    """Writes a state of the archive, as loop_archive does."""
    found = {"time": "2026-11-22T15:38:00Z", "fault": None, "archived": []}
    found["cameras"] = [{"name": "left", "waiting": 0, "archived": 0, "fault": None,
                         "behind_seconds": 0}]
    (folder / "archive.json.new").write_text(json.dumps(found | more))
    os.rename(folder / "archive.json.new", folder / "archive.json")


def test_an_order_that_came_twice_keeps_once_also_over_a_restart(bench):
    asked = bench.keep("twice")
    first = bench.answer("twice")
    for topic in ("lapyrei/all/keep", f"{HERE}/keep"):
        bench.listener.give(topic, asked)
    until(lambda: len(bench.answers("twice")) == 3, "answers")
    bench.restart()
    bench.listener.give("lapyrei/all/keep", asked)
    until(lambda: len(bench.answers("twice")) == 4, "answer")
    assert all(one == first | {"again": True} for one in bench.answers("twice")[1:])
    until(lambda: bench.kept("[twice]"), "kept")
    bench.keep("other")
    until(lambda: bench.kept("[other]"), "kept")
    assert len(bench.kept("[twice]")) == 1 == len(bench.events("[twice]"))


def test_an_order_waits_for_the_page_and_is_done_once(bench):
    bench.station.end(bench.station.page)
    asked = bench.keep("waits", before=2_000_000)
    until(lambda: [it for it in bench.answers("waits") if it.get("waits")], "that it waits")
    until(lambda: bench.newest("state")["level"] == "bad", "state")
    assert "doesn't answer" in bench.program.printed()
    # A kill in between forgets nothing.
    bench.program.end()
    until(lambda: bench.newest("state")["level"] == "offline", "will")
    bench.station.start_page("--listen", f"127.0.0.1:{bench.station.port}")
    bench.start()
    found = bench.answer("waits")
    assert found["kept"] and found["from_us"] >= asked["from"]
    assert len(bench.events("[waits]")) == 1


def test_an_order_whose_answer_was_lost_isnt_done_again(bench):
    bench.keep("lost")
    first = bench.answer("lost")
    until(lambda: bench.events("[lost]"), "note")
    bench.program.end(signal.SIGTERM)
    # As if it had been killed between the keep and its answer.
    with sqlite3.connect(bench.folder / "loop_mqtt.state") as base:
        base.execute("UPDATE orders SET answer = NULL WHERE id = 'lost'")
        base.execute("DELETE FROM told WHERE key = 'answer lost'")
    bench.start()
    until(lambda: len(bench.answers("lost")) == 2, "answer")
    again = bench.answers("lost")[1]
    assert (again["kept"], again["event"]) == (True, first["event"])
    assert len(bench.events("[lost]")) == 1


def test_what_was_kept_without_a_broker_is_told_once(bench):
    bench.broker.kill()
    until(lambda: "is lost" in bench.program.printed(), "that the broker is lost")
    bench.station.keep(note="quiet 1")
    bench.station.keep(note="quiet 2")
    # The listener is there first: this broker keeps nothing for those who come later.
    bench.program.run.send_signal(signal.SIGSTOP)
    bench.listener.messages.clear()
    bench.listener.ready.clear()
    assert bench.broker.start()
    assert bench.listener.ready.wait(120)
    bench.program.run.send_signal(signal.SIGCONT)
    until(lambda: len(bench.kept("quiet")) == 2, "what was kept meanwhile")
    # The states are there again, too: this broker has forgotten all.
    until(lambda: bench.newest("cameras/left").get("kind"), "state")
    # A restart tells nothing again.
    bench.restart()
    bench.keep("after", note="quiet 3")
    until(lambda: bench.kept("quiet 3"), "kept")
    assert [one["note"] for one in bench.kept("quiet")] == ["quiet 1", "quiet 2", "quiet 3 [after]"]


def test_the_archive_is_told_and_each_clip_once(bench):
    def paths():
        return [it["path"] for it in bench.heard("archived")]

    path = bench.folder / "archive.json"
    clip = {"camera": "left", "path": "a.y4m"}
    archive(bench.folder, archived=[clip])
    until(lambda: bench.newest("archive").get("fault", 0) is None and paths() == ["a.y4m"], "clip")
    archive(bench.folder, fault="no remote", archived=[clip, clip | {"path": "b.y4m"}])
    until(lambda: bench.newest("archive")["fault"] == "no remote", "fault")
    until(lambda: paths() == ["a.y4m", "b.y4m"], "clip")
    # It is released, and still the same.
    clip["is_released"] = True
    # One that is half written changes nothing.
    path.write_text('{"time": "2026-11-22T15:39:00Z", "cam')
    bench.restart()
    clips = [clip, clip | {"path": "b.y4m"}, clip | {"path": "c"}]
    archive(bench.folder, fault="full", archived=clips)
    until(lambda: bench.newest("archive")["fault"] == "full", "fault")
    until(lambda: paths()[-1] == "c", "clip")
    assert paths() == ["a.y4m", "b.y4m", "c"]
