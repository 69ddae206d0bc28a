"""The tests' station prints what docs/reference.md says of the true one's lines."""
import json
import time

import fake_station
import pytest
from station_page import words
from test_words import documented

FRONT = {"time", "label", "kind"}


@pytest.fixture
def station(tmp_path, monkeypatch):
    """A station with two cameras, of which one keeps on, and the lines that it prints."""
    monkeypatch.chdir(tmp_path)
    (tmp_path / "station.toml").write_text(
        'orders = "orders"\nanswers_form = "json"\n'
        '[[camera]]\nname = "left"\nstore = "left.loop"\npattern = "8x6 GREY 25:1"\nsegments = '
        "3\nslots = 16\n"
        '[[camera]]\nname = "right"\nstore = "right.loop"\npattern = "8x6 GREY 25:1"\ntag = 7\n'
        "after = 5\n"
    )
    (tmp_path / "orders").touch()
    one, lines = fake_station.Station("station.toml"), []
    monkeypatch.setattr(one, "write", lines.append)
    for film in one.films.values():
        # It films two seconds at once, with a hole.
        film.due -= 3_000_000
        for _ in range(25):
            film.due += film.period * (film.next == 12) * 12
            film.film()
    one.lines = lines
    yield one


def give(station, *orders):
    """The lines after some orders, each as it is printed."""
    station.lines.clear()
    for order in orders:
        station.take(order)
    return [json.loads(line) for line in station.lines]


def test_each_line_has_the_members_of_its_kind(station):
    lines = give(
        station,
        "@me keep left 1",
        "keep right 5",
        "keep left 600",
        "keep left from 1970-01-01T00:00:00Z to 1970-01-01T00:00:01Z",
        "keep none 1",
        "status",
        "@me release left 0",
        "release left 9",
        "nonsense",
        "!absent left NoRoom",
        "status",
        "keep left 1",
        "!there left",
        "!saving left",
        "release left 0",
        "!making right 25",
        "status",
        "release none 0",
    )
    now = int(time.time() * 1e6)
    station.lines.clear()
    station.growing = [(name, since, now, *more) for name, since, _, *more in station.growing]
    station.go_on()
    lines += [json.loads(line) for line in station.lines]
    kinds = {line["kind"] for line in lines}
    assert kinds > {
        "kept",
        "kept_none",
        "held",
        "gap",
        "event_begun",
        "released",
        "refused",
        "status",
    }
    assert kinds > {"absent", "no_camera", "bad_order", "saving", "status_making", "done"}
    assert kinds & {"event_whole", "event_not_whole"}
    for line in lines:
        assert list(line)[: len(FRONT & set(line))] == [
            it for it in ("time", "label", "kind") if it in line
        ]
        needed = {it.lstrip("#~@") for it in words.MEMBERS[line["kind"]] if not it.startswith("?")}
        known = documented()[line["kind"]]
        assert needed <= set(line) - FRONT <= known, line
        assert words.read_line(json.dumps(line)), line


def test_a_labelled_answer_ends_with_done_and_each_of_its_lines_has_the_label(station):
    lines = give(station, "@me keep 1", "status")
    ends = [place for place, line in enumerate(lines) if line["kind"] == "done"]
    assert len(ends) == 1 and {line.get("label") for line in lines[: ends[0] + 1]} == {"me"}
    assert all("label" not in line for line in lines[ends[0] + 1 :])


def test_a_tag_is_told_where_it_is_one_of_yours(station):
    kept = {line["camera"]: line for line in give(station, "keep 1") if line["kind"] == "kept"}
    assert "tag" not in kept["left"] and kept["right"]["tag"] == 7
    assert kept["left"]["event"] == kept["right"]["event"] >= 10**15


def test_a_release_that_names_another_first_frame_releases_nothing(station):
    (kept,) = [line for line in give(station, "keep left 1") if line["kind"] == "kept"]
    (line,) = give(station, f"release left {kept['id']} {kept['first'] + 1}")
    assert (line["kind"], line["first"]) == ("not_released", kept["first"] + 1)
    assert set(line) - FRONT == documented()["not_released"]
