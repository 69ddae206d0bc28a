"""The events of many stations as one list: the same as by a look at all pairs, in a time that grows
with their number, kept between calls, and beside the loop that answers requests."""
import asyncio
import contextlib
import itertools
import json
import random
import struct
import threading
import time
import types

import pytest
from conftest import until
from neighbour import EVENT, Neighbour, message
from station_page import limits, together
from station_page.events import NEAR_END, NEAR_START
from station_page.settings import OtherStation
from station_page.stations import Stations
from station_page.together import Joined, Presses
from test_push import Open
from test_stations import LEFT, event, names_of, settings_of

SECOND = 1_000_000


def slow_groups(events, presses):
    """Which cameras are together, by a look at all pairs: the nearest group that has an event of
    one span, and none of the same station."""
    groups = []

    def period(one):
        return max(
            (it["to_us"] - it["from_us"]) / max(1, it["frames"] - 1) for it in one["clips"]
        )

    def near(one, other):
        slack = 2 * max(period(one), period(other))
        return (
            abs(one["from_us"] - other["from_us"]) <= NEAR_START + slack
            and abs(one["to_us"] - other["to_us"]) <= NEAR_END + slack
            and one["tag"] == other["tag"]
        )

    for station, one in events:
        press = presses.of(station, one["number"])
        if press:
            of_press = [it for it in groups if it["press"] == press]
            found = of_press[-1] if of_press and station not in of_press[-1]["of"] else None
        else:
            free = [
                (min(abs(one["from_us"] - it["from_us"]) for it in fit), group)
                for group in groups
                if not group["press"] and station not in group["of"]
                if (fit := [it for it in group["of"].values() if near(one, it)])
            ]
            found = min(free, key=lambda it: it[0], default=(0, None))[1]
        if found is None:
            groups.append(found := {"press": press, "of": {}})
        found["of"][station] = one
    return sorted(sorted(it["key"] for it in group["of"].values()) for group in groups)


def said_of(events):
    """The events by their station, as `Joined` takes them."""
    said = {}
    for station, one in events:
        said.setdefault(station, (None, []))[1].append(one)
    return said


def read_on(page):
    """Reads what an open page is sent, until that ends."""
    with contextlib.suppress(OSError, ValueError, AttributeError, struct.error):
        while True:
            page.message()


def named(station, number, since, until_, tag=0, frames=101, of=None):
    """An event of a station with a key of its own."""
    found = event(f"{station or 'own'}{number}", since, until_, of, tag)
    found["clips"][0]["frames"] = frames
    return found


def test_the_events_that_are_joined_are_those_of_a_look_at_all_pairs():
    luck = random.Random(7)
    for turn in range(60):
        presses, events = Presses(99), []
        for number in range(4):
            presses.add([(name, 100 + number) for name in ("", "n", "s")[: luck.randint(2, 3)]])
        for station in ("", "n", "s", "w"):
            for number in range(12):
                since = luck.randrange(40) * SECOND // 4 + luck.randrange(1000)
                lasts = luck.choice((1, 1, 5, 20)) * SECOND + luck.randrange(1000)
                of = luck.choice((None, None, 100 + luck.randrange(6)))
                frames = luck.choice((2, 5, 101))
                events.append(
                    (station, named(station, number, since, since + lasts, turn % 2, frames, of))
                )
        found = Joined(presses).join(said_of(events))[0]
        assert sorted(sorted(it["key"].split("~")) for it in found) == slow_groups(events, presses)


def test_what_is_joined_step_by_step_is_what_is_joined_at_once():
    """Whatever was kept of the steps before: events come, change and go."""
    luck, joined, said = random.Random(5), Joined(Presses(9)), {}
    for _ in range(150):
        own = list(said.setdefault(luck.choice(("", "n", "s")), (None, []))[1])
        station = next(name for name, (_, events) in said.items() if events == own)
        what = luck.randrange(4)
        if own and not what:
            own.pop(luck.randrange(len(own)))
        elif own and what == 1:
            at = luck.randrange(len(own))
            own[at] = own[at] | {"to_us": own[at]["from_us"] + luck.choice((1, 5)) * SECOND}
        else:
            since = luck.randrange(40) * SECOND // 4
            lasts = luck.choice((1, 5)) * SECOND
            own.append(named(station, luck.randrange(10**6), since, since + lasts))
        said[station] = None, own
        assert joined.join(said) == Joined(Presses(9)).join(said)


def test_an_event_is_near_through_any_one_of_a_group():
    """The second reaches the third, and the first doesn't."""
    spans = [("", 0), ("n", 100_000), ("s", 200_000)]
    events = [(it, named(it, 0, at, at + 10 * SECOND, frames=10_001)) for it, at in spans]
    (found,) = Joined(Presses(9)).join(said_of(events))[0]
    assert len(found["cameras"]) == 3 and found["to_us"] == 10 * SECOND + 200_000


def test_an_event_that_is_near_two_makes_no_one_of_them():
    """The second begins too long after the first, and the third between them: it joins the first,
    by the stations' order."""
    spans = [("", 0), ("n", 150_000), ("s", 75_000)]
    events = [(it, named(it, 0, at, at + 10 * SECOND, frames=10_001)) for it, at in spans]
    found = Joined(Presses(9)).join(said_of(events))[0]
    assert sorted(it["key"] for it in found) == ["n0.0.0", "own0.0.0~s0.0.0"]


@pytest.mark.parametrize("apart, most", [(60 * SECOND, 2), (0, limits.NEAR_TRIES)])
def test_few_pairs_are_looked_at_however_many_events_there_are(monkeypatch, apart, most):
    """Each event beside its nearest ones alone: also where all begin at one time, and none is of
    the span of another."""
    count, plain = itertools.count(), together.are_near
    monkeypatch.setattr(
        together, "are_near", lambda one, other: next(count) < 0 or plain(one, other)
    )
    events = []
    for place in range(8):
        for number in range(200):
            since = number * apart
            lasts = SECOND * (number + 1) if apart else 10 * SECOND * (number * 8 + place + 1)
            one = named(f"s{place}", number, since, since + lasts, frames=10_001)
            events.append((f"s{place}", one))
    Joined(Presses(9)).join(said_of(events))
    assert next(count) <= most * len(events)


def test_what_was_joined_is_kept_until_a_station_says_something_else(monkeypatch):
    made, plain = [], together.one_of
    monkeypatch.setattr(together, "one_of", lambda events: made.append(events) or plain(events))
    other = types.SimpleNamespace(name="n")
    own = [named("", number, number * 60 * SECOND, number * 60 * SECOND + SECOND)
           for number in range(50)]
    joined = Joined(Presses(9))
    first = joined.join({"": (None, own), "n": (other, own)})
    assert len(made) == 50 and all(len(it) == 2 for it in made)
    # The same text, as it is read again.
    again = json.loads(json.dumps(own))
    assert joined.join({"": (None, own), "n": (other, again)}) == first and len(made) == 50
    again = [it | {"note": "new"} if place == 7 else it for place, it in enumerate(again)]
    events, body = joined.join({"": (None, own), "n": (other, again)})
    assert len(made) == 51 and [it["note"] for it in events].count("new") == 1
    assert json.loads(body) == events


def test_what_a_station_says_is_prepared_as_it_comes(monkeypatch):
    """What it alone needs is done then, and not once all are joined."""
    made, plain = [], together.known
    monkeypatch.setattr(
        together, "known", lambda other, event: made.append(event) or plain(other, event)
    )
    console = types.SimpleNamespace(push=types.SimpleNamespace(), listed=[])
    names = [OtherStation(name, "http://127.0.0.1:1", None) for name in ("n", "s")]
    gate = types.SimpleNamespace(settings=types.SimpleNamespace(stations=names, notes=""))
    page = types.SimpleNamespace(laboratory=None, console=console, gate=gate)
    stations = Stations(page)
    own = [EVENT | {"key": f"left.0.{n}", "from_us": n * SECOND, "to_us": n * SECOND + 1}
           for n in range(20)]
    for other in stations.others:
        other.take("events", json.dumps(own).encode())
    assert len(made) == 40
    found, _ = stations.join.join(stations.said())
    assert len(made) == 40 and len(found) == 20
    assert all({it["camera"] for it in event["clips"]} == {"n:left", "s:left"} for event in found)


def test_pages_are_sent_what_was_joined_before_while_events_are_joined():
    """The loop that answers requests goes on meanwhile."""
    let_go, joins = threading.Event(), []
    own = [named("", 0, 0, SECOND)]

    async def look():
        local = [(1, "state", b'{"cameras": [], "alerts": []}'), (b"x", "events", b"[]")]
        console = types.SimpleNamespace(
            push=types.SimpleNamespace(), listed=own, state=lambda: local
        )
        gate = types.SimpleNamespace(settings=types.SimpleNamespace(stations=[], notes=""))
        page = types.SimpleNamespace(laboratory=None, console=console, gate=gate)
        stations, plain = Stations(page), Joined(Presses(9)).join

        def join(said):
            joins.append(len(said[""][1]))
            assert let_go.wait(60)
            return plain(said)

        stations.join.join = join
        begun = time.monotonic()
        assert [it[1] for it in stations.state()] == ["state"]
        while time.monotonic() < begun + 0.3:
            await asyncio.sleep(0.01)
            stations.state()
        assert joins == [1]
        let_go.set()
        await stations.joining
        assert json.loads({it[1]: it[2] for it in stations.state()}["events"]) == own
        # Nothing new: nothing is joined.
        await stations.joined()
        assert joins == [1]
        console.listed = [*own, named("", 1, 60 * SECOND, 61 * SECOND)]
        assert len(await stations.joined()) == 2 and joins == [1, 2]

    asyncio.run(look())


def test_many_events_of_other_stations_hold_up_neither_the_page_nor_a_keep(make):
    """Four stations of 500 events, of which each says another one every second. In one of many
    times: a machine that is busy with others takes longer now and then."""
    neighbours = [Neighbour() for _ in range(4)]
    try:
        for neighbour in neighbours:
            count = itertools.count(500)
            events = [
                EVENT
                | {"key": f"left.{n % 64}.{n}", "number": None, "from_us": n * 20 * SECOND,
                   "to_us": n * 20 * SECOND + 450_000}
                for n in range(500)
            ]
            neighbour.stream.append(message("events", events))
            neighbour.again.append(
                lambda events=events, count=count: message(
                    "events", [EVENT | {"key": f"left.1.{next(count)}"}, *events]
                )
            )
        hub = make(page=False, cameras=[LEFT])
        settings_of(hub.folder, *((f"n{n}", it.port) for n, it in enumerate(neighbours)))
        hub.start_page("--settings", "page.toml")
        hub.until(lambda: len(names_of(hub)) == 5, "cameras")
        hub.filmed(30)
        hub.until(lambda: len(hub.ask("/api/events").json()["events"]) > 500, "events")
        page = Open(hub)
        threading.Thread(target=read_on, args=(page,), daemon=True).start()

        def took(work):
            begun = time.monotonic()
            work()
            return time.monotonic() - begun

        def is_quick():
            waits = [took(lambda: hub.ask("/healthz")) for _ in range(20)]
            waits.append(took(lambda: hub.keep(camera="left")))
            return max(waits) < 1

        until(is_quick, "quick answers")
        page.close()
    finally:
        for neighbour in neighbours:
            neighbour.close()
