"""Orders that wait: each has an hour of its own; a full list and a restart drop nothing unsaid."""
import json
import queue
import socket
import sqlite3
import threading
import time

import pytest
from conftest import SEVERAL, free_port, until
from station_links import asked, bridge, doing, levels, told, triggers
from station_links.pages import PageFault
from test_answers import EVENTS, KEPT, STATUS, Broker, Said, bridge_of

HOUR = doing.PATIENCE_SECONDS


def keep_of(number, note="run"):
    """An order."""
    return asked.Keep(f"order-{number}", 1, 2, note, None)


class Clock:
    """The clocks, which a test sets."""

    def __init__(self, monkeypatch):
        self.now = 1000.0
        monkeypatch.setattr(doing.time, "monotonic", lambda: self.now)
        monkeypatch.setattr(doing.time, "time", lambda: 10**9 + self.now)


@pytest.fixture
def clock(monkeypatch):
    """The clocks of a test."""
    return Clock(monkeypatch)


class Away(Said):
    """A page that isn't there, until it is."""

    def __init__(self):
        super().__init__({"/api/status": STATUS, "/api/events": EVENTS, "/api/keep": KEPT})
        self.is_there, self.tries = False, 0

    def answer(self, path, body=None, seconds=None):
        """An answer."""
        self.tries += 1
        if not self.is_there:
            raise PageFault("The page is away.")
        return super().answer(path, body, seconds)


def doer_of(page):
    """A doer, what waits, and what is done."""
    waits, done = [], {}
    found = doing.Doer(page, threading.Event(), lambda keep, why: waits.append((keep.id, why)),
                       lambda keep, it: done.update({keep.id: it}))
    return found, waits, done


def test_the_page_is_told_what_gave_an_order_and_when_it_happened(clock):
    page = Said({"/api/status": STATUS, "/api/events": EVENTS, "/api/keep": KEPT})
    doer, _, done = doer_of(page)
    doer.cause = "trigger"
    keep = asked.Keep("door-1", 1, 9_000_000, "door: opened", None, 5_000_000)
    for one, came in ((keep, None), (keep_of("late"), 10**9 + clock.now - 60)):
        doer.add(doing.waiting_of(one, came))
    doer.round()
    assert len(done) == 2
    wanted = [("trigger", "door-1", 5_000_000)]
    # Where nobody says when it happened, it is when the order came, also of an earlier run.
    wanted.append(("trigger", "order-late", int((10**9 + clock.now - 60) * 1e6)))
    assert [(it["cause"], it["by"], it["at"]) for it in page.kept] == wanted


def test_a_trigger_says_the_moment_of_its_first_cause():
    gathered = levels.Gathered("door", 1_000_000, 2_000_000, 5_000_000)
    for moment in (7_000_000, 8_000_000):
        gathered.add(levels.Cause(moment, "opened"))
    keep = gathered.due(9_000_000, 1)
    assert (keep.since, keep.until, keep.moment) == (6_000_000, 10_000_000, 7_000_000)


def test_each_order_waits_an_hour_by_its_own_clock(clock):
    page = Away()
    doer, waits, done = doer_of(page)
    for number in range(3):
        doer.add(doing.waiting_of(keep_of(number)))
        doer.round()
        clock.now += 600
    # One that came two hours ago, and one in the last minutes of an earlier run.
    doer.add(doing.waiting_of(keep_of("old"), 10**9 + clock.now - 2 * HOUR))
    doer.add(doing.waiting_of(keep_of("late"), 10**9 + clock.now - HOUR + 60))
    doer.round()
    assert set(done) == {"order-old"} and done["order-old"]["refused"] == "NoPage"
    assert "may have been kept" in done["order-old"]["text"]
    assert [id_ for id_, _ in waits] == ["order-0", "order-1", "order-2", "order-late"]
    clock.now = 1000.0 + HOUR - 1
    doer.round()
    assert set(done) == {"order-old", "order-late"}
    for number in range(3):
        clock.now = 1000.0 + number * 600 + HOUR
        doer.round()
        assert len(done) == 3 + number and done[f"order-{number}"]["refused"] == "NoPage"
    assert not doer.line and not page.kept


def test_a_page_that_is_away_is_asked_once_for_all_that_wait(clock):
    page = Away()
    doer, _, done = doer_of(page)
    for number in range(100):
        doer.add(doing.waiting_of(keep_of(number)))
    doer.round()
    assert page.tries == 1
    page.is_there = True
    doer.round()
    assert len(done) == 100 and all(it["kept"] for it in done.values())
    assert len(page.kept) == 100


def test_an_order_whose_hour_is_over_may_have_been_kept_before(clock):
    page = Away()
    page.is_there = True
    mark = EVENTS["events"][0] | {"note": "run [order-1]"}
    page.said["/api/events"] = json.dumps({"events": [mark]}).encode()
    doer, _, done = doer_of(page)
    for number in range(2):
        doer.add(doing.waiting_of(keep_of(number), 10**9 + clock.now - 2 * HOUR))
    doer.round()
    assert done["order-1"]["kept"] and done["order-0"]["refused"] == "NoPage"
    assert not page.kept


def test_an_order_whose_answer_was_lost_is_looked_for_before_it_is_done_again(clock, monkeypatch):
    page = Away()
    page.is_there = True

    def keep(*words):
        mark = EVENTS["events"][0] | {"note": words[2]}
        page.said["/api/events"] = json.dumps({"events": [mark]}).encode()
        page.kept.append(words)
        raise PageFault("The page broke off.")

    monkeypatch.setattr(page, "keep", keep)
    doer, _, done = doer_of(page)
    doer.add(doing.waiting_of(keep_of(0)))
    for _ in range(2):
        doer.round()
    assert done["order-0"]["kept"] and len(page.kept) == 1


def test_orders_are_taken_for_all_and_for_this_station_alone(tmp_path):
    (tmp_path / "a.toml").write_text(f'station = "one"\nprefix = "lab"\nstate = "{tmp_path}/s"\n')
    link = bridge.Bridge(bridge.read_words(str(tmp_path / "a.toml")), print)
    assert link.broker.topics == ["lab/all/keep", "lab/one/keep"]


def test_a_clock_that_was_set_back_makes_no_longer_hour(clock):
    it = doing.waiting_of(keep_of(0), 10**9 + clock.now + 10 * HOUR)
    assert it.end == clock.now + HOUR


def test_a_fault_of_ours_holds_up_no_other_order(clock, monkeypatch):
    page = Away()
    page.is_there = True
    plain = page.keep
    monkeypatch.setattr(page, "keep", lambda *words: {}[1] if "bad" in words[2] else plain(*words))
    doer, _, done = doer_of(page)
    for number, note in enumerate(("bad", "run")):
        doer.add(doing.waiting_of(keep_of(number, note)))
    doer.round()
    assert done["order-0"]["refused"] == "Failed" and done["order-1"]["kept"]


# -------------------------------------------------------------------------------------- full lists


def test_a_full_list_refuses_by_a_name_and_drops_no_order(tmp_path, monkeypatch):
    monkeypatch.setattr(told, "ORDERS", 3)
    link = bridge_of(tmp_path, Away())
    for number in range(5):
        order = {"id": f"order-{number}", "from": 1, "to": 2}
        link.take("", json.dumps(order).encode(), False)
    refused = [found for topic, found in link.broker.given if topic.endswith("answers")]
    assert [(it["id"], it["refused"]) for it in refused] == [
        ("order-3", "TooMany"), ("order-4", "TooMany")]
    again = told.Memory(str(tmp_path / "state"), print)
    assert [id_ for id_, _ in again.open_orders()] == ["order-0", "order-1", "order-2"]


def test_a_restart_with_a_smaller_list_drops_no_order_that_waits(tmp_path, monkeypatch):
    path = str(tmp_path / "state")
    memory = told.Memory(path, print)
    for number in range(6):
        memory.begin(f"order-{number}", "[1, 2, \"\", null]")
    for number in (0, 4):
        memory.answer(f"order-{number}", "{}")
    monkeypatch.setattr(told, "ORDERS", 2)
    again = told.Memory(path, print)
    assert [id_ for id_, _ in again.open_orders()] == [f"order-{n}" for n in (1, 2, 3, 5)]
    assert not again.answers()


def test_an_answer_that_was_not_told_is_not_forgotten(tmp_path, monkeypatch):
    monkeypatch.setattr(told, "ORDERS", 2)
    memory = told.Memory(str(tmp_path / "state"), print, bridge.answered)
    for number in range(2):
        memory.begin(f"order-{number}", "[]")
        memory.answer(f"order-{number}", "{}")
    with pytest.raises(told.Full, match="2 orders wait"):
        memory.begin("order-2", "[]")
    memory.add([bridge.answered("order-1")])
    memory.begin("order-2", "[]")
    assert set(memory.orders) == {"order-0", "order-2"}


def test_events_wait_for_the_broker_over_a_restart_and_each_is_told_once(tmp_path):
    link = bridge_of(tmp_path, Away())
    link.broker.is_up = False
    for number in range(3):
        link.event(number, {"kind": f"kind {number}", "camera": None, "text": ""})
    link.tell_events()
    assert not link.broker.given
    link = bridge_of(tmp_path, Away())
    link.tell_events()
    link.tell_events()
    assert [found["kind"] for _, found in link.broker.given] == ["kind 0", "kind 1", "kind 2"]
    # Two have arrived, and are written down so.
    link.broker.acknowledged = queue.SimpleQueue()
    for mid in (1, 2):
        link.broker.acknowledged.put(mid)
    threading.Thread(target=link.settle, daemon=True).start()
    until(lambda: len(link.memory.events) == 1, "word of both")
    link = bridge_of(tmp_path, Away())
    link.tell_events()
    assert [found["kind"] for _, found in link.broker.given] == ["kind 2"]


def test_events_that_find_no_room_are_counted_and_that_is_told(tmp_path, monkeypatch):
    monkeypatch.setattr(bridge, "EVENTS", 2)
    monkeypatch.setattr(told, "EVENTS", 2)
    link, lines = bridge_of(tmp_path, Away()), []
    link.tell, link.broker.is_up = lines.append, False
    for number in range(5):
        link.event(number, {"kind": f"kind {number}", "camera": None, "text": ""})
    assert lines == ["2 events wait for the broker: further ones are counted alone"]
    link = bridge_of(tmp_path, Away())
    link.tell_events()
    for number in list(link.memory.events):
        link.memory.event_told(number)
    link.flying.clear()
    link.tell_events()
    link.tell_events()
    found = [(it["kind"], it["text"]) for _, it in link.broker.given]
    assert found[2:] == [("dropped", "3 events weren't told: 2 waited for the broker.")]


def test_warnings_that_are_over_after_a_restart_are_told(tmp_path):
    link, later = bridge_of(tmp_path, Away()), time.time() + 99
    link.show_events(STATUS | {"news": [{"time": later, "text": "room again"}]})
    link.tell_events()
    assert [(it["kind"], it["is_over"]) for _, it in link.broker.given] == [
        ("dark", False), ("news", False)]
    for number in list(link.memory.events):
        link.memory.event_told(number)
    link = bridge_of(tmp_path, Away())
    link.show_events(STATUS | {"news": [{"time": later, "text": "room again"},
                                        {"time": later + 9, "text": "later"}]})
    link.show_events(STATUS | {"alerts": []})
    link.tell_events()
    told_ = [(it["kind"], it["is_over"], it["text"]) for _, it in link.broker.given]
    # The same warning isn't told again, and the same news neither.
    assert told_ == [("news", False, "later"), ("dark", True, "It is dark.")]


def test_a_state_of_an_older_version_is_read(tmp_path):
    with sqlite3.connect(tmp_path / "state") as base:
        base.execute("CREATE TABLE orders"
                     " (id TEXT PRIMARY KEY, words TEXT NOT NULL, answer TEXT, came REAL NOT NULL)")
        base.execute("CREATE TABLE told (key TEXT PRIMARY KEY)")
        base.execute("INSERT INTO orders VALUES ('order-0', '[1, 2, \"\", null]', NULL, 5.0)")
    memory = told.Memory(str(tmp_path / "state"), print)
    assert [id_ for id_, _ in memory.open_orders()] == ["order-0"]


# ---------------------------------------------------------------------------------------- triggers


def triggers_of(tmp_path, *lines, stations=True):
    """A loop_trigger without a broker of its own, and what it says."""
    text = 'stations = "all"\n[broker]\n' if stations else ""
    (tmp_path / "a.trigger").write_text(
        f'state = "{tmp_path}/a.state"\n{text}[[trigger]]\nname = "shot"\nkind = "udp"\n'
        'listen = "127.0.0.1:1"\nrest = 0\n' + "\n".join(lines))
    said = []
    found = triggers.Triggers(triggers.read_words(str(tmp_path / "a.trigger")), said.append)
    found.broker = Broker()
    found.broker.place = lambda: "nowhere"
    return found, said


def test_a_keep_waits_an_hour_for_the_broker_and_that_is_told(tmp_path, clock):
    it, said = triggers_of(tmp_path)
    it.broker.is_up = False
    it.begin(keep_of(0))
    for _ in range(2):
        it.publish_one(it.line[0])
    assert said == ["order-0 waits: the broker nowhere isn't there"]
    clock.now += HOUR
    it.publish_one(it.line[0])
    assert said[1:] == ["order-0 NOT kept: NoBroker It has waited an hour for the broker."]
    assert not it.line and not it.memory.open_orders()
    it.broker.is_up = True
    it.begin(keep_of(1))
    for _ in range(2):
        it.publish_one(it.line[0])
    assert [found["id"] for _, found in it.broker.given] == ["order-1"]
    # Over a restart it is given again: nobody has said that it arrived.
    again, _ = triggers_of(tmp_path)
    again.publish_one(again.line[0])
    assert [found["id"] for _, found in again.broker.given] == ["order-1"]


def test_keeps_that_find_no_room_are_told(tmp_path, monkeypatch):
    monkeypatch.setattr(told, "ORDERS", 1)
    it, said = triggers_of(tmp_path, stations=False)
    for number in range(2):
        it.begin(keep_of(number, f"cause {number}"))
    assert said == ["order-1 NOT kept: TooMany 1 orders wait: cause 1"]
    assert [id_ for id_, _ in it.memory.open_orders()] == ["order-0"]


def test_packets_that_were_dropped_are_told(tmp_path):
    it, said = triggers_of(tmp_path)
    source = it.words.triggers[0].source
    for number in range(70):
        source.senders.put("10.0.0.9", (b"x", number))
    it.say_what_was_lost()
    assert said == ["shot lost: 6 times, the last one: a packet of 10.0.0.9 was dropped: "
                    "more came than can be looked at"]


def test_a_flood_of_one_sender_stops_no_other_trigger(tmp_path, begin):
    """Packets that no pattern ends quickly at, from one sender, and one from another."""
    ports = [free_port(socket.SOCK_DGRAM) for _ in range(2)]
    table = '[[trigger]]\nname = "{}"\nkind = "udp"\nlisten = "127.0.0.1:{}"\nmatch = "{}"\n'
    (tmp_path / "a.trigger").write_text(
        'page = "http://127.0.0.1:1"\n' + table.format("slow", ports[0], "*a" * 90 + "b")
        + table.format("quick", ports[1], "go*"))
    program = begin(SEVERAL / "loop_trigger", "a.trigger")
    until(lambda: "triggers" in program.printed(), "program")
    over = threading.Event()

    def flood():
        with socket.socket(socket.AF_INET, socket.SOCK_DGRAM) as one:
            while not over.wait(0.001):
                for port in ports:
                    one.sendto(b"a" * 9000, ("127.0.0.1", port))

    thread, begun = threading.Thread(target=flood, daemon=True), time.monotonic()
    thread.start()
    try:
        def sent():
            with socket.socket(socket.AF_INET, socket.SOCK_DGRAM) as one:
                one.bind(("127.0.0.2", 0))
                one.sendto(b"go 1", ("127.0.0.1", ports[1]))
            return "UDP from 127.0.0.2 'go 1'" in program.printed()

        until(sent, "cause")
        time.sleep(3)
    finally:
        over.set()
        thread.join(60)
    lines = [it for it in program.printed().splitlines() if "UDP" in it or "lost" in it]
    # One a second, as long as it took up to here.
    assert len(lines) <= time.monotonic() - begun + 2
