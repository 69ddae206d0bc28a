"""Events that are looked for, and reports of warnings."""
import asyncio
import json
import socketserver
import sys
import threading
import types

import pytest
from neighbour import EVENT
from station_page import alerts as alerts_of
from station_page import limits, reports
from station_page.alerts import Alerts
from station_page.journal import Journal
from station_page.search import Search, search_in
from station_page.settings import BadSettings
from station_page.words import Event, Unfit

SECOND = 1_000_000
EVENTS = [
    EVENT | {"key": "a", "note": "Run 7", "cameras": ["left"], "lacks": [], "from_us": 0,
             "to_us": 10 * SECOND, "cause": {"kind": "press", "who": "Ann", "at_us": 1}},
    EVENT | {"key": "b", "note": "", "cameras": ["north:top"], "tag": 7, "from_us": 20 * SECOND,
             "to_us": 30 * SECOND, "lacks": [], "lost": 3, "cause": None},
    EVENT | {"key": "c", "note": "straße", "cameras": ["left", "right"], "from_us": 40 * SECOND,
             "to_us": 50 * SECOND, "cause": {"kind": "mqtt", "who": "run-8", "at_us": 1}},
]


@pytest.mark.parametrize(
    "query, keys",
    [
        ({}, "abc"),
        ({"text": "run"}, "ac"),
        ({"text": " RUN 7 "}, "a"),
        ({"text": "STRASSE"}, "c"),
        ({"text": "north"}, "b"),
        ({"text": "ann"}, "a"),
        ({"text": "none"}, ""),
        ({"camera": "left"}, "ac"),
        ({"camera": "lef"}, ""),
        ({"tag": "7"}, "b"),
        ({"tag": "0"}, "ac"),
        ({"cause": "mqtt"}, "c"),
        ({"from": "30000000"}, "bc"),
        ({"from": "30000001"}, "c"),
        ({"to": "20000000"}, "ab"),
        ({"to": "19999999"}, "a"),
        ({"from": "1970-01-01T00:00:05Z", "to": "1970-01-01T00:00:06Z"}, "a"),
        ({"lost": "1"}, "bc"),
        ({"lost": "0"}, "a"),
        ({"count": "2"}, "ab"),
        ({"count": "0"}, ""),
        ({"camera": "left", "text": "run", "cause": "press", "of": "this"}, "a"),
    ],
)
def test_an_event_is_found_by_each_word_and_by_all_together(query, keys):
    assert "".join(it["key"] for it in search_in(query).found(EVENTS)) == keys


@pytest.mark.parametrize(
    "query",
    [{"tag": "x"}, {"from": "noon"}, {"to": "-1"}, {"lost": "2"}, {"count": "x"}, {"word": "1"},
     {"tag": str(2**64)}],
)
def test_what_cannot_be_looked_for_is_refused(query):
    with pytest.raises(Unfit):
        search_in(query)


def test_an_event_of_an_older_page_has_no_cause():
    old = {key: it for key, it in EVENT.items() if key not in ("cause", "lost")}
    assert Search().fits(old) and not Search(cause="press").fits(old)


def test_events_are_found_and_disks_are_told_by_the_page(make):
    lab = make().filmed()
    lab.keep(note="run 7")
    lab.keep(note="other")
    found = lab.ask("/api/events?text=RUN&camera=left").json()["events"]
    assert [it["note"] for it in found] == ["run 7"]
    assert lab.ask("/api/events?more=1").status == 400
    disk = lab.until(lambda: lab.ask("/api/disks").json()["disks"].get("left"), "figures")
    assert 0 < disk["free_bytes"] <= disk["disk_bytes"] and disk["writes"] > 0
    assert 0 < disk["left_seconds"] < 256 * 64 / 100


# ------------------------------------------------------------------------------------------ reports


class Post(socketserver.ThreadingTCPServer):
    """A server for mail, and the mails that came."""

    allow_reuse_address, daemon_threads = True, True

    def __init__(self):
        self.mails = []
        post = self

        class Handler(socketserver.StreamRequestHandler):
            def handle(self):
                self.wfile.write(b"220 here\r\n")
                while line := self.rfile.readline():
                    word = line[:4].upper()
                    if word == b"DATA":
                        self.wfile.write(b"354 go on\r\n")
                        lines = list(iter(self.rfile.readline, b".\r\n"))
                        post.mails.append(b"".join(lines).decode())
                    if word == b"QUIT":
                        self.wfile.write(b"221 bye\r\n")
                        return
                    self.wfile.write(b"250 ok\r\n")

        super().__init__(("127.0.0.1", 0), Handler)
        threading.Thread(target=self.serve_forever, daemon=True).start()


def test_a_warning_is_mailed_again_until_somebody_takes_notice(monkeypatch):
    monkeypatch.setattr(limits, "REMIND_SECONDS", 0.01)
    post = Post()
    own = {"mail": {"to": ["lab@example.org"], "server": f"127.0.0.1:{post.server_address[1]}"}}
    ways = reports.reports_in(own, "Hall 3", "page.toml")

    async def look():
        alerts = Alerts([], None, Journal(), ways, 0.2)
        tasks = [asyncio.create_task(it) for it in (alerts.deliver(), alerts.again())]
        alerts.add(Event("silent", "left", True, "left: no new frames come.\r\nBcc: x@y"))
        while len(post.mails) < 3:
            await asyncio.sleep(0.02)
        alerts.seen(1)
        while not any("Seen: " in it for it in post.mails):
            await asyncio.sleep(0.02)
        count = len(post.mails)
        await asyncio.sleep(0.6)
        for task in tasks:
            task.cancel()
        return count, alerts

    count, alerts = asyncio.run(asyncio.wait_for(look(), 120))
    assert count == len(post.mails) and not alerts.not_told
    first, second = post.mails[:2]
    assert "Subject: Hall 3: left: no new frames come." in first
    assert "To: lab@example.org" in first and "\r\nBcc:" not in first
    assert "Subject: Hall 3: Still not seen: " in second
    post.shutdown()
    post.server_close()


def test_a_mail_that_cannot_be_sent_is_written_down():
    own = {"mail": {"to": "lab@example.org", "server": "127.0.0.1:1"}}
    journal = Journal()

    async def look():
        alerts = Alerts([], None, journal, reports.reports_in(own, "a", "page.toml"))
        task = asyncio.create_task(alerts.deliver())
        alerts.add(Event("silent", "left", True, "left: no frames."))
        while not journal.entries:
            await asyncio.sleep(0.02)
        task.cancel()

    asyncio.run(asyncio.wait_for(look(), 120))
    said = journal.entries[0].text
    assert "mail failed" in said and "left: no frames." in said


def test_a_warning_is_published_with_what_became_of_it(monkeypatch):
    told = []
    fake = types.SimpleNamespace(single=lambda *words, **more: told.append((words, more)))
    monkeypatch.setitem(sys.modules, "paho", types.ModuleType("paho"))
    monkeypatch.setitem(sys.modules, "paho.mqtt", types.SimpleNamespace(publish=fake))
    monkeypatch.setitem(sys.modules, "paho.mqtt.publish", fake)
    own = {"mqtt": {"server": "127.0.0.1:1884", "user": "page", "password": "secret"}}
    (way,) = reports.reports_in(own, "hall", "page.toml")
    alert = alerts_of.Alert(3, 5.0, "silent", "left", "left: no frames.", 2)
    for what in ("began", "seen"):
        asyncio.run(way.tell(alert, what))
    (words, more), (seen, _) = told
    assert words[0] == "lapyrei/hall/alarms" and more["qos"] == 1 and more["port"] == 1884
    assert more["auth"] == {"username": "page", "password": "secret"}
    found = json.loads(words[1])
    assert found == {"station": "hall", "what": "began", "id": 3, "time": 5.0, "kind": "silent",
                     "camera": "left", "text": "left: no frames.", "times": 2}
    assert json.loads(seen[1])["what"] == "seen"


@pytest.mark.parametrize(
    "own",
    [
        {"mail": {}},
        {"mail": "lab@example.org"},
        {"mail": {"to": []}},
        {"mail": {"to": ["a\nb"]}},
        {"mail": {"to": "a", "from": ["b", "c"]}},
        {"mail": {"to": "a", "server": "x:0"}},
        {"mail": {"to": "a", "server": "x:y"}},
        {"mail": {"to": "a", "password": "x"}},
        {"mqtt": {"topic": "a/#"}},
        {"mqtt": {"broker": "x"}},
        {"mqtt": 7},
    ],
)
def test_reports_that_cannot_be_are_refused(own):
    with pytest.raises(BadSettings, match="page.toml: "):
        reports.reports_in(own, "a", "page.toml")


def test_a_time_to_remind_is_some_seconds():
    assert reports.remind_in({}, "p") == 0 and reports.remind_in({"remind": 600}, "p") == 600.0
    for wrong in (-1, "600", True, 1.5, 86_401):
        with pytest.raises(BadSettings):
            reports.remind_in({"remind": wrong}, "p")


def test_commands_are_told_of_warnings_and_not_of_those_who_see_them():
    alerts = Alerts(["mail"], None, Journal())
    alerts.add(Event("silent", "left", True, "x"))
    alerts.seen(1)
    assert alerts.queue.qsize() == 1
