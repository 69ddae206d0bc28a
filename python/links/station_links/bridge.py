"""loop_mqtt: a station at an MQTT broker. Orders come from there and are given to the station's
page; what the page shows is published: states, what happened, and what was kept."""
import json
import threading
import time
from dataclasses import dataclass, replace

from . import asked, moments
from .broker import TOPIC, Broker, BrokerWords, broker_words
from .doing import Doer, page_words, span_of, waiting_of
from .pages import Page, PageFault
from .settings import BadSettings, Words, words_of
from .standing import States, archive_in
from .threads import kept_running
from .told import EVENTS, Full, Memory

# So long an event has to be seen unchanged before it is told: its note and the clips of other
# cameras come a moment later.
SETTLED_SECONDS = 2.0


@dataclass(frozen=True)
class MqttWords:
    """The words of loop_mqtt's file."""

    station: str
    prefix: str
    page: Page
    state: str
    archive: str | None
    look: float
    broker: BrokerWords


def read_words(path: str) -> MqttWords:
    """Reads the file."""
    words = words_of(path)
    station = words.name("station")
    if station == "all":
        raise words.bad("station", "a name of its own: `all` means every station")
    broker = words.table_of("broker") or Words({}, f"{path}: broker")
    found = MqttWords(
        station,
        words.text("prefix", "lapyrei", TOPIC, "the beginning of topics").rstrip("/"),
        page_words(words),
        words.text("state", "loop_mqtt.state"),
        words.text("archive", None),
        words.number("look", 0.2, 60, 1.0),
        broker_words(broker),
    )
    words.end()
    return found


class Bridge:
    """A station at a broker. Three threads are at work: the broker's takes orders, one does them,
    and the program's own looks at the page."""

    def __init__(self, words: MqttWords, tell) -> None:
        self.words, self.tell = words, tell
        self.base = f"{words.prefix}/{words.station}"
        self.page = words.page
        self.memory = Memory(words.state, tell, answered)
        topics = [f"{words.prefix}/all/keep", f"{self.base}/keep"]
        self.broker = Broker(words.broker, f"lapyrei-{words.station}", topics, self.take, tell)
        self.states, self.lock = States(self.broker), threading.Lock()
        self.over, self.page_fault = threading.Event(), ""
        self.doer = Doer(self.page, self.over, self.waits, self.done, "mqtt")
        # What an earlier run has left to do.
        for id_, order in self.memory.open_orders():
            self.give(asked.keep_of(id_, order.words), order.came)
        # What is on its way to the broker, by the numbers of its messages: the keys by which it is
        # known, or an event's number.
        self.flying: dict[int, list] = {}
        # Since when each event is as it is; which warnings were seen, also by an earlier run.
        self.events: dict[tuple, tuple[dict, float]] = {}
        self.alerts = {(it["kind"], it["camera"]): it for it in self.memory.get("alerts", [])}
        self.memory.put("news", self.memory.get("news", time.time()))

    # ---------------------------------------------------------------------------------- in general

    def run(self) -> None:
        """Works until it is stopped."""
        self.broker.will(f"{self.base}/state", self.state("offline", "loop_mqtt has no broker."))
        self.broker.start()
        for name, work in (("that writes down", self.settle), ("that keeps", self.doer.run)):
            kept_running(name, work, self.over, self.tell)
        while not self.over.is_set():
            self.look()
            self.over.wait(self.words.look)
        self.leave()

    def leave(self) -> None:
        """Says that it is off, and leaves the broker."""
        if self.broker.is_up:
            found = self.state("offline", "loop_mqtt was stopped.")
            with self.lock:
                mid = self.broker.publish(f"{self.base}/state", found, retain=True)
                if mid is not None:
                    self.flying[mid] = []
            end = time.monotonic() + 2
            while self.flying and time.monotonic() < end:
                time.sleep(0.02)
        self.broker.stop()

    def dressed(self, found: dict) -> dict:
        """An object with the station and the time."""
        now = moments.iso(time.time_ns() // 1000)
        return {"station": self.words.station, "time": now} | found

    def state(self, level: str, text: str) -> dict:
        """How the station stands."""
        return self.dressed({"level": level, "text": text})

    def tell_once(self, keys: list[str], topic: str, found: dict) -> None:
        """Publishes what has to be told once, unless it was told or is on its way."""
        with self.lock:
            flying = {key for ones in self.flying.values() for key in ones}
            if not self.broker.is_up or all(
                key in flying or self.memory.is_told(key) for key in keys
            ):
                return
            mid = self.broker.publish(f"{self.base}/{topic}", found)
            if mid is not None:
                self.flying[mid] = keys

    def settle(self) -> None:
        """Writes down what the broker acknowledges, at once. It may be more than what has to be
        told once."""
        while True:
            mid = self.broker.acknowledged.get()
            with self.lock:
                keys = self.flying.pop(mid, [])
                if numbers := [it for it in keys if isinstance(it, int)]:
                    self.memory.event_told(numbers[0])
                elif keys:
                    self.memory.add(keys)

    # -------------------------------------------------------------------------------------- orders

    def take(self, _topic: str, payload: bytes, _is_old: bool) -> None:
        """An order has come. It is written down before it is acknowledged."""
        try:
            keep = asked.keep_in(payload)
            is_new, words, answer = self.begin(keep)
            if words != keep.words():
                text = "an order of this id asked for something else. Give each its own id"
                raise asked.Refused("IdTaken", text, keep.id)
        except asked.Refused as fault:
            found = self.dressed({"id": fault.id, "kept": False, "refused": fault.name})
            self.broker.publish(f"{self.base}/answers", found | {"text": f"{fault}."})
            return
        if is_new:
            self.give(keep)
        elif answer:
            self.broker.publish(f"{self.base}/answers", json.loads(answer) | {"again": True})

    def begin(self, keep: asked.Keep) -> tuple[bool, str, str | None]:
        """Writes an order down, or refuses it where too many wait."""
        try:
            return self.memory.begin(keep.id, keep.words())
        except Full as fault:
            text = f"{fault}, and no other one is taken. Start the page, or wait an hour"
            raise asked.Refused("TooMany", text, keep.id) from None

    def give(self, keep: asked.Keep, came: float | None = None) -> None:
        """Gives an order to be done."""
        self.doer.add(waiting_of(replace(keep, note=keep.note or "MQTT"), came))

    def waits(self, keep: asked.Keep, why: str) -> None:
        """An order waits."""
        found = self.dressed({"id": keep.id, "waits": True, "text": why})
        self.broker.publish(f"{self.base}/answers", found)

    def done(self, keep: asked.Keep, found: dict) -> None:
        """An order is done: it is answered."""
        found = self.dressed({"id": keep.id} | found)
        self.memory.answer(keep.id, json.dumps(found))
        self.tell_once([answered(keep.id)], "answers", found)

    # --------------------------------------------------------------------------------------- looks

    def look(self) -> None:
        """Looks at all, and publishes what is new."""
        try:
            status, events = self.page.status(), self.page.events()
            self.show(status)
            self.show_events(status)
            self.show_kept(events)
            self.page_fault = ""
        except PageFault as fault:
            self.show_fault(str(fault))
        except Exception as fault:
            self.show_fault(f"The page's answer can't be read: {fault!r}. Are both of one version?")
        for id_, answer in self.memory.answers():
            if not self.memory.is_told(answered(id_)):
                self.tell_once([answered(id_)], "answers", json.loads(answer))
        self.tell_events()
        self.show_archive()

    def show_fault(self, text: str) -> None:
        """That there is no page."""
        if text != self.page_fault:
            self.page_fault = text
            self.tell(text)
        self.states.set(f"{self.base}/state", self.state("bad", text))

    def show(self, status: dict) -> None:
        """The states of station and cameras."""
        level, text = status["station"]
        self.states.set(f"{self.base}/state", self.state(level, text))
        words = ("name", "level", "kind", "short", "state", "given_up", "lost", "estimated",
                 "clock_us", "behind", "room", "keeps", "seconds", "frames", "locked")
        for camera in status["cameras"]:
            found = {word: camera[word] for word in words if word in camera}
            self.states.set(f"{self.base}/cameras/{camera['name']}", self.dressed(found))

    def show_events(self, status: dict) -> None:
        """What happened: warnings that came, came again or are over, and good news."""
        now = {(it["kind"], it["camera"]): it for it in status["alerts"]}
        before = self.alerts
        for key, alert in now.items():
            had = before.get(key)
            if not had or (had["times"], had["time"]) != (alert["times"], alert["time"]):
                self.event(alert["time"], alert | {"is_bad": True, "is_over": False})
        for key in before.keys() - now.keys():
            self.event(time.time(), before[key] | {"is_bad": True, "is_over": True})
        self.alerts = now
        self.memory.put("alerts", list(now.values()))
        for news in status["news"]:
            if news["time"] > self.memory.get("news", 0.0):
                found = {"kind": "news", "camera": None, "text": news["text"]}
                self.event(news["time"], found | {"is_bad": False, "is_over": False})
                self.memory.put("news", news["time"])

    def event(self, moment: float, found: dict) -> None:
        """Something happened: it is written down, and told once the broker is there."""
        words = ("kind", "camera", "text", "times", "is_bad", "is_over")
        told = {word: found[word] for word in words if word in found}
        told = self.dressed({"time": moments.iso(int(moment * 1e6))} | told)
        if not self.memory.add_event(told) and self.memory.get("dropped", 0) == 1:
            self.tell(f"{EVENTS} events wait for the broker: further ones are counted alone")

    def tell_events(self) -> None:
        """Publishes the events that wait. How many found no room is an event too."""
        with self.lock:
            flying = {key for ones in self.flying.values() for key in ones}
            for number, found in self.memory.waiting_events() if self.broker.is_up else []:
                if number in flying:
                    continue
                mid = self.broker.publish(f"{self.base}/events", found)
                if mid is None:
                    break
                self.flying[mid] = [number]
        dropped = self.memory.get("dropped", 0)
        if dropped and len(self.memory.events) < EVENTS:
            text = f"{dropped} events weren't told: {EVENTS} waited for the broker."
            self.memory.put("dropped", 0)
            self.tell(text)
            found = {"kind": "dropped", "camera": None, "text": text}
            self.event(time.time(), found | {"is_bad": True, "is_over": False})

    def show_kept(self, events: list[dict]) -> None:
        """Tells each event that was kept, once it is over and settled: the oldest first."""
        now, seen = time.monotonic(), {}
        for event in reversed(events):
            keys = keys_of(event)
            had = self.events.get(tuple(keys))
            since = had[1] if had and had[0] == event else now
            seen[tuple(keys)] = event, since
            if event["until_us"] is None and now - since >= SETTLED_SECONDS:
                words = ("note", "tag", "cameras", "bytes", "lacks", "clips")
                found = {"event": event["number"]} | span_of(event)
                found |= {word: event[word] for word in words} | {"lost": event.get("lost", 0)}
                self.tell_once(keys, "kept", self.dressed(found))
        self.events = seen

    def show_archive(self) -> None:
        """The archive's state, and what came there."""
        found = archive_in(self.words.archive) if self.words.archive else None
        if found is None:
            return
        state = {key: value for key, value in found.items() if key != "archived"}
        self.states.set(f"{self.base}/archive", {"station": self.words.station} | state)
        for clip in found["archived"]:
            one = clip if isinstance(clip, dict) else {"clip": clip}
            self.tell_once([archived_key(one)], "archived", self.dressed(one))


def answered(id_: str) -> str:
    """By what the answer to an order is known."""
    return f"answer {id_}"


def archived_key(clip: dict) -> str:
    """By what a clip that was archived is known. Whether it is released may change."""
    words = ("camera", "id", "first", "last", "tag", "since", "path", "clip")
    found = {word: clip[word] for word in words if word in clip}
    return f"archived {json.dumps(found, sort_keys=True)}"


def keys_of(event: dict) -> list[str]:
    """By what an event's clips are known as long as they stay: a clip that grows has another id, and
    two events may have the same frames."""
    number = event["number"] or event["tag"]
    return [f"clip {number} {it['camera']} {it['first']} {it['from_us']}" for it in event["clips"]]


def checked(path: str, tell) -> Bridge:
    """The bridge of a file, or BadSettings."""
    try:
        return Bridge(read_words(path), tell)
    except ValueError as fault:
        raise BadSettings(f"{path}: {fault}") from None
