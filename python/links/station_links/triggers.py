"""loop_trigger: what happens beside a station keeps what its cameras saw around it. Each trigger
has a source (sources.py), whose causes are gathered (levels.py), and each keep is given to the
station's page, or to all stations by MQTT."""
import importlib.util
import json
import threading
import time
from dataclasses import dataclass
from pathlib import Path

from . import moments
from .asked import Keep, keep_of
from .broker import TOPIC, Broker, BrokerWords, broker_words
from .doing import Doer, Waiting, page_words, waiting_of
from .journal import Journal
from .levels import Cause, Gathered, short
from .pages import Page
from .settings import NAME, BadSettings, Words, words_of
from .sources import KINDS, Fault, Topic, Udp
from .threads import kept_running
from .told import Full, Memory

# How often a source that failed is begun again.
AGAIN_SECONDS = 1.0
# How long keeps that are under way may take at a stop.
LEAVE_SECONDS = 3.0
# How often it is looked for keeps that go to the broker.
PUBLISH_SECONDS = 0.1
SECOND = 1_000_000


@dataclass(frozen=True)
class Trigger:
    """A trigger of the file."""

    gathered: Gathered
    source: object


@dataclass(frozen=True)
class TriggerWords:
    """The words of loop_trigger's file."""

    page: Page
    state: str
    stations: str | None
    prefix: str
    client: str
    broker: BrokerWords | None
    triggers: list[Trigger]


def trigger_of(words: Words) -> Trigger:
    """A trigger."""
    name, kind = words.name("name"), words.choice("kind", tuple(KINDS))
    before = words.number("before", 1, 3600, 30)
    after = words.number("after", 0, 3600, 10)
    rest = words.number("rest", 0, 3600, 10)
    camera = words.name("camera", None)
    source = KINDS[kind](words)
    words.end()
    if source.package and importlib.util.find_spec(source.package[0]) is None:
        package = source.package[1]
        raise BadSettings(f"{words.where}: {package} isn't installed: sudo apt install {package}")
    gathered = Gathered(name, *(int(it * SECOND) for it in (before, after, rest)), camera)
    return Trigger(gathered, source)


def read_words(path: str) -> TriggerWords:
    """Reads the file."""
    words = words_of(path)
    broker = words.table_of("broker")
    stations = words.name("stations", None)
    found = TriggerWords(
        page_words(words),
        words.text("state", f"{Path(path).stem}.state"),
        stations,
        words.text("prefix", "lapyrei", TOPIC, "the beginning of topics").rstrip("/"),
        words.text("client", "", NAME.pattern, "a name of letters, digits, - or _"),
        broker_words(broker) if broker else None,
        [trigger_of(it) for it in words.tables("trigger")],
    )
    words.end()
    names = [it.gathered.name for it in found.triggers]
    if not names:
        raise BadSettings(f"{path}: there is no [[trigger]]")
    if len(set(names)) < len(names):
        raise BadSettings(f"{path}: two triggers have one name")
    if not broker and (stations or any(isinstance(it.source, Topic) for it in found.triggers)):
        raise BadSettings(f"{path}: [broker] is missing: `stations` and the kind mqtt need one")
    return found


class Triggers:
    """All of them, at work."""

    def __init__(self, words: TriggerWords, tell) -> None:
        self.words, self.tell = words, lambda text: tell(short(text))
        self.over, self.lock, self.wake = threading.Event(), threading.Lock(), threading.Event()
        self.journal = Journal(self.tell)
        self.memory, self.ended = Memory(words.state, self.tell), threading.Event()
        self.doer = Doer(words.page, self.ended, self.waits, self.done, "trigger")
        # Keeps for stations by MQTT, and those that are on their way, by the numbers of messages.
        self.line: list[Waiting] = []
        self.sent: dict[int, str] = {}
        self.broker = self.broker_of(words) if words.broker else None
        # What an earlier run has left to do.
        for id_, order in self.memory.open_orders():
            self.give(keep_of(id_, order.words), order.came)

    def give(self, keep: Keep, came: float | None = None) -> None:
        """Gives a keep to whoever does it."""
        if self.words.stations:
            with self.lock:
                self.line.append(waiting_of(keep, came))
        else:
            self.doer.add(waiting_of(keep, came))

    def broker_of(self, words: TriggerWords) -> Broker:
        """The broker, which brings the topics and takes the keeps."""
        topics = [it.source.topic for it in words.triggers if isinstance(it.source, Topic)]
        return Broker(words.broker, words.client, topics, self.came, self.tell, clean=True)

    def came(self, topic: str, raw: bytes, is_old: bool) -> None:
        """A message of the broker."""
        for trigger in self.words.triggers:
            if isinstance(trigger.source, Topic):
                trigger.source.came(topic, raw, is_old)

    # --------------------------------------------------------------------------------- at work

    def run(self) -> None:
        """Works until it is stopped."""
        names = [it.gathered.name for it in self.words.triggers]
        works = [lambda it=it: self.watch(it) for it in self.words.triggers]
        names += ["that publishes", "that writes down"] if self.words.stations else ["that keeps"]
        works += [self.publish, self.settle] if self.words.stations else [self.doer.run]
        self.say_what_is_whole()
        if self.broker:
            self.broker.start()
        for name, work in zip(names, works):
            kept_running(name, work, self.ended, self.tell)
        while not self.over.is_set():
            self.gather()
            self.say_what_was_lost()
            self.wake.wait(0.1)
            self.wake.clear()
        self.gather(is_last=True)
        self.say_what_was_lost()
        self.journal.flush(is_last=True)
        self.leave()

    def say_what_is_whole(self) -> None:
        """Says at the start which words of `match` are the whole text: for older programs they were
        a part of it, and a trigger that keeps nothing doesn't tell."""
        for trigger in self.words.triggers:
            pattern = getattr(trigger.source, "pattern", None)
            for it in pattern.plain if pattern else []:
                text = f"match {it!r} is the whole text: write '*{it}*' for a part of it"
                self.tell(f"{trigger.gathered.name}: {text}")

    def say_what_was_lost(self) -> None:
        """Says which packets came too fast, and what waits for the journal."""
        for trigger in self.words.triggers:
            if isinstance(trigger.source, Udp):
                for sender, count in trigger.source.lost().items():
                    text = f"a packet of {sender} was dropped: more came than can be looked at"
                    self.journal.add(f"{trigger.gathered.name} lost", text, count)
        self.journal.flush()

    def leave(self) -> None:
        """Ends, and says what is left to do."""
        end = time.monotonic() + LEAVE_SECONDS
        while self.memory.open_orders() and time.monotonic() < end:
            time.sleep(0.02)
        self.ended.set()
        for id_, _ in self.memory.open_orders():
            self.tell(f"{id_} waits, and is kept after the next start")
        if self.broker:
            self.broker.stop()

    def watch(self, trigger: Trigger) -> None:
        """Reads a trigger's source, and begins it again where it fails."""
        name, said = trigger.gathered.name, ""

        def fire(moment: int, text: str) -> None:
            with self.lock:
                trigger.gathered.add(Cause(moment, text))
            self.journal.add(name, f"{text} at {moments.iso(moment)}")
            self.wake.set()

        while not self.over.is_set():
            try:
                trigger.source.run(fire, self.over)
            except Fault as fault:
                why = str(fault)
            except Exception as fault:
                why = repr(fault)
            else:
                continue
            if why != said:
                said = why
                self.tell(f"{name} can't look: {why}. It is tried again each second")
            self.over.wait(AGAIN_SECONDS)

    def gather(self, is_last: bool = False) -> None:
        """Gives the keeps that are due; at the end those that rest, too. Each is written down
        before it is given."""
        tick = time.monotonic_ns() // 1000
        for trigger in self.words.triggers:
            with self.lock:
                due = trigger.gathered.due(time.time_ns() // 1000, 2**62 if is_last else tick)
            if due:
                self.begin(due)

    def begin(self, keep: Keep) -> None:
        """A keep is due. It is written down, and given; where too many wait, that is told."""
        try:
            self.memory.begin(keep.id, keep.words())
        except Full as fault:
            self.tell(f"{keep.id} NOT kept: TooMany {fault}: {keep.note}")
            return
        self.give(keep)

    def waits(self, keep: Keep, why: str) -> None:
        """A keep waits."""
        self.tell(f"{keep.id} waits: {why}")

    def done(self, keep: Keep, found: dict) -> None:
        """What became of a keep."""
        self.memory.answer(keep.id, json.dumps(found))
        if found["kept"]:
            self.tell(f"{keep.id} kept: {found['text']}")
        elif found["kept"] is None:
            self.tell(f"{keep.id} {found['text']}")
        else:
            self.tell(f"{keep.id} NOT kept: {found.get('refused', '')} {found['text']}")

    # ------------------------------------------------------------------ to whom they are given

    def publish(self) -> None:
        """Gives the keeps to stations by MQTT, where loop_mqtt answers. The broker is waited for,
        for an hour at most by each keep's own clock."""
        while not self.ended.is_set():
            with self.lock:
                line = list(self.line)
            for it in line:
                self.publish_one(it)
            self.ended.wait(PUBLISH_SECONDS)

    def publish_one(self, it: Waiting) -> None:
        """Gives a keep to the broker, unless it has it; or its hour is over."""
        keep = it.keep
        with self.lock:
            is_sent = keep.id in self.sent.values()
        if it.is_late():
            text = "It has waited an hour for the broker."
            text += " It may have arrived." * is_sent
            self.end_of(keep.id, {"kept": False, "refused": "NoBroker", "text": text})
        elif not is_sent and self.broker.is_up:
            found = {"id": keep.id, "from": keep.since, "to": keep.until, "note": keep.note}
            found |= {"camera": keep.camera} if keep.camera else {}
            found |= {"at": it.moment()}
            with self.lock:
                mid = self.broker.publish(f"{self.words.prefix}/{self.words.stations}/keep", found)
                if mid is not None:
                    self.sent[mid] = keep.id
        elif not is_sent and not it.is_told:
            it.is_told = True
            self.waits(keep, f"the broker {self.broker.place()} isn't there")

    def end_of(self, id_: str, found: dict) -> None:
        """A keep waits no more."""
        with self.lock:
            ended = [it for it in self.line if it.keep.id == id_]
            self.line = [it for it in self.line if it.keep.id != id_]
        for it in ended:
            self.done(it.keep, found)

    def settle(self) -> None:
        """Writes down what the broker has acknowledged."""
        while True:
            mid = self.broker.acknowledged.get()
            with self.lock:
                id_ = self.sent.pop(mid, None)
            if id_:
                text = f"given to {self.words.stations} by the broker"
                self.end_of(id_, {"kept": None, "text": text})


def checked(path: str, tell) -> Triggers:
    """The triggers of a file, or BadSettings."""
    return Triggers(read_words(path), tell)
