"""Why events were kept: who pressed, or what gave the order, and when, by the event's number; and
what was changed of cameras, which is beside the cause of each event of that time. It
is in a file beside the notes, so that it is known after a restart. Where that can't be read or written,
it is known until then."""
import collections
import logging
import threading

from lapyrei import answers

from . import limits, words
from .whole import clear, write_whole

log = logging.getLogger("loop_page")

# What may give an order: a person at the page, a program by HTTP, loop_mqtt, and loop_trigger.
KINDS = ("press", "http", "mqtt", "trigger")
# What of a cause the file has, by the event's number as text.
SHAPE = answers.table(
    {
        "causes": answers.named(
            answers.CAUSE, answers.text(r"\d{1,19}", "an event's number"), limits.EVENTS_HEARD
        )
    },
    {"changes": answers.each(answers.CHANGE, limits.CHANGES)},
)


def cause(kind: str, who: str, moment: int) -> dict:
    """A cause, for JSON: `at_us` is the moment of the press, or of what happened."""
    return {"kind": kind, "who": words.plain(who)[: limits.WHO_LETTERS], "at_us": moment}


class Causes:
    """The causes of the newest events."""

    def __init__(self, path: str | None) -> None:
        self.path, self.lock, self.version = path, threading.Lock(), 0
        self.known: collections.OrderedDict[int, dict] = collections.OrderedDict()
        self.changes: collections.deque[dict] = collections.deque(maxlen=limits.CHANGES)
        if path:
            clear(path)
            self.load(path)

    def load(self, path: str) -> None:
        """Reads the file."""
        try:
            with open(path, "rb") as file:
                found = answers.answer_in(file.read(answers.BYTES + 1), SHAPE)
        except FileNotFoundError:
            return
        except (OSError, answers.Unusable) as fault:
            log.warning("%s can't be read: %s", path, fault)
            return
        self.known.update(sorted((int(number), it) for number, it in found["causes"].items()))
        self.changes.extend(found.get("changes", []))

    def of(self, number: int | None) -> dict | None:
        """The cause of an event; nothing where this page doesn't know it."""
        return self.known.get(number or 0)

    def add(self, numbers: set[int], found: dict) -> None:
        """Why the events of these numbers were kept. It is written down."""
        with self.lock:
            self.known.update((number, found) for number in sorted(numbers))
            while len(self.known) > limits.EVENTS_HEARD:
                self.known.popitem(last=False)
            self.version += bool(numbers)
            if numbers:
                self.write()

    def change(self, camera: str, text: str, who: str, moment: int) -> None:
        """A camera was set otherwise. It is written down."""
        with self.lock:
            who = words.plain(who)[: limits.WHO_LETTERS]
            self.changes.append({"camera": camera, "text": text, "who": who, "at_us": moment})
            self.version += 1
            self.write()

    def changed(self, cameras: list[str], since: int, until: int) -> list[dict]:
        """What was changed of cameras within a time."""
        return [
            it for it in self.changes if it["camera"] in cameras and since <= it["at_us"] <= until
        ]

    def write(self) -> None:
        """Writes all of it."""
        found = {"causes": {str(n): it for n, it in self.known.items()}}
        try:
            if self.path:
                write_whole(self.path, found | {"changes": list(self.changes)})
        except OSError as fault:
            log.warning("%s can't be written: %s", self.path, fault)
