"""Lines for the journal that anybody may cause: one a second, whatever comes."""
import threading
import time

from .levels import short

EVERY_SECONDS = 1.0


class Journal:
    """Of what comes within a second after a line, how often it came and its last text wait, by
    name, for the next line: nothing is left out unsaid. `tell` prints a line."""

    def __init__(self, tell, every: float = EVERY_SECONDS) -> None:
        self.tell, self.every, self.lock = tell, every, threading.Lock()
        self.next, self.waiting = 0.0, {}

    def add(self, name: str, text: str, count: int = 1) -> None:
        """Something has come, so many times."""
        with self.lock:
            before, _ = self.waiting.get(name, (0, ""))
            self.waiting[name] = before + count, text
        self.flush()

    def flush(self, is_last: bool = False) -> None:
        """Prints what waits, once it may."""
        with self.lock:
            now = time.monotonic()
            if not self.waiting or (now < self.next and not is_last):
                return
            waiting, self.waiting, self.next = self.waiting, {}, now + self.every
        self.tell(line_of(waiting))


def line_of(waiting: dict[str, tuple[int, str]]) -> str:
    """What came, in a line: of all names how often, and the texts as far as there is room."""
    if len(waiting) == 1:
        ((name, (count, text)),) = waiting.items()
        return short(f"{name}: {count} times, the last one: {text}" if count > 1
                     else f"{name}: {text}")
    counts = ", ".join(f"{name} {count}" for name, (count, _) in waiting.items())
    texts = "; ".join(f"{name}: {text}" for name, (_, text) in waiting.items())
    return short(f"{counts} times; the last ones: {texts}")
