"""Who changed what, and what couldn't be told: a line each in the log, which the service's journal
has, and the last ones for the page."""
import collections
import logging
import time
from dataclasses import asdict, dataclass

from . import limits, words

log = logging.getLogger("loop_page")


@dataclass(frozen=True)
class Entry:
    """Something that somebody did, or that went wrong: when (seconds since 1970), what it is, whose
    address and session, and in a sentence. Where something was asked for, `order` says what, and
    stands at the beginning of the sentence too."""

    id: int
    time: float
    kind: str
    address: str
    session: str
    text: str
    order: str = ""
    is_bad: bool = False


class Journal:
    """The last entries."""

    def __init__(self) -> None:
        self.entries: collections.deque[Entry] = collections.deque(maxlen=limits.JOURNAL)
        self.count = 0

    def add(
        self,
        kind: str,
        text: str,
        who: tuple[str, str] | None = None,
        order: str = "",
        is_bad: bool = False,
    ) -> None:
        """Writes a line. `who` is an address and a session; none where nobody asked for it."""
        self.count += 1
        address, session = (words.plain(it) for it in who or ("", ""))
        text, order = words.plain(f"{order}: {text}" if order else text), words.plain(order)
        entry = Entry(self.count, time.time(), kind, address, session, text, order, is_bad)
        self.entries.append(entry)
        log.info("%s%s: %s", kind, f" by {address}, {session}" if who else "", entry.text)

    def listed(self, count: int = limits.JOURNAL) -> list[dict]:
        """The last entries, the oldest first, for JSON."""
        return [asdict(entry) for entry in list(self.entries)[-count:]]


class PlainFormatter(logging.Formatter):
    """Lines in which no sign does something to a terminal, or begins a line of its own."""

    def format(self, record: logging.LogRecord) -> str:
        """A record as text: its message in one line, and where it failed below."""
        line = words.plain(f"loop_page: {record.getMessage()}")
        if not record.exc_info:
            return line
        fault = self.formatException(record.exc_info)
        return "\n".join([line, *(words.plain(it) for it in fault.splitlines())])


class Expected(logging.Filter):
    """Leaves out what clients cause: a request that is none, a client that went away. It is counted
    (`/metrics`), and no line for each of it fills the journal."""

    def __init__(self, expected: tuple[type[BaseException], ...]) -> None:
        super().__init__()
        self.expected, self.count = expected, 0

    def filter(self, record: logging.LogRecord) -> bool:
        """Whether a record is to be written."""
        fault = record.exc_info[1] if record.exc_info else None
        if isinstance(fault, self.expected):
            self.count += 1
            return False
        return True
