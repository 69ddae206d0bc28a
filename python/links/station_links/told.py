"""What loop_mqtt and loop_trigger remember over a restart and a loss of power: which orders came,
what was answered to them, what was told already, and what is still to be told. It is a database of
SQLite."""
import json
import sqlite3
import threading
import time
from dataclasses import dataclass, replace

from .settings import BadSettings

# How many are remembered of each, and how many events wait for a broker.
ORDERS, TOLD, EVENTS = 2_000, 100_000, 10_000
TABLES = (
    "orders (id TEXT PRIMARY KEY, words TEXT NOT NULL, answer TEXT, came REAL NOT NULL)",
    "told (key TEXT PRIMARY KEY)",
    "events (number INTEGER PRIMARY KEY AUTOINCREMENT, body TEXT NOT NULL)",
    "words (name TEXT PRIMARY KEY, value TEXT NOT NULL)",
)


class Full(Exception):
    """So many orders wait that no other one is taken."""


@dataclass(frozen=True)
class Order:
    """An order: what it asks for, when it came (a time of day), and its answer where it has one."""

    words: str
    came: float
    answer: str | None = None


class Memory:
    """The database. Each change is on the disk when its call returns. Where the disk fails, `tell`
    says so, and what is remembered is so until the program ends: an order is done rather than
    lost. Where answers are told, `key_of` is by what that of an order's id is known: an order whose
    answer wasn't told stays."""

    def __init__(self, path: str, tell, key_of=None) -> None:
        self.tell, self.lock, self.key_of = tell, threading.RLock(), key_of
        self.orders: dict[str, Order] = {}
        self.keys: set[str] = set()
        self.events: dict[int, str] = {}
        self.words: dict[str, object] = {}
        try:
            self.base = sqlite3.connect(path, check_same_thread=False)
            self.base.execute("PRAGMA synchronous = FULL")
            for table in TABLES:
                self.base.execute(f"CREATE TABLE IF NOT EXISTS {table}")
            self.change("DELETE FROM told WHERE rowid NOT IN"
                        " (SELECT rowid FROM told ORDER BY rowid DESC LIMIT ?)", [(TOLD,)])
            self.load()
        except (sqlite3.Error, ValueError) as fault:
            raise BadSettings(
                f"state: {path}: {fault}. Make its folder, give the right to write there, or move "
                "the file away"
            ) from None

    def load(self) -> None:
        """Reads all of it. Of too many orders only such leave as are answered."""
        read = self.base.execute
        for id_, words, answer, came in read("SELECT id, words, answer, came FROM orders"
                                             " ORDER BY came"):
            self.orders[id_] = Order(words, came, answer)
        self.keys.update(key for (key,) in read("SELECT key FROM told"))
        self.events.update(read("SELECT number, body FROM events ORDER BY number"))
        for name, value in read("SELECT name, value FROM words"):
            self.words[name] = json.loads(value)
        while len(self.orders) > ORDERS and self.forget():
            pass

    def change(self, statement: str, rows: list[tuple]) -> None:
        """Changes rows in one commit."""
        with self.base:
            self.base.executemany(statement, rows)

    def write(self, statement: str, rows: list[tuple]) -> None:
        """Changes rows, or says why it can't."""
        try:
            self.change(statement, rows)
        except sqlite3.Error as fault:
            self.tell(f"the state can't be written: {fault}. Make room on its disk")

    # -------------------------------------------------------------------------------------- orders

    def begin(self, id_: str, words: str) -> tuple[bool, str, str | None]:
        """Writes an order down, unless one of its id is there: whether it is new, what it asks for,
        and its answer where it has one. Full where too many wait."""
        with self.lock:
            if id_ in self.orders:
                return False, self.orders[id_].words, self.orders[id_].answer
            if len(self.orders) >= ORDERS and not self.forget():
                raise Full(f"{ORDERS} orders wait")
            order = self.orders[id_] = Order(words, time.time())
            self.write("INSERT OR IGNORE INTO orders VALUES (?, ?, NULL, ?)",
                       [(id_, words, order.came)])
            return True, words, None

    def forget(self) -> bool:
        """The oldest order leaves whose answer has arrived; whether there was one."""
        done = (id_ for id_, it in self.orders.items() if it.answer and self.has_arrived(id_))
        if oldest := next(done, None):
            del self.orders[oldest]
            self.write("DELETE FROM orders WHERE id = ?", [(oldest,)])
        return oldest is not None

    def has_arrived(self, id_: str) -> bool:
        """Whether an order's answer was told, where it has to be."""
        return self.key_of is None or self.key_of(id_) in self.keys

    def answer(self, id_: str, answer: str) -> None:
        """Writes down what was answered to an order."""
        with self.lock:
            self.orders[id_] = replace(self.orders[id_], answer=answer)
            self.write("UPDATE orders SET answer = ? WHERE id = ?", [(answer, id_)])

    def open_orders(self) -> list[tuple[str, Order]]:
        """The orders without an answer, the oldest first."""
        with self.lock:
            return [(id_, it) for id_, it in self.orders.items() if it.answer is None]

    def answers(self) -> list[tuple[str, str]]:
        """The answers to orders."""
        with self.lock:
            return [(id_, it.answer) for id_, it in self.orders.items() if it.answer]

    # ---------------------------------------------------------------------------- what is told once

    def is_told(self, key: str) -> bool:
        """Whether something was told."""
        with self.lock:
            return key in self.keys

    def add(self, keys: list[str]) -> None:
        """Writes down what was told."""
        with self.lock:
            self.keys.update(keys)
            self.write("INSERT OR IGNORE INTO told VALUES (?)", [(key,) for key in keys])

    # ---------------------------------------------------------------------- what waits for a broker

    def add_event(self, found: dict) -> bool:
        """Writes an event down that is to be told; whether there was room for it. What found none
        is counted."""
        with self.lock:
            if len(self.events) >= EVENTS:
                self.put("dropped", self.get("dropped", 0) + 1)
                return False
            number, body = self.get("event", max(self.events, default=0)) + 1, json.dumps(found)
            self.put("event", number)
            self.events[number] = body
            self.write("INSERT INTO events VALUES (?, ?)", [(number, body)])
            return True

    def waiting_events(self) -> list[tuple[int, dict]]:
        """The events that are to be told, the oldest first."""
        with self.lock:
            return [(number, json.loads(body)) for number, body in self.events.items()]

    def event_told(self, number: int) -> None:
        """An event has arrived."""
        with self.lock:
            self.events.pop(number, None)
            self.write("DELETE FROM events WHERE number = ?", [(number,)])

    # ------------------------------------------------------------------------------- single words

    def get(self, name: str, left_out):
        """A word that was written down."""
        with self.lock:
            return self.words.get(name, left_out)

    def put(self, name: str, value) -> None:
        """Writes a word down, where it is another one."""
        with self.lock:
            if name not in self.words or self.words[name] != value:
                self.words[name] = value
                self.write("INSERT OR REPLACE INTO words VALUES (?, ?)", [(name, json.dumps(value))])
