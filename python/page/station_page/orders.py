"""Orders to the station, through the named pipe of its configuration, and its answers, from where
the configuration puts them."""
import asyncio
import contextlib
import errno
import os
import secrets
import select
import stat
import time
from collections.abc import Callable

from . import limits
from .clock import Clock
from .words import Line, read_line


class NoStation(Exception):
    """Why an order can't be given, or has no answer, in a sentence with what to do."""


class OrderPipe:
    """The pipe of orders. It is held open while somebody reads it, so that no order is lost between
    two writers, and closed when the station ends, so that nothing waits there for the next one."""

    def __init__(self, path: str | None) -> None:
        self.path, self.file = path, -1

    def is_read(self) -> bool:
        """Whether a station reads the pipe."""
        if self.path is None:
            return False
        if self.file >= 0 and self.is_stale():
            self.close()
        if self.file < 0:
            with contextlib.suppress(OSError):
                self.open()
        return self.file >= 0

    def is_stale(self) -> bool:
        """Whether nobody reads any more, or another pipe has the name."""
        poll = select.poll()
        poll.register(self.file, select.POLLOUT)
        if any(what & (select.POLLERR | select.POLLHUP) for _, what in poll.poll(0)):
            return True
        try:
            here, there = os.fstat(self.file), os.stat(self.path or "")
        except OSError:
            return True
        return (here.st_dev, here.st_ino) != (there.st_dev, there.st_ino)

    def open(self) -> None:
        """Opens the pipe, which fails where nobody reads it."""
        file = os.open(self.path or "", os.O_WRONLY | os.O_NONBLOCK | os.O_CLOEXEC)
        if not stat.S_ISFIFO(os.fstat(file).st_mode):
            os.close(file)
            raise OSError(errno.ENXIO, "not a pipe")
        self.file = file

    def close(self) -> None:
        """Closes the pipe."""
        if self.file >= 0:
            os.close(self.file)
            self.file = -1

    def write(self, line: str) -> None:
        """Gives an order, whole or not at all: a line is shorter than what a pipe takes at once."""
        if self.path is None:
            raise NoStation(
                "The station's configuration has no `orders`, so the page can't give any. Name a "
                "pipe there, and start the station again."
            )
        if not self.is_read():
            raise NoStation(
                f"The station doesn't run: nobody reads orders at {self.path}. Start it."
            )
        try:
            os.write(self.file, line.encode() + b"\n")
        except BlockingIOError:
            raise NoStation(
                "The station doesn't read its orders: its pipe is full. Is it stopped?"
            ) from None
        except OSError:
            self.close()
            raise NoStation("The station has just ended. Start it.") from None


class AnswerReader:
    """What the station prints, line by line: from a named pipe, or from a file that grows."""

    def __init__(self, path: str | None) -> None:
        self.path, self.file, self.rest, self.is_pipe, self.is_cut = path, -1, b"", False, False

    def open(self, at_end: bool) -> None:
        """Opens the pipe or file, where it is there. A file that was there before is read from its
        end on."""
        with contextlib.suppress(OSError):
            self.file = os.open(self.path or "", os.O_RDONLY | os.O_NONBLOCK | os.O_CLOEXEC)
            self.is_pipe, self.rest = stat.S_ISFIFO(os.fstat(self.file).st_mode), b""
            if not self.is_pipe and at_end:
                os.lseek(self.file, 0, os.SEEK_END)

    def close(self) -> None:
        """Closes it."""
        if self.file >= 0:
            os.close(self.file)
            self.file = -1

    def look_again(self) -> None:
        """Opens another file that has taken the path's place, and begins anew with one that was
        cut."""
        try:
            here, there = os.fstat(self.file), os.stat(self.path or "")
        except OSError:
            self.close()
            return
        if (here.st_dev, here.st_ino) != (there.st_dev, there.st_ino):
            self.close()
            self.open(at_end=False)
        elif not self.is_pipe and os.lseek(self.file, 0, os.SEEK_CUR) > here.st_size:
            os.lseek(self.file, 0, os.SEEK_SET)

    def lines(self) -> list[str]:
        """The lines that came since the last call; of one that is too long, its first bytes."""
        if self.path is None:
            return []
        if self.file < 0:
            self.open(at_end=False)
        else:
            self.look_again()
        if self.file < 0:
            return []
        with contextlib.suppress(BlockingIOError):
            self.rest += os.read(self.file, 65536)
        *whole, self.rest = self.rest.split(b"\n")
        if self.is_cut and whole:
            whole, self.is_cut = whole[1:], False
        if len(self.rest) > limits.LINE_BYTES:
            whole, self.rest, self.is_cut = [*whole, self.rest[: limits.LINE_BYTES]], b"", True
        return [line[: limits.LINE_BYTES].decode(errors="replace") for line in whole]


class Waiting:
    """An order that waits for its last line. `each` is told each line when it comes, among the
    events that come beside it."""

    def __init__(self, label: str, each: Callable[[Line], None] | None = None) -> None:
        self.label, self.each, self.asked = label, each, time.time_ns() // 1000
        self.lines: list[Line] = []
        self.done: asyncio.Future[None] = asyncio.get_running_loop().create_future()

    def take(self, line: Line) -> None:
        """A line of its answer."""
        self.lines.append(line)
        if self.each:
            self.each(line)


def label_of(prefix: str, order: str, count: int) -> str:
    """The label of an order. Those of `status` are known by theirs, so that the service's journal
    leaves them out."""
    return f"{prefix}-{'poll-' if order == 'status' else ''}{count}"


class Orders:
    """Gives orders with labels, and hands each its answer. Lines without a label are events. `told`
    has on_line(line), for each line that comes, on_event(line), and on_unread(), for lines that
    aren't JSON."""

    def __init__(self, orders: str | None, answers: str | None, told) -> None:
        self.pipe, self.reader, self.told = OrderPipe(orders), AnswerReader(answers), told
        # So many lines in a row weren't JSON.
        self.unread = 0
        self.waiting: dict[str, Waiting] = {}
        self.prefix, self.counts = f"page-{secrets.token_hex(4)}", {True: 0, False: 0}
        self.has_answers = answers is not None
        self.wake = asyncio.Event()
        # The station's clock: it goes on where the system's is set.
        self.clock = Clock()
        self.reader.open(at_end=True)

    def begin(self, order: str, each: Callable[[Line], None] | None = None) -> Waiting:
        """Gives an order whose answer is to be heard. It is written before this returns."""
        if len(self.waiting) >= limits.ORDERS:
            raise NoStation("Too many orders wait for an answer. Try again in a moment.")
        kind = order == "status"
        self.counts[kind] += 1
        waiting = Waiting(label_of(self.prefix, order, self.counts[kind]), each)
        self.pipe.write(f"@{waiting.label} {order}")
        self.waiting[waiting.label] = waiting
        self.wake.set()
        return waiting

    async def answer(
        self,
        waiting: Waiting,
        seconds: float,
        is_enough: Callable[[list[Line]], bool] | None = None,
    ) -> list[Line]:
        """The lines that answer an order, once they are there: all of them, or, where `is_enough`
        says so of those that came, these."""
        end = time.monotonic() + seconds
        try:
            while not waiting.done.done():
                if is_enough and is_enough(waiting.lines):
                    return waiting.lines
                left = end - time.monotonic()
                if left <= 0:
                    raise asyncio.TimeoutError
                await asyncio.wait(
                    [waiting.done], timeout=min(left, limits.ENOUGH_SECONDS) if is_enough else left
                )
            waiting.done.result()
        except asyncio.TimeoutError:
            raise NoStation(
                f"The station hasn't answered within {seconds:.0f} seconds. It may still do what "
                f"was asked: look at the clips. "
                "Does it run, is its disk slow, and does it write its answers where the page "
                "reads them?"
            ) from None
        finally:
            del self.waiting[waiting.label]
        return waiting.lines

    async def ask(
        self,
        order: str,
        seconds: float = limits.ANSWER_SECONDS,
        each: Callable[[Line], None] | None = None,
    ) -> list[Line]:
        """Gives an order, and waits for its answer."""
        return await self.answer(self.begin(order, each), seconds)

    def give(self, order: str) -> None:
        """Gives an order without a label, to a station whose answers nobody can read."""
        self.pipe.write(order)

    def hear(self, raw: str) -> None:
        """A line that was read. What is no JSON is left out; where several such lines come, that is
        told."""
        line = read_line(raw)
        if line is None:
            self.unread += bool(raw)
            if self.unread >= limits.UNREAD_LINES:
                self.told.on_unread()
            return
        self.unread = 0
        self.take(line)

    def take(self, line: Line) -> None:
        """A line of the station."""
        self.told.on_line(line)
        if line.label is None:
            self.told.on_event(line)
            return
        waiting = self.waiting.get(line.label)
        if waiting and line.kind == "done" and not waiting.done.done():
            if line.time is not None:
                self.clock.add(waiting.asked, line.time, time.time_ns() // 1000)
            waiting.done.set_result(None)
        elif waiting:
            waiting.take(line)

    def give_up(self) -> None:
        """Tells those who wait that the station has ended."""
        for waiting in self.waiting.values():
            if not waiting.done.done():
                text = (
                    "The station ended before it answered. It may have done what was asked: look "
                    "at the clips once it runs."
                )
                waiting.done.set_exception(NoStation(text))

    async def watch(self) -> None:
        """Reads what the station prints, without end."""
        while True:
            while lines := self.reader.lines():
                for line in lines:
                    self.hear(line)
                await asyncio.sleep(0)
            self.wake.clear()
            if self.waiting and not self.pipe.is_read():
                self.give_up()
            if self.waiting:
                await asyncio.sleep(limits.WATCH_SECONDS)
            else:
                with contextlib.suppress(asyncio.TimeoutError):
                    await asyncio.wait_for(self.wake.wait(), limits.REST_SECONDS)
