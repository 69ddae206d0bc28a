"""Threads for work that may take long. Each camera has some of its own, so that a disk that doesn't
answer holds up no other camera; and drawing pictures has two, so that few are in memory at a
time."""
import asyncio
import contextlib
import queue
import threading
from collections.abc import Callable
from typing import Any

from . import limits
from .words import Unfit

# What a disk that doesn't answer is said to be.
NO_ANSWER = "Its disk doesn't answer."


class Workers:
    """A few threads, begun as they are needed. They end with the program, whatever they wait for: a
    thread that waits for a dead disk never comes back, and nobody may have to wait for it."""

    def __init__(self, name: str, threads: int, waiting: int) -> None:
        """`threads` work at a time, and `waiting` pieces of work at most are accepted."""
        self.name, self.most, self.waiting = name, threads, waiting
        self.queue: queue.SimpleQueue = queue.SimpleQueue()
        self.begun, self.count = 0, 0
        # The system's number of the thread that began last.
        self.thread = 0

    async def do(self, work: Callable, *words: Any, seconds: float | None = None) -> Any:
        """Does a piece of work in a thread, and answers what it answers. Unfit (503) where too many
        pieces wait already, or where it takes longer than so many seconds; it may end later."""
        if self.count >= self.waiting:
            raise Unfit(503, NO_ANSWER)
        loop = asyncio.get_running_loop()
        done: asyncio.Future = loop.create_future()
        self.count += 1
        if self.begun < min(self.most, self.count):
            self.begun += 1
            threading.Thread(target=self.run, name=f"{self.name} {self.begun}", daemon=True).start()
        self.queue.put((loop, done, work, words))
        try:
            return await asyncio.wait_for(done, seconds)
        except asyncio.TimeoutError:
            raise Unfit(503, NO_ANSWER) from None

    def run(self) -> None:
        """Works, without end."""
        self.thread = threading.get_native_id()
        while True:
            loop, done, work, words = self.queue.get()
            result, fault = None, None
            # What nobody waits for any more isn't begun.
            if not done.cancelled():
                try:
                    result = work(*words)
                except Exception as found:
                    fault = found
            with contextlib.suppress(RuntimeError):
                loop.call_soon_threadsafe(self.end, done, result, fault)
            # Nothing of it stays in memory until the next piece comes.
            del loop, done, work, words, result, fault

    def worked(self) -> float:
        """The seconds of a processor that the thread which began last has had; all there can be
        while it waits for a processor."""
        place = f"/proc/self/task/{self.thread}"
        try:
            with open(f"{place}/stat", encoding="ascii") as file:
                is_ready = file.read().rsplit(")", 1)[1].split()[0] == "R"
            with open(f"{place}/schedstat", encoding="ascii") as file:
                had = int(file.read().split()[0]) / 1e9
        except (OSError, ValueError, IndexError):
            return 0.0
        return float("inf") if is_ready else had

    def end(self, done: asyncio.Future, result: Any, fault: Exception | None) -> None:
        """A piece of work has ended."""
        self.count -= 1
        if done.done():
            return
        if fault is None:
            done.set_result(result)
        else:
            done.set_exception(fault)


def reads_of(camera: str) -> Workers:
    """The threads that read a camera's frames."""
    return Workers(f"read {camera}", limits.CAMERA_THREADS, limits.CAMERA_READS)


def looks_of(camera: str) -> Workers:
    """The thread that looks at a camera's store. It reads nothing else, so that a look never waits
    behind a fetch."""
    return Workers(f"look {camera}", 1, 2)


# The threads that draw.
DRAWING = Workers("draw", limits.DRAW_THREADS, 10_000)
