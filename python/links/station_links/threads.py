"""Threads that are kept at work: one that ends by a fault is told, and started again."""
import os
import threading
import traceback
from collections.abc import Callable

# The pause before a thread is started again, at first and at most: it doubles each time.
PAUSE_SECONDS, MOST_PAUSE_SECONDS = 1.0, 300.0


def place_of(fault: BaseException) -> str:
    """What a fault is and where it came from, without the words of others."""
    last = traceback.extract_tb(fault.__traceback__)[-1]
    return f"{type(fault).__name__} in {os.path.basename(last.filename)}:{last.lineno}"


def kept_running(
    name: str, work: Callable[[], None], over: threading.Event, tell: Callable[[str], None]
) -> threading.Thread:
    """A thread, which runs already, that works until `over` is set, or its work returns."""

    def run() -> None:
        pause = PAUSE_SECONDS
        while not over.is_set():
            try:
                return work()
            except Exception as fault:
                tell(f"the thread {name} has ended: {place_of(fault)}. It is started again")
            over.wait(pause)
            pause = min(2 * pause, MOST_PAUSE_SECONDS)

    thread = threading.Thread(target=run, name=name, daemon=True)
    thread.start()
    return thread
