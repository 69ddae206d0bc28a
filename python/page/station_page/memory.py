"""How the C library keeps the memory that was given back to it."""
import contextlib
import ctypes

# The parameters of mallopt(3), by its header.
TRIM_THRESHOLD, MMAP_THRESHOLD, ARENA_MAX = -1, -3, -8
# All threads have one arena, which keeps at most about so many bytes that nobody has: room for the
# frames that are drawn at a time. By itself the library has an arena for each thread that reads,
# and each keeps a frame: 100 MB for 16 cameras of 1920x1080. Where each frame is the system's again
# at once, its pages are made anew for the next one, which is a third of what the page computes.
KEPT = 16 * 1024 * 1024
WORDS = {TRIM_THRESHOLD: KEPT, MMAP_THRESHOLD: KEPT, ARENA_MAX: 1}


def keep_little() -> None:
    """Frames that were shown take little memory, and the next ones take the same."""
    with contextlib.suppress(OSError, AttributeError):
        library = ctypes.CDLL(None)
        for word, value in WORDS.items():
            library.mallopt(word, value)
