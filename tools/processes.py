"""Processes that tools begin side by side, each in a group of its own, so that what is ended takes
along all that it began."""
import contextlib
import os
import signal
import subprocess
import tempfile
import threading
from pathlib import Path
from typing import NamedTuple

# The groups that run. None is added once all are to end.
_GROUPS: set[int] = set()
_LOCK = threading.Lock()
_ENDING = threading.Event()


class Ended(NamedTuple):
    """What a process came to: its status (minus the signal's number where one ended it), what it
    printed and told, its seconds of processors, and whether it was ended at its limit of time."""

    status: int
    out: str
    err: str
    seconds: float
    is_late: bool


class Stopped(Exception):
    """Everything is to end."""


def kill(group):
    """Ends a group of processes."""
    with contextlib.suppress(ProcessLookupError):
        os.killpg(group, signal.SIGKILL)


def end_all():
    """Ends all that runs, and lets nothing begin any more."""
    with _LOCK:
        _ENDING.set()
        for group in _GROUPS:
            kill(group)


def _begun(words, **how):
    """A process that is begun, unless all are to end."""
    with _LOCK:
        if _ENDING.is_set():
            raise Stopped
        process = subprocess.Popen([str(it) for it in words], start_new_session=True, **how)
        _GROUPS.add(process.pid)
        return process


def _end_late(group, late):
    """Ends a group of processes whose time is over."""
    late.set()
    kill(group)


def run(words, cwd=None, env=None, given=None, limit=None):
    """Runs a program to its end, with a file or nothing as its input, at most so many seconds of
    the clock."""
    late = threading.Event()
    with tempfile.TemporaryFile() as out, tempfile.TemporaryFile() as err, \
            open(given or os.devnull, "rb") as stdin:
        process = _begun(words, cwd=cwd, env=env, stdin=stdin, stdout=out, stderr=err)
        timer = threading.Timer(limit or 0, _end_late, (process.pid, late))
        if limit:
            timer.start()
        try:
            _, status, used = os.wait4(process.pid, 0)
            process.returncode = os.waitstatus_to_exitcode(status)
        finally:
            timer.cancel()
            kill(process.pid)  # Also what it began and left.
            if process.returncode is None:
                process.wait()
            with _LOCK:
                _GROUPS.discard(process.pid)
        if _ENDING.is_set():
            raise Stopped
        for it in (out, err):
            it.seek(0)
        printed, told = (it.read().decode(errors="replace") for it in (out, err))
    seconds = used.ru_utime + used.ru_stime
    return Ended(process.returncode, printed, told, seconds, late.is_set())


def free_gigabytes():
    """The memory that the machine could give now."""
    text = Path("/proc/meminfo").read_text()
    return int(text.partition("MemAvailable:")[2].split()[0]) / 2**20
