"""A Debian that is booted by its own systemd, in a container, and the package that it has."""
import contextlib
import fcntl
import os
import re
import signal
import subprocess
import tempfile
import time
from pathlib import Path

from pages import Wrong

TOP = Path(__file__).resolve().parents[2]
# Whoever boots a machine waits for the end of another one's: their services would share control
# groups, and none signals to all of a group in which there are processes that it can't see.
LOCK = Path(tempfile.gettempdir()) / "lapyrei-machine.lock"


class Machine:
    """A booted root; `more` are words of systemd-nspawn. What films in real time there, without
    buffers, wants the priority of a machine of its own, whatever the check has."""

    def __init__(self, root, log, *more, is_quick=True):
        words = ["systemd-nspawn", "--quiet", "--register=no", "--keep-unit", *more, "-D", root,
                 "--boot"]
        self.lock = open(LOCK, "a")
        fcntl.flock(self.lock, fcntl.LOCK_EX)
        with open(log, "ab") as file:
            self.process = subprocess.Popen(words, stdin=subprocess.DEVNULL, stdout=file,
                                            stderr=file, start_new_session=True)
        self.first, self.is_quick = None, is_quick
        try:
            self.hasten(self.process.pid)
            self.first = until("systemd is the first process", self.leader)
            self.hasten(self.first)
            until("it has booted", lambda: self.says(
                "systemctl is-system-running || true").strip() in ("running", "degraded"))
        except BaseException:
            self.end()
            raise

    def hasten(self, process=0):
        """Gives a process, or this one, the priority of a machine of its own."""
        if self.is_quick:
            os.setpriority(os.PRIO_PROCESS, process, 0)

    def leader(self):
        """The process that is the first one inside."""
        for path in Path("/proc").glob("[0-9]*/status"):
            with contextlib.suppress(OSError):
                text = path.read_text()
                parent = int(re.search(r"^PPid:\s*(\d+)", text, re.M)[1])
                inside = re.search(r"^NSpid:.*\s1$", text, re.M)
                if inside and self.process.pid in (parent, parent_of(parent)):
                    return int(path.parent.name)
        if self.process.poll() is not None:
            raise Wrong("systemd-nspawn ended")
        return None

    def inside(self):
        """The words by which a program runs inside."""
        return ["nsenter", "-t", str(self.first), "-m", "-u", "-i", "-n", "-p", "-r", "-w",
                "env", "-i", "PATH=/usr/sbin:/usr/bin:/sbin:/bin", "LC_ALL=C", "HOME=/root",
                "DEBIAN_FRONTEND=noninteractive"]

    def says(self, command, check=True, seconds=120):
        """Runs a command inside, and answers what it prints."""
        try:
            done = subprocess.run([*self.inside(), "sh", "-c", command], stdin=subprocess.DEVNULL,
                                  stdout=subprocess.PIPE, stderr=subprocess.STDOUT, text=True,
                                  timeout=seconds, preexec_fn=self.hasten)
        except subprocess.TimeoutExpired:
            raise Wrong(f"{command}: not within {seconds} s") from None
        if check and done.returncode:
            raise Wrong(f"{command}\nended with {done.returncode}:\n{done.stdout[-3000:]}")
        return done.stdout

    def of(self, service, what):
        """What systemd says of a service."""
        return self.says(f"systemctl show -P {what} {service}").strip()

    def end(self):
        """Shuts it down."""
        with contextlib.suppress(ProcessLookupError):
            os.kill(self.first or self.process.pid, signal.SIGRTMIN + 4)
        try:
            self.process.wait(60)
        except subprocess.TimeoutExpired:
            self.process.kill()
            self.process.wait()
        self.lock.close()


def parent_of(number):
    """The parent of a process; 0 where it is gone."""
    try:
        text = Path(f"/proc/{number}/status").read_text()
    except OSError:
        return 0
    return int(re.search(r"^PPid:\s*(\d+)", text, re.M)[1])


def until(what, holds, seconds=90):
    """Waits until something holds, and answers it."""
    end = time.monotonic() + seconds
    while not (answer := holds()):
        if time.monotonic() > end:
            raise Wrong(f"{what}: not within {seconds} s")
        time.sleep(0.5)
    return answer


def package(work):
    """The package's path."""
    given = os.environ.get("LAPYREI_DEB")
    if given:
        return os.path.abspath(given)
    words = [f"{TOP}/tools/package", *["--trial"] * bool(os.environ.get("PACKAGE_TRIAL")), work]
    subprocess.run(words, check=True, stdout=subprocess.DEVNULL)
    return str(next(Path(work).glob("*.deb")))
