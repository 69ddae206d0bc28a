"""README's two commands as a stranger types them: apt installs the package, with what it
recommends, and loop_demo shows its page until Ctrl-C. For package_check."""
import contextlib
import fcntl
import glob
import os
import pty
import re
import shutil
import subprocess
import tempfile
import termios
import threading
import time
from pathlib import Path

import about
import debian
from pages import Wrong, parts_of

USER = "stranger"
HOME = f"/home/{USER}"
ENDED = "ended: nothing runs any more, and no file is left"
# What a browser would ask: pictures that move, a clip that is kept, and its film.
ASK = """
import json, time, urllib.request as web
def ask(name, order=None):
    head = {"Content-Type": "application/json", "X-Loop-Page": "1"}
    body = json.dumps(order).encode() if order else None
    return web.urlopen(web.Request("http://127.0.0.1:8080/" + name, body, head), timeout=60).read()
def pictures():
    return {it["name"]: ask("api/cameras/" + it["name"] + "/newest.jpg")
            for it in json.loads(ask("api/status"))["cameras"]}
page, before = ask("").decode(), pictures()
time.sleep(1)
moving = sorted(it for it, text in pictures().items()
                if text[6:10] == b"JFIF" and text != before.get(it))
answer, clips = json.loads(ask("api/keep", {"seconds": 2})), []
for _ in range(60):
    clips = json.loads(ask("api/clips"))["clips"]
    if len(clips) == 2:
        break
    time.sleep(0.5)
films = [ask(f"api/clips/{it['camera']}/{it['id']}.mp4")[4:8].decode() for it in clips]
print("<title>" in page, moving, answer["kept"], films)"""
ASKED = "True ['clock', 'pendulum'] True ['ftyp', 'ftyp']\n"


def commands_of(readme):
    """The two commands with which README begins."""
    found = [it for it in parts_of(readme) if it.kind == "block"]
    return [it.text for it in found if found and it.line <= found[0].line + 1]


def own_terminal():
    """Makes the terminal on standard input that of this session, whose Ctrl-C ends it."""
    fcntl.ioctl(0, termios.TIOCSCTTY, 0)


class Terminal:
    """A command that a user types in the root, on a terminal and a network of its own."""

    def __init__(self, root, command):
        self.leader, follower = pty.openpty()
        self.text = ""
        script = (
            'ip link set lo up && mount -t proc proc "$0/proc" && exec chroot "$0" setpriv '
            f"--reuid {USER} --regid {USER} --init-groups env -i HOME={HOME} TERM=linux "
            f'PATH=/usr/bin:/bin LC_ALL=C sh -c "cd; exec $1"'
        )
        self.run = subprocess.Popen(
            ["unshare", "--mount", "--net", "sh", "-c", script, root, command],
            stdin=follower, stdout=follower, stderr=follower, start_new_session=True,
            preexec_fn=own_terminal,
        )
        os.close(follower)
        self.reader = threading.Thread(target=self.read, daemon=True)
        self.reader.start()

    def read(self):
        """Takes what is printed, to its end."""
        with contextlib.suppress(OSError):
            while piece := os.read(self.leader, 65536):
                self.text += piece.decode(errors="replace").replace("\r\n", "\n")

    def wait(self, text, seconds):
        """Waits until something is printed."""
        end = time.monotonic() + seconds
        while text not in self.text:
            if self.run.poll() is not None and not self.reader.is_alive():
                raise Wrong(f"it ended without {text!r}:\n{self.text[-2000:]}")
            if time.monotonic() > end:
                raise Wrong(f"no {text!r} within {seconds} s:\n{self.text[-2000:]}")
            time.sleep(0.1)

    def asks(self, text):
        """Runs a program of Python beside the command, and answers what it prints."""
        words = ["nsenter", "-t", str(self.run.pid), "-m", "-n", "-r", "-w", "env", "-i",
                 "PATH=/usr/bin:/bin", "/usr/bin/python3", "-c", text]
        done = subprocess.run(words, stdin=subprocess.DEVNULL, stdout=subprocess.PIPE,
                              stderr=subprocess.STDOUT, text=True, timeout=300)
        return done.stdout

    def network(self):
        """Its network, by which its processes are known."""
        return network_of(self.run.pid)

    def end(self):
        """Types Ctrl-C, and answers the status."""
        os.write(self.leader, b"\x03")
        try:
            self.run.wait(60)
        except subprocess.TimeoutExpired:
            raise Wrong(f"it hasn't ended 60 s after Ctrl-C:\n{self.text[-1000:]}") from None
        self.reader.join(5)
        return self.run.returncode

    def close(self):
        """Ends whatever is left of it."""
        if self.run.poll() is None:
            self.run.kill()
            self.run.wait()
        self.reader.join(5)
        os.close(self.leader)


def network_of(number):
    """The network of a process; None where it is gone."""
    try:
        return os.readlink(f"/proc/{number}/ns/net")
    except OSError:
        return None


def left_in(network):
    """The processes of a network that still run a moment later."""
    end = time.monotonic() + 5
    while found := [it.name for it in Path("/proc").glob("[0-9]*")
                    if network_of(it.name) == network]:
        if time.monotonic() > end:
            break
        time.sleep(0.1)
    return found


def install(root, deb, command):
    """Types README's first command: this package lies there by the name that README has."""
    found = re.fullmatch(r"sudo apt install \./(lapyrei_([\d.]+)_amd64\.deb)", command)
    if not found or found[2] != about.version():
        raise Wrong(f"README's first command is {command}")
    debian.inside(root, f"useradd -m {USER}; chmod 755 {HOME}")
    shutil.copy(deb, f"{root}{HOME}/{found[1]}")
    command = command.removeprefix("sudo ").replace("apt install", "apt install -y")
    debian.inside(root, f"apt-get update && {command}", folder=HOME)


def show(root, command):
    """Types README's second command: its page shows both cameras, keeps a clip and plays it, and
    Ctrl-C ends all of it."""
    typed = Terminal(root, command)
    try:
        typed.wait("Ctrl-C ends all of it", 300)
        network = typed.network()
        if "    http://127.0.0.1:8080/\n" not in typed.text:
            raise Wrong(f"{command} says\n{typed.text}")
        told = typed.asks(ASK)
        if told != ASKED:
            raise Wrong(f"the page of {command} says\n{told[-2000:]}{typed.text[-1000:]}")
        status = typed.end()
        if status or ENDED not in typed.text:
            raise Wrong(f"{command} ended with {status}:\n{typed.text[-1000:]}")
    finally:
        typed.close()
    left = left_in(network) + glob.glob(f"{root}/var/tmp/lapyrei-demo-*")
    if left:
        raise Wrong(f"after Ctrl-C {command} leaves {left}")


def run_demo(root, deb, readme, work):
    """README's two commands, in a copy of the root."""
    commands = commands_of(readme)
    if len(commands) != 2:
        raise Wrong(f"README begins with {commands}")
    folder = tempfile.mkdtemp(prefix="demo", dir=work)
    with debian.over(root, folder) as fresh:
        install(fresh, deb, commands[0])
        show(fresh, commands[1])
