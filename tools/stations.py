"""What the checks that start a station share: the station as it runs, what it tells, and pipes that
bring it frames. `Told` reads the answers as JSON; `Station` has the lines that are printed."""
import ctypes
import json
import os
import signal
import subprocess
import threading
import time
from pathlib import Path

LIBC = ctypes.CDLL(None)
PARENT_DEATH = 1
# How the lines begin that tell what happens by itself, and those beside the clips of a keep.
EVENTS = ("source ", "store ", "given up ", "all locked ", "room again ", "behind ", "caught up ",
          "no answers ", "not noted ", "dropped ", "waited ", "stood still ", "disk ", "making ",
          "nearly all locked ", "waits ", "held ", "gap ", "times of ", "no times of ",
          "numbers of ", "wrong time ", "clock steps ", "system clock steps ", "not in order ",
          "removed out of order ")
# The file of a `Told`, and what its configuration says of it.
ANSWERS = "answers.json"
AS_JSON = f'answers = "{ANSWERS}"\nanswers_form = "json"\n'


class Silent(Exception):
    """A line that was waited for didn't come."""


class Station:
    """The station over `station.toml` of a folder, and the lines that it has printed: the answers,
    and apart from them the events, what happens by itself. Orders go to its standard input, or to
    the named pipe `orders`."""

    def __init__(self, program, folder, env=None, orders=None, before=None, **outputs):
        self.lines, self.events, self.more = [], [], threading.Condition()
        self.orders, self.read_all = orders, False

        def begin():
            # It ends with the check, however that ends.
            LIBC.prctl(PARENT_DEATH, signal.SIGKILL)
            if before:
                before()

        self.run = subprocess.Popen(
            [program, "station.toml"],
            cwd=folder,
            env=env,
            preexec_fn=begin,
            stdin=subprocess.DEVNULL if orders else subprocess.PIPE,
            stdout=outputs.get("stdout", subprocess.PIPE),
            stderr=outputs.get("stderr"),
        )
        if self.run.stdout:
            threading.Thread(target=self.read, args=[self.run.stdout], daemon=True).start()

    def read(self, told):
        for line in told:
            with self.more:
                text = line.decode().rstrip("\n")
                (self.events if text.startswith(EVENTS) else self.lines).append(text)
                self.more.notify_all()
        with self.more:
            self.read_all = True
            self.more.notify_all()

    def ended(self):
        """Whether the program has ended, and all that it printed is there."""
        return self.read_all if self.run.stdout else self.run.poll() is not None

    def send(self, text):
        """Writes orders, all in one write."""
        if self.run.stdin:
            os.write(self.run.stdin.fileno(), text.encode())
        else:
            descriptor = self.opened(self.orders)
            os.write(descriptor, text.encode())
            os.close(descriptor)

    def opened(self, path, seconds=20):
        """A pipe, once the station reads from it."""
        end = time.monotonic() + seconds
        while True:
            try:
                return os.open(path, os.O_WRONLY | os.O_NONBLOCK)
            except OSError:
                if time.monotonic() > end or self.run.poll() is not None:
                    status = self.run.poll()
                    raise Silent(f"nobody reads {path}, status {status}") from None
                time.sleep(0.02)

    def wait(self, until, seconds=20):
        """Waits until the lines are as they have to be, and answers what `until` says of them."""
        with self.more:
            is_so = self.more.wait_for(lambda: until(self.lines) or self.ended(), seconds)
            if not is_so or not until(self.lines):
                status = self.run.poll()
                ended = f", ended with {status}" if status is not None else ""
                raise Silent(f"{self.lines[-8:]} after {seconds} s{ended}")
            return until(self.lines)

    def ask(self, order, count, seconds=20):
        """Gives an order, and waits for so many lines."""
        seen = len(self.lines)
        self.send(order + "\n")

        def found(lines):
            return lines[seen: seen + count] if len(lines) >= seen + count else None

        try:
            return self.wait(found, seconds)
        except Silent as silent:
            raise Silent(f"no answer to {order}: {silent}") from None

    def stored(self, camera, seconds=20, least=1):
        """Asks for the status until a camera has stored so many frames, and answers what it said on
        the way."""
        seen, end = [], time.monotonic() + seconds
        while time.monotonic() < end:
            at = len(self.lines)
            self.send("@stored status\n")
            lines = self.wait(
                lambda lines: lines[at:] if "@stored done" in lines[at:] else None, 10)
            words = tuple(f"@stored {word} {camera} " for word in ("status", "absent", "refused"))
            line = next((it.removeprefix("@stored ") for it in lines if it.startswith(words)), "")
            if line not in seen:
                seen.append(line)
            if line.startswith(f"status {camera} stored") and int(line.split()[3]) >= least:
                return seen
            time.sleep(0.02)
        raise Silent(f"{camera} has stored no {least} frames in {seconds} s: {seen[-3:]}")

    def stop(self, seconds=20):
        """Ends the station by an order."""
        self.send("stop\n")
        self.wait(lambda lines: lines and lines[-1] == "stopped", seconds)
        if self.run.wait(seconds) != 0:
            raise Silent(f"stop: {self.lines[-3:]}, status {self.run.poll()}")

    def kill(self):
        """Ends the program, whatever it does."""
        self.run.kill()
        self.run.wait()


class Told(Station):
    """A station of whose answers this reads the JSON, from the file ANSWERS, which `configure`
    names where it is asked to: `told` has the objects, in their order. Each order that it gives has
    a label of its own."""

    def __init__(self, program, folder, env=None, orders=None, before=None, **outputs):
        self.told, self.labelled, self.labels = [], {}, 0
        self.news = threading.Condition()
        path = Path(folder, ANSWERS)
        # Those of a station before this one are no part of it.
        self.place = path.stat().st_size if path.exists() else 0
        super().__init__(program, folder, env, orders, before, **outputs)
        threading.Thread(target=self.follow, args=(path,), daemon=True).start()

    def follow(self, path):
        """Reads the file as it grows, until the program has ended."""
        rest = b""
        while True:
            is_over = self.run.poll() is not None
            while not path.exists() and self.run.poll() is None:
                time.sleep(0.002)
            if not path.exists():
                return
            with open(path, "rb") as file:
                file.seek(self.place)
                piece = file.read()
            self.place += len(piece)
            *lines, rest = (rest + piece).split(b"\n")
            if lines:
                self.hear(lines)
            elif is_over:
                return
            else:
                time.sleep(0.002)

    def hear(self, lines):
        """Takes lines of JSON."""
        with self.news:
            for it in map(json.loads, lines):
                self.told.append(it)
                self.labelled.setdefault(it.get("label"), []).append(it)
            self.news.notify_all()

    def expect(self, found, seconds=20, what="what was waited for"):
        """Waits until the objects are as they have to be, and answers what `found` makes of
        them."""
        end = time.monotonic() + seconds
        with self.news:
            while not (value := found(self.told)):
                over = self.run.poll() is not None
                if time.monotonic() > end or not self.news.wait(0.2) and over:
                    last = "\n  ".join(map(str, self.told[-12:]))
                    status = self.run.poll()
                    raise Silent(f"{what}: not after {seconds} s, status {status}:\n  {last}")
            return value

    def of(self, label):
        """What was told with a label, once that is all: the objects before its `done`."""
        mine = self.labelled.get(label)
        return mine if mine and mine[-1]["kind"] == "done" else None

    def orders_of(self, *lines, seconds=20):
        """Gives orders in one write, and waits for the answer of each: its objects, without their
        labels."""
        labels = [f"o{self.labels + it}" for it in range(1, len(lines) + 1)]
        self.labels += len(lines)
        self.send("".join(f"@{label} {line}\n" for label, line in zip(labels, lines)))
        return [self.answer(label, line, seconds) for label, line in zip(labels, lines)]

    def answer(self, label, line, seconds=20):
        """Waits for what an order that had this label is answered."""
        return self.expect(lambda _: self.of(label), seconds, f"an answer to {line!r}")[:-1]

    def order(self, line, seconds=20):
        """Gives an order, and waits for its answer: the objects before its `done`."""
        return self.orders_of(line, seconds=seconds)[0]

    def events_of(self, kind, **members):
        """What was told of a kind with these members."""
        return [it for it in self.told if it["kind"] == kind and members.items() <= it.items()]

    def event(self, kind, seconds=20, count=1, **members):
        """Waits until so much was told of a kind with these members, and answers the last of it."""
        def found(_):
            lines = self.events_of(kind, **members)
            return lines[-1] if len(lines) >= count else None

        return self.expect(found, seconds, f"{kind} {members or ''}")

    def status(self, camera):
        """How a camera stands: `status`, `status_making`, `absent` or `refused`."""
        return next(it for it in self.order("status") if it["camera"] == camera)

    def stored(self, camera, seconds=20, least=1):
        """Asks for the status until a camera has stored so many frames, and answers the last."""
        end = time.monotonic() + seconds
        while time.monotonic() < end:
            status = self.status(camera)
            if status["kind"] == "status" and status["stored"] >= least:
                return status
            time.sleep(0.02)
        raise Silent(f"{camera} has stored no {least} frames in {seconds} s: {status}")

    def stop(self, seconds=20):
        """Ends the station by an order."""
        self.send("stop\n")
        self.expect(lambda told: told and told[-1]["kind"] == "stopped", seconds, "stop")
        if self.run.wait(seconds) != 0:
            raise Silent(f"stop: {self.told[-3:]}, status {self.run.poll()}")


class Piped(Told):
    """A station whose answers come through a named pipe, each the moment it is written."""

    def __init__(self, program, folder, env=None):
        path = Path(folder, ANSWERS)
        if not path.exists():
            os.mkfifo(path)
        super().__init__(os.path.abspath(program), folder, env)

    def follow(self, path):
        with open(path, "rb") as pipe:
            for line in pipe:
                self.hear([line])


def camera(name, source, **words):
    """The lines of a configuration for a camera: its words, numbers and truth values as they are
    and all else quoted."""
    given = {"name": name, "source": source, "store": f"{name}.loop", **words}
    return "[[camera]]\n" + "".join(f"{key} = {written(value)}\n" for key, value in given.items())


def written(value):
    """A value as TOML has it."""
    if isinstance(value, bool):
        return str(value).lower()
    return str(value) if isinstance(value, (int, float)) else f'"{value}"'


def configure(folder, *cameras, orders=None, head="times = false\n", as_json=False):
    """Writes `station.toml`, without times before lines where `head` says no other; with answers as
    JSON for a `Told`."""
    given = f'orders = "{orders}"\n' if orders else ""
    text = head + (AS_JSON if as_json else "") + given + "".join(cameras)
    Path(folder, "station.toml").write_text(text)


def feed(path, width, height, rate, frame, at_once=1):
    """Brings a named pipe frames of YM12, so many a second and so many in one write, from a thread
    that ends with the pipe's reader. `frame` makes the one of a number."""
    def bring():
        with open(path, "wb", buffering=0) as out:
            try:
                out.write(f"YUV4MPEG2 W{width} H{height} F{rate}:1 Ip A0:0 C420jpeg\n".encode())
                number, due = 0, time.monotonic()
                while True:
                    piece = b"".join(b"FRAME\n" + frame(number + it) for it in range(at_once))
                    number += at_once
                    while piece:
                        piece = piece[out.write(piece):]
                    due = max(due + at_once / rate, time.monotonic() - 1)
                    time.sleep(max(0, due - time.monotonic()))
            except BrokenPipeError:
                pass

    os.mkfifo(path)
    threading.Thread(target=bring, daemon=True).start()
