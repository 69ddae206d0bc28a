"""What a trigger looks at: a GPIO line, a serial line, UDP packets, an MQTT topic, or the pictures
of a camera. Each source reads in a thread of its own until `over` is set, and calls
`fire(moment, text)` with a time of day in microseconds. Where it can't read it raises Fault, and is
begun again."""
import errno
import fnmatch
import ipaddress
import os
import re
import socket
import time

from .levels import Level
from .senders import Senders
from .settings import BadSettings, Words

# How long a source waits for something before it looks whether it is over.
WAIT_SECONDS = 0.2
LINE_BYTES = 1000
# What of a packet or a message is looked at, how many patterns there may be, and their letters.
MATCHED_BYTES = 4096
PATTERNS, PATTERN_LETTERS = 16, 200
# How many packets are taken from the system before one of each sender's turn is looked at, and what
# the system holds of them.
TAKEN, RECEIVE_BYTES = 256, 4 * 1024 * 1024
# What a regular expression has, and a pattern hardly: such files are of an older loop_trigger.
REGULAR = re.compile(r"\^.*|.+\$|.*(\.[*+]|\\|\(\?).*", re.DOTALL)


class Fault(Exception):
    """Why a source can't be read, in words with what to do."""


def now() -> int:
    """The time of day."""
    return time.time_ns() // 1000


class Patterns:
    """What a text has to be, all of it, but for spaces and line ends at its end: a word, in which
    `*` is any text, `?` any sign and `[abc]` one of some. One of several patterns suffices. A match
    takes as long as the text and the pattern together, whatever they are."""

    def __init__(self, texts: list[str]) -> None:
        self.forms = [re.compile(fnmatch.translate(it)) for it in texts]
        # Words without a star, which older files took for a part of the text.
        self.plain = [it for it in texts if not any(sign in it for sign in "*?[")]

    def match(self, raw: bytes) -> bool:
        """Whether a text is one of these."""
        text = raw[:MATCHED_BYTES].decode(errors="replace").rstrip(" \t\r\n\0")
        return any(form.match(text) for form in self.forms)


def pattern_in(words: Words) -> Patterns | None:
    """What a text has to be; any text where it is left out."""
    what = (
        f"a pattern of at most {PATTERN_LETTERS} letters, or a list of 1 to {PATTERNS}: * is any "
        f"text, ? any sign, [abc] one of these"
    )
    found = words.take("match", None, are_patterns, what)
    if found is None:
        return None
    texts = [found] if isinstance(found, str) else found
    if any(REGULAR.fullmatch(it) for it in texts):
        old = "a pattern, but a regular expression: write fire* for ^fire, *fire* for fire, and [^]"
        raise words.bad("match", f"{old} where such a sign itself is meant")
    return Patterns(texts)


def are_patterns(found: object) -> bool:
    """Whether something is a pattern, or a list of such."""
    texts = found if isinstance(found, list) else [found]
    return 1 <= len(texts) <= PATTERNS and all(
        isinstance(it, str) and 1 <= len(it) <= PATTERN_LETTERS for it in texts
    )


def quoted(raw: bytes) -> str:
    """A text that came from elsewhere, for a note."""
    text = raw[:100].decode(errors="replace")
    return f"'{text}'" + ".." * (len(raw) > 100)


class Gpio:
    """An edge of a line, after which the level stays for a while. The kernel notes the time of
    each edge."""

    package = "gpiod", "python3-libgpiod"

    def __init__(self, words: Words) -> None:
        self.chip = words.text("chip", "/dev/gpiochip0")
        self.line = words.number("line", 0, 100_000, whole=True)
        self.is_rising = words.choice("edge", ("rising", "falling"), "rising") == "rising"
        self.bias = words.choice("bias", ("as-is", "pull-up", "pull-down", "none"), "as-is")
        self.stay = int(words.number("stay", 0, 60, 0.01) * 1e6)

    def flags(self, gpiod) -> int:
        """The bias, as libgpiod has it."""
        names = {"pull-up": "PULL_UP", "pull-down": "PULL_DOWN", "none": "DISABLE"}
        return getattr(gpiod, f"LINE_REQ_FLAG_BIAS_{names[self.bias]}") if self.bias in names else 0

    def run(self, fire, over) -> None:
        """Reads edges."""
        import gpiod

        try:
            with gpiod.Chip(self.chip) as chip:
                line = chip.get_line(self.line)
                line.request("loop_trigger", gpiod.LINE_REQ_EV_BOTH_EDGES, self.flags(gpiod))
                self.read(gpiod, line, fire, over)
        except (OSError, ValueError) as fault:
            what = f"line {self.line} of {self.chip}: {fault}"
            raise Fault(f"{what}. See that it is there, free, and may be read") from None

    def read(self, gpiod, line, fire, over) -> None:
        """Reads edges of a line that is open."""
        level = Level(self.stay)
        while not over.is_set():
            # All edges before this time can be read.
            known = time.monotonic_ns() // 1000
            wait = WAIT_SECONDS if level.since is None or level.is_told else 0.01
            events = []
            if line.event_wait(sec=0, nsec=int(wait * 1e9)):
                events = line.event_read_multiple()
            for event in events:
                is_on = (event.type == gpiod.LineEvent.RISING_EDGE) == self.is_rising
                moment = event.sec * 1_000_000 + event.nsec // 1000
                self.tell(level.edge(is_on, moment), fire)
            if len(events) < 16:
                self.tell(level.seen(known), fire)

    def tell(self, since: int | None, fire) -> None:
        """That the level stayed since a time of the kernel's clock."""
        if since is not None:
            moment = now() - (time.monotonic_ns() // 1000 - since)
            fire(moment, f"line {self.line} {'rose' if self.is_rising else 'fell'}")


class Serial:
    """A line of text on a serial line."""

    package = "serial", "python3-serial"

    def __init__(self, words: Words) -> None:
        self.device = words.text("device")
        self.baud = words.number("baud", 50, 4_000_000, 9600, whole=True)
        self.pattern = pattern_in(words)

    def run(self, fire, over) -> None:
        """Reads lines."""
        import serial

        try:
            with serial.Serial(self.device, self.baud, timeout=WAIT_SECONDS) as line:
                self.read(line, fire, over)
        except (OSError, ValueError) as fault:
            raise Fault(f"{self.device}: {fault}. See that it is there and may be read") from None

    def read(self, line, fire, over) -> None:
        """Reads lines of a device that is open. Of one that is too long its first bytes count."""
        rest = b""
        while not over.is_set():
            rest += line.read(max(1, min(4096, line.in_waiting)))
            *whole, rest = re.split(rb"[\r\n]+", rest)
            for text in whole:
                self.came(text[:LINE_BYTES], fire)
            if len(rest) > 2 * LINE_BYTES:
                rest = rest[:LINE_BYTES]

    def came(self, text: bytes, fire) -> None:
        """A line."""
        if text and (self.pattern is None or self.pattern.match(text)):
            fire(now(), f"{os.path.basename(self.device)} says {quoted(text)}")


class Udp:
    """A UDP packet, from those who may send one."""

    package = None

    def __init__(self, words: Words) -> None:
        text = words.text("listen", ..., r"\S+:\d{1,5}", "an address such as 127.0.0.1:9000")
        host, _, port = text.rpartition(":")
        given = words.take("from", None, are_texts, "a list of one address or network at least")
        try:
            self.host = ipaddress.ip_address(host.strip("[]"))
            self.allowed = None if given is None else [ipaddress.ip_network(it) for it in given]
        except ValueError as fault:
            raise BadSettings(f"{words.where}: {fault}") from None
        if not 1 <= int(port) <= 65535:
            raise words.bad("listen", "an address with a port from 1 to 65535")
        self.port, self.pattern, self.senders = int(port), pattern_in(words), Senders()

    def run(self, fire, over) -> None:
        """Reads packets."""
        family = socket.AF_INET6 if self.host.version == 6 else socket.AF_INET
        with socket.socket(family, socket.SOCK_DGRAM) as it:
            try:
                it.setsockopt(socket.SOL_SOCKET, socket.SO_RCVBUF, RECEIVE_BYTES)
                it.bind((str(self.host), self.port))
                while not over.is_set():
                    self.receive(it)
                    if found := self.senders.take():
                        self.came(*found, fire)
            except OSError as fault:
                more = ". Another program has it" * (fault.errno == errno.EADDRINUSE)
                raise Fault(f"{self.host} {self.port}: {fault.strerror}{more}") from None

    def receive(self, socket_: socket.socket) -> None:
        """Takes what has come, into the queue of its sender; waits where nothing waits there."""
        for number in range(TAKEN):
            is_waited_for = number == 0 and not self.senders.queues
            socket_.settimeout(WAIT_SECONDS if is_waited_for else 0)
            try:
                raw, (sender, *_) = socket_.recvfrom(65536)
            except (TimeoutError, BlockingIOError):
                return
            if self.may_send(sender):
                self.senders.put(sender, (raw[:MATCHED_BYTES], now()))

    def may_send(self, sender: str) -> bool:
        """Whether packets of an address are taken. One of IPv4 may come as one of IPv6."""
        address = ipaddress.ip_address(sender.partition("%")[0])
        address = getattr(address, "ipv4_mapped", None) or address
        return self.allowed is None or any(address in network for network in self.allowed)

    def came(self, sender: str, packet: tuple[bytes, int], fire) -> None:
        """A packet's turn has come."""
        raw, moment = packet
        if self.pattern is None or self.pattern.match(raw):
            fire(moment, f"UDP from {sender} {quoted(raw)}")

    def lost(self) -> dict[str, int]:
        """How many packets were dropped since this was asked last, by sender."""
        return self.senders.lost()


def are_texts(found: object) -> bool:
    """Whether something is a list of texts, and of one at least."""
    return isinstance(found, list) and bool(found) and all(isinstance(it, str) for it in found)


class Topic:
    """A message on an MQTT topic. One that the broker had kept from before is none."""

    package = None

    def __init__(self, words: Words) -> None:
        self.topic = words.text("topic", ..., r"[^\0-\x1f]{1,200}", "an MQTT topic")
        self.pattern, self.fire = pattern_in(words), None

    def run(self, fire, over) -> None:
        """Waits for what the broker's connection brings."""
        self.fire = fire
        over.wait()

    def came(self, topic: str, raw: bytes, is_old: bool) -> None:
        """A message."""
        import paho.mqtt.client as mqtt

        if is_old or not self.fire or not mqtt.topic_matches_sub(self.topic, topic):
            return
        if self.pattern is None or self.pattern.match(raw):
            self.fire(now(), f"MQTT {topic} {quoted(raw)}")


def is_region(found: object) -> bool:
    """Whether something is a region of a picture."""
    return (
        isinstance(found, list)
        and len(found) == 4
        and all(type(one) is int and 0 <= one < 65536 for one in found)
        and min(found[2:]) > 0
    )


class Picture:
    """A change in a region of a camera's pictures: its mean brightness is above or below a bound,
    or changes from one picture to the next by more than a bound. Bounds are parts of white."""

    package = "numpy", "python3-numpy"
    rules = ("above", "below", "motion")

    def __init__(self, words: Words) -> None:
        self.store = words.text("store")
        what = "a list [x, y, width, height] of pixels"
        self.region = words.take("region", None, is_region, what)
        given = [rule for rule in self.rules if words.has(rule)]
        if len(given) != 1:
            raise BadSettings(f"{words.where}: give one of above, below and motion")
        self.rule, self.bound = given[0], words.number(given[0], 0, 1)
        self.every = words.number("every", 0.02, 60, 0.1)
        self.stay = int(words.number("stay", 0, 60, 0) * 1e6)
        self.last, self.before, self.is_first = None, None, True

    def run(self, fire, over) -> None:
        """Looks at new pictures. The newest one at the beginning is the first."""
        import lapyrei

        level, self.last, self.before, self.is_first = Level(self.stay), None, None, True
        try:
            store = lapyrei.open(self.store)
            while not over.is_set():
                self.look(store, level, fire)
                over.wait(self.every)
                store.refresh()
        except lapyrei.LapyreiError as fault:
            raise Fault(f"{self.store}: {fault}") from None

    def look(self, store, level: Level, fire) -> None:
        """Looks at the pictures that have come, so many a second as are wished."""
        import lapyrei

        times = store.times
        if self.last is not None and len(times) and int(times[-1]) < self.last:
            # The clock was set back.
            self.last = None
        start = len(times) - 1 if self.last is None else int(times.searchsorted(self.last, "right"))
        for place in range(max(0, start), len(times)):
            moment = int(times[place])
            if self.last is not None and moment - self.last < self.every * 1e6:
                continue
            try:
                value = self.value_of(store, place)
            except lapyrei.Gone:
                # It was overwritten: this program was too late for it.
                continue
            self.last = moment
            if value is not None:
                self.judge(value, moment, level, fire)

    def value_of(self, store, place: int) -> float | None:
        """A picture's value, from 0 to 1; none of a first picture where a change is looked for."""
        picture = store.luma(place)
        white = 2 ** int(store.bits[place]) - 1
        if self.region:
            x, y, width, height = self.region
            picture = picture[y : y + height, x : x + width]
        if not picture.size:
            raise Fault(f"{self.store}: its pictures have no pixel in the region {self.region}")
        picture = picture.astype("float32") / white
        before, self.before = self.before, picture
        if self.rule != "motion":
            return float(picture.mean())
        if before is None or before.shape != picture.shape:
            return None
        return float(abs(picture - before).mean())

    def judge(self, value: float, moment: int, level: Level, fire) -> None:
        """Whether a picture's value is beyond the bound, and how long that has been so."""
        is_on = value < self.bound if self.rule == "below" else value > self.bound
        if self.is_first:
            # What was so from the beginning is no change.
            self.is_first, level.since, level.is_told = False, moment if is_on else None, True
        is_edge = is_on != (level.since is not None)
        since = level.edge(is_on, moment) if is_edge else level.seen(moment)
        if since is not None:
            what = "motion" if self.rule == "motion" else "brightness"
            fire(since, f"{what} {value:.3f} in {os.path.basename(self.store)}")


KINDS = {"gpio": Gpio, "serial": Serial, "udp": Udp, "mqtt": Topic, "picture": Picture}
